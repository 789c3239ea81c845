import cocotb
from cocotb.triggers import Timer

@cocotb.test()
async def passes(dut):
    dut.a.value = 5
    await Timer(2, "step")
    assert dut.q.value == 250

@cocotb.test()
async def fails(dut):
    await Timer(2, "step")
    assert dut.q.value == 251, f"q is {dut.q.value}"
