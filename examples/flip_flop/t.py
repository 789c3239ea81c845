import cocotb
from cocotb.triggers import Timer

async def k(dut):
    dut.c.value = 0
    await Timer(1, "step")
    dut.c.value = 1

@cocotb.test()
async def t(dut):
    dut.d.value = 5
    cocotb.start_soon(k(dut))
    await Timer(2, "step")
    assert dut.q.value == 5
