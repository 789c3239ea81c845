import cocotb
import random
from cocotb.clock import Clock
from cocotb.triggers import FallingEdge


async def start(dut):
    dut.rst_n.value = 0
    dut.shift.value = 0
    dut.left.value = 0
    dut.serial_in.value = 0
    cocotb.start_soon(Clock(dut.clk, 2, "ns").start())
    await FallingEdge(dut.clk)
    dut.rst_n.value = 1


async def push(dut, bit, left):
    """Shifts one bit in."""
    dut.left.value = left
    dut.shift.value = 1
    dut.serial_in.value = bit
    await FallingEdge(dut.clk)
    dut.shift.value = 0


@cocotb.test()
async def reset_clears(dut):
    await start(dut)
    await FallingEdge(dut.clk)
    assert dut.q.value.binstr == "00000000"


@cocotb.test()
async def to_the_left(dut):
    await start(dut)
    byte = 0xA7
    for i in range(7, -1, -1):
        await push(dut, byte >> i & 1, 1)
    assert dut.q.value == byte


@cocotb.test()
async def to_the_right(dut):
    await start(dut)
    byte = 0x93
    for i in range(8):
        await push(dut, byte >> i & 1, 0)
    assert dut.q.value == byte, f"{dut.q.value} after eight bits of {byte}"


@cocotb.test()
async def bits_come_out_as_they_went_in(dut):
    await start(dut)
    for left in [0, 1]:
        sent = random.randint(0, 255)
        for i in range(8):
            await push(dut, sent >> i & 1, left)
        for i in range(8):
            assert dut.serial_out.value == sent >> i & 1, f"bit {i} of {sent}, left is {left}"
            await push(dut, 0, left)
        assert dut.q.value == 0


@cocotb.test()
async def stays_without_shift(dut):
    await start(dut)
    await push(dut, 1, 1)
    before = dut.q.value
    for i in range(4):
        dut.serial_in.value = i & 1
        await FallingEdge(dut.clk)
    assert dut.q.value == before
    assert int(before) == 1
