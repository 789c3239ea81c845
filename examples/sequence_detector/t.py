import random
import cocotb
from cocotb.clock import Clock
from cocotb.triggers import FallingEdge


async def start(dut):
    dut.rst.value = 1
    dut.bit_in.value = 0
    cocotb.start_soon(Clock(dut.clk, 10, "ns").start())
    await FallingEdge(dut.clk)
    await FallingEdge(dut.clk)
    dut.rst.value = 0


async def count_finds(dut, bits, length):
    """Sends bits, the highest first, and counts how often the machine finds its row."""
    count = 0
    for i in range(length - 1, -1, -1):
        dut.bit_in.value = bits >> i & 1
        await FallingEdge(dut.clk)
        if dut.found.value:
            count += 1
    return count


@cocotb.test()
async def one_row(dut):
    await start(dut)
    count = await count_finds(dut, 0b0010110, 7)
    assert count == 1


@cocotb.test()
async def rows_that_are_none(dut):
    await start(dut)
    for bits in [0b1010, 0b1001, 0b1111, 0b0000]:
        count = await count_finds(dut, bits, 4)
        assert count == 0, f"found in {bits}"
        count = await count_finds(dut, 0, 3)
        assert count == 0


@cocotb.test()
async def rows_that_overlap(dut):
    await start(dut)
    count = await count_finds(dut, 0b1011011011, 10)
    assert count == 3, f"{count} and not 3"


@cocotb.test()
async def a_reset_in_the_middle(dut):
    await start(dut)
    await count_finds(dut, 0b101, 3)
    dut.rst.value = 1
    await FallingEdge(dut.clk)
    dut.rst.value = 0
    count = await count_finds(dut, 0b1, 1)
    assert count == 0


@cocotb.test()
async def random_bits(dut):
    """Beside a model of the machine: the last four bits."""
    await start(dut)
    last = 0
    for i in range(200):
        bit = random.randint(0, 1)
        last = (last << 1 | bit) & 15
        dut.bit_in.value = bit
        await FallingEdge(dut.clk)
        assert dut.found.value == (last == 0b1011), f"bit {i}"
