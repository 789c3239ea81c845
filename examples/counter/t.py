import cocotb
from cocotb.clock import Clock
from cocotb.regression import TestFactory
from cocotb.triggers import ClockCycles, FallingEdge, ReadOnly, RisingEdge

LAST = 15


async def start(dut, up=1):
    dut.rst.value = 1
    dut.en.value = 0
    dut.load.value = 0
    dut.up.value = up
    dut.data.value = 0
    cocotb.start_soon(Clock(dut.clk, 10, "ns").start())
    await ClockCycles(dut.clk, 2, rising=False)
    dut.rst.value = 0


async def load(dut, value):
    dut.load.value = 1
    dut.data.value = value
    await FallingEdge(dut.clk)
    dut.load.value = 0


@cocotb.test()
async def reset(dut):
    await start(dut)
    await ReadOnly()
    assert dut.count.value == 0
    assert len(dut.count) == 4


@cocotb.test(timeout_time=2, timeout_unit="us")
async def counts_up_and_wraps(dut):
    await start(dut)
    dut.en.value = 1
    expected = 0
    for i in range(40):
        await ReadOnly()
        assert dut.count.value == expected, f"{int(dut.count.value)} after {i} edges"
        assert dut.wrap.value == (expected == LAST)
        await FallingEdge(dut.clk)
        expected = (expected + 1) & LAST


@cocotb.test()
async def counts_down(dut):
    await start(dut, up=0)
    await load(dut, 2)
    dut.en.value = 1
    for expected in [2, 1, 0, 15, 14]:
        await ReadOnly()
        assert dut.count.value == expected
        assert dut.wrap.value == (expected == 0)
        await FallingEdge(dut.clk)


@cocotb.test()
async def stays_without_enable(dut):
    await start(dut)
    await load(dut, 9)
    await ClockCycles(dut.clk, 5)
    await ReadOnly()
    assert dut.count.value == 9


async def load_and_count(dut, value, enabled):
    await start(dut)
    dut.en.value = enabled
    await load(dut, value)
    dut.en.value = 1
    await ReadOnly()
    assert dut.count.value == value, f"{value} was loaded, and the count is {int(dut.count.value)}"
    await RisingEdge(dut.clk)
    await ReadOnly()
    assert dut.count.value == (value + 1) % (LAST + 1)


factory = TestFactory(load_and_count)
factory.add_option("value", [0, 7, 15])
factory.add_option("enabled", [0, 1])
factory.generate_tests()
