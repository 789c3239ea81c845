import random
import cocotb
from cocotb.clock import Clock
from cocotb.triggers import FallingEdge, ReadOnly, RisingEdge, Timer

PERIOD = 10


async def start(dut):
    """Starts the clock and resets the flip-flop."""
    cocotb.start_soon(Clock(dut.clk, PERIOD, units="us").start(start_high=False))
    dut.d.value = 0
    dut.en.value = 1
    dut.rst_n.value = 0
    await FallingEdge(dut.clk)
    dut.rst_n.value = 1
    await FallingEdge(dut.clk)


@cocotb.test()
async def d_goes_to_q(dut):
    """q follows d, one edge behind."""
    await start(dut)
    for i in range(20):
        bit = random.randint(0, 1)
        dut.d.value = bit
        await RisingEdge(dut.clk)
        await ReadOnly()
        assert dut.q.value == bit, f"q is {dut.q.value} and not {bit} at edge {i}"
        await FallingEdge(dut.clk)


@cocotb.test()
async def q_stays_without_enable(dut):
    await start(dut)
    for kept in [0, 1]:
        dut.en.value = 1
        dut.d.value = kept
        await FallingEdge(dut.clk)
        dut.en.value = 0
        dut.d.value = 1 - kept
        for i in range(3):
            await FallingEdge(dut.clk)
            assert dut.q.value == kept, "q changed although it was not enabled"


@cocotb.test()
async def reset_needs_no_clock(dut):
    await start(dut)
    dut.d.value = 1
    await FallingEdge(dut.clk)
    assert dut.q.value == 1
    await Timer(1, units="us")
    dut.rst_n.value = 0
    await Timer(1, units="ns")
    assert dut.q.value == 0, "the reset waits for the clock"
    await RisingEdge(dut.clk)
    await ReadOnly()
    assert dut.q.value == 0, "the clock goes before the reset"
