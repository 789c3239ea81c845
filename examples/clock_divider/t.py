import cocotb
from cocotb.clock import Clock
from cocotb.triggers import ClockCycles, Edge, FallingEdge, First, RisingEdge, Timer
from cocotb.utils import get_sim_time

DIVISOR = 6
PERIOD = 4


async def start(dut):
    cocotb.start_soon(Clock(dut.clk, PERIOD, units="ns").start())
    dut.rst_n.value = 0
    await Timer(1, "ns")
    dut.rst_n.value = 1


@cocotb.test()
async def low_in_reset(dut):
    cocotb.start_soon(Clock(dut.clk, PERIOD, units="ns").start())
    dut.rst_n.value = 0
    await ClockCycles(dut.clk, 3 * DIVISOR)
    assert dut.slow.value == 0


@cocotb.test()
async def period(dut):
    await start(dut)
    await RisingEdge(dut.slow)
    begin = get_sim_time("ps")
    await ClockCycles(dut.slow, 5)
    length = get_sim_time("ps") - begin
    assert length == 5 * DIVISOR * PERIOD * 1000, f"five periods take {length} ps"


@cocotb.test()
async def both_halves_are_equal(dut):
    await start(dut)
    await RisingEdge(dut.slow)
    high = get_sim_time()
    await FallingEdge(dut.slow)
    low = get_sim_time()
    await RisingEdge(dut.slow)
    assert get_sim_time() - low == low - high


@cocotb.test()
async def reset_stops_it(dut):
    await start(dut)
    await RisingEdge(dut.slow)
    dut.rst_n.value = 0
    await FallingEdge(dut.slow)
    limit = Timer(DIVISOR * PERIOD * 2, "ns")
    what = await First(Edge(dut.slow), limit)
    assert what is limit, "it goes on in reset"
