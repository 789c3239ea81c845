import cocotb
from cocotb.clock import Clock
from cocotb.triggers import ClockCycles, FallingEdge, ReadOnly, RisingEdge


async def start(dut):
    dut.rst.value = 1
    dut.request.value = 0
    cocotb.start_soon(Clock(dut.clk, 4, "ns").start())
    await ClockCycles(dut.clk, 2, rising=False)
    dut.rst.value = 0


async def granted(dut):
    """The grant behind the next edge."""
    await RisingEdge(dut.clk)
    await ReadOnly()
    grant = int(dut.grant.value)
    await FallingEdge(dut.clk)
    return grant


@cocotb.test()
async def nobody_asks(dut):
    await start(dut)
    for i in range(3):
        grant = await granted(dut)
        assert grant == 0


@cocotb.test()
async def one_asks(dut):
    await start(dut)
    for i in range(4):
        dut.request.value = 1 << i
        grant = await granted(dut)
        assert grant == 1 << i, f"{i} asks alone, and the grant is {grant}"


@cocotb.test()
async def all_ask_in_turn(dut):
    await start(dut)
    dut.request.value = 15
    for i in range(12):
        grant = await granted(dut)
        assert grant == 1 << i % 4, f"grant {grant} in turn {i}"


@cocotb.test()
async def the_next_one_goes_first(dut):
    await start(dut)
    dut.request.value = 0b0101
    for expected in [1, 4, 1, 4]:
        grant = await granted(dut)
        assert grant == expected
    dut.request.value = 0b1010
    for expected in [8, 2, 8]:
        grant = await granted(dut)
        assert grant == expected


async def client(dut, at, wanted):
    """Waits for so many grants, and tells how many cycles it took."""
    got = 0
    cycles = 0
    while got < wanted:
        await RisingEdge(dut.clk)
        await ReadOnly()
        cycles += 1
        if dut.grant.value == 1 << at:
            got += 1
    return cycles


@cocotb.test(timeout_time=1000, timeout_unit="ns")
async def nobody_starves(dut):
    await start(dut)
    dut.request.value = 15
    first = cocotb.start_soon(client(dut, 0, 5))
    last = cocotb.start_soon(client(dut, 3, 5))
    one = await first
    other = await last
    dut._log.info("five grants in %s and %s cycles", one, other)
    assert one <= 20 and other <= 20
