import cocotb
from cocotb.clock import Clock
from cocotb.result import SimTimeoutError
from cocotb.triggers import ClockCycles, Combine, FallingEdge, Lock, ReadOnly, RisingEdge, Timer, with_timeout

TIMER = 8


async def start(dut):
    dut.rst.value = 1
    dut.active.value = 0
    dut.write.value = 0
    dut.address.value = 0
    dut.write_data.value = 0
    cocotb.start_soon(Clock(dut.clk, 10, "ns").start())
    await ClockCycles(dut.clk, 2, rising=False)
    dut.rst.value = 0


async def write(dut, bus, address, value):
    async with bus:
        dut.active.value = 1
        dut.write.value = 1
        dut.address.value = address
        dut.write_data.value = value
        await FallingEdge(dut.clk)
        dut.active.value = 0
        dut.write.value = 0


async def read(dut, bus, address):
    async with bus:
        dut.active.value = 1
        dut.address.value = address
        await ReadOnly()
        found = int(dut.read_data.value)
        await FallingEdge(dut.clk)
        dut.active.value = 0
        return found


@cocotb.test()
async def values_after_reset(dut):
    await start(dut)
    await ReadOnly()
    for i in range(4):
        assert dut.u_low.words[i].value == 0
        assert dut.u_high.words[i].value == 0xFF
    assert dut.u_timer.left.value == 0
    assert dut.u_high._path == "bus.u_high"


@cocotb.test()
async def every_register_is_its_own(dut):
    bus = Lock()
    await start(dut)
    for i in range(8):
        await write(dut, bus, i, 16 + i)
    for i in range(8):
        found = await read(dut, bus, i)
        assert found == 16 + i, f"register {i} is {found}"


@cocotb.test()
async def nothing_without_active(dut):
    await start(dut)
    dut.write.value = 1
    dut.write_data.value = 0x77
    await ClockCycles(dut.clk, 2, rising=False)
    await ReadOnly()
    assert dut.read_data.value == 0
    assert dut.u_low.words[0].value == 0


@cocotb.test(timeout_time=1, timeout_unit="us")
async def the_timer_expires_once(dut):
    bus = Lock()
    await start(dut)
    await write(dut, bus, TIMER, 5)
    left = await read(dut, bus, TIMER)
    assert left == 5
    await with_timeout(RisingEdge(dut.expired), 100, "ns")
    await FallingEdge(dut.expired)
    try:
        await with_timeout(RisingEdge(dut.expired), 200, "ns")
        assert False, "it expired again"
    except SimTimeoutError:
        dut._log.info("it stays quiet")
    assert dut.u_timer.left.value == 0


async def master(dut, bus, first):
    """Writes four registers, and reads them again."""
    for i in range(first, first + 4):
        await write(dut, bus, i, i * 3)
        found = await read(dut, bus, i)
        assert found == i * 3, f"{found} in register {i}"


@cocotb.test()
async def two_masters(dut):
    bus = Lock()
    await start(dut)
    one = cocotb.start_soon(master(dut, bus, 0))
    other = cocotb.start_soon(master(dut, bus, 4))
    await Combine(one, other)
    await Timer(1, "ns")
    assert dut.u_low.words[3].value == 9
    assert dut.u_high.words[3].value == 21
