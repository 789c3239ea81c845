import cocotb
import random
from cocotb.clock import Clock
from cocotb.triggers import ClockCycles, FallingEdge, First, ReadOnly, RisingEdge, Timer, with_timeout
from cocotb.result import SimTimeoutError

PERIOD = 10
BIT = 40


async def start(dut):
    dut.rst.value = 1
    dut.start.value = 0
    dut.data.value = 0
    cocotb.start_soon(Clock(dut.clk, PERIOD, "ns").start())
    await ClockCycles(dut.clk, 2, rising=False)
    dut.rst.value = 0
    await FallingEdge(dut.clk)


async def send(dut, byte):
    dut.data.value = byte
    dut.start.value = 1
    await FallingEdge(dut.clk)
    dut.start.value = 0


async def receive(dut):
    """Reads a frame in the middle of its bits, and gives the byte."""
    await FallingEdge(dut.tx)
    await Timer(BIT // 2, "ns")
    assert dut.tx.value == 0, "no start bit"
    byte = 0
    for i in range(8):
        await Timer(BIT, "ns")
        byte |= int(dut.tx.value) << i
    await Timer(BIT, "ns")
    assert dut.tx.value == 1, "no stop bit"
    return byte


@cocotb.test()
async def idle_line_is_high(dut):
    await start(dut)
    assert dut.tx.value == 1
    assert not dut.busy.value
    try:
        await with_timeout(FallingEdge(dut.tx), 500, "ns")
        assert False, "the line fell"
    except SimTimeoutError:
        dut._log.info("the line stays high")


@cocotb.test()
async def a_symmetric_byte(dut):
    """A byte that reads the same from both ends."""
    await start(dut)
    receiver = cocotb.start_soon(receive(dut))
    await send(dut, 0b10100101)
    byte = await receiver
    assert byte == 0b10100101


@cocotb.test()
async def bytes_arrive(dut):
    await start(dut)
    for byte in [0x01, 0x80, 0x0F, 0xFE]:
        receiver = cocotb.start_soon(receive(dut))
        await send(dut, byte)
        got = await with_timeout(receiver, 1, "us")
        assert got == byte, f"{byte} was sent, and {got} arrived"
        while dut.busy.value:
            await FallingEdge(dut.clk)


@cocotb.test()
async def random_bytes(dut):
    await start(dut)
    for i in range(5):
        byte = random.randint(0, 255)
        receiver = cocotb.start_soon(receive(dut))
        await send(dut, byte)
        got = await receiver
        assert got == byte
        await FallingEdge(dut.busy)
        await FallingEdge(dut.clk)


@cocotb.test()
async def a_frame_lasts_ten_bits(dut):
    await start(dut)
    await send(dut, 0x55)
    cycles = 0
    while dut.busy.value:
        await RisingEdge(dut.clk)
        await ReadOnly()
        cycles += 1
    assert cycles == 10 * BIT // PERIOD, f"{cycles} cycles"


@cocotb.test()
async def reset_ends_a_frame(dut):
    await start(dut)
    await send(dut, 0)
    await Timer(3 * BIT, "ns")
    dut.rst.value = 1
    await First(FallingEdge(dut.busy), Timer(2 * PERIOD, "ns"))
    await ReadOnly()
    assert dut.busy.value == 0
    assert dut.tx.value == 1
