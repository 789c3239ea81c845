import random
import cocotb
from cocotb.clock import Clock
from cocotb.triggers import Event, FallingEdge, ReadOnly, with_timeout

DEPTH = 4


async def start(dut):
    dut.rst.value = 1
    dut.write.value = 0
    dut.read.value = 0
    dut.write_data.value = 0
    cocotb.start_soon(Clock(dut.clk, 10, "ns").start())
    await FallingEdge(dut.clk)
    await FallingEdge(dut.clk)
    dut.rst.value = 0


async def put(dut, value):
    """Writes one word at the next edge at which there is room."""
    dut.write.value = 1
    dut.write_data.value = value
    await ReadOnly()
    while dut.full.value:
        await FallingEdge(dut.clk)
        await ReadOnly()
    await FallingEdge(dut.clk)
    dut.write.value = 0


async def take(dut):
    """Reads one word at the next edge at which there is one, and gives it."""
    dut.read.value = 1
    await ReadOnly()
    while dut.empty.value:
        await FallingEdge(dut.clk)
        await ReadOnly()
    word = int(dut.read_data.value)
    await FallingEdge(dut.clk)
    dut.read.value = 0
    return word


@cocotb.test(timeout_time=2, timeout_unit="us")
async def empty_after_reset(dut):
    await start(dut)
    await ReadOnly()
    assert dut.empty.value == 1
    assert dut.full.value == 0


@cocotb.test(timeout_time=2, timeout_unit="us")
async def fills_and_empties(dut):
    await start(dut)
    for i in range(DEPTH):
        await put(dut, 100 + i)
    await ReadOnly()
    assert dut.full.value, "not full after four words"
    assert dut.words[2].value == 102
    await FallingEdge(dut.clk)
    for i in range(DEPTH):
        word = await take(dut)
        assert word == 100 + i, f"word {i} is {word}"
    await ReadOnly()
    assert dut.empty.value, "not empty after all words were read"


@cocotb.test(timeout_time=2, timeout_unit="us")
async def a_word_too_many_is_dropped(dut):
    await start(dut)
    for i in range(DEPTH):
        await put(dut, i)
    dut.write.value = 1
    dut.write_data.value = 99
    await FallingEdge(dut.clk)
    dut.write.value = 0
    word = await take(dut)
    assert word == 0


async def producer(dut, count, done):
    for i in range(count):
        await put(dut, i * 7 & 255)
        pauses = random.randint(0, 2)
        for pause in range(pauses):
            await FallingEdge(dut.clk)
    done.set()


async def consumer(dut, count):
    for i in range(count):
        word = await take(dut)
        assert word == i * 7 & 255, f"word {i} is {word}"
        pauses = random.randint(0, 2)
        for pause in range(pauses):
            await FallingEdge(dut.clk)
    return count


@cocotb.test(timeout_time=100, timeout_unit="us")
async def two_sides_at_once(dut):
    await start(dut)
    done = Event()
    cocotb.start_soon(producer(dut, 60, done))
    reader = cocotb.start_soon(consumer(dut, 60))
    await with_timeout(done.wait(), 20, "us")
    got = await with_timeout(reader, 20, "us")
    assert got == 60


@cocotb.test(timeout_time=2, timeout_unit="us")
async def a_write_and_a_read_at_one_edge(dut):
    await start(dut)
    await put(dut, 1)
    await put(dut, 2)
    dut.write.value = 1
    dut.write_data.value = 3
    word = await take(dut)
    dut.write.value = 0
    assert word == 1
    for expected in [2, 3]:
        word = await take(dut)
        assert word == expected
    await ReadOnly()
    assert dut.empty.value == 1
