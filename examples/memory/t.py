import random
import cocotb
from cocotb.clock import Clock
from cocotb.triggers import FallingEdge, Lock, ReadOnly, RisingEdge

WORDS = 16


async def start(dut):
    dut.address.value = 0
    dut.write.value = 0
    dut.write_data.value = 0
    cocotb.start_soon(Clock(dut.clk, 10, "ns").start())
    await FallingEdge(dut.clk)


async def write(dut, port, address, value, enable=3):
    """One write; `port` is the lock of the one port."""
    async with port:
        dut.address.value = address
        dut.write_data.value = value
        dut.write.value = enable
        await FallingEdge(dut.clk)
        dut.write.value = 0


async def read(dut, port, address):
    async with port:
        dut.address.value = address
        await RisingEdge(dut.clk)
        await ReadOnly()
        found = int(dut.read_data.value)
        await FallingEdge(dut.clk)
        return found


@cocotb.test()
async def zero_at_the_start(dut):
    port = Lock()
    await start(dut)
    for i in range(WORDS):
        assert dut.words[i].value == 0
    found = await read(dut, port, 7)
    assert found == 0


@cocotb.test()
async def whole_words(dut):
    port = Lock()
    await start(dut)
    for i in range(WORDS):
        await write(dut, port, i, i * 4097)
    for i in range(WORDS):
        found = await read(dut, port, i)
        assert found == i * 4097, f"word {i} is {found}"


@cocotb.test()
async def single_bytes(dut):
    port = Lock()
    await start(dut)
    await write(dut, port, 3, 0x1234)
    await write(dut, port, 3, 0xABCD, enable=1)
    assert dut.words[3].value == 0x12CD
    await write(dut, port, 3, 0x5678, enable=2)
    found = await read(dut, port, 3)
    assert found == 0x56CD, "the high byte was not written alone"
    await write(dut, port, 3, 0, enable=0)
    assert dut.words[3].value == 0x56CD


@cocotb.test()
async def a_word_that_is_not_there(dut):
    await start(dut)
    try:
        dut.words[WORDS].value = 1
        assert False, "there is no such word"
    except IndexError:
        pass


async def filler(dut, port, first):
    """Writes every second word, and reads it again."""
    for i in range(first, WORDS, 2):
        value = random.randint(0, 65535)
        await write(dut, port, i, value)
        found = await read(dut, port, i)
        assert found == value


@cocotb.test(timeout_time=20, timeout_unit="us")
async def two_users_of_one_port(dut):
    port = Lock()
    await start(dut)
    even = cocotb.start_soon(filler(dut, port, 0))
    odd = cocotb.start_soon(filler(dut, port, 1))
    await even
    await odd
    assert not port.locked
