import cocotb
from cocotb.clock import Clock
from cocotb.triggers import ClockCycles, Combine, FallingEdge, ReadOnly, RisingEdge
from cocotb.regression import TestFactory


async def start(dut):
    dut.rst.value = 1
    dut.in_valid.value = 0
    dut.out_ready.value = 0
    dut.in_data.value = 0
    cocotb.start_soon(Clock(dut.clk, 10, "ns").start())
    await ClockCycles(dut.clk, 2, rising=False)
    dut.rst.value = 0


async def source(dut, count, pause):
    """Sends the words 0, 1, .. and waits so many cycles between two of them."""
    for i in range(count):
        dut.in_valid.value = 1
        dut.in_data.value = i
        taken = False
        while not taken:
            await ReadOnly()
            taken = bool(dut.in_ready.value)
            await FallingEdge(dut.clk)
        dut.in_valid.value = 0
        for wait in range(pause):
            await FallingEdge(dut.clk)


async def sink(dut, count, pause):
    """Takes the words, and wants them to be 0, 1, .."""
    expected = 0
    while expected < count:
        for wait in range(pause):
            await FallingEdge(dut.clk)
        dut.out_ready.value = 1
        await ReadOnly()
        if dut.out_valid.value:
            word = int(dut.out_data.value)
            assert word == expected, f"{word} came in place of {expected}"
            expected += 1
        await FallingEdge(dut.clk)
        dut.out_ready.value = 0


@cocotb.test()
async def nothing_after_reset(dut):
    await start(dut)
    await ReadOnly()
    assert dut.out_valid.value == 0
    assert dut.in_ready.value == 1


async def stream(dut, source_pause, sink_pause):
    await start(dut)
    sender = cocotb.start_soon(source(dut, 10, source_pause))
    receiver = cocotb.start_soon(sink(dut, 10, sink_pause))
    await Combine(sender, receiver)
    dut._log.info(f"pauses of {source_pause} and {sink_pause}: done")


factory = TestFactory(stream)
factory.add_option("source_pause", [0, 1, 3])
factory.add_option("sink_pause", [0, 2])
factory.generate_tests(postfix="_pauses")


@cocotb.test()
async def a_word_stays_until_it_is_taken(dut):
    await start(dut)
    dut.in_valid.value = 1
    dut.in_data.value = 0x5A
    await FallingEdge(dut.clk)
    dut.in_data.value = 0xFF
    for i in range(3):
        await RisingEdge(dut.clk)
        await ReadOnly()
        assert dut.out_valid.value == 1
        assert dut.out_data.value == 0x5A, f"the word became {dut.out_data.value}"
        await FallingEdge(dut.clk)
    dut.out_ready.value = 1
    await FallingEdge(dut.clk)
    assert dut.out_data.value == 0xFF
