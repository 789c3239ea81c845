import random
import cocotb
from cocotb.regression import TestFactory
from cocotb.triggers import Edge, ReadOnly, Timer


@cocotb.test()
async def nobody(dut):
    dut.request.value = 0
    await Timer(1, "ns")
    assert not dut.valid.value
    assert dut.index.value == 0


async def one_request(dut, at):
    """A request alone, and then with all lower ones."""
    dut.request.value = 1 << at
    await Timer(1, "ns")
    assert dut.valid.value == 1
    assert dut.index.value == at, f"input {at} is told as {int(dut.index.value)}"
    dut.request.value = (2 << at) - 1
    await Timer(1, "ns")
    assert dut.index.value == at


factory = TestFactory(one_request)
factory.add_option("at", [0, 1, 2, 3, 4, 5, 6, 7])
factory.generate_tests()


async def highest(dut, value):
    """The number of the highest bit."""
    at = 0
    while value > 1:
        value >>= 1
        at += 1
    return at


@cocotb.test()
async def random_requests(dut):
    for i in range(50):
        value = random.randint(1, 255)
        dut.request.value = value
        await Timer(2, "ns")
        expected = await highest(dut, value)
        assert dut.index.value == expected, f"{dut.request.value}"


@cocotb.test()
async def answers_at_once(dut):
    dut.request.value = 0
    await Timer(1, "ns")
    dut.request.value = 128
    await Edge(dut.index)
    await ReadOnly()
    assert dut.index.value == 7
    assert dut.valid.value == 1


@cocotb.test(expect_error=OverflowError)
async def a_number_of_nine_digits_does_not_fit(dut):
    assert len(dut.request) == 8
    dut.request.value = 256
