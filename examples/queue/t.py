import random
import cocotb
from cocotb.clock import Clock
from cocotb.queue import Queue, QueueEmpty, QueueFull
from cocotb.result import SimTimeoutError
from cocotb.triggers import FallingEdge, ReadOnly, with_timeout

PAIRS = 30


async def driver(dut, requests):
    """Sends each byte that it finds in the queue, and waits until the design has taken it."""
    while True:
        byte = await requests.get()
        dut.d.value = byte
        dut.d_valid.value = 1
        is_taken = False
        while not is_taken:
            await ReadOnly()
            is_taken = dut.d_ready.value == 1
            await FallingEdge(dut.clk)
        dut.d_valid.value = 0


async def monitor(dut, sums):
    """Takes what the design shows, not always at once, and puts it into a queue."""
    while True:
        ready = random.randint(0, 1)
        dut.s_ready.value = ready
        await ReadOnly()
        if ready and dut.s_valid.value:
            sums.put_nowait(int(dut.s.value))
        await FallingEdge(dut.clk)


async def scoreboard(wanted, sums, count):
    """Compares each sum with the one that is wanted next."""
    for i in range(count):
        want = await wanted.get()
        found = await sums.get()
        assert found == want, f"sum {i} is {found} and not {want}"


async def start(dut, requests, sums):
    dut.rst.value = 1
    dut.d_valid.value = 0
    dut.s_ready.value = 0
    cocotb.start_soon(Clock(dut.clk, 10, "ns").start())
    await FallingEdge(dut.clk)
    await FallingEdge(dut.clk)
    dut.rst.value = 0
    cocotb.start_soon(driver(dut, requests))
    cocotb.start_soon(monitor(dut, sums))


@cocotb.test(timeout_time=20, timeout_unit="us")
async def random_pairs(dut):
    requests = Queue(maxsize=2)
    wanted = Queue()
    sums = Queue()
    await start(dut, requests, sums)
    checked = cocotb.start_soon(scoreboard(wanted, sums, PAIRS))
    for i in range(PAIRS):
        first = random.randint(0, 255)
        second = random.randint(0, 255)
        wanted.put_nowait(first + second)
        await requests.put(first)
        await requests.put(second)
    await with_timeout(checked, 1, "us")
    assert wanted.empty() and sums.empty()


@cocotb.test(timeout_time=2, timeout_unit="us")
async def the_largest_sum(dut):
    requests = Queue()
    sums = Queue()
    await start(dut, requests, sums)
    requests.put_nowait(255)
    requests.put_nowait(255)
    found = await sums.get()
    assert found == 510, f"255 + 255 is {found}"


@cocotb.test(timeout_time=2, timeout_unit="us")
async def nothing_comes_of_one_byte(dut):
    requests = Queue()
    sums = Queue()
    await start(dut, requests, sums)
    requests.put_nowait(3)
    try:
        found = await with_timeout(sums.get(), 200, "ns")
        assert False, f"a sum of one byte is {found}"
    except SimTimeoutError:
        assert requests.empty(), "the design doesn't take the first byte"
    requests.put_nowait(4)
    found = await sums.get()
    assert found == 7


@cocotb.test(timeout_time=2, timeout_unit="us")
async def a_full_queue_makes_its_producer_wait(dut):
    requests = Queue(maxsize=2)
    sums = Queue()
    for byte in range(2):
        requests.put_nowait(byte)
    assert requests.full()
    try:
        requests.put_nowait(2)
        assert False, "there is room for a third byte"
    except QueueFull:
        cocotb.log.info(f"{requests.qsize()} bytes wait")
    waiting = cocotb.start_soon(requests.put(2))
    await start(dut, requests, sums)
    await waiting
    await requests.put(3)
    first = await sums.get()
    second = await sums.get()
    assert first == 1 and second == 5
    try:
        found = sums.get_nowait()
    except QueueEmpty:
        cocotb.log.info("no further sum")
