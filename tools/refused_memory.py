#!/usr/bin/env python3
"""Refuses each allocation of a run in turn: tools/refused_memory.py [--count N] PROGRAM [WORD ..]

Each run (with words, only those whose names hold one of them) is made once as it is, and then once for each of its allocations, which is refused: a
small library that `cc` makes and that is loaded before the program (`LD_PRELOAD`) counts the calls of `malloc` and `realloc`. What is wanted of each:
status 7, and of the lines that the run has else a front, but for a VCD text; or all of the whole run, where a list gets on with less room. No signal ends
it, and no more parts are still allocated at its end than at the end of the whole run. `--count` says how many numbers of a run are tried at most, by equal steps. The runs have 116 to
2,132 allocations. The status is 1 where something else was found. It needs Linux with glibc, and `cc`.
"""
import argparse
import os
import subprocess
import sys
import tempfile
from collections import namedtuple
from pathlib import Path

ROOT = Path(__file__).resolve().parent.parent
# words: those before the files
Run = namedtuple("Run", "name words design tests")
# status, output; is_met: was an allocation refused? count: of calls; left: how many parts are allocated at the end
Answer = namedtuple("Answer", "status output is_met count left")

SHIM = r"""
#include <errno.h>
#include <stdio.h>
#include <stdlib.h>
extern void *__libc_malloc(size_t), *__libc_realloc(void *, size_t), __libc_free(void *);
static unsigned long count, refused, met;
static long left;
__attribute__((constructor)) static void begin(void) { refused = strtoul(getenv("REFUSED"), 0, 10); count = 0; left = 0; }
static int is_refused(void) { if (++count != refused) return 0; met = 1; errno = ENOMEM; return 1; }
void *malloc(size_t size) { void *part = is_refused() ? 0 : __libc_malloc(size); left += part != 0; return part; }
void *realloc(void *old, size_t size) { void *part = is_refused() ? 0 : __libc_realloc(old, size); left += part && !old; return part; }
void free(void *part) { left -= part != 0; __libc_free(part); }
__attribute__((destructor)) static void end(void) { dprintf(9, "%lu %lu %ld\n", count, met, left); }
"""

FOUR_TASKS = '''import cocotb
from cocotb.clock import Clock
from cocotb.triggers import Event, Lock, RisingEdge, Timer

async def worker(dut, lock, event, n):
    await event.wait()
    async with lock:
        dut.a.value = n
        await RisingEdge(dut.clk)
        dut._log.info(f"{n} {dut.q.value}")
    return n

@cocotb.test()
async def t(dut):
    lock = Lock()
    event = Event()
    cocotb.start_soon(Clock(dut.clk, 10, "ns").start())
    a = cocotb.start_soon(worker(dut, lock, event, 1))
    b = cocotb.start_soon(worker(dut, lock, event, 2))
    c = cocotb.start_soon(worker(dut, lock, event, 3))
    await Timer(3, "ns")
    event.set()
    x = await c
    await a
    await b
    assert x == 3
'''
KILLS = '''import cocotb
from cocotb.handle import Force, Release
from cocotb.queue import Queue
from cocotb.regression import TestFactory
from cocotb.result import SimTimeoutError
from cocotb.triggers import Combine, First, ReadOnly, RisingEdge, Timer, with_timeout

async def waits(dut, n):
    await First(RisingEdge(dut.clk), Timer(50, "ns"))
    dut._log.info(f"woken {n}")

async def slow(dut, q):
    await Timer(5, "ns")
    await q.put(7)

async def case(dut, n, late):
    q = Queue(1)
    k = cocotb.start_soon(waits(dut, n))
    s = cocotb.start_soon(slow(dut, q))
    await Timer(n, "ns")
    if late:
        k.kill()
    dut.a.value = Force(n)
    try:
        await with_timeout(Combine(s, Timer(20, "ns")), 10, "ns")
    except SimTimeoutError as error:
        dut._log.warning("late: %s", error)
    s.kill()
    dut.a.value = Release()
    dut.clk.value = 1
    await ReadOnly()

factory = TestFactory(case)
factory.add_option("n", [1, 2, 3])
factory.add_option("late", [False, True])
factory.generate_tests(prefix="kill_")

@cocotb.test(expect_fail=True)
async def last(dut):
    assert dut.q.value == 1, f"{dut.q.value.binstr} of {dut.a.value.binstr}"

@cocotb.test(timeout_time=10, timeout_unit="ns")
async def limited(dut):
    await Timer(20, "ns")
'''


DESIGN = """module top(input clk, input [7:0] a, output reg [7:0] q, output reg p);
  always @(posedge clk) q <= a;
  always @(q) p <= #2 ^q;
endmodule
"""


def texts():
    """The runs, by what they have."""
    flop = (ROOT / "crates" / "cocorun" / "data" / "d.v").read_text(encoding="ascii")
    one = (ROOT / "crates" / "cocorun" / "data" / "t.py").read_text(encoding="ascii")
    yield Run("one test", [], flop, one)
    yield Run("four tasks", [], DESIGN, FOUR_TASKS)
    yield Run("a regression with kills", [], DESIGN, KILLS)
    yield Run("the same, traced", ["--trace"], DESIGN, KILLS)
    yield Run("the same as a VCD text", ["--vcd"], DESIGN, KILLS)
    yield Run("a refused design", [], "module top(input a); wire b = c; endmodule\n", one)
    yield Run("refused tests", [], flop, one + "    x = 1 +\n")
    yield Run("generated tests", ["--made", "9"], None, None)


def ended(program, library, run, refused, folder):
    """What a run comes to whose call of this number is refused; 0: none."""
    words = [program, *run.words, *(["d.v", "t.py"] if run.design is not None else [])]
    reads, writes = os.pipe()
    os.dup2(writes, 9)
    os.close(writes)
    environment = {"LD_PRELOAD": str(library), "REFUSED": str(refused)}
    done = subprocess.run(words, cwd=folder, env=environment, stdin=subprocess.DEVNULL, stdout=subprocess.PIPE, pass_fds=[9], timeout=60, check=False)
    os.close(9)
    with open(reads, encoding="ascii") as told:
        count, met, left = [int(number) for number in told.read().split()] or (0, 1, 0)
    return Answer(done.returncode, done.stdout, met == 1, count, left)


def fault_of(run, whole, answer):
    """What is wrong with a run whose allocation was refused, or None."""
    if answer.status < 0:
        return f"ended by signal {-answer.status}"
    # A list whose larger room was refused asks for less, and goes on where it gets that.
    if (answer.status, answer.output) == (whole.status, whole.output):
        return None
    if answer.status != 7:
        return f"status {answer.status}"
    is_front = whole.output.startswith(answer.output) and answer.output[-1:] in (b"", b"\n")
    if not is_front and "--vcd" not in run.words:
        return f"no front of the lines: {answer.output[-80:]!r}"
    return f"{answer.left} parts are left, and {whole.left} where none is refused" if answer.left > whole.left else None


def tried(program, library, run, most, folder):
    """How many calls a run has, how many of them were refused, and how many of these came to something else."""
    for name, text in (("d.v", run.design), ("t.py", run.tests)):
        if text is not None:
            (folder / name).write_text(text, encoding="ascii")
    whole, bad, count = ended(program, library, run, 0, folder), 0, 0
    for number in range(1, whole.count + 1, max(1, -(-whole.count // most)) if most else 1):
        answer = ended(program, library, run, number, folder)
        fault = fault_of(run, whole, answer) if answer.is_met else "was never called"
        count, bad = count + 1, bad + (fault is not None)
        if fault:
            print(f"{run.name}, allocation {number}: {fault}", flush=True)
    print(f"{run.name}: status {whole.status}, {whole.count} allocations, {count} of them refused, {bad} with another end", flush=True)
    return bad


def main():
    parser = argparse.ArgumentParser(description=__doc__.splitlines()[0])
    parser.add_argument("--count", type=int, default=0, metavar="N")
    parser.add_argument("program")
    parser.add_argument("words", nargs="*")
    asked = parser.parse_args()
    program, bad = os.path.realpath(asked.program), 0
    with tempfile.TemporaryDirectory() as name:
        folder, library = Path(name), Path(name, "refused.so")
        (folder / "refused.c").write_text(SHIM, encoding="ascii")
        subprocess.run(["cc", "-O1", "-fno-builtin", "-shared", "-fPIC", "-o", str(library), str(folder / "refused.c")], check=True)
        for run in texts():
            if not asked.words or any(word in run.name for word in asked.words):
                bad += tried(program, library, run, asked.count, folder)
    return 1 if bad else 0


if __name__ == "__main__":
    sys.exit(main())
