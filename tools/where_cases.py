"""Cases of tools/where.py (`tools/suite.py` goes through them): with a text at each assertion and each statement in a `try` the tests of all examples run as they do
without, on each design and on its version with a bug, told changes and draws included; and of a small file the lines are told that were found by hand.
"""
import subprocess
import tempfile
from collections import namedtuple
from pathlib import Path

import where

TOP = Path(__file__).resolve().parent.parent
# design: None for the small file
WhereCase = namedtuple("WhereCase", "name design seed")
SEEDS = (0, 5)

DESIGN = "module top(input clk, input [7:0] a, output reg [7:0] q);\nendmodule\n"
TESTS = '''import cocotb
from cocotb.triggers import RisingEdge, Timer, with_timeout
from cocotb.utils import get_sim_time

async def helper(dut, n):
    if n == 1:
        pass
    elif n > 5:
        assert n == 6 and dut.a.value == n or n == 12
    else:
        assert not (dut.a.value == 5)
    return int(dut.q.value)

@cocotb.test()
async def an_elif(dut):
    dut.a.value = 5
    await Timer(1, "ns")
    await helper(dut, 7)

@cocotb.test()
async def a_loop(dut):
    for i in range(3):
        word = await helper(dut, 1 + i)

@cocotb.test()
async def texts(dut):
    assert dut.a.value.binstr == "00000101" and get_sim_time("ns") == 30

@cocotb.test()
async def a_text_of_parts(dut):
    assert dut.a.value is None or f"{dut.a.value} of {dut.q._name}" == "x"

@cocotb.test()
async def a_header(dut):
    while dut.a.value // 0:
        pass

@cocotb.test(timeout_time=5, timeout_unit="ns")
async def a_limit(dut):
    try:
        assert False
    except AssertionError as fault:
        cocotb.log.info(f"caught {fault}")
    await Timer(10, "ns")

@cocotb.test()
async def an_inner_limit(dut):
    await with_timeout(Timer(10, "ns"), 5, "ns")

async def fails(dut):
    await Timer(1, "ns")
    raise ValueError("odd")

@cocotb.test()
async def a_task(dut):
    task = cocotb.start_soon(fails(dut))
    await task

@cocotb.test()
async def a_text(dut):
    assert dut.a.value == 5, "as it is"
    assert dut.a.value == 6, "not so"

@cocotb.test()
async def a_wait(dut):
    await RisingEdge(dut.clk)
'''
TOLD = '''FAIL an_elif (AssertionError)
    t.py:18: await helper(dut, 7)
    t.py:9: assert n == 6 and dut.a.value == n or n == 12
        n is 7
FAIL a_loop (ValueError)
    t.py:23: word = await helper(dut, 1 + i)
    t.py:12: return int(dut.q.value)
FAIL texts (AssertionError)
    t.py:27: assert dut.a.value.binstr == "00000101" and get_sim_time("ns") == 30
        get_sim_time('ns') is 3
FAIL a_text_of_parts (AssertionError)
    t.py:31: assert dut.a.value is None or f"{dut.a.value} of {dut.q._name}" == "x"
        dut.a.value is 00000101, which is 5
        f'{dut.a.value} of {dut.q._name}' is 00000101 of q
FAIL a_header (ZeroDivisionError)
    t.py:35: while dut.a.value // 0:
FAIL a_limit (SimTimeoutError)
    no line can be told: the limit of the whole test ran out
FAIL an_inner_limit (SimTimeoutError)
    t.py:48: await with_timeout(Timer(10, "ns"), 5, "ns")
FAIL a_task (ValueError: odd)
    t.py:57: await task
    t.py:52: raise ValueError("odd")
FAIL a_text (AssertionError: not so)
    t.py:62: assert dut.a.value == 6, "not so"
FAIL a_wait (Stalled)
    no line can be told: nothing was left that could happen, and each task waited'''


def cases():
    yield WhereCase("where: lines of a small file", None, 0)
    for design in sorted((TOP / "examples").glob("*/*.v")):
        if design.with_name("t.py").exists():
            for seed in SEEDS:
                yield WhereCase(f"where: {design.parent.name}/{design.name} with seed {seed}", design, seed)


def ran(program, folder, words):
    done = subprocess.run([program, *words], cwd=folder, stdin=subprocess.DEVNULL, stdout=subprocess.PIPE, encoding="utf-8", timeout=60)
    return done.stdout.splitlines()


def small_file(program):
    with tempfile.TemporaryDirectory() as name:
        for file, text in (("d.v", DESIGN), ("t.py", TESTS)):
            (Path(name) / file).write_text(text)
        words = [f"{name}/d.v", f"{name}/t.py"]
        lines = ran(program, name, words)
        told = zip(lines, where.places_of(program, words, lines))
        return "\n".join("\n".join([line.partition(" ")[2], *places]) for line, places in told if places).replace(f"{name}/", "")


def example(program, case):
    """Whether the traced run with all texts and all kinds is that without, and whether each assertion that failed has a line."""
    words = ["--trace", "--seed", str(case.seed), str(case.design), str(case.design.with_name("t.py"))]
    lines = ran(program, case.design.parent, words)
    source = case.design.with_name("t.py").read_text(encoding="utf-8")
    others, _ = where.rerun(program, words, 4, source, where.KINDS)
    if not where.is_same(lines, others):
        return "the runs differ"
    asserted = [places for line, places in zip(lines, where.places_of(program, words, lines)) if "(AssertionError" in line]
    return "as it should be" if all("assert" in "".join(places) for places in asserted) else f"no line is told: {asserted}"


def looked_at(program, case):
    """A case's name, what is wanted where something else was found, and that."""
    wanted, found = (TOLD, small_file(program)) if case.design is None else ("as it should be", example(program, case))
    return (case.name, None, None) if found == wanted else (case.name, wanted, found)
