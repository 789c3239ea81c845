#!/usr/bin/env python3
"""Writes the texts of generated work, for numbers from 0 to 2^32 - 1: the design, and the tests of a number.

    tools/models/made_texts.py design              the design
    tools/models/made_texts.py tests N             the tests of a number
    tools/models/made_texts.py rows < ROWS         what crates/runner_tests prints for the rows of its part `made_texts` among these

A number N allows A = 1 + N mod 16 workers and B = 1 + (N div 16) mod 16 cycles of the clock. This was written from the rules, apart from the
definitions and the code of `made_texts`. Each text of tests is parsed by CPython's `ast`, which has to find the lists of numbers in it.
"""
import ast
import sys

DESIGN = """\
module made(input clk, output reg [7:0] q);
  initial q = 0;
  always @(posedge clk) q <= q + 1;
endmodule
"""

TESTS = """\
import cocotb
from cocotb.clock import Clock
from cocotb.regression import TestFactory
from cocotb.triggers import ClockCycles, First, Lock, RisingEdge, Timer

async def worker(dut, lock, k):
    while True:
        async with lock:
            await RisingEdge(dut.clk)
        await First(RisingEdge(dut.clk), Timer(k, "step"))

async def made(dut, n, m):
    lock = Lock()
    cocotb.start_soon(Clock(dut.clk, 10, "step").start())
    for i in range(n):
        cocotb.start_soon(worker(dut, lock, i + 1))
    await ClockCycles(dut.clk, m)
    extra = cocotb.start_soon(worker(dut, lock, n + 1))
    await Timer(3, "step")
    extra.kill()

tf = TestFactory(made)
tf.add_option("n", [1..A])
tf.add_option("m", [1..B])
tf.generate_tests()
"""


def options(number):
    """How many values the options n and m have."""
    return 1 + number % 16, 1 + (number // 16) % 16


def tests_of(workers, cycles):
    """The tests with so many values of the options n and m."""
    workers, cycles = (list(range(1, last + 1)) for last in (workers, cycles))
    return TESTS.replace("[1..A]", str(workers)).replace("[1..B]", str(cycles))


def tests(number):
    return tests_of(*options(number))


def check(number, text):
    """CPython parses the text, and its options have the numbers from 1 on."""
    calls = [line.value for line in ast.parse(text).body if isinstance(line, ast.Expr)]
    found = [[ast.literal_eval(part) for part in call.args] for call in calls if call.func.attr == "add_option"]
    workers, cycles = options(number)
    assert found == [["n", [*range(1, workers + 1)]], ["m", [*range(1, cycles + 1)]]], found
    assert text.isascii() and text.endswith("\n")


def rows(lines):
    for line in lines:
        part, rule, number, *_ = line.rstrip("\n").split("\t")
        if part != "made_texts":
            continue
        if number == "-":
            print(f"{rule}:\n{DESIGN}")
            continue
        text = tests(int(number))
        check(int(number), text)
        print(f"{rule}, {number}:\n{text}")


def main(words):
    if words == ["design"]:
        print(DESIGN, end="")
    elif len(words) == 2 and words[0] == "tests" and words[1].isdecimal() and int(words[1]) < 2**32:
        print(tests(int(words[1])), end="")
    elif words == ["rows"]:
        rows(sys.stdin)
    else:
        print(__doc__)
        return 2
    return 0


if __name__ == "__main__":
    sys.exit(main(sys.argv[1:]))
