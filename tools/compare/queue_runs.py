#!/usr/bin/env python3
"""Compares the command with the model of runs on tests that are made by chance, of tasks at queues, kills, limits of time and forced signals.

    tools/compare/queue_runs.py [PROGRAM [SEED [COUNT]]]    COUNT texts, 100 without it, of the seed, 1 without it

Each text has three tests on one design and runs with told changes and a budget of 3,000, which some runs reach. All lines and the status have to be the model's
(`tools/models/run_model.py`), and the text one of the profile. Without a program the release is run. The first text that differs is told, with both runs; then the
status is 1.
"""
import random
import subprocess
import sys
import tempfile
from pathlib import Path

ROOT = Path(__file__).resolve().parents[2]
sys.path.insert(0, str(ROOT / "tools"))

from models.run_model import model
from models.tests_profile import breaks

BUDGET = 3000
DESIGN = """module top(input clk, input [3:0] a, output [3:0] y, output reg [3:0] q, output reg [3:0] p);
  assign y = a + 1;
  always @(posedge clk) q <= a;
  always @(q) p <= #2 y;
  initial q = 0;
endmodule
"""
IMPORTS = """import cocotb
from cocotb.clock import Clock
from cocotb.handle import Force, Freeze, Release
from cocotb.queue import Queue, QueueEmpty, QueueFull
from cocotb.result import SimTimeoutError
from cocotb.triggers import Combine, Edge, First, ReadOnly, ReadWrite, Timer, with_timeout
"""
SIGNALS = ["a", "a", "y", "q", "p"]
WORKERS = 3


class Maker:
    """Makes one text. A worker starts only those behind it, and loops have few turns, so each run ends or waits."""

    def __init__(self, seed):
        self.chance, self.told = random.Random(seed), 0

    def count(self, most):
        return self.chance.randint(1, most)

    def value(self):
        return self.chance.choice(["x", "n", "q", "r", "None", '"t"', "dut.a.value", *map(str, range(8))])

    def queue(self):
        return self.chance.choice("qr")

    def say(self):
        self.told += 1
        queue = self.queue()
        shown = self.chance.choice([["x"], [f"{queue}.{name}()" for name in ("qsize", "empty", "full")], [f"dut.{name}.value" for name in "ayqp"]])
        parts = " ".join("{" + each + "}" for each in shown)
        return f'dut._log.info(f"{self.told} {parts}")'

    def caught(self, line, kind):
        return ["try:", "    " + line, f"except {kind}:", "    " + self.say()]

    def call(self):
        """What a queue has for tasks."""
        return f"{self.queue()}.put({self.value()})" if self.chance.random() < 0.5 else f"{self.queue()}.get()"

    def write(self):
        signal = self.chance.choice([*SIGNALS, "clk"])
        number = str(self.chance.randint(0, 1 if signal == "clk" else 15))
        value = self.chance.choice([number, number, f"Force({number})", f"Force({number})", "Freeze()", "Release()", "Release()"])
        return f"dut.{signal}.setimmediatevalue({value})" if self.chance.random() < 0.4 else f"dut.{signal}.value = {value}"

    def wait(self):
        steps, signal = self.count(3), self.chance.choice(SIGNALS)
        waits = [f'await Timer({steps}, "step")'] * 4 + [f'await First(Edge(dut.{signal}), Timer({steps}, "step"))'] * 2 + ["await ReadWrite()"]
        return self.chance.choice(waits)

    def at_queue(self):
        call, queue, way = self.call(), self.queue(), self.chance.randint(0, 4)
        gets = call.endswith("get()")
        if way == 0:
            return [("x = await " if gets else "await ") + call]
        if way == 1:
            return self.caught(("x = " if gets else "") + f'await with_timeout({call}, {self.count(3)}, "step")', "SimTimeoutError")
        if way == 2:
            return self.caught(f"x = {queue}.get_nowait()", "QueueEmpty")
        if way == 3:
            line = f"{queue}.put_nowait({self.value()})"
            return self.caught(line, "QueueFull") if self.chance.random() < 0.85 else [line]
        return [f"k = cocotb.start_soon({call})", *self.simple(), self.chance.choice(["k.kill()", 'await First(k, Timer(2, "step"))', "x = await k"])]

    def simple(self):
        return [self.chance.choice([self.say, self.say, self.write, self.wait])()]

    def item(self, at, depth):
        pick = self.chance.random()
        if pick < 0.4:
            return self.at_queue()
        if pick < 0.5 and depth < 2:
            return [f"for i in range({self.count(3)}):", *self.block(at, depth + 1)]
        if pick < 0.6 and at < WORKERS:
            started = f"w{self.chance.randint(at, WORKERS - 1)}(dut, {self.queue()}, {self.queue()}, {self.count(4)})"
            how = self.chance.choice(["cocotb.start_soon({})", "await cocotb.start({})", "await {}", 'await with_timeout({}, 4, "step")'])
            killed = [*self.simple(), "w.kill()"] if "start" in how and self.chance.random() < 0.5 else []
            return ["w = " + how.format(started), *killed]
        if pick < 0.63:
            return ["await ReadOnly()", self.chance.choice(['await Timer(1, "step")', self.say(), self.write()])]
        return self.simple()

    def block(self, at, depth):
        lines = []
        for _ in range(self.count(4)):
            lines += self.item(at, depth)
        return ["    " + line for line in lines]

    def worker(self, at):
        return [f"async def w{at}(dut, q, r, n):", "    x = n", *self.block(at + 1, 0), *self.block(at + 1, 0), "    return x", ""]

    def test(self, at):
        limit = self.chance.choice(["", *['timeout_time=40, timeout_unit="step"'] * 3])
        bounds = [self.chance.choice(["", "1", "2", "maxsize=1", "0"]) for _ in "qr"]
        lines = [f"@cocotb.test({limit})", f"async def t{at}(dut, n=0):", "    x = 0", f"    q = Queue({bounds[0]})", f"    r = Queue({bounds[1]})"]
        lines += [f'    cocotb.start_soon(Clock(dut.clk, {self.chance.choice([2, 4, 6])}, "step").start())'] if self.chance.random() < 0.7 else []
        return [*lines, *self.block(0, 0), *self.block(0, 0), *self.block(0, 0), "    " + self.say(), ""]

    def text(self):
        lines = [line for at in reversed(range(WORKERS)) for line in self.worker(at)]
        return IMPORTS + "\n" + "\n".join(lines + [line for at in range(3) for line in self.test(at)])


def ran(program, text):
    """What the program writes, and its status."""
    with tempfile.TemporaryDirectory() as folder:
        Path(folder, "d.v").write_text(DESIGN, encoding="ascii")
        Path(folder, "t.py").write_text(text, encoding="ascii")
        words = [program, "--trace", "--budget", str(BUDGET), "d.v", "t.py"]
        run = subprocess.run(words, cwd=folder, stdout=subprocess.PIPE, text=True, timeout=60, check=False)
    return run.stdout.splitlines(), run.returncode


def main(words):
    program = str(Path(words[0]).resolve()) if words else str(ROOT / "release" / "cocorun")
    seed, count = (*map(int, words[1:]), *(1, 100)[len(words[1:]):])
    wrong = 0
    for at in range(count):
        text = Maker(f"{seed} {at}").text()
        run = model(DESIGN, text, BUDGET, trace=True)
        wanted = run.lines, {"Passed": 0, "Failed": 1, "Budget": 8}[run.status]
        found, told = ran(program, text), breaks(text)
        if found != wanted or told:
            wrong += 1
            if wrong == 1:
                first = next((place for place, pair in enumerate(zip(*(each[0] for each in (wanted, found)))) if pair[0] != pair[1]), "the last")
                print(text, *told, f"the model, status {wanted[1]}:", *wanted[0], f"the program, status {found[1]}:", *found[0], f"first differs: line {first}", sep="\n")
    print(f"{count} texts, {wrong} differ")
    return 1 if wrong or not count else 0


if __name__ == "__main__":
    sys.exit(main(sys.argv[1:]))
