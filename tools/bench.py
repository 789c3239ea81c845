#!/usr/bin/env python3
"""Measures the built command: tools/bench.py PROGRAM [NAME ..]

PROGRAM is `crates/cocorun/out/cocorun`, as `rt ci` or `./cocorun` built it. Each measurement runs it once in a folder of its own on texts that are
made here, and prints its name, the status, the seconds of the processor, the most memory in MB, and the last line of its output. With names, only
measurements whose name begins with one of them run. Those of `counter` also run Icarus Verilog (`iverilog`, `vvp`) on the same design with its clock
in Verilog, where it is installed, and print how many times as long the command took. Those of `simulator` measure the simulator alone, beside Icarus Verilog:
each design makes its own clock, and the test waits once.

What is measured stands in docs/PERFORMANCE.md.
"""
import os
import shutil
import subprocess
import sys
import tempfile
import time
from pathlib import Path

MEBIBYTE = 1_048_576
HEAD = "import cocotb\nfrom cocotb.triggers import ClockCycles, Combine, Edge, Event, First, Lock, ReadOnly, RisingEdge, Timer\nfrom cocotb.clock import Clock\n\n"
TEST = "@cocotb.test()\nasync def t(dut):\n"
DESIGN = "module top(input clk, input [7:0] a, output reg [7:0] q);\n  always @(posedge clk) q <= a;\nendmodule\n"
COUNTER = "module counter(input clk, output reg [7:0] q);\n  initial q = 0;\n  always @(posedge clk) q <= q + 1;\nendmodule\n"
CYCLES = 1_000_000


def filled(size, line, front="", behind=""):
    """A text of about this many bytes: the front, as many lines as fit, and what stands behind them. A line is made from its number."""
    parts, left, number = [front], size - len(front) - len(behind), 0
    while True:
        part = line(number)
        left -= len(part)
        if left < 0:
            return "".join(parts) + behind
        parts.append(part)
        number += 1


def texts_of_size(size):
    """Tests files of about this many bytes, of each shape, that a reader has to go through; the test itself is short."""
    run = "    pass\n"
    unread = "async def f(dut):\n    if False:\n"
    yield "one long function", filled(size, lambda n: f"    x = x + {n % 10}\n", HEAD + TEST + run + "async def f(dut):\n    x = 0\n")
    yield "many functions", filled(size, lambda n: f"async def f{n}(dut):\n    pass\n", HEAD + TEST + run)
    yield "many calls", filled(size, lambda n: "    await g(dut, 1, b=2)\n", HEAD + "async def g(dut, a, b=0):\n    pass\n" + TEST + run + "async def f(dut):\n")
    yield "many module constants", filled(size, lambda n: f"C{n} = {n}\n", HEAD, TEST + run)
    yield "many options", filled(size, lambda n: f", p{n}=0", HEAD + "from cocotb.regression import TestFactory\n" + TEST + run + "async def f(dut", "):\n    pass\n")
    deep = "".join("    " * level + "if True:\n" for level in range(1, 32)) + "    " * 32 + "pass\n"
    yield "deep blocks", filled(size, lambda n: deep, HEAD + TEST + run + "async def f(dut):\n")
    yield "many imports", filled(size, lambda n: "from cocotb.triggers import (Edge,)\n" if n == 0 else "\n", "import cocotb\n", TEST + run)
    yield "one huge list", filled(size, lambda n: f"{n % 10}, ", HEAD + TEST + run + unread + "        for i in [", "0]:\n            pass\n")
    yield "deep expressions", filled(size, lambda n: "    x = " + "(" * 60 + "1" + ")" * 60 + "\n", HEAD + TEST + run + "async def f(dut):\n")
    yield "many tests", filled(size, lambda n: f"@cocotb.test(skip=True)\nasync def t{n}(dut):\n    pass\n" if n < 65_000 else "\n", HEAD)


def designs_of_size(size):
    """Designs of about this many bytes, of each shape, that a reader has to go through; the limits of the profile end some of them before."""
    top, end = "module top(input clk, input a);\n", "endmodule\n"
    yield "registers", filled(size, lambda n: f"reg [7:0] r{n};\n" if n < 65_000 else "\n", top, end)
    yield "wires with values", filled(size, lambda n: f"wire w{n} = a ^ clk;\n" if n < 65_000 else "\n", top, end)
    yield "always processes", filled(size, lambda n: "always @(posedge clk) q <= a;\n" if n < 65_000 else "\n", top + "reg q;\n", end)
    yield "instances with a connected port", filled(size, lambda n: f"s u{n}(.a(a));\n" if n < 32_000 else "\n", "module s(input a);\nendmodule\n" + top, end)
    yield "one module in as many instances as may be", filled(size, lambda n: f"s u{n}();\n" if n < 65_535 else "\n", "module s;\nendmodule\n" + top, end)
    deep = "".join(f"module m{n}(input a);\n  m{n + 1} u(.a(a));\nendmodule\n" for n in range(63))
    yield "64 instances inside one another", filled(size, lambda n: "wire w;\n" if n == 0 else f"wire w{n} = a;\n" if n < 30_000 else "\n", deep + "module m63(input a);\n", end + "module top(input clk, input a);\n  m0 u(.a(a));\nendmodule\n")
    braces = "{" + ", ".join(["a"] * 128) + "}"
    yield "assignments of braces of 128 parts", filled(size, lambda n: f"wire [127:0] w{n} = {braces};\n", top, end)
    yield "parameters of 128 digits", filled(size, lambda n: f"parameter [127:0] P{n} = 128'h{n:032x};\n", top, end)
    yield "one block of statements", filled(size, lambda n: "r = r + 1;\n", top + "reg [7:0] r;\ninitial begin\n", "end\n" + end)
    yield "one case", filled(size, lambda n: f"{n % 256}: ;\n", top + "reg [7:0] r;\ninitial case (r)\n", "endcase\n" + end)
    loop = "for (i = 0; i < 8; i = i + 1) r[i] = a;\n"
    yield "loops of eight turns", filled(size, lambda n: loop, top + "reg [7:0] r;\ninteger i;\ninitial begin\n", "end\n" + end)
    # past the limit of unrolled nodes, so that the command ends for want of memory
    yield "one sum in 4,096 turns", top + f"reg r;\ninteger i;\ninitial for (i = 0; i < 4096; i = i + 1) r = {sum_of(size // 4 - 64)};\n" + end


def sum_of(terms):
    """A sum of so many terms, in brackets by halves; each further term takes four bytes."""
    return "a" if terms == 1 else f"({sum_of(terms // 2)}+{sum_of(terms - terms // 2)})"


def measurements():
    """Name, words, design and tests of each measurement."""
    words = ["--budget", "1000000000000"]
    for size, told in ((MEBIBYTE // 2, "512 KiB"), (MEBIBYTE - 1, "1 MiB")):
        for name, text in texts_of_size(size):
            yield f"text of {told}: {name}", words, DESIGN, text
        for name, text in designs_of_size(size):
            yield f"design of {told}: {name}", [*words, "--top", "top"], text, HEAD + TEST + "    pass\n"
    for number in (5_000, 10_000):
        lines = "    dut.a.value = 1\n" * number
        yield f"control: {number} statements before and behind 100,000 turns", words, DESIGN, HEAD + TEST + lines + "    for i in range(100000):\n        x = i\n" + lines
    yield "control: 1,000 frames, 1,000 times", words, DESIGN, HEAD + "async def r(dut, n):\n    if n:\n        await r(dut, n - 1)\n\n" + TEST + "    for i in range(1000):\n        await r(dut, 998)\n"
    for turns in (100_000, 1_000_000):
        yield f"control: a loop of {turns} turns", words, DESIGN, HEAD + TEST + f"    x = 0\n    while x < {turns}:\n        x += 1\n"
        yield f"control: {turns} turns with a fault caught in each", words, DESIGN, HEAD + TEST + f"    for i in range({turns}):\n        try:\n            x = 1 // 0\n        except ZeroDivisionError as e:\n            pass\n"
    wait = "async def w(dut):\n    for i in range({}):\n        await {}\n\n"
    start = "    cocotb.start_soon(Clock(dut.clk, 10, 'step').start())\n    for i in range({}):\n        cocotb.start_soon(w(dut))\n    await ClockCycles(dut.clk, {})\n".replace("'", '"')
    for tasks in (100, 1_000, 10_000):
        yield f"waiting: {tasks} tasks on one edge, 100 cycles", words, DESIGN, HEAD + wait.format(101, "RisingEdge(dut.clk)") + TEST + start.format(tasks, 100)
    for tasks in (100, 200, 400):
        yield f"waiting: {tasks} tasks each on a time of its own, 100 edges of another", words, DESIGN, HEAD + "async def w(dut, k):\n    await Timer(1000000 + k, \"step\")\n\n" + TEST + start.format(tasks, 100).replace("w(dut)", "w(dut, i)")
    leaves = ", ".join(["RisingEdge(dut.clk)"] + [f'Timer({n + 1000000}, "step")' for n in range(63)])
    for tasks in (10, 100, 1_000):
        yield f"waiting: {tasks} tasks on a First of 64 leaves, 10 cycles", words, DESIGN, HEAD + wait.format(11, f"First({leaves})") + TEST + start.format(tasks, 10)
    for tasks in (1_000, 10_000):
        yield f"waiting: {tasks} tasks each on a time of its own, to the end", words, DESIGN, HEAD + "async def w(dut, k):\n    await Timer(k + 1, \"step\")\n\n" + TEST + f"    for i in range({tasks}):\n        cocotb.start_soon(w(dut, i))\n    await Timer({tasks + 1}, \"step\")\n"
    others = "async def o(dut, e):\n    await e.wait()\n\n" + TEST + "    e = Event()\n    for i in range({}):\n        cocotb.start_soon(o(dut, e))\n    await Timer(1, \"step\")\n"
    for tasks in (16, 65_000):
        yield f"waiting: {tasks} tasks, and nobody woken", words, DESIGN, HEAD + others.format(tasks)
        yield f"waiting: {tasks} tasks, and one more woken 100,000 times", words, DESIGN, HEAD + others.format(tasks) + "    for i in range(100000):\n        await Timer(1, \"step\")\n"
        yield f"waiting: {tasks} tasks, and 10,000 more begun and killed", words, DESIGN, HEAD + "async def k(dut):\n    await Edge(dut.a)\n\n" + others.format(tasks) + "    for i in range(10000):\n        x = cocotb.start_soon(k(dut))\n        await Timer(1, \"step\")\n        x.kill()\n"
    for number in (17, 255):
        yield f"made {number}", ["--made", str(number)], None, None


def run(program, words, folder):
    """Status, processor seconds, most memory in MB, and the last line."""
    with open(f"{folder}/out", "w+b") as out:
        started = subprocess.Popen([program, *words], cwd=folder, stdout=out, stdin=subprocess.DEVNULL)
        _, status, usage = os.wait4(started.pid, 0)
        started.returncode = os.waitstatus_to_exitcode(status)
        out.seek(0)
        lines = out.read().decode().splitlines()
    return started.returncode, usage.ru_utime + usage.ru_stime, usage.ru_maxrss / 1024, lines[-1] if lines else ""


def measured(program, name, words, design, tests):
    with tempfile.TemporaryDirectory() as folder:
        if design is not None:
            Path(folder, "d.v").write_text(design)
            Path(folder, "t.py").write_text(tests)
            words = [*words, "d.v", "t.py"]
        status, seconds, memory, last = run(program, words, folder)
    print(f"{name:70} {status:3} {seconds:8.2f} s {memory:7.0f} MB  {last}", flush=True)
    return seconds


def counter(program):
    """The command on a counter whose clock a test drives, and Icarus Verilog on it with a clock of its own."""
    tests = HEAD + TEST + f'    cocotb.start_soon(Clock(dut.clk, 10, "step").start())\n    await ClockCycles(dut.clk, {CYCLES})\n'
    ours = measured(program, f"counter: {CYCLES} cycles", ["--budget", "1000000000000"], COUNTER, tests)
    if not shutil.which("iverilog"):
        print("counter: Icarus Verilog isn't installed")
        return
    with tempfile.TemporaryDirectory() as folder:
        bench = f"module bench; reg clk; wire [7:0] q; counter c(clk, q); initial begin clk = 0; repeat ({2 * CYCLES}) #5 clk = ~clk; end endmodule\n"
        Path(folder, "b.v").write_text(COUNTER + bench)
        subprocess.run(["iverilog", "-g2005", "-o", "b", "b.v"], cwd=folder, check=True)
        begin = time.monotonic()
        _, theirs, memory, _ = run(shutil.which("vvp"), ["-n", "b"], folder)
        print(f"{'counter: Icarus Verilog, its clock in Verilog':70}     {theirs:8.2f} s {memory:7.0f} MB  {time.monotonic() - begin:.2f} s by the clock; the command took {ours / max(theirs, 0.01):.1f} times as long")


OWN_CLOCK = "  reg clk;\n  initial clk = 0;\n  always @(clk) clk <= #1 ~clk;\n"
THEIR_CLOCK = "  reg clk;\n  initial clk = 0;\n  always #1 clk = ~clk;\n"


def clocked_designs():
    """Designs by name, each with how many steps it runs; a clock stands before what is given here."""
    yield "counter of 8 bits", 2_000_000, "  reg [7:0] q;\n  initial q = 0;\n  always @(posedge clk) q <= q + 1;\n"
    stages = "".join(f"  reg [31:0] s{n};\n  initial s{n} = {n};\n  always @(posedge clk) s{n} <= s{(n - 1) % 32} + {n + 1};\n" for n in range(32))
    yield "pipeline of 32 adders", 200_000, stages
    rows = "".join(f"  wire [31:0] p{n} = p{n - 1} + (a[{n}] ? b << {n} : 32'd0);\n" for n in range(1, 16))
    feeds = "  reg [15:0] a;\n  reg [31:0] b;\n  initial begin a = 1; b = 3; end\n  always @(posedge clk) begin a <= a * 5 + 7; b <= {16'd0, b[15:0]} + 12345; end\n"
    yield "multiplier array of 16 by 16", 200_000, feeds + "  wire [31:0] p0 = a[0] ? b : 32'd0;\n" + rows
    ram = "  reg [11:0] at;\n  reg [7:0] d, q;\n  reg [7:0] m [0:4095];\n  initial begin at = 0; d = 1; end\n"
    yield "memory of 4,096 words", 1_000_000, ram + "  always @(posedge clk) begin m[at] <= d; q <= m[at]; at <= at + 1; d <= d + 3; end\n"
    labels = "".join(f"    8'b{'?' * n}1{'0' * (7 - n)}: y = {n + 1};\n" for n in range(8))
    yield "casez decoder", 1_000_000, "  reg [7:0] k;\n  reg [3:0] y;\n  initial k = 0;\n  always @(posedge clk) k <= k + 1;\n  always @(k) casez (k)\n" + labels + "    default: y = 0;\n  endcase\n"
    cells = "".join(f"  reg r{n};\n  initial r{n} = 0;\n  always @(posedge clk) r{n} <= {'~' if n == 5_000 else ''}r{n};\n" for n in range(10_000))
    yield "10,000 flip-flops, of which one changes", 400, cells


def waiting_once(steps):
    return HEAD + TEST + f'    await Timer({steps}, "step")\n'


def designs_alone(program):
    """The simulator alone, beside Icarus Verilog on the same design; and what processes cost that have nothing to do."""
    for name, steps, body in clocked_designs():
        begun = measured(program, f"simulator: {name}, opened", [], f"module top;\n{OWN_CLOCK}{body}endmodule\n", waiting_once(1))
        ours = measured(program, f"simulator: {name}, {steps} steps", ["--budget", "1000000000000"], f"module top;\n{OWN_CLOCK}{body}endmodule\n", waiting_once(steps)) - begun
        if shutil.which("iverilog"):
            theirs = icarus(f"module top;\n{THEIR_CLOCK}{body}endmodule\n", steps) - icarus(f"module top;\n{THEIR_CLOCK}{body}endmodule\n", 1)
            print(f"{'':70}     {theirs:8.2f} s by Icarus Verilog; the command took {ours / max(theirs, 0.001):.2f} times as long", flush=True)
    for idle in (16, 32_760):
        cells = "".join(f"  cell c{n}(e);\n" for n in range(idle))
        text = f"module cell(input e);\n  reg r;\n  always @(posedge e) r <= 0;\nendmodule\nmodule top(input e);\n{OWN_CLOCK}  reg [7:0] q;\n  initial q = 0;\n  always @(posedge clk) q <= q + 1;\n{cells}endmodule\n"
        words = ["--top", "top", "--budget", "1000000000000"]
        measured(program, f"simulator: a counter beside {2 * idle} idle processes, opened", words, text, waiting_once(1))
        measured(program, f"simulator: a counter beside {2 * idle} idle processes, 1000000 steps", words, text, waiting_once(1_000_000))
    for signals in (16, 65_500):
        text = f"module top;\n  reg [63:0] m [0:{signals - 1}];\nendmodule\n"
        measured(program, f"simulator: {signals} words of 64 bits, opened", [], text, waiting_once(1))


def icarus(text, steps):
    """The seconds of the processor that Icarus Verilog's simulator takes for so many steps of a design, without its compiler's."""
    with tempfile.TemporaryDirectory() as folder:
        Path(folder, "b.v").write_text(text + f"module bench;\n  top t();\n  initial #{steps} $finish(0);\nendmodule\n")
        subprocess.run(["iverilog", "-g2005", "-s", "bench", "-o", "b", "b.v"], cwd=folder, check=True)
        return run(shutil.which("vvp"), ["-n", "b"], folder)[1]


def main():
    program, wanted = os.path.realpath(sys.argv[1]), sys.argv[2:]
    for name, words, design, tests in measurements():
        if not wanted or any(name.startswith(it) for it in wanted):
            measured(program, name, words, design, tests)
    if not wanted or any("counter".startswith(it) for it in wanted):
        counter(program)
    if not wanted or any("simulator".startswith(it) for it in wanted):
        designs_alone(program)


if __name__ == "__main__":
    main()
