#!/usr/bin/env python3
"""Drives the plain and the fast simulator through random designs with the same calls, and fails where their answers differ.

    tools/compare/kernel_runs.py [--designs N] [--calls N] [--seed N]

It makes N designs (2,000) and for each N calls (500): keys that are registered and removed, deposits, forces, releases, reads and events. The program
beside it, `kernel_runs_main.txt`, is built over the modules of `edge_tests` by `rt try`, with no proof. It needs `rt`; 100 designs with 300 calls each
take two minutes of the processor, and as much longer as there are more.
"""
import argparse
import random
import shutil
import subprocess
import sys
import tempfile
from pathlib import Path

ROOT = Path(__file__).resolve().parents[2]
HERE = Path(__file__).resolve().parent


class Design:
    """A random module: its text, and how many signals it has."""

    def __init__(self, rng):
        self.rng = rng
        self.widths = {}
        self.regs, self.nets, self.inputs, self.memories = [], [], [], []
        ports, lines = [], []
        for k in range(rng.randint(1, 3)):
            self.inputs.append(self.named(f"i{k}", 1 if k == 0 else rng.choice((1, 1, 4, 8, 33))))
            ports.append(f"input {self.range_of(f'i{k}')}i{k}")
        for k in range(rng.randint(1, 4)):
            self.regs.append(self.named(f"r{k}", rng.choice((1, 1, 3, 8, 16, 64))))
            lines.append(f"  reg {self.range_of(f'r{k}')}r{k};")
        if rng.random() < 0.4:
            self.memories.append(("m", 8, 4))
            lines.append("  reg [7:0] m [0:3];")
        for k in range(rng.randint(0, 3)):
            self.nets.append(self.named(f"w{k}", rng.choice((1, 2, 8, 40))))
            lines.append(f"  wire {self.range_of(f'w{k}')}w{k};")
        self.readable = self.inputs + self.regs
        for net in self.nets:
            lines.append(f"  assign {net} = {self.expression(2)};")
            self.readable.append(net)
        for _ in range(rng.randint(1, 4)):
            lines.append(self.process())
        if rng.random() < 0.5:
            lines.append(f"  initial begin {' '.join(self.assignment() for _ in range(rng.randint(1, 3)))} end")
        self.text = f"module top({', '.join(ports)});\n" + "\n".join(lines) + "\nendmodule\n"
        self.signals = len(self.widths) + sum(count for _, _, count in self.memories)

    def named(self, name, width):
        self.widths[name] = width
        return name

    def range_of(self, name):
        width = self.widths[name]
        return "" if width == 1 else f"[{width - 1}:0] "

    def operand(self):
        rng = self.rng
        name = rng.choice(self.readable)
        width = self.widths[name]
        kind = rng.random()
        if kind < 0.15:
            return rng.choice(("1'b1", "4'b10x1", "8'hz3", "3", "8'd200", "1'bx", "16'hffff"))
        if kind < 0.3 and width > 1:
            return f"{name}[{rng.choice(self.readable)}]"
        if kind < 0.4 and width > 2:
            low = rng.randint(0, width - 2)
            return f"{name}[{rng.randint(low, width - 1)}:{low}]"
        if kind < 0.5 and self.memories:
            return f"m[{rng.choice(self.readable)}]"
        return name

    def expression(self, depth):
        rng = self.rng
        if depth == 0 or rng.random() < 0.2:
            return self.operand()
        one, other = self.expression(depth - 1), self.expression(depth - 1)
        kind = rng.random()
        if kind < 0.55:
            return f"({one} {rng.choice(('+', '-', '*', '&', '|', '^', '==', '!=', '<', '>=', '&&', '||', '<<', '>>', '===', '/', '%'))} {other})"
        if kind < 0.7:
            return f"({rng.choice('~!-&|^')}{one})"
        if kind < 0.85:
            return f"({one} ? {other} : {self.operand()})"
        return "{" + f"{self.operand()}, {self.operand()}" + "}"

    def target(self):
        rng = self.rng
        name = rng.choice(self.regs)
        width = self.widths[name]
        kind = rng.random()
        if kind < 0.2 and width > 1:
            return f"{name}[{rng.choice(self.readable)}]"
        if kind < 0.3 and width > 2:
            low = rng.randint(0, width - 2)
            return f"{name}[{rng.randint(low, width - 1)}:{low}]"
        if kind < 0.45 and self.memories:
            return f"m[{rng.choice(self.readable)}]"
        if kind < 0.55:
            return "{" + ", ".join(rng.choice(self.regs) for _ in range(2)) + "}"
        return name

    def assignment(self, blocking=None):
        rng = self.rng
        blocking = rng.random() < 0.5 if blocking is None else blocking
        if blocking:
            return f"{self.target()} = {self.expression(2)};"
        delay = f"#{rng.randint(1, 4)} " if rng.random() < 0.25 else ""
        return f"{self.target()} <= {delay}{self.expression(2)};"

    def statement(self, depth):
        rng = self.rng
        kind = rng.random()
        if depth == 0 or kind < 0.5:
            return self.assignment()
        if kind < 0.75:
            other = f" else {self.statement(depth - 1)}" if rng.random() < 0.5 else ""
            return f"if ({self.expression(1)}) begin {self.statement(depth - 1)} end{other}"
        if kind < 0.9:
            word = rng.choice(("case", "casez", "casex"))
            items = " ".join(f"{rng.choice(('0', '1', '2', '4`b1z0x', '3'))}: {self.statement(depth - 1)}".replace("`", "'") for _ in range(2))
            return f"{word} ({self.expression(1)}) {items} default: {self.statement(depth - 1)} endcase"
        return f"begin {self.statement(depth - 1)} {self.statement(depth - 1)} end"

    def process(self):
        rng = self.rng
        kind = rng.random()
        if kind < 0.5:
            waits = f"{rng.choice(('posedge', 'negedge'))} {rng.choice(self.readable)}"
            if rng.random() < 0.3:
                waits += f" or {rng.choice(('posedge ', 'negedge ', ''))}{rng.choice(self.readable)}"
        elif kind < 0.7:
            waits = "*"
        else:
            waits = " or ".join(rng.sample(self.readable, min(2, len(self.readable))))
        return f"  always @({waits}) {self.statement(2)}" if waits != "*" else f"  always @* {self.statement(2)}"


def call(rng, signals):
    """A call, as a row of the simulator's part has it."""
    kind = rng.random()
    sig = rng.randrange(signals)
    key = rng.choice((f"at\t{rng.randint(0, 60)}", f"rise\t{sig}", f"fall\t{sig}", f"change\t{sig}", "read_write\t0", "read_only\t0", "next_step\t0"))
    if kind < 0.2:
        return f"register\t-\t{key}"
    if kind < 0.25:
        return f"remove\t-\t{key}"
    if kind < 0.45:
        return f"deposit\t-\t{sig}\t{rng.getrandbits(rng.choice((1, 8, 60)))}"
    if kind < 0.5:
        return f"force\t-\t{sig}\t{rng.getrandbits(8)}"
    if kind < 0.56:
        return f"release\t-\t{sig}"
    if kind < 0.6:
        return f"read\t-\t{sig}"
    return "advance\t-"


def rows(designs, calls, seed):
    rng = random.Random(seed)
    for _ in range(designs):
        design = Design(rng)
        escaped = "".join(f"\\{ord(c):02x}" if c in "\\\n\t" else c for c in design.text)
        yield f"text\t{escaped}"
        for _ in range(calls):
            yield f"kernel\t{call(rng, design.signals)}"


def built(folder):
    """A checkout in which `edge_tests` is the program beside this script."""
    for name in ("crates", "crates.txt", "HANDLES"):
        source, target = ROOT / name, folder / name
        if source.is_dir():
            shutil.copytree(source, target, ignore=shutil.ignore_patterns("out", "must-fail", "wrong-bodies"))
        else:
            shutil.copy(source, target)
    crate = folder / "crates" / "edge_tests"
    shutil.copy(HERE / "kernel_runs_main.txt", crate / "src" / "main.rt")
    (crate / "src" / "port.rt").unlink()
    shutil.rmtree(crate / "src" / "port")
    module = crate / "src" / "kernel.rt"
    text = module.read_text(encoding="utf-8")
    module.write_text(text.replace("pub use booked::Book;", "pub use booked::{Book, take_design};"), encoding="utf-8")
    lines = (folder / "crates.txt").read_text(encoding="utf-8").splitlines()
    below = next(line for line in lines if line.startswith("design_tests:")).partition(":")[2]
    lines = [f"edge_tests:{below}" if line.startswith("edge_tests:") else line for line in lines]
    (folder / "crates.txt").write_text("\n".join(lines) + "\n", encoding="utf-8")
    return crate


def main():
    words = argparse.ArgumentParser(description=__doc__.split("\n", maxsplit=1)[0])
    words.add_argument("--designs", type=int, default=2000)
    words.add_argument("--calls", type=int, default=500)
    words.add_argument("--seed", type=int, default=1)
    given = words.parse_args()
    with tempfile.TemporaryDirectory() as name:
        folder = Path(name)
        crate = built(folder)
        cases = folder / "cases"
        cases.mkdir()
        piece = 25
        for number in range(0, given.designs, piece):
            text = "\n".join(rows(min(piece, given.designs - number), given.calls, given.seed * 1_000_003 + number))
            (cases / f"{number:05}").write_text(text + "\n", encoding="ascii")
        run = subprocess.run(["rt", "try", "--cases", str(cases), "--seconds", "600"], cwd=crate, stdout=subprocess.PIPE, stderr=subprocess.STDOUT, text=True, check=False)
        told = [line for line in run.stdout.splitlines() if "no difference" in line]
        wrong = (given.designs + piece - 1) // piece - len(told)
        if wrong:
            print(run.stdout[-4000:])
        print(f"{given.designs} designs, {given.calls} calls of each: {wrong} pieces differ or failed")
        return 1 if wrong else 0


if __name__ == "__main__":
    sys.exit(main())
