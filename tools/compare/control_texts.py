#!/usr/bin/env python3
"""Compares the model of runs with CPython on texts of tests that are made by chance, of loops, branches, calls, faults, handlers and waits.

    tools/compare/control_texts.py [SEED [COUNT]]            COUNT texts, 100 without it, of the seed, 1 without it
    tools/compare/control_texts.py SEED COUNT > FILE         their rows, in the form that tools/rows/row_texts.py tells

Lines and costs are CPython's, by the stand-in of `tools/rows/control_rows.py`. On standard error it tells how many texts differ, and the first of them; then the
status is 1. A text whose run costs over 3,000 is left out. The texts keep away from where CPython has another meaning on purpose: the texts of faults of
operations, operators on texts, `&`, `|` and `^` of truth values, and numbers past 128 digits.
"""
import random
import sys
from pathlib import Path

ROOT = Path(__file__).resolve().parents[2]
sys.path.insert(0, str(ROOT / "tools"))

from models.tests_profile import breaks
from rows.control_rows import IMPORTS, SMALL, by_cpython
from rows.row_texts import BUDGET, Row, differs, line_of, ran

KINDS = ["ValueError", "TypeError", "IndexError", "RuntimeError", "ZeroDivisionError", "UnboundLocalError", "AssertionError"]
TOLD = ["ValueError", "TypeError", "IndexError", "RuntimeError"]
NAMES = ["a", "b", "c"]
MOST = 3000


class Maker:
    """Makes one text. Loops have few turns, and a function calls only those behind it, so each run ends."""

    def __init__(self, seed):
        self.chance, self.loops, self.told = random.Random(seed), 0, 0

    def value(self):
        pick, name = self.chance.choice, self.chance.choice(NAMES)
        reckoned = f"{name} {pick(['+', '-', '*', '//', '%'])} {self.chance.randint(0, 3)}"
        compared = f"{name} {pick(['==', '<', '>=', '!='])} {self.chance.randint(-2, 5)}"
        return pick([name, str(self.chance.randint(-3, 9)), reckoned, compared, f"not {name}", f"{name} {pick(['and', 'or'])} {pick(NAMES)}"])

    def say(self):
        self.told += 1
        return f'dut._log.info(f"{self.told} {{{self.chance.choice(NAMES)}}}")'

    def simple(self, at, in_loop):
        pick, name = self.chance.choice, self.chance.choice(NAMES)
        changed = f"{name} {pick(['+', '-', '//', '%'])}= {self.value()}"
        forms = [self.say(), self.say(), f"{name} = {self.value()}", changed, "pass", f"assert {self.value()}",
                 f"raise {pick(KINDS)}", f'raise {pick(TOLD)}(f"{{{name}}}")', f"return {self.value()}", f'await Timer({self.chance.randint(1, 3)}, "step")']
        forms += forms[:5] * 2
        if in_loop:
            forms += ["break", "continue"]
        if at < 2:
            forms += [f"{name} = await f{at + 1}(dut, {self.value()}, {self.value()})", f"await f{at + 1}(dut, b={self.value()}, a={self.value()})"] * 2
        return [pick(forms)]

    def block(self, at, depth, in_loop):
        lines = []
        for _ in range(self.chance.randint(1, 4)):
            is_compound = depth < 3 and self.chance.random() < 0.45
            lines += self.compound(at, depth, in_loop) if is_compound else self.simple(at, in_loop)
        return ["    " + line for line in lines]

    def compound(self, at, depth, in_loop):
        form = self.chance.choice(["if", "for", "list", "while", "try", "try"])
        inner = lambda loop=in_loop: self.block(at, depth + 1, loop)
        if form == "if":
            lines = [f"if {self.value()}:", *inner()]
            for _ in range(self.chance.randint(0, 2)):
                lines += [f"elif {self.value()}:", *inner()]
            return lines + (["else:", *inner()] if self.chance.random() < 0.5 else [])
        if form == "for":
            bounds = ", ".join(str(self.chance.randint(-3, 4)) for _ in range(self.chance.randint(1, 3)))
            return [f"for {self.chance.choice(NAMES)} in range({bounds}):", *inner(True)]
        if form == "list":
            return [f"for {self.chance.choice(NAMES)} in [1, None, -2, True]:", *inner(True)]
        if form == "while":
            self.loops += 1
            return [f"n{self.loops} = {self.chance.randint(0, 3)}", f"while n{self.loops}:", f"    n{self.loops} -= 1", *inner(True)]
        lines = ["try:", *inner()]
        for _ in range(self.chance.randint(1, 2)):
            lines += [self.handler(), *inner()]
        return lines

    def handler(self):
        pick = self.chance.choice
        return pick([f"except {pick(KINDS)}:", f"except {pick(KINDS)} as e:", f"except ({pick(KINDS)}, {pick(KINDS)}):", "except Exception as e:"])

    def opening(self, value):
        """Most functions give `c` a value before they use it."""
        return [f"    c = {value}"] if self.chance.random() < 0.85 else []

    def text(self):
        lines = []
        for at in (2, 1):
            lines += ["", f"async def f{at}(dut, a, b=2):", *self.opening("a"), *self.block(at, 1, False), "    c = 3"]
        lines += ["", "@cocotb.test()", "async def t(dut):", "    a = 1", "    b = 0", *self.opening(2)]
        lines += [*self.block(0, 0, False), *self.block(0, 0, False), "    c = 3"]
        return IMPORTS + "\n".join(lines) + "\n"


def row_of(seed, at):
    tests = Maker(f"{seed} {at}").text()
    lines, cost = by_cpython(tests, MOST)
    return None if lines[-1].startswith("BUDGET") else Row(f"text {at} of seed {seed}", tests, lines, None, cost, SMALL, BUDGET)


def main(words):
    seed, count = (*map(int, words), 1, 100)[:2] if len(words) == 2 else (int(words[0]) if words else 1, 100)
    total, wrong = 0, 0
    for at in range(count):
        row = row_of(seed, at)
        if row is None:
            continue
        run = ran(row)
        told = [*differs(row, run), *breaks(row.tests)]
        total, wrong = total + 1, wrong + bool(told)
        if told and wrong == 1:
            print(row.tests, *told, sep="\n", file=sys.stderr)
        if not sys.stdout.isatty() and len(words) == 2 and not told:
            print(line_of(row, run))
    print(f"{total} texts, {wrong} differ", file=sys.stderr)
    return 1 if wrong or not total else 0


if __name__ == "__main__":
    sys.exit(main(sys.argv[1:]))
