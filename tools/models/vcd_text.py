#!/usr/bin/env python3
"""A model of the VCD texts of runs (IEEE 1364-2005, clause 18, four-state), and of a reader of them.

    tools/models/vcd_text.py [--top NAME] [--budget N] [--seed N] DESIGN TESTS    writes the VCD text of a run of `tools/models/run_model.py`
    tools/models/vcd_text.py --read FILE    tells the changes of a VCD text, or the first line that isn't one of such a text

It is written from the rules of `crates/vcd_text/README.md` apart from the definitions and the code of the crate.
"""
import argparse
import re
import sys
from collections import namedtuple
from pathlib import Path

ROOT = Path(__file__).resolve().parents[2]
sys.path.insert(0, str(ROOT / "tools"))

from models.run_model import model
from models.verilog_model import flat_of

UNITS = [("s", 10**15), ("ms", 10**12), ("us", 10**9), ("ns", 10**6), ("ps", 10**3), ("fs", 1)]
STEPS = {f"{count} {unit}": count * length for unit, length in UNITS for count in (1, 10, 100)}
NAME = "[A-Za-z_][A-Za-z0-9_$]*"
MOST_SIGNALS, MOST_NODES, MOST_INNER, MOST_WIDTH = 65536, 65536, 64, 128

Change = namedtuple("Change", "time path digits")


class BadLine(Exception):
    """A line, by its number from 1, that no VCD text has there."""

    def __init__(self, line):
        super().__init__(f"BadLine({line})")
        self.line = line


# ---- writing

def code(signal):
    """A number in base 94, the lowest digit first, each as the byte 33 on from it."""
    text = chr(33 + signal % 94)
    return text if signal < 94 else text + code(signal // 94)


def number_of(text):
    """The signal of a code; none where a highest digit of it is 0 and could go."""
    if not text or any(not 33 <= ord(letter) <= 126 for letter in text) or len(text) > 1 and text[-1] == "!":
        return None
    return sum((ord(letter) - 33) * 94**place for place, letter in enumerate(text))


def value(digits, signal):
    return f"{digits}{code(signal)}" if len(digits) == 1 else f"b{digits} {code(signal)}"


def declared(node, signals):
    """The lines of an instance: its signals, and then its instances."""
    yield f"$scope module {node.path.rsplit('.', 1)[-1]} $end"
    for name, child in node.children.items():
        if child[0] == "signal":
            signal = signals[child[1]]
            kind, bounds = "reg" if signal.start[0] == "x" else "wire", f" [{signal.width - 1}:0]" if signal.width > 1 else ""
            yield f"$var {kind} {signal.width} {code(child[1])} {name}{bounds} $end"
    for child in node.children.values():
        if child[0] == "inner":
            yield from declared(child[1], signals)
    yield "$upscope $end"


def traced(node):
    """The numbers of the signals that are no words of memories, by path."""
    for name, child in node.children.items():
        if child[0] == "signal":
            yield f"{node.path}.{name}", child[1]
        if child[0] == "inner":
            yield from traced(child[1])


def vcd(flat, lines):
    """The VCD text of a run on that design, by its lines with a trace."""
    numbers = dict(traced(flat.top))
    step = next(text for text, length in STEPS.items() if length == flat.step)
    out = [f"$timescale {step} $end", *declared(flat.top, flat.signals), "$enddefinitions $end", "#0", "$dumpvars"]
    out += [value(flat.signals[number].start, number) for number in sorted(numbers.values())]
    out.append("$end")
    last = 0
    for line in lines:
        found = re.fullmatch(r"(\d+) SIG (\S+) ([01xz]+)", line)
        if found and found[2] in numbers:
            time, number = int(found[1]), numbers[found[2]]
            out += [f"#{time}"] if time != last else []
            out.append(value(found[3], number))
            last = time
    return "".join(f"{line}\n" for line in out)


# ---- reading

Declared = namedtuple("Declared", "path width start")


class Reader:
    """What is known of a text behind some of its lines. `awaits` is the part of the text that the next line is of."""

    def __init__(self):
        self.awaits, self.open, self.names, self.nodes = "step", [], [], 0
        self.signals, self.inner_begun = {}, []
        self.opening, self.last, self.timed, self.changes = [], 0, False, []

    def take(self, line):
        """Whether the next line may be this one, which is then taken."""
        return getattr(self, f"take_{self.awaits}")(line)

    def take_step(self, line):
        found = re.fullmatch(r"\$timescale (\d+ \w+) \$end", line)
        self.awaits = "declaration"
        return bool(found) and found[1] in STEPS

    def take_declaration(self, line):
        if not self.open:
            return self.begin_scope(line) if not self.nodes else self.end_declarations(line)
        return self.begin_scope(line) or self.declare(line) or self.end_scope(line)

    def begin_scope(self, line):
        found = re.fullmatch(rf"\$scope module ({NAME}) \$end", line)
        if not found or len(self.open) > MOST_INNER or self.nodes == MOST_NODES or self.open and found[1] in self.names[-1]:
            return False
        if self.open:
            self.names[-1].add(found[1])
            self.inner_begun[-1] = True
        self.open.append(found[1])
        self.names.append(set())
        self.inner_begun.append(False)
        self.nodes += 1
        return True

    def declare(self, line):
        found = re.fullmatch(rf"\$var (wire|reg) ([1-9]\d*) (\S+) ({NAME})(?: \[(\d+):0\])? \$end", line)
        if not found or self.inner_begun[-1] or found[4] in self.names[-1]:
            return False
        width, number = int(found[2]), number_of(found[3])
        if width > MOST_WIDTH or found[5] != (str(width - 1) if width > 1 else None):
            return False
        if number is None or not max(self.signals, default=-1) < number < MOST_SIGNALS:
            return False
        self.names[-1].add(found[4])
        self.signals[number] = Declared(".".join([*self.open, found[4]]), width, "x" if found[1] == "reg" else "z")
        return True

    def end_scope(self, line):
        if line != "$upscope $end":
            return False
        self.open.pop(), self.names.pop(), self.inner_begun.pop()
        return True

    def end_declarations(self, line):
        self.awaits, self.opening = "start", sorted(self.signals)
        return line == "$enddefinitions $end"

    def take_start(self, line):
        self.awaits = "dump"
        return line == "#0"

    def take_dump(self, line):
        self.awaits = "opening"
        return line == "$dumpvars"

    def take_opening(self, line):
        if self.opening:
            number = self.opening.pop(0)
            return line == value(self.signals[number].start * self.signals[number].width, number)
        self.awaits = "change"
        return line == "$end"

    def take_change(self, line):
        return self.take_time(line) or self.take_value(line)

    def take_time(self, line):
        found = re.fullmatch(r"#(0|[1-9]\d*)", line)
        if not found or self.timed or not self.signals or not self.last < int(found[1]) < 2**64:
            return False
        self.last, self.timed = int(found[1]), True
        return True

    def take_value(self, line):
        found = re.fullmatch(r"([01xz])(\S+)|b([01xz]{2,}) (\S+)", line)
        number = number_of(found[2] or found[4]) if found else None
        digits = found and (found[1] or found[3])
        if number not in self.signals or len(digits) != self.signals[number].width:
            return False
        self.changes.append(Change(self.last, self.signals[number].path, digits))
        self.timed = False
        return True


def read(text):
    """The changes of a text; a BadLine where it isn't one that `vcd` gives."""
    lines = text.split("\n")
    reader = Reader()
    for number, line in enumerate(lines[:-1], 1):
        if not reader.take(line):
            raise BadLine(number)
    if lines[-1] or reader.awaits != "change" or reader.timed:
        raise BadLine(max(1, len(lines) - (lines[-1] == "")))
    return reader.changes


def main():
    words = argparse.ArgumentParser(description=__doc__.splitlines()[0])
    words.add_argument("--top")
    words.add_argument("--budget", type=int, default=10_000_000)
    words.add_argument("--seed", type=int, default=0)
    words.add_argument("--read", action="store_true")
    words.add_argument("files", nargs="+")
    given = words.parse_args()
    if given.read:
        try:
            for change in read(Path(given.files[0]).read_bytes().decode("latin-1")):
                print(*change)
        except BadLine as bad:
            print(bad)
            return 1
        return 0
    texts = [Path(name).read_text(encoding="latin-1") for name in given.files]
    run = model(*texts, given.budget, given.seed, True, given.top)
    sys.stdout.write(vcd(flat_of(texts[0], given.top), run.lines))
    return 0


if __name__ == "__main__":
    sys.exit(main())
