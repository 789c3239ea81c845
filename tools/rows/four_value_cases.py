#!/usr/bin/env python3
"""Makes the table of cases that the part `vectors` of the program value_tests compares with the crate four_value.

Usage: tools/rows/four_value_cases.py > crates/value_tests/data/cases.txt

It draws operands, writes a Verilog module that applies each operator to them, and has Icarus Verilog (the commands
`iverilog` and `vvp`) print the rows. So every answer in the table is Icarus's. The draws are fixed by a seed. The gate
reads the table alone and needs neither this script nor Icarus.

A row is the name of a call, its operands and Icarus's answer, with single spaces between. A vector is written as `%b`
prints it, the most significant digit first; widths, places and numbers are decimal; `none` stands for the letter that
`%0d` prints where a digit is x or z; an edge is `posedge`, `negedge` or `neither`.

One kind of operands is left out. Where both branches of `?:` have a z at a place and the condition is unknown, Icarus
answers z; the table of clause 5.1.13 of IEEE 1364-2005 has x there.
"""

import random
import subprocess
import sys
import tempfile
from pathlib import Path

ROWS_OF_A_CALL = 84
WIDTHS_AT_LIMITS = [1, 2, 31, 32, 33, 63, 64, 65, 127, 128]

draw = random.Random(1364)


def width(most=128):
    kind = draw.randrange(10)
    if kind < 5:
        return draw.randint(1, min(most, 16))
    if kind < 8:
        return min(most, draw.choice(WIDTHS_AT_LIMITS))
    return draw.randint(1, most)


def known(n):
    """n digits, each 0 or 1; now and then a small number, all 0 or all 1."""
    kind = draw.randrange(8)
    if kind == 0:
        return "0" * n
    if kind == 1:
        return "1" * n
    if kind == 2:
        return format(draw.randrange(1, 8), "b").rjust(n, "0")[-n:]
    return "".join(draw.choice("01") for _ in range(n))


def sprinkled(n):
    """n digits, of which one or two are x or z."""
    digits = list(known(n))
    for _ in range(draw.randint(1, 2)):
        digits[draw.randrange(n)] = draw.choice("xz")
    return "".join(digits)


def mixed(n):
    return "".join(draw.choice("01xz") for _ in range(n))


def near(digits):
    """The same digits, of which none, one or two are drawn anew."""
    changed = list(digits)
    for _ in range(draw.randrange(3)):
        changed[draw.randrange(len(changed))] = draw.choice("01xz")
    return "".join(changed)


def nearly_equal(n):
    """n digits that are all 0 or all 1 but for two at most."""
    return near(draw.choice("01") * n)


def vector(n):
    return draw.choice([known, sprinkled, mixed, nearly_equal])(n)


def mostly_known(n):
    return draw.choice([known, known, known, sprinkled])(n)


def divisor(n):
    """n digits of a number that is shorter by any number of digits; now and then 0."""
    return mostly_known(draw.randint(1, n)).rjust(n, "0")


def shift_count(shifted_width):
    """A count of any width: mostly a small one, at times one past 2^32 or 2^64, or with an x or z."""
    kind = draw.randrange(10)
    if kind == 0:
        return sprinkled(width())
    if kind == 1:
        return format(draw.choice([1 << 32, 1 << 64, 1 << 127]) + draw.randrange(4), "0128b")
    if kind == 2:
        return known(width())
    n = draw.randrange(0, shifted_width + 3)
    digits = format(n, "b")
    return digits.rjust(draw.randint(len(digits), 12), "0")


class Module:
    """Verilog text: the registers of each row and the statements that print it."""

    def __init__(self):
        self.declarations = []
        self.statements = []
        self.count = 0

    def register(self, digits):
        name = f"v{self.count}"
        self.count += 1
        self.declarations.append(f"reg [{len(digits) - 1}:0] {name};")
        self.assign(name, f"{len(digits)}'b{digits}")
        return name

    def display(self, text, *values):
        self.statements.append(f'$display("{text}"{"".join(", " + value for value in values)});')

    def assign(self, target, value):
        self.statements.append(f"{target} = {value};")

    def text(self):
        return "\n".join(
            ["module cases;", "reg signal, rose, fell, unknown;"]
            + self.declarations
            + ["always @(posedge signal) rose = 1;", "always @(negedge signal) fell = 1;", "initial begin", "unknown = 1'bx;"]
            + self.statements
            + ["end", "endmodule", ""]
        )


BINARY = {"and": "&", "or": "|", "xor": "^", "add": "+", "sub": "-", "mul": "*", "div": "/", "rem": "%"}
COMPARISONS = {"lt": "<", "eq": "==", "case_eq": "==="}
UNARY = {"not": "~", "reduce_and": "&", "reduce_or": "|", "reduce_xor": "^"}
SHIFTS = {"shl": "<<", "shr": ">>"}


def makers(m):
    for digit in "01xz":
        for n in sorted(set(WIDTHS_AT_LIMITS + [draw.randint(1, 128) for _ in range(6)])):
            v = m.register("0" * n)
            m.assign(v, f"{{{n}{{1'b{digit}}}}}")
            m.display(f"all {n} {digit} %b", v)
    for _ in range(ROWS_OF_A_CALL):
        n = width()
        v, number = m.register("0" * n), m.register(known(draw.choice([n, 128])))
        m.assign(v, number)
        m.display(f"from_number {n} %0d %b", number, v)


def readers(m):
    for _ in range(ROWS_OF_A_CALL):
        n = width()
        a = m.register(vector(n))
        place = draw.randrange(n)
        at = m.register(format(place, "08b"))
        m.display(f"digit %b {place} %b", a, f"{a}[{at}]")
        digit = draw.choice("01xz")
        written = m.register("0" * n)
        m.assign(written, a)
        m.assign(f"{written}[{at}]", f"1'b{digit}")
        m.display(f"with_digit %b {place} {digit} %b", a, written)
        m.display("to_number %b %0d", *[m.register(mostly_known(n))] * 2)
        m.display("text %b %b", a, a)
    for n in WIDTHS_AT_LIMITS + [width() for _ in range(10)]:
        a = m.register(vector(n))
        m.display("width %b %0d", a, f"$bits({a})")


def operators(m):
    for name, operator in BINARY.items():
        drawn = vector if name in ("and", "or", "xor") else mostly_known
        for _ in range(ROWS_OF_A_CALL):
            n = width()
            a, b = m.register(drawn(n)), m.register((divisor if name in ("div", "rem") else drawn)(n))
            m.display(f"{name} %b %b %b", a, b, f"{a} {operator} {b}")
    for name, operator in COMPARISONS.items():
        for _ in range(ROWS_OF_A_CALL):
            digits = vector(width()) if name == "case_eq" else mostly_known(width())
            others = near(digits) if name != "lt" or draw.randrange(2) else mostly_known(len(digits))
            a, b = m.register(digits), m.register(others)
            m.display(f"{name} %b %b %b", a, b, f"{a} {operator} {b}")
    for name, operator in UNARY.items():
        for _ in range(ROWS_OF_A_CALL):
            a = m.register(vector(width()))
            m.display(f"{name} %b %b", a, f"{operator}{a}")
    for name, operator in SHIFTS.items():
        for _ in range(ROWS_OF_A_CALL):
            digits = vector(width())
            a, b = m.register(digits), m.register(shift_count(len(digits)))
            m.display(f"{name} %b %b %b", a, b, f"{a} {operator} {b}")


def branches():
    """Two vectors of one width without a z at one place of both."""
    first = vector(width())
    second = near(first) if draw.randrange(2) else vector(len(first))
    apart = "".join(draw.choice("01x") if a == b == "z" else b for a, b in zip(first, second))
    return first, apart


def parts(m):
    for _ in range(ROWS_OF_A_CALL):
        a, b = [m.register(digits) for digits in branches()]
        m.display("merge %b %b %b", a, b, f"unknown ? {a} : {b}")
        n = width(127)
        a, b = m.register(vector(n)), m.register(vector(width(128 - n)))
        m.display("concat %b %b %b", a, b, f"{{{a}, {b}}}")
        n = width()
        part = draw.randint(1, n)
        low = draw.randint(0, n - part)
        a, at = m.register(vector(n)), m.register(format(low, "08b"))
        m.display(f"slice %b {low} {part} %b", a, f"{a}[{at} +: {part}]")
        n = width()
        a, b = m.register(vector(width())), m.register("0" * n)
        m.assign(b, a)
        m.display(f"resize %b {n} %b", a, b)


def edges(m):
    for old in "01xz":
        for new in "01xz":
            m.statements.append(f"signal = 1'b{old}; #1; rose = 0; fell = 0; signal = 1'b{new}; #1;")
            word = 'rose ? "posedge" : fell ? "negedge" : "neither"'
            m.display(f"edge {old} {new} %0s", word)


def icarus(text):
    with tempfile.TemporaryDirectory() as folder:
        source, program = Path(folder, "cases.v"), Path(folder, "cases.vvp")
        source.write_text(text)
        subprocess.run(["iverilog", "-g2005", "-o", program, source], check=True)
        return subprocess.run(["vvp", "-n", program], check=True, stdout=subprocess.PIPE, text=True).stdout


def as_row(line):
    name, *fields = line.split()
    if name == "to_number" and not fields[-1].isdecimal():
        fields[-1] = "none"
    return " ".join([name, *fields])


def main():
    m = Module()
    for write in (makers, readers, operators, parts, edges):
        write(m)
    rows = [as_row(line) for line in icarus(m.text()).splitlines()]
    version = subprocess.run(["iverilog", "-V"], stdout=subprocess.PIPE, stderr=subprocess.DEVNULL, text=True).stdout
    name = " ".join(version.split()[:4])
    print(f"# Written by tools/rows/four_value_cases.py, with the answers of {name}.")
    print("\n".join(rows))
    print(f"{len(rows)} rows", file=sys.stderr)


if __name__ == "__main__":
    main()
