#!/usr/bin/env python3
"""Makes what the part `elaboration` of the program `design_tests` is run on, and what it must print.

    tools/rows/elaboration_rows.py          writes the part's rows of crates/design_tests/stdin and crates/design_tests/stdout

Both are made of the two tables of `tools/data` and of nothing else, so no expected answer comes from the program. The heads of
`tools/rows/elaboration_rules.py` and `tools/rows/elaboration_values.py` tell how those are made, and what their parts are.

A line of `stdin` is, behind the part's name, a row without its answer and without the parts that only explain it, with a tab between two parts:

    rule    name  top  text
    KIND    name  top  text  stimulus                   where KIND is `expression`, `body` or `hierarchy`

and the same line of `stdout` is the row's name, `: `, and

    `accepted`, or the rule and the byte at which it is told
    the paths of the signals, and behind `; ` the values after each step
"""
import sys
from pathlib import Path

ROOT = Path(__file__).resolve().parents[2]
sys.path.insert(0, str(ROOT / "tools"))

from rows.part_rows import put

TABLES = ROOT / "tools" / "data"


def rows(table):
    """The parts of a table's rows."""
    lines = (TABLES / table).read_text(encoding="ascii").splitlines()
    return [line.split("\t") for line in lines if not line.startswith("#")]


def rule(row):
    """What is asked by a row of the rules, and its answer; the text has its unit as often as the row says."""
    name, top, front, unit, count, behind, answer, *_ = row
    return ["rule", name, top, front + unit * int(count) + behind], f"{name}: {answer}"


def values(row):
    """What is asked by a row of the values, and its answer."""
    kind, name, top, text, signals, stimulus, shown, _ = row
    steps = "".join("; " + step for step in shown.split("|"))
    return [kind, name, top, text, stimulus], f"{name}: {signals}{steps}"


def main():
    answered = [*map(rule, rows("elaboration_rules.txt")), *map(values, rows("elaboration_values.txt"))]
    put("design_tests", "elaboration", *zip(*answered))
    print(f"{len(answered)} rows")
    return 0


if __name__ == "__main__":
    sys.exit(main())
