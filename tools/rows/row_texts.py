"""The rows that `tools/rows/run_rows.py` and `tools/rows/control_rows.py` write: their texts in a short form, and the lines of a table.

In the short form a `;` ends a line and the lines of a block stand between `{` and `}`, where neither stands between quotes. A tests file is a
header, functions, and tests; `test(..)` is one of them.

A line of a table that begins with `#` is no row. A row has these parts, with a tab between two of them, where `\\0a` is a line feed, and so with
each byte that isn't printed, and with `\\` itself:

    0 asked    `run`, or `trace` where the changes of signals are told
    1 rule     what the row shows
    2 budget
    3 design   the text
    4 tests    the text
    5 answer   the status, `primed=`, `removed=` and `fired=` with the counts of keys at the end, and the lines between quotes
    6 cost     of the whole run
    7 keys     the keys that are awaited after each turn but the last of a test, with `|` between two turns; in the table of kills alone

The seed of random numbers is 0. `tools/rows/runner_rows.py` makes rows of crates/runner_tests of them.
"""
import re
from collections import namedtuple
from pathlib import Path

from models.run_model import counts, model

DATA = Path(__file__).resolve().parent.parent / "data"
BUDGET = 10_000_000

HEADER = """import cocotb
from cocotb.triggers import Combine, Edge, Event, First, Join, Lock, ReadOnly, RisingEdge, Timer, TriggerException, with_timeout
from cocotb.result import SimTimeoutError
"""
MORE = """from cocotb.triggers import ClockCycles, FallingEdge, NextTimeStep, ReadWrite
from cocotb.clock import Clock
"""
DESIGN = "module top(input clk, input [7:0] a, output reg [7:0] q);\n  always @(posedge clk) q <= a;\nendmodule\n"
SMALL = "module top(input a);\nendmodule\n"

# lines: what the run writes; counts: (primed, removed, fired) or None; cost: or None; keys: are they shown?
Row = namedtuple("Row", "rule tests lines counts cost design budget trace keys", defaults=(None, None, DESIGN, BUDGET, False, False))


def written(short, depth):
    """The lines of a text in the short form, from a depth on."""
    lines, quote, piece = [], "", ""

    def end():
        nonlocal piece
        if piece.strip():
            lines.append("    " * depth + piece.strip())
        piece = ""
    for byte in short:
        if quote or byte not in ";{}":
            piece += byte
            quote = "" if byte == quote else quote or (byte if byte in "'\"" else "")
            continue
        end()
        depth += {"{": 1, "}": -1, ";": 0}[byte]
    end()
    return "\n".join(lines) + "\n"


def function(head, body):
    return f"\nasync def {head}:\n" + written(body, 1)


def test(body, name="t", options=""):
    return f"\n@cocotb.test({options})" + function(f"{name}(dut)", body)


def report(total, passed, failed, skipped, time):
    return f"** TESTS={total} PASS={passed} FAIL={failed} SKIP={skipped} TIME={time} **"


def passing(time, *lines):
    """The lines of a run of one test `t` that passes."""
    return ["0 TEST t", *lines, f"{time} PASS t", report(1, 1, 0, 0, time)]


def failing(time, reason, *lines):
    return ["0 TEST t", *lines, f"{time} FAIL t ({reason})", report(1, 0, 1, 0, time)]


def escaped(text):
    return re.sub(r"[^ -\[\]-~]", lambda byte: f"\\{ord(byte[0]):02x}", text)


def ran(row):
    return model(row.design, row.tests, row.budget, trace=row.trace)


def answer_of(run, is_counted=True):
    primed, removed, fired = counts(run)
    lines = escaped("".join(line + "\n" for line in run.lines))
    told = f" primed={primed} removed={removed} fired={fired}" if is_counted else ""
    return f'{run.status}{told} "{lines}"'


def line_of(row, run):
    answer = answer_of(run)
    parts = ["trace" if row.trace else "run", row.rule, str(row.budget), escaped(row.design), escaped(row.tests), answer, str(run.spent)]
    return "\t".join(parts + (["|".join(keys_text(run, keys) for keys in run.watched)] if row.keys else []))


def keys_text(run, keys):
    """Keys by their kinds, with a time or the path of a signal."""
    shown = [f"{kind}({what[0] if kind == 'At' else run.flat.signals[what[0]].path})" if what else kind for kind, *what in keys]
    return " ".join(shown) or "-"


def differs(row, run):
    """What the row wants and the run hasn't, as texts."""
    found = []
    if row.lines is not None and run.lines != row.lines:
        found.append(f"lines {row.lines}\n  and not {run.lines}")
    if row.counts is not None and counts(run) != row.counts:
        found.append(f"counts {row.counts} and not {counts(run)}")
    if row.cost is not None and run.spent != row.cost:
        found.append(f"cost {row.cost} and not {run.spent}")
    return found
