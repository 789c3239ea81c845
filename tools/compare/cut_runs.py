#!/usr/bin/env python3
"""Compares the command with the model of runs where a run is broken off: texts cut after each byte, kills at each await, and every small budget.

    tools/compare/cut_runs.py [PROGRAM]

Cuts: the texts of `CUT`, which have a queue, a Force and a delayed update, each cut after each byte; a cut design is refused up to its last word,
and cut tests exactly where they are none of the profile (`tools/models/tests_profile.py`). Kills: the runs of `tools/rows/rows_of_kills.py`, and of
`KINDS`, of tasks at queues, at forced signals and at delayed updates, whose lines are by hand. Budgets: `OSCILLATIONS`, which never settle, within each
budget from 1 on, where the lines are a front of a longer run's. Kills and budgets run as they are, with `--trace` and with `--vcd`, and have the lines
of `tools/models/run_model.py` and the text of `tools/models/vcd_text.py`. Without a program the release is run. Each difference is told, and then the
status is 1.
"""
import ast
import os
import sys
import tempfile
from collections import namedtuple
from pathlib import Path

ROOT = Path(__file__).resolve().parents[2]
sys.path.insert(0, str(ROOT / "tools"))

import damaged
from models.run_model import model
from models.tests_profile import breaks
from models.vcd_text import vcd
from models.verilog_model import flat_of
from rows.row_texts import HEADER, MORE, function, passing, test
from rows.rows_of_budgets import is_front
from rows.rows_of_kills import KILLS as KILLS_OF_ROWS
from rows.rows_worked import OSCILLATOR

STATUSES = {"Passed": 0, "Failed": 1, "Budget": 8}
IMPORTS = HEADER + MORE + "from cocotb.queue import Queue, QueueEmpty, QueueFull\nfrom cocotb.handle import Force, Freeze, Release\n"
WHOLE_BUDGET = 100_000
# how many budgets are tried
MOST = 30

# rule, the texts, the lines by hand (None where the model alone tells them), the budget
Run = namedtuple("Run", "rule design tests lines budget", defaults=(None, WHOLE_BUDGET))

# ---- kills

FLOP = """module top(input clk, input [7:0] a, output reg [7:0] q, output reg p);
  always @(posedge clk) q <= a;
  always @(posedge clk) p <= #2 1;
  initial p = 0;
endmodule
"""
# does: the victim's statements; wakes: what the test does until the victim was woken, and at what time that is; first: has the victim its first turn
# before that? shows: what the last line shows after a kill before the first turn, while it waits, and when it was woken
Kind = namedtuple("Kind", "name does wakes at shows first", defaults=(True,))

# the items of both queues, and the signals: before all, and behind what the helper does at 2
NOTHING, FORCED = "0 1 zzzzzzzz 0", "0 1 00000101"
KINDS = [
    Kind("the get of a queue", "x = await g.get()", "g.put_nowait(7)", 0, (NOTHING, NOTHING, "1 1 zzzzzzzz 0")),
    Kind("the put of a queue", "await f.put(9)", "x = f.get_nowait()", 0, (NOTHING, NOTHING, "0 0 zzzzzzzz 0")),
    # the call that with_timeout started lives on: what is put later is its, and what it puts stays
    Kind("with_timeout of a get", 'x = await with_timeout(g.get(), 9, "step")', "g.put_nowait(7)", 0, (NOTHING, NOTHING, "0 1 zzzzzzzz 0")),
    Kind("with_timeout of a put", 'await with_timeout(f.put(9), 9, "step")', "x = f.get_nowait()", 0, (NOTHING, NOTHING, "0 1 zzzzzzzz 0")),
    Kind("an edge by a Force", "await Edge(dut.a)", "await Edge(dut.a)", 2, (NOTHING, NOTHING, FORCED + " 0"), False),
    Kind("an edge of a delayed update", "await RisingEdge(dut.p)", "await RisingEdge(dut.p)", 4, (NOTHING, NOTHING, FORCED + " 1"), False),
    # what is staged goes out though its task is killed
    Kind("ReadWrite behind a staged Force", "dut.a.value = Force(3); await ReadWrite()", "await ReadWrite()", 0,
         (NOTHING, "0 1 00000011 0", "0 1 00000011 0"), False),
]
HELPER = function("h(dut)", 'await Timer(2, "step"); dut.clk.setimmediatevalue(1); dut.a.setimmediatevalue(Force(5))')
SETUP = "g = Queue(); f = Queue(1); f.put_nowait(1); cocotb.start_soon(h(dut)); "
SOON, FIRST_TURN = "k = cocotb.start_soon(v(dut, g, f)); ", "k = await cocotb.start(v(dut, g, f)); "
BEHIND = 'k.kill(); dut._log.info(f"{k.done()}"); await Timer(1, "step"); dut._log.info(f"{g.qsize()} {f.qsize()} {dut.a.value} {dut.p.value}")'


def killed(kind, rule, start, wakes, time, shows):
    victim = function("v(dut, g, f)", kind.does + '; dut._log.info("alive")')
    body = SETUP + start + (wakes + "; " if wakes else "") + BEHIND
    lines = passing(time + 1, f"{time} INFO True", f"{time + 1} INFO {shows}")
    return Run(f"{kind.name}, killed {rule}", FLOP, IMPORTS + HELPER + victim + test(body), lines)


def kills():
    for kind in KINDS:
        yield killed(kind, "before its first turn", SOON, "", 0, kind.shows[0])
        yield killed(kind, "while it waits", FIRST_TURN, "", 0, kind.shows[1])
        yield killed(kind, "when it was woken", FIRST_TURN if kind.first else SOON, kind.wakes, kind.at, kind.shows[2])
    for row in KILLS_OF_ROWS:
        yield Run(row.rule, row.design, row.tests, row.lines)


# ---- budgets

LATE = "module top(input en, output reg y);\n  initial y = 0;\n  always @(en or y) y <= #1 en & ~y;\nendmodule\n"
TELLER = function("w(dut, q)", 'while 1: { x = await q.get(); dut._log.info(f"{x}") }')
OSCILLATIONS = [
    Run("an oscillation", OSCILLATOR, IMPORTS + test('dut.en.value = 0; await Timer(1, "step"); dut.en.value = 1; await Timer(1, "step")')),
    Run("an oscillation by what a queue gives", OSCILLATOR, IMPORTS + test(
        "q = Queue(1); await q.put(0); k = cocotb.start_soon(q.put(1)); "
        'for i in range(2): { x = await q.get(); dut.en.value = x; await Timer(1, "step") }')),
    Run("an oscillation by a Force", OSCILLATOR, IMPORTS + test(
        'dut.en.value = Force(0); await Timer(1, "step"); dut.en.value = Force(1); await ReadOnly()')),
    Run("an oscillation by a Release", OSCILLATOR, IMPORTS + test(
        'dut.y.value = Force(0); dut.en.value = 1; await Timer(1, "step"); dut.y.value = Release(); await Timer(1, "step")')),
    Run("an oscillation in time", LATE, IMPORTS + test('dut.en.value = 1; await Timer(1000, "step")')),
    Run("an oscillation in time beside a task at a queue", LATE, IMPORTS + TELLER + test(
        'q = Queue(); cocotb.start_soon(w(dut, q)); dut.en.value = 1; while 1: { await Edge(dut.y); q.put_nowait(dut.y.value) }')),
]


# ---- cuts

CUT = Run("a queue, a Force and a delayed update", FLOP, '''import cocotb
from cocotb.handle import Force
from cocotb.queue import Queue
from cocotb.triggers import Timer
@cocotb.test()
async def t(dut):
    q = Queue(1)
    await q.put(1)
    dut.a.value = Force(5)
    dut.clk.value = await q.get()
    await Timer(3, "step")
    dut._log.info(f"{dut.p.value}")
''')


# ---- runs

def wanted(run, option):
    """The status and the output of the model."""
    done = model(run.design, run.tests, run.budget, trace=option is not None)
    lines = "".join(line + "\n" for line in done.lines)
    return STATUSES[done.status], vcd(flat_of(run.design), done.lines) if option == "--vcd" else lines


def ended(program, run, option, folder):
    """The status and the output of the program."""
    copy = damaged.Copy(0, run.design.encode(), run.tests.encode(), None, option)
    status, output = damaged.answer(program, copy, folder, run.budget)
    return status, output.decode("latin-1")


def run_faults(program, run, folder):
    """What a run differs in, as it is, with told changes, and as a VCD text."""
    if run.lines is not None and model(run.design, run.tests).lines != run.lines:
        yield f"{run.rule}: by hand {run.lines}, and by the model {model(run.design, run.tests).lines}"
    for option in (None, "--trace", "--vcd"):
        answers = wanted(run, option), ended(program, run, option, folder)
        if answers[0] != answers[1]:
            yield f"{run.rule}, {option}, budget {run.budget}: wanted {answers[0]}, found {answers[1]}"


def budget_faults(program, run, folder):
    whole = model(run.design, run.tests, 2 * MOST, trace=True)
    for budget in range(1, MOST + 1):
        within = run._replace(budget=budget)
        lines = model(run.design, run.tests, budget, trace=True).lines
        if not is_front(within, lines, whole.lines) or lines[-1] != f"BUDGET {budget}":
            yield f"{run.rule}, budget {budget}: {lines} is no front"
        yield from run_faults(program, within, folder)


def is_refused(tests):
    """Is a text no Python, without a line, or outside of the profile?"""
    try:
        return not ast.parse(tests).body or bool(list(breaks(tests)))
    except SyntaxError:
        return True


def cut_faults(program, folder):
    """What the cuts of a design and of tests differ in."""
    ends = CUT.design.rindex("endmodule") + len("endmodule"), len(CUT.tests)
    for end in range(len(CUT.design) + 1):
        status, output = ended(program, CUT._replace(design=CUT.design[:end]), None, folder)
        copy = damaged.Copy(end, CUT.design[:end].encode(), b"", "design", None)
        if status != (0 if end >= ends[0] else 3) or damaged.fault_of(copy, status, output.encode("latin-1")):
            yield f"the design cut after {end} bytes: {status} {output!r}"
    for end in range(ends[1] + 1):
        cut = CUT._replace(tests=CUT.tests[:end])
        status, output = ended(program, cut, None, folder)
        copy = damaged.Copy(end, b"", cut.tests.encode(), "tests", None)
        if status != 4 if is_refused(cut.tests) else (status, output) != wanted(cut, None):
            yield f"the tests cut after {end} bytes: {status} {output!r}"
        elif damaged.fault_of(copy, status, output.encode("latin-1")):
            yield f"the tests cut after {end} bytes: {damaged.fault_of(copy, status, output.encode('latin-1'))}"


def faults(program, folder):
    yield from cut_faults(program, folder)
    for run in kills():
        yield from run_faults(program, run, folder)
    for run in OSCILLATIONS:
        yield from budget_faults(program, run, folder)


def main(words):
    program, count = os.path.realpath(words[0] if words else ROOT / "release" / "cocorun"), 0
    with tempfile.TemporaryDirectory() as folder:
        for fault in faults(program, Path(folder)):
            count += 1
            print(fault, flush=True)
    runs = len(CUT.design) + len(CUT.tests) + 2 + 3 * len(list(kills())) + 3 * MOST * len(OSCILLATIONS)
    print(f"{runs} runs that are broken off, {count} differ")
    return 1 if count else 0


if __name__ == "__main__":
    sys.exit(main(sys.argv[1:]))
