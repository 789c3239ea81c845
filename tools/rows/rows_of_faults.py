"""Rows on reads and puts that fail, each in turn, and on the two texts of two runs, each cut after each byte.

One is the least run; the other has a queue, a forced signal, a delayed assignment and `--vcd`. By hand, but for the lines of cut texts that run, which
are the models'.
"""
import re

from models.run_model import model
from models.vcd_text import vcd
from models.verilog_model import flat_of
from rows.command_rows import USAGE, command, model_lines
from rows.row_texts import DESIGN, HEADER, SMALL, test
from rows.rows_of_budgets import BUSY
from rows.rows_of_refusals import BAD_DESIGN, BAD_TESTS
from rows.rows_worked import EXACT, FLIP_FLOP, FLIP_FLOP_TESTS, ORDERED, ORDERED_TEST, PORT

NUMBERS = "first second third fourth fifth sixth seventh eighth ninth tenth".split()


def files_of(words):
    return [word for word in words.split() if word.endswith((".v", ".py"))]


def failing(name, words, design, tests, options):
    """A run whose reads and puts fail in turn: the line of the file that can't be read, or the lines before the put; and one put behind all."""
    status, lines = model_lines(design, tests, **options)
    assert len(lines) < len(NUMBERS)
    for at, file in enumerate(files_of(words)):
        yield command(f"{name}: the {NUMBERS[at]} read fails", words, design, tests, "ReadFault", [f"error: cannot read {file}"], read=at + 1)
        yield command(f"{name}: the {NUMBERS[at]} read fails, and the put too", words, design, tests, "WriteFault", [], read=at + 1, put=1)
    yield command(f"{name}: a read behind all fails", words, design, tests, status, lines, read=3)
    for at in range(len(lines)):
        yield command(f"{name}: the {NUMBERS[at]} put fails", words, design, tests, "WriteFault", lines[:at], put=at + 1)
    yield command(f"{name}: a put behind all fails", words, design, tests, status, lines, put=len(lines) + 1)


LEAST = HEADER + test("pass")
SKIPPED = HEADER + test("pass", "a", "skip=True") + test("assert False", "b")
RUNS = [
    *failing("a flip-flop and random numbers", "d.v t.py", FLIP_FLOP, FLIP_FLOP_TESTS, {}),
    *failing("the least run", "d.v t.py", SMALL, LEAST, {}),
    *failing("tasks in their order", "d.v t.py", PORT, HEADER + ORDERED + test(ORDERED_TEST), {}),
    *failing("told changes", "--trace d.v t.py", DESIGN, EXACT, {"trace": True}),
    *failing("the end of a budget", "--trace --budget 5 d.v t.py", DESIGN, EXACT, {"trace": True, "budget": 5}),
    *failing("a skipped test and a failed one", "d.v t.py", SMALL, SKIPPED, {}),
    *failing("a queue, a forced signal and a delayed update", "--trace --budget 20 d.v t.py", BUSY.design, BUSY.tests,
             {"trace": True, "budget": 20}),
]


def line_fails(rule, words, design, tests):
    return command(rule, words, design, tests, "WriteFault", [], put=1)


LINES = [
    line_fails("the usage line fails", "d.v", SMALL, LEAST),
    line_fails("the line of a refused design fails", "d.v t.py", BAD_DESIGN, LEAST),
    line_fails("the line of refused tests fails", "d.v t.py", SMALL, BAD_TESTS),
    line_fails("the line of a design that isn't there fails", "d.v t.py", None, LEAST),
    line_fails("the line of tests that aren't there fails", "d.v t.py", SMALL, None),
    command("no file is read for words without a reading", "d.v", SMALL, LEAST, "Usage", [USAGE], read=1),
    command("a refusal has one line", "d.v t.py", SMALL, BAD_TESTS, "TestsRefused", ["error: t.py: UnknownName at line 4"], put=2),
]

# ---- cuts

ONE_LINE = "module top(input a); endmodule"


def design_rule(cut):
    """Why the front of such a design of one line is refused: what has no form in its place, else the text's end."""
    if not cut:
        return "NoTop at 1:1"
    if len(cut) < len("module"):
        return "Syntax at 1:1"
    # `end` is reserved, and the other fronts of `endmodule` name a module that is instantiated; an assignment has no `<`
    refused = next((mark for mark in ("end", "<") if cut.endswith(f" {mark}")), "")
    return f"Syntax at 1:{len(cut) + 1 - len(refused)}"


# the last line of a cut, without the blanks and line feeds behind it, and the rule that it breaks
LAST_LINES = [
    (r"|import cocotb", "NoTests"), (r"import \w+", "UnknownImport"), (r"from cocotb\.\w+ import \w+(, \w+)*", "names"), (r"@cocotb\.test\(\)", "Misplaced"),
    (r"@cocotb\.test\(|async def t\([a-z]*", "UnclosedText"), (r"async def t\(dut\):", "NoBlock"), (r"    pass", "runs"),
    # of the other run: what stands open, what is a form without its call or of no name, and what runs
    (r"    [^()]*\([^)]*", "UnclosedText"), (r"    (\w+ = await p(\.\w+)?|await Timer\(.*\)|.*\(\d?\)|.* = \d)", "runs"),
    (r"    (\w+ = )?await", "BadLine"), (r"    (.* = Queue|.* = Force|await Timer)", "Misplaced"), (r"    (.* = \w+|await \w+)", "UnknownName"),
    (r".*", "BadLine"),
]
LISTED = {
    "cocotb.triggers": "Combine Edge Event First Join Lock ReadOnly RisingEdge Timer TriggerException with_timeout".split(),
    "cocotb.result": ["SimTimeoutError"], "cocotb.queue": ["Queue"], "cocotb.handle": ["Force"],
}


def names_rule(line):
    """The rule that a line of imports breaks, whose last name may be cut off; `with` is reserved."""
    module, last = line.split()[1], line.split()[-1]
    return "NoTests" if last in LISTED[module] else "BadLine" if last == "with" else "UnknownImport"


def tests_rule(cut):
    """Why the front of the least tests is refused, and on which line; None where it runs."""
    lines = cut.rstrip(" \n").split("\n")
    at, line = len(lines), lines[-1]
    kind = next(kind for form, kind in LAST_LINES if re.fullmatch(form, line))
    return None if kind == "runs" else (names_rule(line) if kind == "names" else kind, at)


def tests_cut(end):
    why = tests_rule(LEAST[:end])
    rule, words, texts = f"the tests of the least run, cut after {end} bytes", "d.v t.py", (ONE_LINE, LEAST[:end])
    if why is None:
        return command(rule, words, *texts, *model_lines(*texts))
    return command(rule, words, *texts, "TestsRefused", [f"error: t.py: {why[0]} at line {why[1]}"])


LATE = "module top(input c, output reg q); always @(posedge c) q <= #3 ~q; endmodule"
HELD = "import cocotb\nfrom cocotb.queue import Queue\nfrom cocotb.handle import Force\nfrom cocotb.triggers import Timer\n" + test(
    'p = Queue(1); p.put_nowait(1); dut.q.value = Force(1); x = await p.get(); dut.c.value = 1; await Timer(4, "step")')


def held_cut(end):
    """The tests of the other run, cut: its line of a refusal, or its waves."""
    why = tests_rule(HELD[:end])
    rule, words, texts = f"the tests of a run of a queue and a Force, cut after {end} bytes", "--vcd d.v t.py", (LATE, HELD[:end])
    if why is None:
        run = model(*texts, trace=True)
        return command(rule, words, *texts, run.status, vcd(flat_of(LATE), run.lines).splitlines())
    return command(rule, words, *texts, "TestsRefused", [f"error: t.py: {why[0]} at line {why[1]}"])


OTHER_CUTS = [
    command(f"the design of a delayed update, cut after {end} bytes", "--vcd d.v t.py", LATE[:end], HELD, "DesignRefused",
            [f"error: d.v: {design_rule(LATE[:end])}"])
    for end in range(len(LATE))
] + [held_cut(end) for end in range(len(HELD) + 1)]
CUTS = [
    command(f"the design of the least run, cut after {end} bytes", "d.v t.py", ONE_LINE[:end], LEAST, "DesignRefused", [f"error: d.v: {design_rule(ONE_LINE[:end])}"])
    for end in range(len(ONE_LINE))
] + [tests_cut(end) for end in range(len(LEAST) + 1)]
FAULTS = [*RUNS, *LINES, *CUTS, *OTHER_CUTS]
