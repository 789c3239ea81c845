"""Cases of the table tools/hints.txt: its lines are refused by the rule that it names and are given its hints, and what it mends is taken.

`tools/suite.py` goes through them. A line and what is taken in its place stand each in a small text; `table` reads the rows, and `texts` tells the files.
What the script `./cocorun` says is tried with a stand-in that answers what the program did (`tools/script_cases.py`).
"""
import os
import re
import subprocess
from collections import namedtuple
from pathlib import Path

import script_cases

TOP = Path(__file__).resolve().parent.parent
TABLE = TOP / "tools" / "hints.txt"

# kind: `design`, `tests` or `fault`; pattern: None for a fault; line, mend: lists of lines
Row = namedtuple("Row", "kind rule pattern hint line mend")
HintCase = namedtuple("HintCase", "name row")

IMPORTS = """import cocotb
import random
from cocotb.clock import Clock
from cocotb.handle import Force, Freeze, Release
from cocotb.queue import Queue, QueueEmpty, QueueFull
from cocotb.regression import TestFactory
from cocotb.result import SimTimeoutError
from cocotb.triggers import ClockCycles, Combine, Edge, Event, FallingEdge, First, Join, Lock
from cocotb.triggers import NextTimeStep, ReadOnly, ReadWrite, RisingEdge, Timer, TriggerException, with_timeout
from cocotb.utils import get_sim_time
N = 4
"""
FUNCTIONS = {
    "model": "async def model(n):\n    return n + 1\n",
    "waiter": "async def waiter(dut):\n    await Timer(1)\n",
    "sends": "async def sends(dut, n=1):\n    pass\n",
}
FACTORY = "factory = TestFactory(sends)\n"
LOCALS = """    n = 3
    word = 5
    clock = Clock(dut.clk, 10, "ns")
    task = cocotb.start_soon(model(1))
    event = Event()
    lock = Lock()
    queue = Queue()
    dut.a.setimmediatevalue(5)
    cocotb.start_soon(clock.start())
"""
TEST = "@cocotb.test()\nasync def t(dut):\n"
# Rules that are asked of names that nothing makes known.
BARE = ("UnknownImport", "UnknownName")

SMALL_DESIGN = "`timescale 1ns / 1ps\nmodule top(input clk, input [7:0] a, output [7:0] q);\n  reg [7:0] mem [0:15];\n  reg [7:0] never;\nendmodule\n"
FRONT = """module sub(input x);
endmodule
module top(input clk, input [7:0] a, output [7:0] q);
  reg [7:0] r;
  reg [7:0] mem [0:15];
  integer i;
  parameter N = 4;
"""


def table():
    """The rows of the table, in order."""
    rows, kind, rule, given = [], None, None, {}

    def close():
        if "hint" in given:
            rows.append(Row(kind, rule, given.get("if"), given["hint"], given.get("line", []), given.get("mend", [])))
        given.clear()

    for line in TABLE.read_text(encoding="utf-8").splitlines():
        word, _, rest = line.partition(" ")
        if word in ("rule", "fault"):
            close()
            kind, rule = rest.split() if word == "rule" else ("fault", rest)
        elif word in ("if", "once", "else") or word == "hint" and kind == "fault":
            close()
            given["if"] = rest
        if word == "hint":
            given["hint"] = rest
        elif word in ("line", "mend"):
            given.setdefault(word, []).append(rest)
    close()
    return rows


def rules():
    """The rules of the table, each with its kind and what it means."""
    return re.findall(r"^rule (\w+) (\w+)\nsays (.*)", TABLE.read_text(encoding="utf-8"), re.MULTILINE)


def tests_text(row, lines):
    """A tests file with some lines in it, and the number of the first of them."""
    text, is_bare = "\n".join(lines) + "\n", row.rule in BARE
    if not is_bare and lines[-1].startswith("@") and row.rule != "Misplaced":
        text += "async def decorated(dut):\n    pass\n"
    front = "import cocotb\n" if is_bare else IMPORTS
    for name, function in {} if is_bare else FUNCTIONS.items():
        front += function if row.rule == "DuplicateName" and lines == row.line or f"async def {name}(" not in text else ""
    front += FACTORY if "factory." in text else ""
    if lines[0].startswith(" "):
        front += TEST + ("    n = 3\n    word = 5\n" if is_bare else LOCALS)
        return front + text + "    pass\n", front.count("\n") + 1
    return front + text + (TEST + "    pass\n" if "async def t(" not in text else ""), front.count("\n") + 1


def design_text(row, lines):
    """A design with some lines in it, and the number of the first of them."""
    text = "\n".join(lines) + "\n"
    if lines[0].startswith("module"):
        return text + "endmodule\n", 1
    if lines[0].startswith("`"):
        return text + "module top(input a);\nendmodule\n", 1
    return FRONT + text + "endmodule\n", FRONT.count("\n") + 1


def texts(row, lines):
    """The files of some lines, the words of the command, and the number of the first line."""
    if row.kind == "design":
        text, number = design_text(row, lines)
        top = re.match(r"module (\w+)", lines[0])
        words = [] if row.rule == "NoTop" else ["--top", top[1] if top else "top"]
        return {"h.v": text, "h.py": f"import cocotb\n{TEST}    pass\n"}, [*words, "h.v", "h.py"], number
    text, number = tests_text(row, lines)
    return {"h.v": SMALL_DESIGN, "h.py": text}, ["h.v", "h.py"], number


def cases():
    yield HintCase("hint: no line of the examples is taken for a refused one", None)
    for row in table():
        if row.line:
            yield HintCase(f"hint: {row.rule}: {' '.join(row.line).strip()}", row)


def found_in_examples():
    """The hints that are given for lines of tests that are taken, with the numbers of the lines; the first line of what the script says is left out."""
    env = {**os.environ, "LC_ALL": "C", "KIND": "tests", "RULE": "BadLine", "PLACE": "0", "TABLE": str(TABLE), "EVERY": "1"}
    found = []
    for tests in sorted((TOP / "examples").glob("*/t.py")):
        with open(tests, "rb") as text:
            how = {"stdin": text, "stdout": subprocess.PIPE, "encoding": "utf-8", "env": {**env, "FILE": tests.parent.name}}
            done = subprocess.run(["awk", "-f", str(TOP / "tools" / "hints.awk")], **how)
        found += [f"{tests.parent.name}: {line}" for line in done.stdout.splitlines()[1:]]
    return found


def laid_out(folder, row, lines):
    files, words, number = texts(row, lines)
    for name, text in files.items():
        (folder / name).write_text(text, encoding="utf-8")
    return words, number


def ended(program, folder, words):
    done = subprocess.run([program, *words], cwd=folder, stdin=subprocess.DEVNULL, stdout=subprocess.PIPE, timeout=60)
    return done.returncode, done.stdout.decode("utf-8", "backslashreplace")


def looked_at(program, case):
    """A case's name, what is wanted where something else was found, and that."""
    row = case.row
    if row is None:
        found = found_in_examples()
        return (case.name, None, None) if not found else (case.name, [], found)
    folder = script_cases.folder_of(os.getpid())
    words, number = laid_out(folder, row, row.line)
    status, output = ended(program, folder, words)
    last = output.splitlines()[-1]
    if row.kind == "fault":
        wanted, found = f"FAIL t ({row.rule})", next((line.partition(" ")[2] for line in output.splitlines() if " FAIL " in line), last)
    else:
        places = [1] if row.rule == "NoTop" else range(number, number + len(row.line) + (row.rule == "Syntax"))
        wanted = f"{row.rule} at {'' if row.kind == 'design' else 'line '}{number}"
        told = re.fullmatch(r"error: h\.\w+: (\w+) at (?:line )?(\d+)(?::\d+)?", last)
        found = wanted if told and told[1] == row.rule and int(told[2]) in places else last
        hints = [line[6:] for line in script_cases.ran(folder, words, status, output)[2].splitlines() if line.startswith("hint: ")]
        name = re.escape(row.hint).replace(re.escape("<name>"), r"[\w$`]+")
        wanted += f"\nhint: {row.hint}"
        found += "\nhint: " + (row.hint if any(re.fullmatch(name, hint) for hint in hints) else "\nhint: ".join(hints))
    if row.mend:
        words, _ = laid_out(folder, row, row.mend)
        status, output = ended(program, folder, words)
        wanted += "\nmended"
        # What is mended is taken; it need not pass.
        found += "\nmended" if status == 0 or status == 1 and row.kind != "fault" else "\n" + output
    return (case.name, None, None) if found == wanted else (case.name, wanted, found)
