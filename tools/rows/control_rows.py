#!/usr/bin/env python3
"""Makes a table of short tests files, one for each rule of control, whose lines and costs CPython gives.

    tools/rows/control_rows.py                 writes tools/data/control_rows.txt
    tools/rows/control_rows.py --check [FILE]  compares a file of rows with what CPython gives, without one the table that is there

Each text runs as it stands, by CPython's own `exec`, beside the small stand-in for `cocotb` below: a test has `dut._log`, waits by `Timer`, and starts
and joins tasks, which run in turn. The cost is what `sys.settrace` sees: one for each line of a function that begins, but for `try`, `except`, `else` and
docstrings, and one for each time to which a run goes on. Where a budget is given, the lines are those that were written before the line that doesn't
fit. The counts of keys are those of the model of `tools/models/run_model.py`.

A fault of an operation has no text in a tests file, where CPython has one; so the text of a fault is told where a `raise` or an `assert` gave it alone.
The script ends with the status 1, and writes nothing, where the model of `tools/models/run_model.py` has another answer, where a text is none of the
profile, or where there are fewer than 50 rows. `tools/rows/row_texts.py` tells the form of a row.
"""
import contextlib
import sys
import types
from collections import deque
from pathlib import Path

ROOT = Path(__file__).resolve().parents[2]
sys.path.insert(0, str(ROOT / "tools"))

from models.tests_profile import breaks
from rows.row_texts import BUDGET, DATA, SMALL, Row, differs, line_of, ran, report
from rows.rows_of_control import CONTROL

TABLE = DATA / "control_rows.txt"
FREE = ("async def", "try:", "except", "else:", '"', "'")


# ---- the stand-in

class Timer:
    def __init__(self, time, units="step"):
        self.time = time

    def __await__(self):
        yield self


class Task:
    def __init__(self, coroutine):
        self.coroutine, self.is_done, self.value, self.joiners = coroutine, False, None, []

    def __await__(self):
        if not self.is_done:
            yield self
        return self.value


class GivesWay:
    def __init__(self, task):
        self.task = task

    def __await__(self):
        yield self
        return self.task


class Log:
    def __init__(self, rig):
        self.rig = rig

    def __getattr__(self, level):
        def log(text, *arguments):
            self.rig.line(f"{level.upper()} {str(text) % arguments if arguments else text}")
        return log


class Rig:
    """A run of one text. `written` is how many lines there were before the line that doesn't fit into the budget."""

    def __init__(self, text, budget):
        self.text, self.budget = text.splitlines(), budget
        self.now, self.cost, self.lines, self.written = 0, 0, [], None
        self.ready, self.timers, self.tests = deque(), [], []

    def line(self, text):
        self.lines.append(f"{self.now} {text}")

    def pay(self):
        if self.cost == self.budget and self.written is None:
            self.written = len(self.lines)
        self.cost += 1

    def trace(self, frame, event, argument):
        if frame.f_code.co_filename != "t.py" or frame.f_code.co_name == "<module>":
            return None
        line = self.text[frame.f_lineno - 1].strip()
        if event == "line" and not line.startswith(FREE):
            self.pay()
        return self.trace

    def start(self, coroutine):
        task = Task(coroutine)
        self.ready.append(task)
        return task

    def give_way(self, coroutine):
        return GivesWay(self.start(coroutine))

    def turn(self, task):
        try:
            wanted = task.coroutine.send(None)
        except StopIteration as end:
            task.is_done, task.value = True, end.value
            self.ready.extend(task.joiners)
            return
        if isinstance(wanted, Timer):
            self.timers.append((self.now + wanted.time, task))
        elif isinstance(wanted, Task):
            wanted.joiners.append(task)
        else:
            self.ready.append(task)

    def event(self):
        """The run goes on to the next time."""
        self.pay()
        self.now = min(time for time, _ in self.timers)
        self.ready.extend(task for time, task in self.timers if time == self.now)
        self.timers = [(time, task) for time, task in self.timers if time != self.now]

    def run_test(self, coroutine):
        """The reason for which the test fails, or None."""
        task = self.start(coroutine)
        try:
            while not task.is_done:
                self.turn(self.ready.popleft()) if self.ready else self.event()
        except Exception as fault:
            return self.reason(fault)

    def reason(self, fault):
        trace, line = fault.__traceback__, 0
        while trace:
            line = trace.tb_lineno if trace.tb_frame.f_code.co_filename == "t.py" else line
            trace = trace.tb_next
        kind = type(fault).__name__
        is_told = self.text[line - 1].strip().startswith(f"raise {kind}" if kind != "AssertionError" else ("raise AssertionError", "assert"))
        return f"{kind}: {fault}" if is_told and str(fault) else kind

    def modules(self):
        """What the imports of the text find."""
        cocotb, triggers = types.ModuleType("cocotb"), types.ModuleType("cocotb.triggers")
        cocotb.test = lambda: lambda test_function: self.tests.append(test_function) or test_function
        cocotb.start_soon, cocotb.start, cocotb.log, triggers.Timer = self.start, self.give_way, Log(self), Timer
        return {"cocotb": cocotb, "cocotb.triggers": triggers}

    def run(self):
        dut = types.SimpleNamespace(_log=Log(self))
        exec(compile("\n".join(self.text), "t.py", "exec"), {})
        for at, test_function in enumerate(self.tests):
            if at:
                self.timers = [(self.now + 1, None)]
                self.event()
            self.ready, self.timers = deque(), []
            self.line(f"TEST {test_function.__name__}")
            reason = self.run_test(test_function(dut))
            self.line(f"FAIL {test_function.__name__} ({reason})" if reason else f"PASS {test_function.__name__}")
        failed = sum(" FAIL " in line for line in self.lines)
        self.lines.append(report(len(self.tests), len(self.tests) - failed, failed, 0, self.now))


@contextlib.contextmanager
def traced(rig):
    modules = rig.modules()
    sys.modules.update(modules)
    sys.settrace(rig.trace)
    try:
        yield
    finally:
        sys.settrace(None)
        for name in modules:
            del sys.modules[name]


def by_cpython(text, budget):
    """The lines and the cost of a text."""
    rig = Rig(text, budget)
    with traced(rig):
        rig.run()
    if rig.written is None:
        return rig.lines, rig.cost
    return [*rig.lines[: rig.written], f"BUDGET {budget}"], budget


# ---- rows

IMPORTS = "import cocotb\nfrom cocotb.triggers import Timer\n"


def rows():
    for rule, parts, budget in CONTROL:
        tests = IMPORTS + "".join(parts)
        lines, cost = by_cpython(tests, budget or BUDGET)
        yield Row(rule, tests, lines, None, cost, SMALL, budget or BUDGET)


def made():
    """The lines of the table, and how many rows differ from the model."""
    found, wrong, rules = [], 0, set()
    for row in rows():
        run = ran(row)
        found.append(line_of(row, run))
        rules.add(row.rule)
        for text in differs(row, run) + breaks(row.tests):
            wrong += 1
            print(f"{row.rule}: {text}")
    assert len(rules) == len(found) >= 50
    return found, wrong


def check(path, found):
    lines = [line for line in path.read_text(encoding="ascii").splitlines() if not line.startswith("#")]
    other = [line for line in lines if line not in found]
    for line in other:
        print(f"other: {line}")
    print(f"{len(lines)} rows, {len(other)} differ")
    return 1 if other or not lines else 0


def main(words):
    found, wrong = made()
    if wrong:
        return 1
    if words[:1] == ["--check"]:
        return check(Path(words[1]) if len(words) > 1 else TABLE, found)
    head = "# Written by tools/rows/control_rows.py; tools/rows/row_texts.py tells the form of a row.\n"
    TABLE.write_text(head + "".join(line + "\n" for line in found), encoding="ascii")
    print(f"{len(found)} rows")
    return 0


if __name__ == "__main__":
    sys.exit(main(sys.argv[1:]))
