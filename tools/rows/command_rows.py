"""Rows of the command: its words, its two files, the read and the put that fail, and what it answers.

`command(..)` is such a row, `kept(..)` one on the simulator that other rows had before, with the counts of keys that it then holds; `model_lines` tells the
status and the lines of a run by `tools/models/run_model.py`. `tools/rows/runner_rows.py` writes the rows; crates/runner_tests/src/runner.rt tells their form.
"""
from collections import namedtuple

from models.run_model import model
from rows.row_texts import escaped

# kind: the row's first word; parts: what stands behind the rule; answer: what is shown
Asked = namedtuple("Asked", "kind rule parts answer")
# the statuses, by their numbers
STATUSES = ["Passed", "Failed", "Usage", "DesignRefused", "TestsRefused", "ReadFault", "WriteFault", "NoMemory", "Budget"]
# what was put, where the row says so with the status
USAGE = "usage: cocorun [--top NAME] [--budget N] [--seed N] [--trace | --vcd] DESIGN TESTS"


def quoted(lines):
    return '"' + escaped("".join(line + "\n" for line in lines)) + '"'


def part(text):
    """A file's text, or `-` where there is no such file."""
    return "-" if text is None else escaped(text)


def parts_of(words, design, tests, read, put):
    failing = [str(read), str(put)] if read or put else []
    return [words, part(design), part(tests), *failing]


def numbered(status):
    """The number of a status, and its name."""
    return f"{STATUSES.index(status)} {status}"


def command(rule, words, design, tests, status, lines, read=0, put=0):
    """A command over the texts `d.v` and `t.py` (None where there is no such file), of which that read and that put fail (0: none)."""
    return Asked("command", rule, parts_of(words, design, tests, read, put), f"{numbered(status)} {quoted(lines)}")


def kept(rule, words, design, tests, status, counts, lines, read=0, put=0):
    """The same on the simulator of the rows before, with the keys that it has registered, removed and fired since it was loaded."""
    primed, removed, fired = counts
    answer = f"{status} primed={primed} removed={removed} fired={fired} {quoted(lines)}"
    return Asked("kept", rule, parts_of(words, design, tests, read, put), answer)


def model_lines(design, tests, **options):
    """The status and the lines of a run, by the model."""
    run = model(design, tests, **options)
    return run.status, run.lines
