#!/usr/bin/env python3
"""Makes of the tables of runs, and of the rows of the command, what the part `runner` of the program `runner_tests` is run on, and what it must print.

    tools/rows/runner_rows.py            writes the part's rows of crates/runner_tests/stdin and crates/runner_tests/stdout
    tools/rows/runner_rows.py --check    compares those that are there
    tools/rows/runner_rows.py TABLE ..   lists the rules of these tables, with their numbers of lines in `stdin`

Each row of the tables tools/data/TABLE_rows.txt (`tools/rows/row_texts.py` tells their form) becomes a row `kept`, whose words name its budget, and `--trace` where the
changes of signals are told. Behind these stand what refusals leave, and the rows of words, tops, VCD texts, refusals, faults and cuts (`tools/rows/command_rows.py` tells their
form), of designs (tools/data/design_rows.txt), of tests, and of kills turn by turn. Behind the part's name stands what is asked; crates/runner_tests/src/runner.rt tells which parts follow.
No answer comes from the program: they were worked out by hand, or come from CPython or from the model of `tools/models/run_model.py`.
"""
import sys
from pathlib import Path

ROOT = Path(__file__).resolve().parents[2]
sys.path.insert(0, str(ROOT / "tools"))

from rows.command_rows import Asked
from rows.part_rows import changed, lines_of, put
from rows.row_texts import DATA
from rows.rows_of_faults import FAULTS
from rows.rows_of_refusals import KEPT, READ, REFUSALS
from rows.rows_of_tops import TOPS
from rows.rows_of_vcd import COMMANDS
from rows.rows_of_words import WORDS

PROGRAM, PART = "runner_tests", "runner"
TABLES = ["worked", "control", "trigger", "pair", "order", "kill", "verdict", "signal", "budget", "key", "trace", "limit", "delay", "queue", "force", "example"]
# the program takes no more bytes
MOST = 2 * 1_048_576


def stored(table):
    """The rows of a table, by their parts."""
    lines = (DATA / f"{table}_rows.txt").read_text(encoding="ascii").splitlines()
    return [line.split("\t") for line in lines if not line.startswith("#")]


def run(row):
    """A run of a table, as a command on the simulator of the runs before."""
    asked, rule, budget, design, tests, answer, *_ = row
    trace = " --trace" if asked == "trace" else ""
    return Asked("kept", rule, [f"--budget {budget}{trace} d.v t.py", design, tests], answer)


def turns(row):
    """A run of the table of kills, turn by turn: the numbers of the keys that are awaited after each turn but the last."""
    _, rule, _, design, tests, _, _, keys = row
    numbers = [0 if turn == "-" else len(turn.split()) for turn in keys.split("|")]
    return Asked("turns", f"{rule}, turn by turn", [design, tests], "".join(f" {number}" for number in numbers))


def all_rows():
    runs = [run(row) for table in TABLES for row in stored(table)]
    designs = [Asked("design", rule, [text], answer) for rule, text, answer in stored("design")]
    turned = [turns(row) for row in stored("kill")]
    return [*runs, *KEPT, *WORDS, *TOPS, *COMMANDS, *REFUSALS, *FAULTS, *designs, *READ, *turned]


def main(words):
    rows = all_rows()
    if words and words != ["--check"]:
        wanted = {row[1] for table in words for row in stored(table)}
        print("\n".join(f"{at} {row.rule}" for at, row in enumerate(rows, 1) if row.rule in wanted))
        return 0
    made = [[row.kind, row.rule, *row.parts] for row in rows], [f"{row.rule}: {row.answer}" for row in rows]
    texts = changed(PROGRAM, PART, *made)
    assert len(texts["stdin"]) <= MOST
    wrong = 0
    for name, text in texts.items():
        wrong += words == ["--check"] and lines_of(PROGRAM, name) != text.splitlines()
        print(f"{name}: {len(text)} bytes")
    if not words:
        put(PROGRAM, PART, *made)
    kinds = {row.kind: sum(other.kind == row.kind for other in rows) for row in rows}
    print(f"{len(rows)} rows: " + ", ".join(f"{count} {kind}" for kind, count in kinds.items()))
    return wrong


if __name__ == "__main__":
    sys.exit(main(sys.argv[1:]))
