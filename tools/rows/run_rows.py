#!/usr/bin/env python3
"""Makes the tables of runs of whole tests files, by the model of `tools/models/run_model.py`.

    tools/rows/run_rows.py             compares the model with what each row wants, and writes tools/data/*_rows.txt
    tools/rows/run_rows.py --check     compares the tables that are there with the model
    tools/rows/run_rows.py FILE ..     compares the answers in these files with the model

The tables: `worked` has the runs that were worked out first, with their bytes, counts and costs; `trigger` each thing that a task waits for, alone
and within others; `pair` each two of them in `First` and `Combine`; `order` events, locks and joins; `kill` a kill of each kind of waiting; `verdict`
tests of one file, their options and ends; `signal` what is written, read and refused; `budget` runs within each budget up to their cost; `key` which keys are
registered, removed and fired; `trace` the told changes of small designs, which `tools/compare/runner_traces.py` compares with Icarus Verilog; `limit` runs up to a limit and
past it; `delay` updates of delayed assignments; `queue` queues between tasks; `force` signals that tests force, freeze and release.
Where a row has lines, counts or a cost in its script, these were worked out by hand, and this script ends with the status 1, and writes nothing,
where the model has others, or where a text is none of the profile (`tools/models/tests_profile.py`). `tools/rows/row_texts.py` tells the form of a row.
"""
import re
import sys
from pathlib import Path

ROOT = Path(__file__).resolve().parents[2]
sys.path.insert(0, str(ROOT / "tools"))

from models.tests_profile import breaks
from rows.row_texts import DATA, differs, line_of, ran
from rows.rows_of_budgets import BUDGETS, CUTS, is_front
from rows.rows_of_delays import DELAYS
from rows.rows_of_forces import FORCES
from rows.rows_of_keys import KEYS, TRACES
from rows.rows_of_kills import KILLS
from rows.rows_of_limits import LIMITS
from rows.rows_of_order import ORDER
from rows.rows_of_pairs import PAIRS
from rows.rows_of_queues import QUEUES
from rows.rows_of_signals import SIGNALS
from rows.rows_of_triggers import TRIGGERS
from rows.rows_of_verdicts import VERDICTS
from rows.rows_worked import WORKED

TABLES = {
    "worked": WORKED, "trigger": TRIGGERS, "pair": PAIRS, "order": ORDER, "kill": KILLS, "verdict": VERDICTS, "signal": SIGNALS, "budget": BUDGETS,
    "key": KEYS, "trace": TRACES, "limit": LIMITS, "delay": DELAYS, "queue": QUEUES, "force": FORCES,
}
LEAST = {
    "worked": 20, "trigger": 40, "pair": 200, "order": 30, "kill": 42, "verdict": 40, "signal": 40, "budget": 80, "key": 20, "trace": 10, "limit": 5, "delay": 15,
    "queue": 120, "force": 70,
}
WHOLE = {row.rule: lines for row, lines in CUTS}


def other(row, run):
    """What the row wants by its rule, and the run hasn't."""
    done = re.search(r"is done at (\d+)$", row.rule)
    if done and not run.lines[1].startswith(done[1] + " INFO"):
        yield f"{run.lines[1]} and not at {done[1]}"
    if row.rule in WHOLE and not is_front(row, run.lines, WHOLE[row.rule]):
        yield f"{run.lines} is no front"


def made():
    """The lines of each table, and how many rows differ from the model."""
    tables, wrong = {}, 0
    for name, rows in TABLES.items():
        assert len(rows) >= LEAST[name] and len({row.rule for row in rows}) == len(rows), name
        tables[name] = []
        for row in rows:
            run = ran(row)
            tables[name].append(line_of(row, run))
            for text in [*differs(row, run), *other(row, run), *breaks(row.tests)]:
                wrong += 1
                print(f"{name}: {row.rule}: {text}")
    return tables, wrong


def compared(path, known):
    """How many rows of a file have another answer than the model."""
    lines = [line for line in path.read_text(encoding="ascii").splitlines() if not line.startswith("#")]
    wrong = [line for line in lines if line not in known]
    for line in wrong:
        print(f"{path.name}: {line.split(chr(9))[1]}")
    return len(wrong), len(lines)


def main(words):
    tables, wrong = made()
    if words and not wrong:
        known = {line for lines in tables.values() for line in lines}
        paths = [DATA / f"{name}_rows.txt" for name in tables] if words == ["--check"] else [Path(word) for word in words]
        found = [compared(path, known) for path in paths]
        print(f"{sum(rows for _, rows in found)} rows, {sum(bad for bad, _ in found)} differ")
        return 1 if any(bad for bad, _ in found) else 0
    for name, lines in tables.items():
        print(f"{name}: {len(lines)} rows")
        if not wrong:
            head = "# Written by tools/rows/run_rows.py; tools/rows/row_texts.py tells the form of a row.\n"
            (DATA / f"{name}_rows.txt").write_text(head + "".join(line + "\n" for line in lines), encoding="ascii")
    return 1 if wrong else 0


if __name__ == "__main__":
    sys.exit(main(sys.argv[1:]))
