#!/usr/bin/env python3
"""Compares tasks over numbered states with tasks over trees, and both with the model of runs, on tests that are made by chance.

    tools/compare/flow_runs.py PROGRAM [SEED [COUNT]]    COUNT texts, 200 without it, of the seed, 1 without it

PROGRAM is crates/runner_tests/out/runner_tests, as `rt ci` built it, which runs each row over plain parts (trees, a list of waiting tasks, the plain
simulator) and over those of the program (numbered states, the table of triggers, the fast simulator) and answers what both come to. One half of the
texts are those of `control_texts.py` (loops, branches, calls, faults, handlers), the other half those of `queue_runs.py` (tasks at queues, kills, limits of
time, forced signals), with told changes. The first text that differs is told, with both answers; then the status is 1.
"""
import subprocess
import sys
from pathlib import Path

ROOT = Path(__file__).resolve().parents[2]
sys.path.insert(0, str(ROOT / "tools"))

from compare import control_texts, queue_runs
from models.run_model import model
from rows.command_rows import command
from rows.row_texts import BUDGET, SMALL

PART = 400


def row_of(seed, at):
    """The row of one text, by the model."""
    if at % 2:
        design, tests = queue_runs.DESIGN, queue_runs.Maker(f"{seed} {at}").text()
        run = model(design, tests, queue_runs.BUDGET, trace=True)
        words = f"--trace --budget {queue_runs.BUDGET} d.v t.py"
    else:
        design, tests = SMALL, control_texts.Maker(f"{seed} {at}").text()
        run = model(design, tests, BUDGET)
        words = f"--budget {BUDGET} d.v t.py"
    return command(f"text {at} of seed {seed}", words, design, tests, run.status, run.lines)


def answers(program, rows):
    """What the program answers, row by row."""
    lines = "".join("\t".join(["runner", row.kind, row.rule, *row.parts]) + "\n" for row in rows)
    return subprocess.run([program], input=lines, stdout=subprocess.PIPE, text=True, timeout=3600, check=True).stdout.splitlines()


def main(words):
    program = str(Path(words[0]).resolve())
    seed, count = (*map(int, words[1:]), *(1, 200)[len(words[1:]):])
    total, wrong = 0, 0
    for begin in range(0, count, PART):
        rows = [row_of(seed, at) for at in range(begin, min(begin + PART, count))]
        for row, found in zip(rows, answers(program, rows), strict=True):
            total += 1
            if found != f"{row.rule}: {row.answer}":
                wrong += 1
                if wrong == 1:
                    print(*row.parts, "wanted:", f"{row.rule}: {row.answer}", "found:", found, sep="\n")
    print(f"{total} texts, {wrong} differ")
    return 1 if wrong or not total else 0


if __name__ == "__main__":
    sys.exit(main(sys.argv[1:]) if len(sys.argv) > 1 else __doc__)
