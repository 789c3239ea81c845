#!/usr/bin/env python3
"""Compares the rows on VCD texts, `tools/rows/rows_of_vcd.py`, with the model of such texts, and with a built program.

    tools/rows/vcd_rows.py [PROGRAM]    PROGRAM is a built `cocorun`
    tools/rows/vcd_rows.py --write      writes the rows of the reader, crates/vcd_tests/stdin, and their answers, stdout

Each text that is read is a row of `vcd_tests`, and so is each text that is written, with the changes that the model reads of it. The status is 1 where a row
differs.
"""
import re
import subprocess
import sys
import tempfile
from pathlib import Path

ROOT = Path(__file__).resolve().parents[2]
sys.path.insert(0, str(ROOT / "tools"))

from models.run_model import model
from models.vcd_text import BadLine, read, vcd
from models.verilog_model import flat_of
from rows.row_texts import escaped
from rows.rows_of_vcd import READ, TEXTS, Read, tests_of

STATUSES = ["Passed", "Failed", "Usage", "DesignRefused", "TestsRefused", "ReadFault", "WriteFault", "NoMemory", "Budget"]


def answer_of(text):
    try:
        return [tuple(change) for change in read(text)]
    except BadLine as bad:
        return bad.line


def written(row):
    run = model(row.design, tests_of(row.body), row.budget, 0, True)
    return run.status, vcd(flat_of(row.design), run.lines)


def put(program, row, folder):
    (folder / "d.v").write_text(row.design), (folder / "t.py").write_text(tests_of(row.body))
    done = subprocess.run([program, "--vcd", "--budget", str(row.budget), "d.v", "t.py"], cwd=folder, capture_output=True, text=True)
    return STATUSES[done.returncode], done.stdout


def shown(answer):
    """An answer as `vcd_tests` prints it."""
    if isinstance(answer, int):
        return f" BadLine {answer}"
    return "".join(f" {time} {path} {digits}" for time, path, digits in answer)


def write():
    rows = [*READ, *[Read(f"{row.rule}, written", row.lines, answer_of(row.lines)) for row in TEXTS]]
    folder = ROOT / "crates" / "vcd_tests"
    (folder / "stdin").write_text("".join(f"{row.rule}\t{escaped(row.text)}\n" for row in rows), encoding="ascii")
    (folder / "stdout").write_text("".join(f"{row.rule}:{shown(row.answer)}\n" for row in rows), encoding="ascii")


def main():
    if sys.argv[1:] == ["--write"]:
        return write()
    faults = [row.rule for row in READ if answer_of(row.text) != row.answer]
    faults += [row.rule for row in TEXTS if written(row) != (row.status, row.lines)]
    if len(sys.argv) > 1:
        with tempfile.TemporaryDirectory() as name:
            faults += [f"{row.rule} (program)" for row in TEXTS if put(Path(sys.argv[1]).resolve(), row, Path(name)) != (row.status, row.lines)]
    for fault in faults:
        print(f"differs: {fault}")
    print(f"{len(READ)} texts that are read, {len(TEXTS)} that are written, {len(faults)} differences")
    return 1 if faults else 0


if __name__ == "__main__":
    sys.exit(main())
