#!/usr/bin/env python3
"""Runs the command on the designs with delays and forced signals of tools/data/delay_values.txt, and compares what a test reads with the values of the table.

    tools/compare/delay_runs.py [PROGRAM]

A step of a row becomes statements of a test: a deposit an immediate value, a force and a release a `Force` and a `Release` at once, a wait a `Timer`, and behind
them the design settles and all values are logged. Rows that write x or z digits are left out, since a test has no number for them, and so are those that wait
longer than a `Timer` may. Without a program the release is run. The status is 1 where a row differs.
"""
import re
import subprocess
import sys
import tempfile
from pathlib import Path

ROOT = Path(__file__).resolve().parents[2]
TABLE = ROOT / "tools" / "data" / "delay_values.txt"
LATEST = 1 << 62
HEAD = """import cocotb
from cocotb.handle import Force, Release
from cocotb.triggers import ReadWrite, Timer

@cocotb.test()
async def t(dut):
    await ReadWrite()
"""


def statement(word, handles):
    """What a test does for a word of a step."""
    if word[0] == "@":
        return f'    await Timer({word[1:]}, "step")\n'
    does, signal, digits = re.fullmatch(r"([!~]?)(\d+)=?(\d*)", word).groups()
    value = {"!": f"Force(0b{digits})", "~": "Release()", "": f"0b{digits}"}[does]
    return f"    {handles[int(signal)]}.setimmediatevalue({value})\n"


def test_of(paths, stimulus):
    """The test of a row."""
    handles = ["dut." + path.partition(".")[2] for path in paths]
    shown = " ".join(f"{{{handle}.value}}" for handle in handles)
    steps = ["".join(statement(word, handles) for word in step.split()) for step in stimulus.split("|")]
    return HEAD + "".join(step + f'    await ReadWrite()\n    dut._log.info(f"{shown}")\n' for step in steps)


def values_of(program, top, text, tests):
    """What the test logs, step by step."""
    with tempfile.TemporaryDirectory() as folder:
        Path(folder, "d.v").write_text(text, encoding="latin-1")
        Path(folder, "t.py").write_text(tests, encoding="ascii")
        run = subprocess.run([program, "--top", top, "d.v", "t.py"], cwd=folder, stdout=subprocess.PIPE, text=True, timeout=60, check=False)
    return "|".join(re.findall(r"^\d+ INFO (.*)$", run.stdout, re.M)) or run.stdout


def main():
    program = str(Path(sys.argv[1]).resolve()) if len(sys.argv) > 1 else str(ROOT / "release" / "cocorun")
    rows = [line.split("\t") for line in TABLE.read_text(encoding="ascii").splitlines() if line.startswith(("delay\t", "force\t"))]
    compared = wrong = 0
    for _, name, _, text, paths, stimulus, values, _ in rows:
        waits = sum(int(steps) for steps in re.findall(r"@(\d+)", stimulus))
        if re.search(r"=\w*[xz]", stimulus) or waits > LATEST:
            continue
        compared += 1
        text = re.sub(r"\\([0-9a-f]{2})", lambda found: chr(int(found[1], 16)), text)
        found = values_of(program, paths.partition(".")[0], text, test_of(paths.split(), stimulus))
        if found != values:
            wrong += 1
            print(f"{name}: {values}\n  {found}")
    print(f"{compared} designs of {len(rows)}, {wrong} differ")
    return 1 if wrong or not compared else 0


if __name__ == "__main__":
    sys.exit(main())
