#!/usr/bin/env python3
"""Runs the examples over the model of `tools/models/run_model.py`, and looks at them with Icarus Verilog and CPython.

    tools/rows/examples.py            looks at each folder of `examples` that has a `bug.v`, and writes tools/data/example_rows.txt
    tools/rows/examples.py --check    compares the table that is there

Each folder has a design `d.v`, a second version `bug.v` with a bug, and tests `t.py`. Icarus compiles both designs (`iverilog -g2005 -Wall`), `ast` reads
the tests, and they are of the profile (`tools/models/tests_profile.py`). Over the model all tests pass on the first design, and at least one fails on the
second, with the seed 0; on the first they pass with ten other seeds too. Icarus, whose bench makes the same writes to the inputs, then has the same
values of all signals of both designs after each of them. The status is 1 where one of these doesn't hold. The table has both
runs of each folder, in the form that `tools/rows/row_texts.py` tells.
"""
import re
import shutil
import subprocess
import sys
import tempfile
from pathlib import Path

ROOT = Path(__file__).resolve().parents[2]
sys.path.insert(0, str(ROOT / "tools"))

from models.run_model import Run, model
from models.tests_profile import breaks
from models.verilog_model import flat_of
from rows.row_texts import DATA, Row, line_of

EXAMPLES = ROOT / "examples"
TABLE = DATA / "example_rows.txt"
SEEDS = range(1, 11)
BUDGET = 200_000


def compiled(path):
    """What Icarus says of a design."""
    if not shutil.which("iverilog"):
        return ""
    done = subprocess.run(["iverilog", "-g2005", "-Wall", "-t", "null", str(path)], capture_output=True, text=True)
    return done.stderr + done.stdout


def failed(run):
    return [found[1] for line in run.lines if (found := re.fullmatch(r"\d+ FAIL (\w+) .*", line))]


class Recorded(Run):
    """A run that keeps the staged writes that go out together, and what the signals have before them."""

    def serve(self, keys):
        if ("ReadWrite",) in keys and self.staged:
            self.groups.append((dict(self.staged), list(self.simulator.values)))
        return super().serve(keys)


def recorded(design, tests):
    run = Recorded(flat_of(design), tests, BUDGET)
    run.groups = []
    return run.run()


def inputs_of(run):
    """The signals that the tests write, and their names."""
    written = {signal for writes, _ in run.groups for signal in writes}
    return {signal: run.flat.signals[signal].path.split(".")[1] for signal in sorted(written)}


def bench_of(run, design):
    """A bench that makes the writes, and shows all signals before each but the first group of them."""
    signals, inputs = run.flat.signals, inputs_of(run)
    widths = {signal: f"[{signals[signal].width - 1}:0] {name}" for signal, name in inputs.items()}
    paths = ", ".join("dut" + signal.path[signal.path.index("."):] for signal in signals)
    shown = f'$display("{" ".join(["%b"] * len(signals))}", {paths});'
    steps = ["; ".join(f"{inputs[signal]} = {len(digits)}'b{digits}" for signal, (_, digits) in writes.items()) + "; #1;" for writes, _ in run.groups]
    opening = " ".join(f"{name} = {signals[signal].width}'bz;" for signal, name in inputs.items())
    top = run.flat.top.path
    connected = ", ".join(f".{name}({name})" for name in inputs.values())
    lines = [design, "module bench;", *[f"reg {each};" for each in widths.values()], f"{top} dut({connected});"]
    return "\n".join([*lines, "initial begin", opening + " #1;", f"\n{shown}\n".join(steps), "end", "endmodule"])


def icarus_differs(design, tests):
    """Where Icarus has other values than the model, once the same writes have been made."""
    run = recorded(design, tests)
    with tempfile.TemporaryDirectory() as folder:
        source, program = Path(folder) / "text.v", Path(folder) / "program"
        source.write_text(bench_of(run, design).replace("`default_nettype none", ""), encoding="ascii")
        subprocess.run(["iverilog", "-g2005", "-s", "bench", "-o", str(program), str(source)], check=True)
        shown = subprocess.run(["vvp", "-n", str(program)], check=True, capture_output=True, text=True).stdout.splitlines()
    wanted = [" ".join(values) for _, values in run.groups[1:]]
    other = [at for at, (ours, theirs) in enumerate(zip(wanted, shown)) if ours != theirs]
    return [f"Icarus has {shown[other[0]]} and not {wanted[other[0]]} behind writes {other[0]}"] if other or len(wanted) != len(shown) else []


def look(folder):
    """The two lines of the table, and what is wrong."""
    design, bug, tests = ((folder / name).read_text(encoding="ascii") for name in ("d.v", "bug.v", "t.py"))
    wrong = [*breaks(tests), compiled(folder / "d.v"), compiled(folder / "bug.v")]
    runs = [model(text, tests, BUDGET) for text in (design, bug)]
    wrong += [f"{name} fails" for name in failed(runs[0])]
    wrong += [f"{name} fails with the seed {seed}" for seed in SEEDS for name in failed(model(design, tests, BUDGET, seed))]
    found = failed(runs[1])
    wrong += [] if found else ["no test finds the bug"]
    if shutil.which("iverilog"):
        wrong += icarus_differs(design, tests) + icarus_differs(bug, tests)
    print(f"{folder.name}: {runs[0].passed} tests pass at a cost of {runs[0].spent}; of the bug tell {', '.join(found)}")
    names = [f"{folder.name}", f"{folder.name} with its bug"]
    lines = [line_of(Row(name, tests, None, design=text), run) for name, text, run in zip(names, (design, bug), runs)]
    return lines, list(filter(None, wrong))


def main(words):
    folders = sorted(path.parent for path in EXAMPLES.glob("*/bug.v"))
    table, wrong = "# Written by tools/rows/examples.py; tools/rows/row_texts.py tells the form of a row.\n", 0
    for folder in folders:
        lines, told = look(folder)
        table += "".join(line + "\n" for line in lines)
        wrong += len(told)
        for text in told:
            print(f"  {text}")
    if words == ["--check"]:
        wrong += TABLE.read_text(encoding="ascii") != table
    elif not wrong:
        TABLE.write_text(table, encoding="ascii")
    print(f"{len(folders)} folders, {wrong} wrong")
    return 1 if wrong or not folders else 0


if __name__ == "__main__":
    sys.exit(main(sys.argv[1:]))
