#!/usr/bin/env python3
"""Makes every table of the repository from its script, or looks whether each is still what its script makes.

    tools/make.py [OPTION ..] [WORD ..]            makes the tables
    tools/make.py --check [OPTION ..] [WORD ..]    makes them in a copy of the checkout, and compares; makes the comparisons, too

    --icarus    those that need Icarus Verilog (`iverilog` and `vvp`) as well
    --built     those that need a built program (crates/NAME/out/NAME, as `rt ci` leaves it) as well
    --list      only tells what there is

With WORDs it takes only the steps whose line (`--list`) holds one of them. A table is a file that a script writes whole, or the front of one whose
other rows are by hand. A comparison makes nothing: it looks whether a table and a second reader, a model or CPython say the same. Without options all
needs Python 3.10 and `sh` alone. Where Icarus Verilog is there, `rows/examples.py` asks it in any case. The status is 1 where a script fails, or
where a table has drifted, and the first line that differs is told.
"""
import argparse
import os
import shutil
import subprocess
import sys
import tempfile
from collections import namedtuple
from concurrent.futures import ThreadPoolExecutor
from pathlib import Path
from threading import Lock

from rows.part_rows import span

ROOT = Path(__file__).resolve().parent.parent
# Several steps make parts of one file.
ONE_AT_A_TIME = Lock()
RUNS = "worked trigger pair order kill verdict signal budget key trace limit delay queue force".split()

# script, words: what is run; files: what it writes itself; into: where what it prints goes; part: the part of a test program whose rows or answers that
# is; behind: the rule of the part's first row by hand behind what it prints; asks: a file that it reads as its standard input; at: the folder that it runs
# in; needs: `icarus`, `built` or nothing; is_last: does it read what other steps make?
Step = namedtuple("Step", "script words files into part behind asks at needs is_last", defaults=([], [], None, None, None, None, ".", None, False))

FIRST_VALUE = "a vector is equal to its number"
FIRST_EXPRESSION = 'f"{w}{dut}{t}" or (4611686018427387904) or dut.u._name'

TABLES = [
    Step("rows/elaboration_rules.py", files=["tools/data/elaboration_rules.txt"], needs="icarus"),
    Step("rows/elaboration_values.py", files=["tools/data/elaboration_values.txt"], needs="icarus"),
    Step("rows/delay_values.py", files=["tools/data/delay_values.txt"], needs="icarus"),
    Step("rows/elaboration_rows.py", files=["crates/design_tests/stdin", "crates/design_tests/stdout"], is_last=True),
    Step("rows/run_rows.py", files=[f"tools/data/{name}_rows.txt" for name in RUNS]),
    Step("rows/control_rows.py", files=["tools/data/control_rows.txt"]),
    Step("rows/examples.py", files=["tools/data/example_rows.txt"]),
    Step("rows/runner_rows.py", files=["crates/runner_tests/stdin", "crates/runner_tests/stdout"], is_last=True),
    Step("rows/python_values.py", ["rows"], into="crates/value_tests/stdin", part="values", behind=FIRST_VALUE),
    Step("rows/python_values.py", ["answers"], into="crates/value_tests/stdout", part="values", behind=FIRST_VALUE),
    Step("rows/python_expressions.py", ["rows"], into="crates/value_tests/stdin", part="expressions", behind=FIRST_EXPRESSION),
    Step("rows/python_expressions.py", ["answers"], into="crates/value_tests/stdout", part="expressions", behind=FIRST_EXPRESSION),
    Step("rows/four_value_cases.py", into="crates/value_tests/data/cases.txt", needs="icarus"),
    Step("models/made_texts.py", ["rows"], into="crates/runner_tests/stdout", part="made_texts", asks="crates/runner_tests/stdin"),
    Step("models/random_rows.py", into="crates/run_view/specs/RandomStream/Rows.antt"),
    Step("models/run_model.py", ["@crates/cocorun/args"], into="crates/cocorun/stdout", at="crates/cocorun/data"),
    Step("models/run_model.py", ["@crates/cocorun_failed/args"], into="crates/cocorun_failed/stdout", at="crates/cocorun_failed/data"),
    Step("rows/vcd_rows.py", ["--write"], files=["crates/vcd_tests/stdin", "crates/vcd_tests/stdout"]),
    Step("crate_table.py", files=["docs/ARCHITECTURE.md"]),
    Step("definitions.py", files=["docs/DEFINITIONS.md"]),
    Step("left_out.py", files=["docs/PYTHON.md", "docs/VERILOG.md"]),
]

COMPARISONS = [
    Step("models/verilog_model.py"),
    Step("models/verilog_trees.py"),
    Step("compare/python_trees.py"),
    Step("compare/python_accepts.py"),
    Step("compare/py_lex_lines.py"),
    Step("compare/control_texts.py"),
    Step("compare/delay_runs.py"),
    Step("compare/queue_runs.py"),
    Step("compare/cut_runs.py"),
    Step("compare/limits.py"),
    Step("compare/pages.py"),
    Step("wrong_bodies", ["--applies"]),
    Step("rows/vcd_rows.py"),
    Step("waves.py", ["--page", "--check"]),
    Step("compare/vcd_readers.py", needs="icarus"),
    Step("compare/runner_traces.py", needs="icarus"),
    Step("compare/verilog_texts.py", needs="icarus"),
    Step("compare/py_lex_lines.py", ["%python_tests", "*examples/*/t.py"], needs="built"),
    Step("compare/python_trees.py", ["%python_tests", "*examples/*/t.py"], needs="built"),
    Step("compare/python_accepts.py", ["%check_tests", "*examples/*/t.py"], needs="built"),
]

NEEDS = {"icarus": "Icarus Verilog", "built": "a built program"}


def made_by(step):
    return step.files or ([step.into] if step.into else [])


def named(step):
    """A step as a line."""
    words, made = " ".join([f"tools/{step.script}", *step.words]), made_by(step)
    shown = made if len(made) < 4 else [made[0], f"and {len(made) - 1} more"]
    return words + (" -> " + ", ".join(shown) if made else "") + (f"   (needs {NEEDS[step.needs]})" if step.needs else "")


def given(word, top):
    """The words that a step's word stands for: `@` the lines of a file, `%` a built program, `*` the files of a pattern."""
    if word.startswith("@"):
        return (top / word[1:]).read_text(encoding="utf-8").splitlines()
    if word.startswith("%"):
        return [str(ROOT / "crates" / word[1:] / "out" / word[1:])]
    return sorted(map(str, top.glob(word[1:]))) if word.startswith("*") else [word]


def placed(path, made, part, rule):
    """The text of a test program's file in which the lines of a part are made anew, up to the first row by hand where that has a rule."""
    is_asked = path.name == "stdin"
    first, end = span((path.parent / "stdin").read_text(encoding="utf-8").splitlines(), part)
    lines = path.read_text(encoding="utf-8").splitlines(keepends=True)
    if rule:
        begins = f"{part}\t{rule}\t" if is_asked else f"{rule}: "
        end = next((at for at, line in enumerate(lines) if at >= first and line.startswith(begins)), None)
        if end is None:
            sys.exit(f"{path}: no row has the rule of the first one by hand: {rule}")
    lines[first:end] = [f"{part}\t{line}" if is_asked else line for line in made.splitlines(keepends=True)]
    return "".join(lines)


def failing(step, top):
    """What a step said that didn't end well in the checkout at `top`, or nothing."""
    words = [word for each in step.words for word in given(each, top)]
    asked = (top / step.asks).read_text(encoding="utf-8") if step.asks else None
    run = [sys.executable, "-X", "utf8", str(top / "tools" / step.script), *words]
    ran = subprocess.run(run, cwd=top / step.at, input=asked, capture_output=True, encoding="utf-8")
    # the model ends with the status of its run, and says nothing of it
    if ran.returncode and (step.script != "models/run_model.py" or ran.stderr):
        return f"FAILED: {ran.stdout[-2000:]}{ran.stderr[-2000:]}"
    if step.into:
        with ONE_AT_A_TIME:
            text = placed(top / step.into, ran.stdout, step.part, step.behind) if step.part else ran.stdout
            (top / step.into).write_text(text, encoding="utf-8")
    return ""


def drift(file, top):
    """Where a file differs from the one that was made of it at `top`, or nothing."""
    with ONE_AT_A_TIME:
        here, made = ((place / file).read_text(encoding="utf-8").splitlines() for place in (ROOT, top))
    if here == made:
        return ""
    at = next((number for number, (one, other) in enumerate(zip(here, made)) if one != other), min(len(here), len(made)))
    one, other = (lines[at] if at < len(lines) else "(nothing)" for lines in (here, made))
    start = max(0, len(os.path.commonprefix([one, other])) - 60)
    one, other = (("..." if start else "") + line[start : start + 150] for line in (one, other))
    return f"DRIFTED: {file} has {len(here)} lines and is to have {len(made)}; line {at + 1}\n  is       {one}\n  is to be {other}"


def copied(room):
    """A copy of all that the scripts read, without what was built and the proofs."""
    left_out = shutil.ignore_patterns("out", ".git", "proofs", "__pycache__")
    return Path(shutil.copytree(ROOT, Path(room) / "copy", symlinks=True, ignore=left_out))


def make(tables):
    before = {file: (ROOT / file).read_bytes() for step in tables for file in made_by(step)}
    told = {named(step): failing(step, ROOT) for step in tables}
    changed = [file for file, text in before.items() if (ROOT / file).read_bytes() != text]
    print("".join(f"{name}\n{text}\n" for name, text in told.items() if text) + "".join(f"changed: {file}\n" for file in changed), end="")
    wrong = sum(map(bool, told.values()))
    print(f"{len(tables) - wrong} of {len(tables)} steps made their tables; {len(changed)} files changed")
    return not wrong


def check(tables, comparisons):
    """Makes the tables in a copy, those that read others last, and compares, as many at once as there are processors."""
    def complaint(step):
        if step in comparisons:
            return failing(step, ROOT)
        return failing(step, top) or "\n".join(filter(None, [drift(file, top) for file in made_by(step)]))

    wrong = 0
    with tempfile.TemporaryDirectory() as room, ThreadPoolExecutor(os.cpu_count()) as workers:
        top = copied(room)
        last = [step for step in tables if step.is_last]
        for steps in ([step for step in [*tables, *comparisons] if step not in last], last):
            for step, text in zip(steps, workers.map(complaint, steps)):
                print(f"{'NO' if text else 'ok'}: {named(step)}" + (f"\n{text}" if text else ""), flush=True)
                wrong += bool(text)
    print(f"{len(tables)} tables and {len(comparisons)} comparisons, {wrong} wrong")
    return not wrong


def main():
    if sys.version_info < (3, 10):
        sys.exit("tools/make.py wants Python 3.10 or later")
    words = argparse.ArgumentParser(description=__doc__.splitlines()[0])
    for name in ("check", "icarus", "built", "list"):
        words.add_argument(f"--{name}", action="store_true")
    words.add_argument("words", nargs="*", metavar="WORD")
    asked = words.parse_args()
    has = {None: True, "icarus": asked.icarus, "built": asked.built}
    tables, comparisons = ([step for step in steps if not asked.words or any(word in named(step) for word in asked.words)] for steps in (TABLES, COMPARISONS))
    if asked.list:
        print("\n".join(map(named, [*tables, *comparisons])))
        return 0
    left = [step for step in [*tables, *(comparisons if asked.check else [])] if not has[step.needs]]
    for step in left:
        print(f"left out, without --{step.needs}: {named(step)}")
    tables, comparisons = ([step for step in steps if has[step.needs]] for steps in (tables, comparisons))
    well = check(tables, comparisons) if asked.check else make(tables)
    return 0 if well else 1


if __name__ == "__main__":
    sys.exit(main())
