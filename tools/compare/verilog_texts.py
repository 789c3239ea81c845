#!/usr/bin/env python3
"""Compares the Verilog texts in crates/design_tests/stdin with Icarus Verilog.

    tools/compare/verilog_texts.py

Each text that `v_parse` accepts is given to `iverilog -g2005`. It must find no syntax error there. A text that names what it
doesn't declare needn't elaborate; such texts are counted apart. A row whose rule begins with "wider than the standard" is a
text that the profile takes and IEEE 1364-2005 doesn't (docs/VERILOG.md names these forms); it is counted apart, too. Of the
refused texts those are printed that Icarus takes: the profile leaves out something in each of them. The script ends with the
status 1 if Icarus finds a syntax error in another accepted text. The gate needs neither this script nor Icarus.
"""
import re
import subprocess
import sys
import tempfile
from pathlib import Path

sys.path.insert(0, str(Path(__file__).resolve().parents[1]))

from rows.part_rows import stored

WIDER = "wider than the standard"


def rows():
    """The rule, the text and the answer of each row that asks for a tree."""
    for (kind, rule, *parts), answer in stored("design_tests", "verilog"):
        if kind == "tree":
            yield rule, re.sub(r"\\([0-9a-f]{2})", lambda byte: chr(int(byte[1], 16)), parts[0]), answer[len(rule) + 2 :]


def answer(text):
    """What Icarus says of a text: "compiles", "syntax error" or "doesn't elaborate"."""
    with tempfile.TemporaryDirectory() as folder:
        path = Path(folder) / "text.v"
        path.write_text(text, encoding="latin-1")
        done = subprocess.run(["iverilog", "-g2005", "-t", "null", str(path)], capture_output=True, text=True)
    if done.returncode == 0:
        return "compiles"
    return "syntax error" if "syntax error" in done.stderr or "error: " in done.stderr and "parse" in done.stderr else "doesn't elaborate"


def main():
    counts, wrong = {}, 0
    for rule, text, told in rows():
        accepted = told.startswith("(")
        said = answer(text)
        if rule.startswith(WIDER):
            said = f"{said} (wider than the standard)"
        counts[accepted, said] = counts.get((accepted, said), 0) + 1
        if accepted and said == "syntax error":
            wrong += 1
            print(f"accepted, but Icarus finds a syntax error: {rule}: {text}")
        elif not accepted and said == "compiles":
            print(f"refused, and Icarus takes it: {rule}: {text}")
    for (accepted, said), count in sorted(counts.items()):
        print(f"{'accepted' if accepted else 'refused'}, {said}: {count}")
    return 1 if wrong or not counts else 0


if __name__ == "__main__":
    sys.exit(main())
