#!/usr/bin/env python3
"""Writes the tables of what is left out into docs/PYTHON.md and docs/VERILOG.md, from tools/hints.txt.

    tools/left_out.py            writes them
    tools/left_out.py --check    compares those that are there

A row has a line that is refused, its rule, and what ./cocorun says to write instead; the last table of docs/PYTHON.md has what is taken and raises a fault when it
runs. A line that stands alone in the table of hints is shown without its indentation. The status is 1 with `--check` where a page is another one.
"""
import sys

from hint_cases import TOP, table

FIRST = "<!-- Up to the next such line tools/left_out.py writes this. -->"
LAST = "<!-- From here on it is written by hand. -->"
# Rules that say that something is wrong, and not that a form is left out.
FAULTS = ("NoTop", "UnknownModule", "TwoDrivers", "DuplicateName", "NoBlock", "UnclosedText", "UnknownName")


def code(text):
    """A text as code on a page, in a cell of a table."""
    text = text.replace("|", "\\|")
    return f"`` {text} ``" if "`" in text else f"`{text}`"


def prose(text):
    """What a hint says, in a cell of a table: what has a lone backquote is no code there."""
    parts = text.split("`")
    return text.replace("|", "\\|") if len(parts) % 2 and not text.startswith("the form is `timescale") else text.replace("`", "\\`").replace("|", "\\|")


def shown(row):
    """The line of a row that the page shows: behind a decorator that of the function, and where it is a fault the last one."""
    at = -1 if row.kind == "fault" else len(row.line) > 1 and row.line[0].startswith("@")
    return row.line[at].strip()


def rows(kind):
    for row in table():
        if row.kind == kind and row.line and row.rule not in FAULTS:
            yield f"| {code(shown(row))} | {row.rule} | {prose(row.hint)} |"


def written(page, tables):
    """A page with the tables put in, each between the next pair of its lines."""
    front, *rest = page.split(FIRST)
    if len(rest) != len(tables) or any(LAST not in part for part in rest):
        sys.exit(f"a page has to have {len(tables)} pairs of these two lines:\n{FIRST}\n{LAST}")
    return front + "".join(f"{FIRST}\n\n{made}\n\n{LAST}{part.partition(LAST)[2]}" for made, part in zip(tables, rest))


def main(words):
    heads = "| Refused | Rule | What to do |\n|---|---|---|\n"
    pages = {
        "docs/PYTHON.md": [heads + "\n".join(rows("tests")), heads.replace("Refused", "Taken").replace("Rule", "Fault") + "\n".join(rows("fault"))],
        "docs/VERILOG.md": [heads + "\n".join(rows("design"))],
    }
    wrong = 0
    for name, tables in pages.items():
        path = TOP / name
        page = path.read_text(encoding="utf-8")
        made = written(page, tables)
        if words == ["--check"]:
            print(f"{name} is " + ("as it should be" if made == page else "another one than tools/hints.txt gives"))
            wrong += made != page
        else:
            path.write_text(made, encoding="utf-8")
    return 1 if wrong else 0


if __name__ == "__main__":
    sys.exit(main(sys.argv[1:]))
