"""The rows of a part of a test program, and their answers.

The first word of a row of crates/CRATE/stdin names the part that answers it, and the other words are the row. The rows of a part stand together. Each row
has one line of `stdout`, the same one, but for those of the last part, whose answers may have several.
"""
from itertools import takewhile
from pathlib import Path

CRATES = Path(__file__).resolve().parents[2] / "crates"


def lines_of(crate, name):
    return (CRATES / crate / name).read_text(encoding="utf-8").splitlines()


def span(rows, part):
    """Where the rows of a part stand among the lines of a `stdin`, and the lines of their answers in `stdout`; an end of None is that of the file."""
    first = next(at for at, row in enumerate(rows) if row.startswith(part + "\t"))
    end = first + len(list(takewhile(lambda row: row.startswith(part + "\t"), rows[first:])))
    return first, end if end < len(rows) else None


def stored(crate, part):
    """The rows of a part by their words, the part's own left out, each with its answer. They have one line each."""
    rows, answers = lines_of(crate, "stdin"), lines_of(crate, "stdout")
    first, end = span(rows, part)
    return [(row.split("\t")[1:], answer) for row, answer in zip(rows[first:end], answers[first:end], strict=True)]


def changed(crate, part, rows, answers):
    """The texts of `stdin` and of `stdout` with these rows of a part, by their words, and these answers, in place of those that stand there."""
    asked, answered = lines_of(crate, "stdin"), lines_of(crate, "stdout")
    first, end = span(asked, part)
    for lines, more in (asked, ["\t".join([part, *words]) for words in rows]), (answered, answers):
        lines[first:end] = more
    return {name: "".join(line + "\n" for line in lines) for name, lines in (("stdin", asked), ("stdout", answered))}


def put(crate, part, rows, answers):
    """Writes the two files with these rows and answers."""
    for name, text in changed(crate, part, rows, answers).items():
        (CRATES / crate / name).write_text(text, encoding="utf-8")
