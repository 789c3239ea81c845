#!/usr/bin/env python3
"""Compares the logical lines of `py_lex` with those of CPython's `tokenize`.

    tools/compare/py_lex_lines.py                      compares the `starts` rows of crates/python_tests
    tools/compare/py_lex_lines.py PROGRAM [FILE ..]    compares what the built program says

PROGRAM is the built program `python_tests`, which answers a row `starts` by the number and the indentation of each logical line of
the row's text, or by a fault. The texts are the FILEs, and some thousand that are made of pieces by a seed. Where the program has
lines, CPython must read the text too, and find logical lines that begin on the same lines at the same indentations. The gate
doesn't run this.
"""
import io
import random
import re
import subprocess
import sys
import tokenize
from pathlib import Path

CRATE = Path(__file__).resolve().parents[2] / "crates" / "python_tests"
# so many rows are less than the program takes
ROWS_AT_ONCE = 500
SKIPPED = (tokenize.COMMENT, tokenize.NL, tokenize.INDENT, tokenize.DEDENT, tokenize.ENDMARKER, tokenize.ENCODING)

WORDS = ["a", "if", "_b1", "f", "0", "17", "0x1F", "1_0", "True", "None", "r", "pass"]
MARKS = ["+", "==", "//", "<<=", ",", ".", ":", "@", "~", "->"[0], "<", "="]
TEXTS = ["'a'", '"b"', "''", "'\\''", '"it\'s"', "f'a{b}c'", 'f"{{{a}}}"', "f'{(a)}'", "'# ('"]
DOCSTRINGS = ['"""a"""', '"""a\n  b\n"""', "'a'", '"""\n\ta # (\n"""', '"""a\\"""b"""']
COMMENTS = ["", "", "  # a", " # ( ' \"\"\"", "#"]


def logical_lines(text):
    """The first line and the indentation of each logical line, or None where CPython reads none."""
    found, first = [], None
    try:
        for token in tokenize.generate_tokens(io.StringIO(text, newline="").readline):
            if token.type in SKIPPED:
                continue
            if token.type == tokenize.NEWLINE:
                first = None
            elif first is None:
                first = token.start
                found.append(first)
    except (tokenize.TokenError, IndentationError, SyntaxError):
        return None
    return found


def code(rng, depth):
    """A few tokens, with brackets over several lines now and then."""
    parts = []
    for _ in range(rng.randrange(1, 6)):
        kind = rng.randrange(8)
        if kind < 3:
            parts.append(rng.choice(WORDS))
        elif kind < 5:
            parts.append(rng.choice(MARKS))
        elif kind < 6:
            parts.append(rng.choice(TEXTS))
        elif depth < 3:
            left, right = rng.choice(["()", "[]"])
            inner = code(rng, depth + 1)
            if rng.randrange(3) == 0:
                inner = rng.choice(COMMENTS) + "\n" + " " * rng.randrange(9) + inner + "\n" * rng.randrange(1, 3)
            parts.append(left + inner + right)
    return " ".join(parts) or "a"


def made(rng):
    """A text of some lines."""
    lines, blocks = [], [0]
    for _ in range(rng.randrange(1, 12)):
        kind = rng.randrange(10)
        if kind == 0:
            lines.append(" " * rng.randrange(5))
        elif kind == 1:
            lines.append(" " * rng.randrange(5) + "# a comment (")
        else:
            turn = rng.randrange(6)
            if turn == 0:
                blocks.append(blocks[-1] + rng.randrange(1, 5))
            elif turn == 1 and len(blocks) > 1:
                blocks = blocks[: rng.randrange(1, len(blocks))]
            indentation = blocks[-1] if rng.randrange(12) else rng.randrange(6)
            body = rng.choice(DOCSTRINGS) if kind == 2 else code(rng, 0)
            lines.append(" " * indentation + body + rng.choice(COMMENTS))
    end = rng.choice(["\n", "\n", "\n", "\r\n"])
    return end.join(lines) + rng.choice(["", end])


def plain(part):
    """The text that a part of a row says."""
    return re.sub(r"\\([0-9a-f]{2})", lambda found: chr(int(found[1], 16)), part)


def escaped(text):
    """A part of a row that says the text."""
    return "".join(char if " " <= char <= "~" and char != "\\" else f"\\{ord(char):02x}" for char in text)


def shown(answer):
    """The lines that the program told, or None where it told a fault."""
    if answer[-1:] == ")":
        return None
    return [tuple(map(int, line.split(":"))) for line in answer.split(";")[:-1]]


def stored():
    """The texts of the rows of the table, each with its rule and its answer."""
    rows, answers = ((CRATE / name).read_text(encoding="utf-8").splitlines() for name in ("stdin", "stdout"))
    for row, answer in zip(rows, answers, strict=True):
        asked, rule, part = row.split("\t", 2)
        if asked == "starts":
            yield rule, plain(part), answer.removeprefix(rule + ": ")


def told(program, texts):
    """The texts, each with its name and with what the program answers."""
    for first in range(0, len(texts), ROWS_AT_ONCE):
        some = texts[first : first + ROWS_AT_ONCE]
        rows = "".join(f"starts\ttext\t{escaped(text)}\n" for _, text in some)
        answers = subprocess.run([program], input=rows, capture_output=True, text=True, check=True).stdout.splitlines()
        yield from ((*text, answer.removeprefix("text: ")) for text, answer in zip(some, answers, strict=True))


def made_texts():
    rng = random.Random(1)
    return [(f"text {k}", made(rng)) for k in range(3000)]


def main(program=None, *files):
    texts = [(name, Path(name).read_bytes().decode("latin-1")) for name in files] + made_texts()
    count = accepted = 0
    for name, text, answer in told(program, texts) if program else stored():
        count += 1
        got, want = shown(answer), logical_lines(text)
        if got is None:
            continue
        accepted += 1
        if got != want:
            print(f"{name}: {got} here, {want} in CPython:\n{text}")
            return 1
    print(f"{accepted} of {count} texts have lines, and CPython has the same")
    return 0 if accepted else 1


if __name__ == "__main__":
    sys.exit(main(*sys.argv[1:]))
