#!/usr/bin/env python3
"""Compares the numbers of docs/LIMITS.md with the definitions that it names, and sees that no other page repeats them.

    tools/compare/limits.py

A row of a table there names definitions of the `specs/` of crates. Where one is a number, that number has to stand in the row; each has to be there. Numbers that
tell a limit at sight stand on no other page of `docs/` and not in README.md, but for docs/PERFORMANCE.md, which has measurements, and where a page tells
something else by them (`ELSEWHERE`). The status is 1 where one of these doesn't hold.
"""
import re
import sys
from pathlib import Path

ROOT = Path(__file__).resolve().parents[2]
PAGE = ROOT / "docs" / "LIMITS.md"
# these tell a limit at sight
TELLING = ["1,048,576", "16,777,216", "65,536", "4,096", "2^62", "2^63"]
# a page and a front of the line that may have one of them
ELSEWHERE = [("DECISIONS.md", "- **Reading the folder.**")]


def definitions():
    """What stands behind `NAME = ` in the specs of all crates, by name; names of other definitions have an empty text."""
    found = {}
    for path in sorted((ROOT / "crates").glob("*/specs/**/*.antt")):
        for line in path.read_text(encoding="utf-8").splitlines():
            if given := re.fullmatch(r"(\w+) = (.+)", line):
                found.setdefault(given[1], []).append(given[2])
            elif named := re.match(r"(?:abbrev |unfoldable )?(?:pub )?(?:record |data )?(\w+)\b", line):
                found.setdefault(named[1], [])
    return found


def value(text, found):
    """The number that a definition's right side is, or None."""
    if power := re.fullmatch(r"(\d+) \^ (\d+)( - 1)?", text):
        return int(power[1]) ** int(power[2]) - bool(power[3])
    if text.isdecimal():
        return int(text)
    return next((value(other, found) for other in found.get(text, [])), None)


def numbers(cell):
    """The numbers of a cell, where 2^n and 2^n - 1 are one each."""
    powers = re.findall(r"(\d+)\^(\d+)( - 1)?", cell)
    plain = re.sub(r"\d+\^\d+( - 1)?", "", cell)
    return {int(base) ** int(power) - bool(less) for base, power, less in powers} | {int(each.replace(",", "")) for each in re.findall(r"\d[\d,]*", plain)}


def rows():
    for line in PAGE.read_text(encoding="utf-8").splitlines():
        cells = [cell.strip() for cell in line.strip("|").split(" | ")]
        if line.startswith("|") and len(cells) >= 4 and "`" in cells[-1]:
            yield cells[0], cells[1], re.findall(r"`(\w+)`", cells[-1])


def wrong_rows():
    found = definitions()
    for what, limit, names in rows():
        for name in names:
            if name not in found:
                yield f"{what}: no definition is called {name}"
            given = {number for number in (value(text, found) for text in found.get(name, [])) if number is not None}
            if given - numbers(limit):
                yield f"{what}: {name} is {', '.join(map(str, given))}, and the page has {limit}"


def repeated():
    for page in [ROOT / "README.md", *sorted((ROOT / "docs").glob("*.md"))]:
        if page.name in ("LIMITS.md", "PERFORMANCE.md"):
            continue
        for at, line in enumerate(page.read_text(encoding="utf-8").splitlines(), 1):
            told = [number for number in TELLING if re.search(rf"(?<![\d,]){re.escape(number)}(?![\d,])", line)]
            if told and not any(page.name == name and line.startswith(front) for name, front in ELSEWHERE):
                yield f"{page.name}, line {at} repeats {', '.join(told)}: link to LIMITS.md"


def main():
    count = len(list(rows()))
    wrong = [*wrong_rows(), *repeated()]
    print("".join(line + "\n" for line in wrong) + f"{count} limits, {len(wrong)} complaints")
    return 1 if wrong or not count else 0


if __name__ == "__main__":
    sys.exit(main())
