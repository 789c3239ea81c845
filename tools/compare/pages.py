#!/usr/bin/env python3
"""Compares the names on the pages with what is there: README.md, docs/, tools/ and the pages of the crates.

    tools/compare/pages.py

Each path between backquotes has to lead to a file, and each word there that has a `_` in it has to be a crate, or to stand somewhere in the sources of a crate or in a
script. So a page that still tells of what was renamed or taken out is found. Free are the crates of the table "Planned" in docs/ARCHITECTURE.md, words of other
languages (`OTHERS`), what stands in texts that are indented, and the names that docs/CHANGING.md proposes. The status is 1 where one leads nowhere.
"""
import re
import sys
from itertools import product
from pathlib import Path

ROOT = Path(__file__).resolve().parents[2]
SOURCES = ["crates/*/src/**/*.rt", "crates/*/specs/**/*.antt", "crates/*/proofs/**/*.antt", "tools/**/*.py", "tools/wrong_bodies", "tools/hints.txt", "cocorun"]
TOPS = ("crates", "docs", "tools", "examples", "release")
# of Rust, and the front of names of scripts
OTHERS = {"assert_eq", "rows_"}
# paths that are made, or that come with the release
FREE = ("out/", "release/out/", "release/cocorun", "release/SOURCES", "crates/NAME/wrong-bodies")
PARTS = ("src", "specs", "proofs", "must-fail", "wrong-bodies")
PROPOSED = "## Words that name several things today"


def section(text, heading):
    """The part of a page from a heading to the next one, or nothing."""
    return text.partition(heading)[2].partition("\n## ")[0]


def known():
    """Every word of the sources, the crates, and what is planned."""
    words = set(OTHERS) | {path.name for path in ROOT.glob("crates/*")} | {path.stem for path in ROOT.glob("tools/**/*.py")}
    for pattern in SOURCES:
        for path in ROOT.glob(pattern):
            words.update(re.findall(r"[A-Za-z_]\w*", path.read_text(encoding="utf-8")))
    planned = section((ROOT / "docs" / "ARCHITECTURE.md").read_text(encoding="utf-8"), "## Planned")
    return words | set(re.findall(r"`(\w+)`", planned))


def expanded(path):
    """A path with braces as all paths that it stands for."""
    parts = re.split(r"\{([^{}]*)\}", path)
    return ["".join(choice) for choice in product(*[part.split(",") if at % 2 else [part] for at, part in enumerate(parts)])]


def is_there(path, page):
    """Whether a path leads to a file: from the top, from the page's folder, or from that of a crate, which may be another one than the page's."""
    first = path.split("/")[0]
    if path.startswith(FREE) or first == "wrong-bodies":
        return True
    pattern = re.sub(r"\b(NAME|TABLE)\b", "*", path).rstrip("/")
    places = [ROOT, page.parent] if first in TOPS else [page.parent, ROOT / "crates", ROOT]
    return any(next(place.glob(pattern), None) for place in places) or first in PARTS and any(ROOT.glob(f"crates/*/{pattern}"))


def lines(page):
    """The lines of a page that are looked at, by their numbers."""
    text = page.read_text(encoding="utf-8")
    left_out = section(text, PROPOSED).splitlines()
    for at, line in enumerate(text.splitlines(), 1):
        if not line.startswith("    ") and not (line.startswith("|") and line in left_out):
            yield at, line


def astray(page, words):
    for at, line in lines(page):
        for told in re.findall(r"`([^`]+)`", line):
            parts = told.split()
            if parts and re.fullmatch(r"[A-Za-z.][\w.*{},-]*(/[\w.*{},-]+)+/?", parts[0]):
                yield from (f"{page.relative_to(ROOT)}, line {at}: no file {path}" for path in expanded(parts[0]) if not is_there(path, page))
            elif "/" not in told:
                names = re.findall(r"[A-Za-z_]\w{3,}", told)
                yield from (f"{page.relative_to(ROOT)}, line {at}: nothing is called {name}" for name in names if "_" in name and name not in words)


def main():
    words = known()
    pages = [ROOT / "README.md", *sorted(ROOT.glob("docs/*.md")), *sorted(ROOT.glob("tools/**/*.md")), *sorted(ROOT.glob("crates/*/README.md"))]
    wrong = [text for page in pages for text in astray(page, words)]
    print("".join(text + "\n" for text in wrong) + f"{len(pages)} pages, {len(wrong)} names and paths lead nowhere")
    return 1 if wrong else 0


if __name__ == "__main__":
    sys.exit(main())
