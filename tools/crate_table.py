#!/usr/bin/env python3
"""Writes the table of crates into docs/ARCHITECTURE.md, from crates.txt and the crates' pages.

    tools/crate_table.py            writes it
    tools/crate_table.py --check    compares the one that is there

In crates.txt a comment of one or two words and nothing else, as `# Tests files`, begins a layer: its crates are those of the lines up to the next one. What
a crate is, in a few words, stands on the first line of its page, crates/NAME/README.md, behind its name: "# `v_lex`: text to tokens". The table shows both, and of
the crates that it stands on those that no other one of them stands on. The status is 1 where a page says nothing on its first line, where a crate stands in
no layer, where one stands on a crate that comes later, and with `--check` where the table is another one.
"""
import re
import sys
from functools import cache
from pathlib import Path

ROOT = Path(__file__).resolve().parent.parent
PAGE = ROOT / "docs" / "ARCHITECTURE.md"
FIRST = "<!-- Up to the next such line tools/crate_table.py writes this. -->"
LAST = "<!-- From here on it is written by hand. -->"


def listed():
    """The layers in order, each with its crates in order, and the crates that each one stands on."""
    layers, below, layer = {}, {}, None
    for line in (ROOT / "crates.txt").read_text(encoding="ascii").splitlines():
        if found := re.fullmatch(r"# *([A-Z][a-z]*(?: [a-z]+)?)", line):
            layer = layers.setdefault(found[1], [])
        elif found := re.fullmatch(r"(\w+): *([\w ]*)", line.partition("#")[0].strip()):
            below[found[1]] = found[2].split()
            if layer is None:
                layer = layers.setdefault("", [])
            layer.append(found[1])
    return layers, below


def told(name):
    """What a crate is, by the first line of its page; None where it doesn't say so."""
    page = ROOT / "crates" / name / "README.md"
    line = page.read_text(encoding="utf-8").partition("\n")[0] if page.is_file() else ""
    found = re.fullmatch(rf"# `?{name}`?: (.+)", line)
    return found and found[1]


def complaints(layers, below):
    """What is wrong with the list and the pages."""
    seen = set()
    for layer, names in layers.items():
        for name in names:
            if not layer:
                yield f"crates.txt: {name} stands in no layer"
            if later := [it for it in below[name] if it in below and it not in seen]:
                yield f"crates.txt: {name} stands on {', '.join(later)}, which comes later"
            if not told(name):
                yield f"crates/{name}/README.md: its first line doesn't say what the crate is (# `{name}`: ..)"
            seen.add(name)


def table(layers, below):
    @cache
    def all_below(name):
        return frozenset(other for it in below.get(name, []) for other in (it, *all_below(it)))

    def highest(name):
        """The crates that it stands on, but for those that another one of them stands on."""
        hidden = {other for it in below[name] for other in all_below(it)}
        return [f"`{it}`" if it in below else f"the kit's `{it}`" for it in below[name] if it not in hidden]

    lines = [f"{len(below)} crates, lowest first. A crate stands on those of its line, and on some that these stand on."]
    for layer, names in layers.items():
        lines += ["", f"**{layer}**", "", "| Crate | What it is | Stands on |", "|---|---|---|"]
        lines += [f"| [`{name}`](../crates/{name}/README.md) | {told(name)} | {', '.join(highest(name))} |" for name in names]
    return "\n".join(lines)


def main(words):
    layers, below = listed()
    wrong = list(complaints(layers, below))
    if wrong:
        print("\n".join(wrong))
        return 1
    page = PAGE.read_text(encoding="utf-8")
    front, _, rest = page.partition(FIRST)
    _, found, behind = rest.partition(LAST)
    if not found:
        print(f"docs/ARCHITECTURE.md lacks one of these two lines:\n{FIRST}\n{LAST}")
        return 1
    made = f"{front}{FIRST}\n\n{table(layers, below)}\n\n{LAST}{behind}"
    if words == ["--check"]:
        print("the table of crates is " + ("as it should be" if made == page else "another one than crates.txt and the pages give"))
        return int(made != page)
    PAGE.write_text(made, encoding="utf-8")
    print(f"{len(below)} crates in {len(layers)} layers")
    return 0


if __name__ == "__main__":
    sys.exit(main(sys.argv[1:]))
