#!/usr/bin/env python3
"""Counts the ways from each crate to those below it, and what a change of one costs above it.

    tools/crate_ways.py [NUMBER]           the dearest NUMBER crates (12)
    tools/crate_ways.py --above [NAME ..]  the crates that are proved anew after a change of these; without names, how many stand above each crate

`rt` sums up the texts of a library before and after it builds it, and goes over every way to every crate below it for that, without a memory. The sum
is worked out by `rt` alone, one library at a time, so that these ways cost as much of the gate's time as proofs do where crates stand in long chains.
For the dearest crates the first form prints the ways, the seconds that this machine takes for one sum, and the longest chain; and at the end the
minutes of all sums of a gate. The second one tells the share of all lines of code, and as many of the processor minutes that a gate takes (docs/GATE.md).
"""
import hashlib
import os
import sys
import time
from functools import cache

PARTS = ("src", "specs", "proofs")
# processor minutes of the whole gate on quiet processors, reckoned from the table of docs/GATE.md
GATE = 200


def crates_of(file):
    """The crates that each crate stands on, without those of the toolchain."""
    lines = (line.partition("#")[0].partition(":") for line in open(file, encoding="utf-8"))
    named = {name.strip(): libraries.split() for name, _, libraries in lines if name.strip()}
    return {name: [it for it in libraries if it in named] for name, libraries in named.items()}


def summed(name):
    """The seconds of reading and summing up the crate's own texts."""
    start, total = time.perf_counter(), hashlib.sha256()
    for part in PARTS:
        for folder, _, files in os.walk(f"crates/{name}/{part}"):
            for file in files:
                with open(f"{folder}/{file}", "rb") as text:
                    total.update(repr((file, text.read())).encode())
    return time.perf_counter() - start


def code_lines(name):
    """The lines of `src` that are neither empty nor a comment nor an import."""
    count = 0
    for folder, _, files in os.walk(f"crates/{name}/src"):
        for file in files:
            with open(f"{folder}/{file}", encoding="utf-8") as text:
                count += sum(1 for line in text if line.strip() and not line.strip().startswith(("//", "use ", "ghost use ", "pub use ")))
    return count


def above(names, below):
    """The crates that stand on one of these, lowest first."""
    found = set()
    for name, libraries in below.items():
        if any(it in found or it in names for it in libraries):
            found.add(name)
    return [name for name in below if name in found]


def tell_above(names, below):
    if lacking := [name for name in names if name not in below]:
        sys.exit(f"{lacking[0]} is no crate of crates.txt")
    lines = {name: code_lines(name) for name in below}

    def told(some):
        found = above(some, below)
        share = sum(lines[name] for name in {*found, *some}) / sum(lines.values())
        return f"{', '.join(some)}: {len(found)} crates above; with them {share:.0%} of the code, some {GATE * share:.0f} of the gate's {GATE} processor minutes"

    print("\n".join([*above(names, below), told(names)] if names else [told([name]) for name in below]))


def tell_ways(below, number=12):
    @cache
    def ways(name):
        return 1 + sum(map(ways, below[name]))

    @cache
    def seconds(name):
        return min(summed(name), summed(name)) + sum(map(seconds, below[name]))

    @cache
    def chain(name):
        return 1 + max(map(chain, below[name]), default=0)

    for name in sorted(below, key=ways, reverse=True)[:number]:
        print(f"{name}: {ways(name)} ways, {seconds(name):.1f} s, a chain of {chain(name)}")
    libraries = [it for it in below if os.path.isfile(f"crates/{it}/src/lib.rt")]
    print(f"{len(below)} crates; all sums of a gate: {2 * sum(map(seconds, libraries)) / 60:.1f} minutes")


def main(words):
    os.chdir(os.path.join(os.path.dirname(os.path.realpath(__file__)), ".."))
    below = crates_of("crates.txt")
    if words[:1] == ["--above"]:
        tell_above(words[1:], below)
    else:
        tell_ways(below, *map(int, words))


if __name__ == "__main__":
    main(sys.argv[1:])
