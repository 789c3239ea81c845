#!/usr/bin/env python3
"""Runs the built command on damaged copies of the texts of `examples/`: tools/damaged.py [--count N] [--from N] [--seed N] [--cuts] [--keep] PROGRAM

Each copy has a byte changed, dropped, doubled or put in, lines swapped, dropped or doubled, its end cut off, or the end of another text in place of
its own, up to three such things in turn; it follows from the seed and its number. With `--cuts` each text is cut after each byte instead. The other
text of the example stays whole. A budget of 20,000 bounds the run, and one copy in four is run with `--trace`, one in eight with `--vcd`.

What is wanted: no signal ends the program, in 10 seconds of the processor and a stack of 1 MiB; the status is 0, 1, 8 or that of the damaged text's
own refusal; a refusal is one line, with a known rule and a place in the text or directly behind it; the lines of a run have the forms of
docs/RUNS.md, their times never fall, each test has its two lines, and the last one counts them; a VCD text is one that `models/vcd_text.py` reads.
Each copy for which that isn't so is told with its number, and kept as `damaged-NUMBER.v` and `.py` with `--keep`. `./test` runs some of them.
"""
import argparse
import os
import random
import re
import resource
import sys
import tempfile
from collections import Counter, namedtuple
from pathlib import Path

EXAMPLES = Path(__file__).resolve().parent.parent / "examples"
BUDGET = 20_000
SECONDS, STACK = 10, 1 << 20
# How many copies a case of `./test` has, and how many cases there are.
IN_A_CASE, CASES = 25, 8

# design, tests: the texts, as bytes; what: `design` or `tests`, the one that is damaged; option: None, `--trace` or `--vcd`
Copy = namedtuple("Copy", "number design tests what option")
DamagedCase = namedtuple("DamagedCase", "name numbers")

DESIGN_RULES = b"""BadByte BadNumber UnclosedText Directive Syntax TooDeep NoTop UnknownModule RecursiveInstance DuplicateName UnknownName BadPort
    NotConstant BadRange TooWide TwoDrivers BadTarget LoopTooLong TooMany BadDelay""".split()
TESTS_RULES = b"""Tab Dedent UnclosedText BadByte BadLine NoBlock TooDeep UnknownImport UnknownName Misplaced DuplicateName BadOption TooManyCases
    NoTests""".split()
LINE = re.compile(rb"(\d+) (?:(TEST|PASS|SKIP) (.+)|(FAIL) (.+?) \((.+)\)|(INFO|WARNING|ERROR) (.*)|SIG [A-Za-z_][\w$.\[\]]* [01xz]{1,128})")
LAST = re.compile(rb"\*\* TESTS=(\d+) PASS=(\d+) FAIL=(\d+) SKIP=(\d+) TIME=(\d+) \*\*")


# ---- damage


def texts():
    """The designs and tests of the examples, in pairs."""
    return [(path.read_bytes(), tests.read_bytes()) for path in sorted(EXAMPLES.glob("*/*.v")) if (tests := path.with_name("t.py")).exists()]


def with_byte(chance, text, others):
    """A text with one byte changed, dropped, doubled, or put in."""
    at = chance.randrange(len(text))
    byte = bytes([chance.choice((chance.randrange(256), chance.choice(chance.choice(others)), chance.choice(b"()[]{}'\"`#:;,.\\\t\n\r\0 0x")))])
    how = chance.randrange(4)
    return text[:at] + (byte, b"", text[at:at + 1] * 2, byte + text[at:at + 1])[how] + text[at + 1:]


def with_lines(chance, text, others):
    """A text with two lines swapped, or one dropped, doubled, or indented otherwise."""
    lines = text.splitlines(keepends=True)
    one, other, how = chance.randrange(len(lines)), chance.randrange(len(lines)), chance.randrange(4)
    if how == 0:
        lines[one], lines[other] = lines[other], lines[one]
    else:
        lines[one] = (b"", lines[one] * 2, chance.choice((b" ", b"    ", b"\t")) + lines[one])[how - 1]
    return b"".join(lines)


def cut(chance, text, others):
    return text[:chance.randrange(len(text) + 1)]


def spliced(chance, text, others):
    """The front of a text with the end of another, or of its own, behind it."""
    other = chance.choice([*others, text])
    return text[:chance.randrange(len(text) + 1)] + other[chance.randrange(len(other)):]


DAMAGES = (with_byte, with_byte, with_byte, with_lines, cut, spliced)


def copy_of(seed, number, pairs):
    """The copy of a seed and a number."""
    chance = random.Random(f"{seed} {number}")
    whole, what = chance.choice(pairs), chance.choice(("design", "tests"))
    others = [pair[what == "tests"] for pair in pairs]
    text = whole[what == "tests"]
    for _ in range(chance.randint(1, 3)):
        text = chance.choice(DAMAGES)(chance, text, others) or b"\n"
    option = chance.choice((None, None, None, None, None, "--trace", "--trace", "--vcd"))
    return placed(number, whole, what, text, option)


def placed(number, whole, what, text, option):
    return Copy(number, text, whole[1], what, option) if what == "design" else Copy(number, whole[0], text, what, option)


def cuts(pairs):
    """Each text cut after each byte, the tests once."""
    number, seen = 0, set()
    for whole in pairs:
        for what, text in zip(("design", "tests"), whole):
            if text not in seen:
                seen.add(text)
                for end in range(len(text)):
                    yield placed(number, whole, what, text[:end], None)
                    number += 1


# ---- what is wanted


def is_in(text, line, column):
    """Is a place of a text, or directly behind it? A design's places count from 1, columns in bytes."""
    lines = text.split(b"\n")
    return 1 <= line <= len(lines) and 1 <= column <= len(lines[line - 1]) + 1


def refusal_fault(copy, status, output):
    """What is wrong with a refusal, or None."""
    if (status == 3) != (copy.what == "design"):
        return f"status {status}, where the {copy.what} alone are damaged"
    form = rb"error: d\.v: (\w+) at (\d+):(\d+)\n" if status == 3 else rb"error: t\.py: (\w+) at line (\d+)\n"
    found = re.fullmatch(form, output)
    if not found or found[1] not in (DESIGN_RULES if status == 3 else TESTS_RULES):
        return "no line of a refusal"
    text = copy.design if status == 3 else copy.tests
    return None if is_in(text, int(found[2]), int(found[3]) if status == 3 else 1) else "the place isn't in the text"


def run_fault(copy, status, output):
    """What is wrong with the lines of a run, or None."""
    *lines, behind = output.split(b"\n")
    if behind or not lines:
        return "no whole line at the end"
    open_test, time, ends = None, 0, Counter()
    for line in lines[:-1]:
        found = LINE.fullmatch(line)
        if not found or int(found[1]) < time or b" SIG " in line[:24] and copy.option != "--trace" and not found[7]:
            return f"no line of a run: {line[:80]!r}"
        time, word, name = int(found[1]), found[2] or found[4], found[3] or found[5]
        if word and (open_test is None) != (word in (b"TEST", b"SKIP")) or word in (b"PASS", b"FAIL") and name != open_test:
            return f"a line of a test in another's place: {line[:80]!r}"
        if word:
            open_test, ends[word] = name if word == b"TEST" else None, ends[word] + 1
    if status == 8:
        return None if lines[-1] == b"BUDGET %d" % BUDGET else "no line of a budget"
    last = LAST.fullmatch(lines[-1])
    told = last and [int(number) for number in last.groups()]
    counted = [ends[word] for word in (b"PASS", b"FAIL", b"SKIP")]
    if not last or open_test is not None or told[:4] != [sum(counted), *counted] or told[4] < time:
        return "the last line doesn't count the tests"
    return None if status == bool(told[2]) else f"status {status} of {told[2]} failed tests"


def vcd_fault(output):
    """What is wrong with a VCD text, or None. The model takes Python 3.10; where that isn't there none is looked for."""
    if sys.version_info < (3, 10):
        return None
    from models import vcd_text
    try:
        vcd_text.read(output.decode("latin-1"))
    except vcd_text.BadLine as bad:
        return f"line {bad.line} is none of a VCD text"
    return None


def fault_of(copy, status, output):
    """What is wrong with an answer, or None."""
    if status < 0:
        return f"ended by signal {-status}"
    if status in (3, 4):
        return refusal_fault(copy, status, output)
    if status not in (0, 1, 8):
        return f"status {status}"
    return vcd_fault(output) if copy.option == "--vcd" else run_fault(copy, status, output)


# ---- runs


def answer(program, copy, folder, budget=BUDGET):
    """The status and the standard output of the program on a copy."""
    # A file that is written anew in place of one that is there waits for the disk on some systems.
    for name, text in (("d.v", copy.design), ("t.py", copy.tests), ("out", b"")):
        (folder / name).unlink(missing_ok=True)
        (folder / name).write_bytes(text)
    words = [program, *([copy.option] if copy.option else []), f"--budget={budget}", str(folder / "d.v"), str(folder / "t.py")]
    opened = [(os.POSIX_SPAWN_OPEN, at, name, how, 0) for at, name, how in ((0, "/dev/null", os.O_RDONLY), (1, str(folder / "out"), os.O_WRONLY))]
    process = os.posix_spawn(program, words, os.environ, file_actions=opened)
    for what, limit in ((resource.RLIMIT_CPU, SECONDS), (resource.RLIMIT_STACK, STACK)):
        resource.prlimit(process, what, (limit, limit))
    status = os.waitstatus_to_exitcode(os.waitpid(process, 0)[1])
    return status, (folder / "out").read_bytes().replace(os.fsencode(folder) + b"/", b"")


def cases():
    """The copies that `./test` runs."""
    return [DamagedCase(f"damaged: copies {at} to {at + IN_A_CASE - 1}", range(at, at + IN_A_CASE)) for at in range(0, CASES * IN_A_CASE, IN_A_CASE)]


def looked_at(program, case):
    """A case's name, what is wanted where something else was found, and that."""
    pairs = texts()
    with tempfile.TemporaryDirectory() as folder:
        for number in case.numbers:
            copy = copy_of(0, number, pairs)
            fault = fault_of(copy, *answer(program, copy, Path(folder)))
            if fault:
                return case.name, "an answer that tools/damaged.py wants", f"copy {number}: {fault}"
    return case.name, None, None


def main():
    parser = argparse.ArgumentParser(description=__doc__.splitlines()[0])
    for word, given in (("--count", 1000), ("--from", 0), ("--seed", 0)):
        parser.add_argument(word, type=int, default=given, metavar="N", dest=word.strip("-"))
    parser.add_argument("--cuts", action="store_true")
    parser.add_argument("--keep", action="store_true")
    parser.add_argument("program")
    asked = vars(parser.parse_args())
    program, pairs, answers, bad = os.path.realpath(asked["program"]), texts(), Counter(), 0
    numbers = range(asked["from"], asked["from"] + asked["count"])
    with tempfile.TemporaryDirectory() as folder:
        for copy in cuts(pairs) if asked["cuts"] else (copy_of(asked["seed"], number, pairs) for number in numbers):
            status, output = answer(program, copy, Path(folder))
            answers[status], fault = answers[status] + 1, fault_of(copy, status, output)
            if fault:
                bad += 1
                print(f"copy {copy.number}, damaged {copy.what}, {copy.option}: {fault}; it says {output[-200:]!r}", flush=True)
                if asked["keep"]:
                    Path(f"damaged-{copy.number}.v").write_bytes(copy.design)
                    Path(f"damaged-{copy.number}.py").write_bytes(copy.tests)
    told = ", ".join(f"{count} with status {status}" for status, count in sorted(answers.items()))
    print(f"{sum(answers.values())} copies ({told}), {bad} answered otherwise")
    return 1 if bad else 0


if __name__ == "__main__":
    sys.exit(main())
