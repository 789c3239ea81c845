#!/usr/bin/env python3
"""Runs the program as a process on every row of the tables, every example and every fault that a process can show, and compares what it writes.

    ./test                      with the program that ./cocorun would run
    ./test --program PATH       with another one
    ./test [..] WORD ..         only the cases whose names hold one of the words

A case has a name, files, words, and the status and the lines that are wanted; each runs in a folder of its own, as many side by side as there are
processors. What is wanted comes from the tables of the test programs, which were worked out by hand, by CPython or by a model, and from the pages of
the examples. The script `./cocorun` is tried with a stand-in for the program (`tools/script_cases.py`), its hints on texts that are refused
(`tools/hint_cases.py`), the program in a stack of 1 MiB on texts with long rows of like parts (`tools/long_texts.py`) and on damaged copies of the
examples (`tools/damaged.py`), the pages on what they show (`tools/snippet_cases.py`), and `tools/where.py` on all examples
(`tools/where_cases.py`); the tables are made anew by the scripts that need nothing else than Python (`tools/make.py --check`). Each case that
differs is told with both texts. The last line is `N passed, M failed`, and the status is 1 where one failed. It needs `sh` and Python 3.9, and 3.10
for the tables.
"""
import argparse
import difflib
import multiprocessing
import os
import re
import resource
import subprocess
import sys
import tempfile
import time
from collections import namedtuple
from pathlib import Path

import damaged
import hint_cases
import long_texts
import script_cases
import snippet_cases
import where_cases

TOP = Path(__file__).resolve().parent.parent
# Where the tables stand, each by a test program and by the first word of its rows there, if the program has several: the commands and runs, the
# words, the rules of designs, the generated texts; and the programs that the gate runs.
RUNS, WORDS, RULES, MADE = ("runner_tests", "runner"), ("runner_tests", "command_words"), ("design_tests", "elaboration"), ("runner_tests", "made_texts")
PROGRAMS = [TOP / "crates" / name for name in ("cocorun", "cocorun_failed")]
EXAMPLES = TOP / "examples"

STATUSES = ["Passed", "Failed", "Usage", "DesignRefused", "TestsRefused", "ReadFault", "WriteFault", "NoMemory", "Budget"]
USAGE = b"usage: cocorun [--top NAME] [--budget N] [--seed N] [--trace | --vcd] DESIGN TESTS\n"
SMALL_DESIGN = b"module top(input a);\nendmodule\n"
SMALL_TESTS = b"import cocotb\n\n@cocotb.test()\nasync def t(dut):\n    pass\n"
SMALL_LINES = b"0 TEST t\n0 PASS t\n** TESTS=1 PASS=1 FAIL=0 SKIP=0 TIME=0 **\n"
# Cases of the table of hints, of what stands on pages, of the tool that tells lines, and of damaged texts, by their kinds.
BESIDE = {
    hint_cases.HintCase: hint_cases, snippet_cases.SnippetCase: snippet_cases, where_cases.WhereCase: where_cases, damaged.DamagedCase: damaged,
}
# Of how many bytes the stack may be while a long text runs.
SMALL_STACK = 1 << 20
# Seconds that a case may take.
LIMIT = 60

# files: texts by their names, None for a folder; output: what is wanted on standard output, None where the run of generated texts tells; out:
# where standard output goes: `whole` (it is read), `full` (/dev/full), `closed` (a pipe that nobody reads), `shut` (none), or the number of bytes
# that it takes; is_part: do the wanted lines only stand among the lines, in this order? stack: of how many bytes the stack may be, None for the
# system's own limit.
Case = namedtuple("Case", "name files words status output out is_part stack", defaults=("whole", False, None))
# What a case came to: None where all is as wanted, and else the two texts.
Result = namedtuple("Result", "name wanted found")


def unescaped(text):
    """The bytes of a part of a row, in which `\\` and two digits stand for a byte."""
    return re.sub(rb"\\([0-9a-f]{2})", lambda found: bytes([int(found[1], 16)]), text)


def text_of(table, name):
    """What the program of a table is run on (`stdin`), or what it must print (`stdout`)."""
    return (TOP / "crates" / table[0] / name).read_bytes()


def asked_of(table):
    """The rows of a table by their parts, each with its place among the program's rows."""
    for at, row in enumerate(text_of(table, "stdin").splitlines()):
        first, *rest = row.split(b"\t")
        if table[1] is None:
            yield at, [first, *rest]
        elif first == table[1].encode():
            yield at, rest


def rows_of(table):
    """The rows of a table by their parts, each with its answer, which is one line; so are those before."""
    answers = text_of(table, "stdout").splitlines()
    for at, row in asked_of(table):
        yield row, answers[at]


def name_of(rule):
    return rule.decode("latin-1")


def behind(answer, rule):
    return answer[len(rule) + 2:]


def command_cases():
    """The commands of the runner's table: a read that fails is a file that isn't there, and the put that fails is the first that finds no room."""
    for (kind, rule, *parts), answer in rows_of(RUNS):
        answer = behind(answer, rule)
        if kind in (b"command", b"kept"):
            words, design, tests, *failing = parts
            told = re.fullmatch(rb'(?:\d )?(\w+)(?: primed=\d+ removed=\d+ fired=\d+)? "(.*)"', answer)
            texts = {"d.v": design, "t.py": tests}
            read, put = [int(number) for number in failing] or (0, 0)
            files = {name: unescaped(text) for at, (name, text) in enumerate(texts.items(), 1) if text != b"-" and at != read}
            output, status = unescaped(told[2]), STATUSES.index(told[1].decode())
            # Latin-1 stands for characters.
            said = [unescaped(word).decode("latin-1").encode() for word in words.split(b" ") if word]
            out = len(output) if status == 6 else "whole"
            yield Case(name_of(rule), files, said, status, output, out)
        elif kind == b"long":
            bytes_of_design, design, tests, bytes_of_tests = parts
            told = re.fullmatch(rb'(\d) \w+ "(.*)"', answer)
            files = {"d.v": filled(design, bytes_of_design), "t.py": filled(tests, bytes_of_tests)}
            yield Case(name_of(rule), files, [b"d.v", b"t.py"], int(told[1]), unescaped(told[2]))


def filled(text, number):
    text, number = unescaped(text), int(number)
    return text[:number] + b" " * (number - len(text))


def text_cases():
    """Designs and tests of the runner's table: a refused one is refused by its rule, and an accepted one by none."""
    for (kind, rule, *parts), answer in rows_of(RUNS):
        answer, refusal = behind(answer, rule), re.fullmatch(rb"\w+ at (line \d+|\d+:\d+)|TooLong", behind(answer, rule))
        if kind == b"design":
            yield design_case(rule, [], unescaped(parts[0]), answer if refusal else None)
        elif kind == b"tests" and refusal:
            files = {"d.v": SMALL_DESIGN, "t.py": unescaped(parts[0])}
            yield Case(name_of(rule), files, [b"d.v", b"t.py"], 4, b"error: t.py: " + answer + b"\n")


def design_case(rule, words, design, refusal):
    files = {"d.v": design, "t.py": SMALL_TESTS}
    status, output = (0, SMALL_LINES) if refusal is None else (3, b"error: d.v: " + refusal + b"\n")
    return Case("design: " + name_of(rule), files, [*words, b"d.v", b"t.py"], status, output)


def rule_cases():
    """Designs that break a rule of elaboration, and that just don't; the table tells a place by its byte."""
    for (kind, name, *parts), answer in rows_of(RULES):
        if kind == b"rule":
            top, text = parts[0], unescaped(parts[1])
            rule, _, place = behind(answer, name).partition(b" ")
            before = text[:int(place)] if place else b""
            line, column = before.count(b"\n") + 1, len(before) - before.rfind(b"\n")
            refusal = b"%s at %d:%d" % (rule, line, column) if place else None
            yield design_case(name, [] if top == b"-" else [b"--top", top], text, refusal)


def word_cases():
    """Words with and without a reading, where no file is there."""
    for (rule, _, *words), answer in rows_of(WORDS):
        said, answer = [unescaped(word) for word in words], unescaped(behind(answer, rule))
        files = re.match(rb"(.*) on (.*), budget \d+, seed \d+", answer, re.DOTALL)
        if answer == b"usage":
            yield Case("words: " + name_of(rule), {}, said, 2, USAGE)
        elif files:
            yield Case("words: " + name_of(rule), {}, said, 5, b"error: cannot read " + files[2].partition(b" under ")[0] + b"\n")


def made_cases():
    """Generated work: with --made the last line of the run of its texts, and all lines with --trace."""
    design = re.search(rb"^the design:\n(.*?endmodule\n)", text_of(MADE, "stdout"), re.DOTALL | re.MULTILINE)[1]
    for rule, number in made_rows():
        yield Case("made: " + name_of(rule), {"made.v": design, "number": number}, [b"--made", number], None, None)


def example_cases():
    """The examples as they lie there, with what the table has for their texts, and with what their pages show."""
    wanted = {}
    for (kind, rule, *parts), answer in rows_of(RUNS):
        if kind == b"kept":
            told = re.fullmatch(rb'(\w+) primed=\d+ removed=\d+ fired=\d+ "(.*)"', behind(answer, rule))
            wanted[unescaped(parts[1]), unescaped(parts[2])] = STATUSES.index(told[1].decode()), unescaped(told[2])
    for design in sorted(EXAMPLES.glob("*/*.v")):
        tests = design.with_name("t.py")
        told = wanted.get((design.read_bytes(), tests.read_bytes()))
        if told:
            yield Case(f"example: {design.parent.name}/{design.name}", {}, [bytes(design), bytes(tests)], *told)
    for page in sorted(EXAMPLES.glob("*/README.md")):
        yield from page_cases(page.parent.name, page.read_text(encoding="utf-8"))
    yield from map(own_case, PROGRAMS)
    words = [b"--trace", b"--budget=4", bytes(EXAMPLES / "first" / "d.v"), bytes(EXAMPLES / "first" / "t.py")]
    yield Case("example: a trace and a budget", {}, words, 8, b"0 TEST t\n0 SIG top.a 00000101\nBUDGET 4\n")


def page_cases(name, page):
    """The commands of an example's page, with the lines that it shows of each: all of them behind `prints`, and else some."""
    for command, text, block in re.findall(r"^    \./cocorun ([^\n]*)\n\n(.*?)\n\n((?:    [^\n]*\n)+)", page, re.MULTILINE | re.DOTALL):
        status = re.search(r"status (\d+)", text)
        words = [os.fsencode(TOP / word) if "/" in word else word.encode() for word in command.split()]
        lines = re.sub("^    ", "", block, flags=re.MULTILINE).encode()
        yield Case(f"page of {name}: {command}", {}, words, int(status[1]) if status else 0, lines, is_part=text != "prints")


def own_case(crate):
    """The program on the files that the gate runs it on."""
    args, status = crate / "args", crate / "status"
    files = {path.name: path.read_bytes() for path in (crate / "data").iterdir()}
    words, number = args.read_bytes().splitlines(), int(status.read_text()) if status.exists() else 0
    return Case(f"example: the files of {crate.name}", files, words, number, (crate / "stdout").read_bytes())


def fault_cases():
    """Reads and puts that fail, and words that are no UTF-8."""
    files, words = {"d.v": SMALL_DESIGN, "t.py": SMALL_TESTS}, [b"d.v", b"t.py"]
    for name in files:
        rest = {other: text for other, text in files.items() if other != name}
        yield Case(f"fault: {name} isn't there", rest, words, 5, b"error: cannot read " + name.encode() + b"\n")
        yield Case(f"fault: {name} is a folder", {**rest, name: None}, words, 5, b"error: cannot read " + name.encode() + b"\n")
    for out in ("full", "closed", "shut"):
        yield Case(f"fault: standard output is {out}", files, words, 6, b"", out)
        yield Case(f"fault: standard output is {out} for the usage line", {}, [], 6, b"", out)
        yield Case(f"fault: standard output is {out} for a file that isn't there", {}, words, 6, b"", out)
        yield Case(f"fault: standard output is {out} for generated work", {}, [b"--made", b"1"], 6, b"", out)
    for at in range(len(SMALL_LINES)):
        lines = SMALL_LINES[:at].count(b"\n")
        yield Case(f"fault: standard output takes {at} bytes, so {lines} lines", files, words, 6, SMALL_LINES[:at], at)
    for bad in (b"\xff", b"d\x80.v", b"\xc3", b"\xe0\x80\x80", b"\xed\xa0\x80", b"\xf4\x90\x80\x80"):
        for said in ([bad, b"t.py"], [b"d.v", bad], [*words, bad], [b"--top", bad, *words], [b"--top=" + bad, *words], [bad]):
            yield Case(f"fault: {said} are no UTF-8", files, said, 2, USAGE)
    for good in ("d\u00e9.v", "\u65e5\u672c.v", "\U0001f600.v"):
        yield Case(f"fault: {good!a} is UTF-8", {good: SMALL_DESIGN, "t.py": SMALL_TESTS}, [good.encode(), b"t.py"], 0, SMALL_LINES)


def long_case(row):
    """A text with a long row of like parts, which runs in little stack; where a design or a tests file isn't told it is the small one."""
    files = {"d.v": row.design or SMALL_DESIGN, "t.py": row.tests or SMALL_TESTS}
    return Case("long: " + row.name, files, [b"d.v", b"t.py"], row.status, row.output or SMALL_LINES, stack=SMALL_STACK)


def laid_out(folder, files):
    for name, text in files.items():
        if text is None:
            (folder / name).mkdir()
        else:
            (folder / name).write_bytes(text)


def ended(program, case, folder):
    """The status and the output of a case, and what stands on standard error."""
    path = folder / ".output"
    limit = case.out if isinstance(case.out, int) else None
    how = {"cwd": folder, "stdin": subprocess.DEVNULL, "stderr": subprocess.PIPE, "timeout": LIMIT}
    if case.out == "whole":
        narrow = case.stack and (lambda: resource.setrlimit(resource.RLIMIT_STACK, (case.stack, case.stack)))
        done = subprocess.run([program, *case.words], stdout=subprocess.PIPE, preexec_fn=narrow, **how)
        return done.returncode, done.stdout, done.stderr
    if case.out == "full":
        with open("/dev/full", "wb") as out:
            done = subprocess.run([program, *case.words], stdout=out, **how)
        return done.returncode, b"", done.stderr
    if case.out == "closed":
        reads, writes = os.pipe()
        os.close(reads)
        with open(writes, "wb") as out:
            done = subprocess.run([program, *case.words], stdout=out, **how)
        return done.returncode, b"", done.stderr
    if case.out == "shut":
        done = subprocess.run(["sh", "-c", '"$@" >&-', "", program, *case.words], **how)
        return done.returncode, b"", done.stderr

    def bound():
        resource.setrlimit(resource.RLIMIT_FSIZE, (limit, limit))

    # What goes past the limit is an error of the write, since Python's children ignore the signal where it isn't restored.
    with open(path, "wb") as out:
        done = subprocess.run([program, *case.words], stdout=out, restore_signals=False, preexec_fn=bound, **how)
    return done.returncode, path.read_bytes(), done.stderr


def made_result(program, case, folder):
    """Compares --made with the run of its texts, which the program writes no further than that."""
    number = case.files["number"]
    laid_out(folder, {"made.v": case.files["made.v"], "made.py": made_tests(number)})
    outputs = []
    for words in ([b"--made", number], [b"--made", number, b"--trace"], [b"made.v", b"made.py"], [b"--trace", b"made.v", b"made.py"]):
        outputs.append(ended(program, Case(case.name, {}, words, 0, b""), folder))
    last, traced, whole, whole_traced = outputs
    wanted = (whole[0], whole[1].splitlines(True)[-1], b"", *whole_traced)
    return Result(case.name, None, None) if (*last, *traced) == wanted else Result(case.name, wanted, (*last, *traced))


def made_rows():
    """The rules and the numbers of the generated texts."""
    return [(rule, number) for _, (rule, number) in asked_of(MADE) if number.isdigit()]


def made_tests(number):
    """The text of the tests of a number, which stands behind a line of its own."""
    heads = {at: rule + b", " + at + b":\n" for rule, at in made_rows()}
    rest = text_of(MADE, "stdout").split(heads[number], 1)[1]
    ends = [found for found in (rest.find(b"\n" + head) for head in heads.values()) if found >= 0]
    return rest[:min(ends) + 1] if ends else rest


def at_home(room):
    """Has all folders of a process made in one, which goes with the process that began it."""
    tempfile.tempdir = room


def looked_at(given):
    """What a case came to, in a folder of its own."""
    program, case = given
    if isinstance(case, script_cases.ScriptCase):
        return Result(*script_cases.looked_at(case))
    for kind, cases in BESIDE.items():
        if isinstance(case, kind):
            return Result(*cases.looked_at(program, case))
    with tempfile.TemporaryDirectory() as name:
        folder = Path(name)
        try:
            if case.output is None:
                return made_result(program, case, folder)
            laid_out(folder, case.files)
            found = ended(program, case, folder)
        except (OSError, subprocess.SubprocessError) as error:
            found = (repr(error),)
    wanted = (case.status, case.output, b"")
    if case.is_part and len(found) == 3:
        rest = iter(found[1].splitlines())
        is_well = (found[0], found[2]) == (case.status, b"") and all(line in rest for line in case.output.splitlines())
    else:
        is_well = found == wanted
    return Result(case.name, None, None) if is_well else Result(case.name, wanted, found)


def shown(told):
    """What a case came to as lines."""
    lines = []
    for each in told if isinstance(told, tuple) else (told,):
        text = each.decode("utf-8", "backslashreplace") if isinstance(each, bytes) else str(each)
        lines += text.splitlines() or [""]
    return lines


def tell(result):
    print(f"FAILED {result.name}")
    wanted, found = shown(result.wanted), shown(result.found)
    for name, lines in (("wanted", wanted), ("found", found)):
        print(f"  {name}:")
        for line in lines[:40]:
            print(f"    {line[:300]}")
        if len(lines) > 40:
            at = next((at for at, (one, other) in enumerate(zip(wanted, found)) if one != other), min(len(wanted), len(found)))
            print(f"    .. {len(lines)} lines; the first that differs is line {at + 1}: {lines[at][:300] if at < len(lines) else '(none)'}")


def table_results(ran):
    """What the scripts say that make the tables anew."""
    output = ran.communicate()[0]
    told = [line for line in output.splitlines() if re.match("(ok|NO): ", line)]
    steps = [Result("tables: " + line[4:], None if line.startswith("ok: ") else "ok", output) for line in told]
    is_told = steps and (ran.returncode == 0) == all(step.wanted is None for step in steps)
    return steps if is_told else [*steps, Result("tables", "ok", output)]


def begin_tables(wanted):
    """Starts the scripts that need nothing else than Python beside the cases."""
    if not wanted:
        return None
    if sys.version_info < (3, 10):
        print("the tables are not made anew, which takes Python 3.10")
        return None
    return subprocess.Popen([sys.executable, str(TOP / "tools" / "make.py"), "--check"], stdout=subprocess.PIPE, stderr=subprocess.STDOUT, text=True)


def chosen_program():
    done = subprocess.run([str(TOP / "cocorun")], env={**os.environ, "COCORUN_WHICH": "1"}, stdout=subprocess.PIPE, text=True)
    if done.returncode:
        sys.exit(f"0 passed, 1 failed: ./cocorun has no program, and ended with status {done.returncode}")
    return os.path.realpath(done.stdout.rstrip("\n"))


def main():
    begun = time.monotonic()
    parser = argparse.ArgumentParser(description=__doc__.splitlines()[0])
    parser.add_argument("--program", metavar="PATH")
    parser.add_argument("words", nargs="*", metavar="WORD")
    asked = parser.parse_args()
    program = os.path.realpath(asked.program) if asked.program else chosen_program()
    makers = (example_cases, fault_cases, word_cases, made_cases, command_cases, text_cases, rule_cases)
    every = [*(case for maker in makers for case in maker()), *script_cases.cases(rows_of(WORDS)), *map(long_case, long_texts.rows())]
    every += [case for module in BESIDE.values() for case in module.cases()]
    wanted = [case for case in every if not asked.words or any(word in case.name for word in asked.words)]
    workers = len(os.sched_getaffinity(0))
    print(f"{len(wanted)} cases with {os.path.relpath(program)}, {workers} side by side", flush=True)
    tables, passed, failed = begin_tables(not asked.words or "tables" in asked.words), 0, 0
    with tempfile.TemporaryDirectory() as room, multiprocessing.Pool(workers, at_home, (room,)) as pool:
        for done, result in enumerate(pool.imap_unordered(looked_at, ((program, case) for case in wanted), chunksize=4), 1):
            passed, failed = passed + (result.wanted is None), failed + (result.wanted is not None)
            if result.wanted is not None:
                tell(result)
            if done % 250 == 0:
                print(f"{done} of {len(wanted)} cases, {time.monotonic() - begun:.0f} seconds", flush=True)
    if tables:
        print("cases are done; the tables are made anew", flush=True)
        for result in table_results(tables):
            passed, failed = passed + (result.wanted is None), failed + (result.wanted is not None)
            if result.wanted is not None:
                tell(result)
    print(f"{passed} passed, {failed} failed")
    return 1 if failed else 0


if __name__ == "__main__":
    sys.exit(main())
