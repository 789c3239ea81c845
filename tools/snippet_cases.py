"""Cases of the pages docs/HOW_TO.md and docs/RULES.md: what is indented there is run, and has to print what the page says (`tools/suite.py` goes through them).

A block of lines that are indented by four blanks is a design (it has a line `endmodule`), a tests file (it has a line `import cocotb`), both, one behind the
other, or what a run prints. In HOW_TO.md a tests file runs on the design of its section, or on the first one of the page; `prints` before a block of lines tells all of
them, and other words tell fronts of some, in order; ``With the options `..` `` before it tells the options, and `status N` behind it the status, which is else 0.
In RULES.md a section of a rule has a text that breaks it, behind that the line that tells it, and then texts that are mended, which run with status 0. Each rule of
tools/hints.txt has such a section, but for TooLong, whose text would be too long for a page.
"""
import re
import subprocess
import tempfile
from collections import namedtuple
from pathlib import Path

import hint_cases

TOP = Path(__file__).resolve().parent.parent
HOW_TO, RULES = TOP / "docs" / "HOW_TO.md", TOP / "docs" / "RULES.md"
# status: what the process ends with; whole: all that it prints, or None; fronts: fronts of some lines, in order; last: the last line, or None
SnippetCase = namedtuple("SnippetCase", "name design tests options status whole fronts last")

DESIGN = "module top(input [7:0] a);\nendmodule\n"
TESTS = "import cocotb\n\n@cocotb.test()\nasync def t(dut):\n    pass\n"


def sections(page, mark):
    """The headings of a page that begin with a mark, each with what stands behind it; first what stands before all of them."""
    front, *rest = re.split(rf"^{mark} (.*)\n", page.read_text(encoding="utf-8"), flags=re.MULTILINE)
    return [("", front), *zip(rest[::2], rest[1::2])]


def parts(text):
    """The indented blocks of a text, each with what is said before it and behind it, and the kind of it."""
    pieces = re.split(r"^((?:    .*\n(?:\n+(?=    ))?)+)", text, flags=re.MULTILINE)
    for at in range(1, len(pieces), 2):
        block = re.sub("^    ", "", pieces[at], flags=re.MULTILINE)
        design, _, tests = block.rpartition("endmodule\n")
        before, behind = pieces[at - 1], pieces[at + 1]
        if design:
            yield "design", f"{design}endmodule\n", before, behind
        rest = tests.lstrip("\n") if design else block
        if re.search(r"^(import cocotb|@cocotb|async def)", rest, re.MULTILINE):
            yield "tests", rest, before, behind
        elif re.match(r"\d+ [A-Z]+ |\*\* TESTS|BUDGET", rest):
            yield "lines", rest, before, behind
        elif not design and not rest.startswith(("./", "tools/")):
            yield "text", rest, before, behind


def how_to_cases():
    common = next(text for kind, text, *_ in parts(sections(HOW_TO, "##")[0][1]) if kind == "design")
    for heading, section in sections(HOW_TO, "##")[1:]:
        design, tests, number = common, None, 0
        told = [*parts(section), ("end", "", "", "")]
        for (kind, text, before, behind), (following, lines, says, ends) in zip(told, told[1:]):
            if kind == "design":
                design = text
            elif kind == "tests":
                number += 1
                options = re.search(r"With the options? `([^`]*)`", behind)
                status = re.search(r"ends with the status (\d)", ends if following == "lines" else "")
                whole = lines if following == "lines" and says.rstrip().endswith("prints") else None
                fronts = lines.splitlines() if following == "lines" and whole is None else []
                name = f"how to: {heading}, {number}"
                yield SnippetCase(name, design, text, options[1].split() if options else [], int(status[1]) if status else 0, whole, fronts, None)


def rule_cases():
    seen = []
    for heading, section in sections(RULES, "###")[1:]:
        rule, kind = re.fullmatch(r"`(\w+)` of (\w+)", heading).groups()
        seen.append((kind, rule))
        for at, (_, text, _, behind) in enumerate(parts(section)):
            told = re.search(r"`(error: [dt]\.\w+: .*?)`", behind)
            files = (text, TESTS) if kind == "designs" else (DESIGN, text)
            if at == 0:
                yield SnippetCase(f"rule: {rule} of {kind}", *files, [], 3 if kind == "designs" else 4, None, [], told[1])
            else:
                yield SnippetCase(f"rule: {rule} of {kind}, mended", *files, [], 0, None, [], None)
    wanted = [("designs" if kind == "design" else "tests", rule) for kind, rule, _ in hint_cases.rules() if rule != "TooLong"]
    yield SnippetCase("rule: each has its section", seen, wanted, None, None, None, None, None)


def cases():
    return [*how_to_cases(), *rule_cases()]


def looked_at(program, case):
    """A case's name, what is wanted where something else was found, and that."""
    if case.options is None:
        missing = [rule for rule in case.tests if rule not in case.design] + [rule for rule in case.design if rule not in case.tests]
        return (case.name, None, None) if not missing else (case.name, [], missing)
    with tempfile.TemporaryDirectory() as name:
        folder = Path(name)
        (folder / "d.v").write_text(case.design, encoding="utf-8")
        (folder / "t.py").write_text(case.tests, encoding="utf-8")
        done = subprocess.run([program, *case.options, "d.v", "t.py"], cwd=folder, stdin=subprocess.DEVNULL, stdout=subprocess.PIPE, timeout=60)
    output, lines = done.stdout.decode(), iter(done.stdout.decode().splitlines())
    is_well = done.returncode == case.status and case.whole in (None, output)
    is_well = is_well and all(any(line.startswith(front) for line in lines) for front in case.fronts)
    is_well = is_well and case.last in (None, (output.splitlines() or [""])[-1])
    wanted = (case.status, case.whole or "\n".join(case.fronts) or case.last or "")
    return (case.name, None, None) if is_well else (case.name, wanted, (done.returncode, output))
