"""Rows on refused texts: the rules of designs and of tests with their places, the longest texts, which refusal comes first, and what refusals leave.

By hand, but for the tests among the rows of crates/check_tests and crates/python_tests, whose rules and lines were worked out there by hand too.
"""
import re

from rows.command_rows import USAGE, Asked, command, kept, numbered, quoted
from rows.part_rows import lines_of
from rows.row_texts import HEADER, SMALL, escaped, passing, test

PASSES = HEADER + test("pass")
FRAME = "import cocotb\n@cocotb.test()\nasync def t(dut):\n"
TEXT = FRAME + "    pass\n"


def design_refused(rule, design, why, tests=PASSES, **more):
    return command(rule, "d.v t.py", design, tests, "DesignRefused", [f"error: d.v: {why}"], **more)


def tests_refused(rule, tests, name, line, design=SMALL):
    return command(rule, "d.v t.py", design, tests, "TestsRefused", [f"error: t.py: {name} at line {line}"])


def brackets(count):
    return "module top(input a, output y);\n  assign y = " + "(" * count + "a" + ")" * count + ";\nendmodule\n"


# ---- designs

DESIGNS = [
    design_refused("an expression that the text's end cuts off", "module top(input a, output y);\n  assign y = a &", "Syntax at 2:17"),
    design_refused("a net that is driven twice", "module top(input a, output y);\n  assign y = a;\n  assign y = a;\nendmodule\n", "TwoDrivers at 3:10"),
    design_refused("a port of 129 digits", "module top(input [128:0] a);\nendmodule\n", "TooWide at 1:18"),
    command("a port of 128 digits", "d.v t.py", "module top(input [127:0] a);\nendmodule\n", PASSES, "Passed", passing(0)),
    design_refused("64 brackets", brackets(64), "TooDeep at 2:77"),
    command("63 brackets", "d.v t.py", brackets(63), PASSES, "Passed", passing(0)),
    design_refused("an empty design", "", "NoTop at 1:1"),
    design_refused("a design of a line feed", "\n", "NoTop at 1:1"),
    design_refused("a byte that begins no token", "module top;\n\t\\ x\nendmodule\n", "BadByte at 2:2"),
    design_refused("a number of size 0", "module top(output y);\n  assign y = 0'b1;\nendmodule\n", "BadNumber at 2:14"),
    design_refused("a comment that isn't closed", "module top;\n/* no end\nendmodule\n", "UnclosedText at 2:1"),
    design_refused("a conditional that stays open", "module top;\n  `ifdef N\nendmodule\n", "Directive at 2:3"),
    design_refused("a module that isn't there", "module top;\n  low u();\nendmodule\n", "UnknownModule at 2:3"),
    design_refused("a module inside itself", "module top;\n  a u();\nendmodule\nmodule a;\n  a v();\nendmodule\n", "RecursiveInstance at 5:3"),
    design_refused("a name twice", "module top(input a, input a);\nendmodule\n", "DuplicateName at 1:27"),
    design_refused("a name that isn't there", "module top(output y);\n  assign y = b;\nendmodule\n", "UnknownName at 2:14"),
    design_refused("a port without a direction", "module top(a);\nendmodule\n", "BadPort at 1:12"),
    design_refused("a bound that is no constant", "module top(input a);\n  wire [a:0] w;\nendmodule\n", "NotConstant at 2:9"),
    design_refused("a part against its direction", "module top(input [7:0] a, output y);\n  assign y = a[0:1];\nendmodule\n", "BadRange at 2:15"),
    design_refused("a net in a procedure", "module top(input a, output y);\n  initial y = a;\nendmodule\n", "BadTarget at 2:11"),
    design_refused("4,097 turns", "module top;\n  integer i;\n  initial for (i = 0; i < 4097; i = i + 1) ;\nendmodule\n", "LoopTooLong at 3:11"),
    design_refused("a delay of 0", "module top(input clk, input d, output reg q);\n  always @(posedge clk) q <= #0 d;\nendmodule\n", "BadDelay at 2:31"),
    design_refused("65,537 signals", "module top;\n  reg m [0:65536];\nendmodule\n", "TooMany at 2:7"),
]

# ---- tests: each text by itself, and one of each rule by the command

LISTED = "Tab Dedent UnclosedText BadByte BadLine NoBlock TooDeep UnknownImport UnknownName Misplaced DuplicateName BadOption TooManyCases NoTests".split()
# how many texts without a form are taken of those that there are
BAD_LINES = 30


def stored(crate):
    """The rows of a test program without parts: what is asked and given, and the answer."""
    lines = [lines_of(crate, name) for name in ("stdin", "stdout")]
    return [(line.split("\t"), answer) for line, answer in zip(*lines)]


def refusal(answer):
    """The rule and the line of an answer, or None where the text isn't refused."""
    found = re.search(r": (\w+)\((\d+)\)$", answer)
    return found and found[1] in LISTED and (found[1], int(found[2]))


def taken():
    """The texts of the two programs of texts, by their rule, and why each is refused."""
    for (rule, text), answer in stored("check_tests"):
        if refusal(answer):
            yield rule, text, *refusal(answer)
    bad_lines = 0
    for (asked, rule, *parts), answer in stored("python_tests"):
        why = refusal(answer)
        if asked in ("lines", "tree", "read") and why:
            bad_lines += why[0] == "BadLine"
            if why[0] != "BadLine" or bad_lines <= BAD_LINES:
                yield f"{asked}: {rule}", parts[0], *why


def accepted():
    """The texts of `check_tests` that are accepted, with the numbers of their functions and tests: `Clock.start` is a function too."""
    for (rule, text), answer in stored("check_tests"):
        found = re.fullmatch(r": ((?:def[^;]*; )*)(\d+) tests.*", answer[len(rule) :])
        if found:
            yield rule, text, found[1].count("; "), int(found[2])


READ = [Asked("tests", rule, [text], f"{name} at line {line}") for rule, text, name, line in taken()]
READ += [Asked("tests", rule, [text], f"{functions} functions, {tests} tests") for rule, text, functions, tests in accepted()]
FOUND = {name: [row for row in READ if row.answer.startswith(name + " at")] for name in LISTED}
assert all(len(rows) >= 4 for rows in FOUND.values()), {name: len(rows) for name, rows in FOUND.items()}


def plain(part):
    return re.sub(r"\\([0-9a-f]{2})", lambda found: chr(int(found[1], 16)), part)


ONE_EACH = [
    tests_refused(f"a text that is refused by {name}", plain(rows[0].parts[0]), name, int(rows[0].answer.split()[-1])) for name, rows in FOUND.items()
]
TESTS = [
    tests_refused("a tab before a line's first token", FRAME + "\tpass\n", "Tab", 4),
    tests_refused("a line that goes back to no open block", FRAME + "    if True:\n        pass\n      pass\n", "Dedent", 6),
    tests_refused("a module that isn't listed", TEXT.replace("cocotb", "os", 1), "UnknownImport", 1),
    tests_refused("an await in an expression", FRAME + '    if await Timer(1, "step"):\n        pass\n', "BadLine", 4),
    tests_refused("an import alone", "import cocotb\n", "NoTests", 1),
    tests_refused("break outside of a loop", FRAME + "    break\n", "Misplaced", 4),
    tests_refused("a name that nobody assigns", FRAME + "    x = y\n", "UnknownName", 4),
    tests_refused("a number of 2^127", FRAME + "    x = 170141183460469231731687303715884105728\n", "BadLine", 4),
    tests_refused("an option of a wrong kind", TEXT.replace("test()", "test(skip=1)"), "BadOption", 2),
    tests_refused("empty tests", "", "NoTests", 1),
]

# ---- long texts, which are cut, or filled up with spaces

MOST = 1_048_576


def long(rule, designs, tests, status, lines):
    """The least run with so many bytes of the design and of the tests."""
    return Asked("long", rule, [str(designs), escaped(SMALL), escaped(PASSES), str(tests)], f"{numbered(status)} {quoted(lines)}")


LONG = [
    long("a design of 1,048,576 bytes", MOST, len(PASSES), "Passed", passing(0)),
    long("a design of one byte more", MOST + 1, len(PASSES), "DesignRefused", ["error: d.v: TooLong"]),
    long("tests of 1,048,576 bytes", len(SMALL), MOST, "Passed", passing(0)),
    long("tests of one byte more", len(SMALL), MOST + 1, "TestsRefused", ["error: t.py: TooLong"]),
    long("both texts of 1,048,576 bytes", MOST, MOST, "Passed", passing(0)),
    long("both texts of one byte more", MOST + 1, MOST + 1, "DesignRefused", ["error: d.v: TooLong"]),
    long("a design that is cut within its last word, and tests that are too long", len(SMALL) - 2, MOST + 1, "DesignRefused", ["error: d.v: Syntax at 2:9"]),
    long("no byte of a design", 0, len(PASSES), "DesignRefused", ["error: d.v: NoTop at 1:1"]),
    long("no byte of tests", len(SMALL), 0, "TestsRefused", ["error: t.py: NoTests at line 1"]),
]

# ---- which refusal comes first

BAD_DESIGN, BAD_TESTS = "module top(input a)\nendmodule\n", FRAME + "    x = y\n"
ORDER = [
    design_refused("a design is refused before tests that break a rule", BAD_DESIGN, "Syntax at 2:1", BAD_TESTS),
    design_refused("a design is refused before tests that aren't there", BAD_DESIGN, "Syntax at 2:1", None),
    design_refused("a design is refused before tests that can't be read", BAD_DESIGN, "Syntax at 2:1", PASSES, read=2),
    command("a design that isn't there before tests that aren't", "d.v t.py", None, None, "ReadFault", ["error: cannot read d.v"]),
    command("a design that isn't there before tests that break a rule", "d.v t.py", None, BAD_TESTS, "ReadFault", ["error: cannot read d.v"]),
    command("tests that aren't there", "d.v t.py", SMALL, None, "ReadFault", ["error: cannot read t.py"]),
    command("words before files that aren't there", "d.v", None, None, "Usage", [USAGE]),
]

# ---- what refusals leave: the simulator and its counts

WRITE = HEADER + test('dut.a.value = 1; await Timer(2, "step")')
KEPT = [
    kept("a run that others stand behind", "d.v t.py", SMALL, WRITE, "Passed", (2, 0, 2), passing(2)),
    kept("a refusal of words leaves its counts", "d.v t.py --budget 0", SMALL, WRITE, "Usage", (2, 0, 2), [USAGE]),
    kept("so does that of words that ask for generated tests and name a file", "--made 0 d.v", SMALL, WRITE, "Usage", (2, 0, 2), [USAGE]),
    kept("so does that of a design", "d.v t.py", BAD_DESIGN, WRITE, "DesignRefused", (2, 0, 2), ["error: d.v: Syntax at 2:1"]),
    kept("so does that of a top", "--top two d.v t.py", SMALL, WRITE, "DesignRefused", (2, 0, 2), ["error: d.v: NoTop at 1:1"]),
    kept("so does that of tests", "d.v t.py", SMALL, BAD_TESTS, "TestsRefused", (2, 0, 2), ["error: t.py: UnknownName at line 4"]),
    kept("so does a design that isn't there", "d.v t.py", None, WRITE, "ReadFault", (2, 0, 2), ["error: cannot read d.v"]),
    kept("so do tests that aren't there", "d.v t.py", SMALL, None, "ReadFault", (2, 0, 2), ["error: cannot read t.py"]),
    kept("so does a read that fails", "d.v t.py", SMALL, WRITE, "ReadFault", (2, 0, 2), ["error: cannot read t.py"], read=2),
    kept("so does a refusal whose line fails", "d.v t.py", BAD_DESIGN, WRITE, "WriteFault", (2, 0, 2), [], put=1),
    kept("a run of no test begins anew", "d.v t.py", SMALL, HEADER + test("pass", options="skip=True"), "Passed", (0, 0, 0),
         ["0 SKIP t", "** TESTS=1 PASS=0 FAIL=0 SKIP=1 TIME=0 **"]),
    kept("a refusal behind it leaves no counts", "d.v", SMALL, WRITE, "Usage", (0, 0, 0), [USAGE]),
    kept("another design", "d.v t.py", "module top(input [7:0] a, input [7:0] b);\nendmodule\n", WRITE, "Passed", (2, 0, 2), passing(2)),
]

REFUSALS = [*DESIGNS, *TESTS, *ONE_EACH, *ORDER, *LONG]
