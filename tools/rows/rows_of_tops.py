"""Rows on the top: the module that the words name, or the only one that no module instantiates. All by hand."""
from rows.command_rows import command, model_lines
from rows.row_texts import passing, test

IMPORT = "import cocotb\n"
PATH = IMPORT + test('dut._log.info(f"{dut._path}")')
TWO = "module one(input a);\nendmodule\nmodule two(input a);\nendmodule\n"
INSIDE = "module top(input a);\n  sub u(.b(a));\nendmodule\nmodule sub(input b);\nendmodule\n"
CYCLE = "module one(input a);\n  two u(.a(a));\nendmodule\nmodule two(input a);\n  one v(.a(a));\nendmodule\n"
BROKEN = "module good(input a);\nendmodule\nmodule bad(input a, output y);\n  assign y = b;\nendmodule\n"
# the parameter has its own value where no instance gives it another one
WIDTH = "module top(input [3:0] a);\n  sub #(4) u(.b(a));\nendmodule\nmodule sub #(parameter W = 8) (input [W-1:0] b);\nendmodule\n"


def under(top):
    return f"--top {top} d.v t.py" if top else "d.v t.py"


def runs(rule, top, design, told, body='dut._log.info(f"{dut._path}")'):
    lines, tests = passing(0, *[f"0 INFO {text}" for text in told]), IMPORT + test(body)
    assert model_lines(design, tests, top=top) == ("Passed", lines), rule
    return command(rule, under(top), design, tests, "Passed", lines)


def refused(rule, top, design, why):
    return command(rule, under(top), design, PATH, "DesignRefused", [f"error: d.v: {why}"])


LENGTHS = 'dut._log.info(f"{dut._path} {len(dut.b)}")'
TOPS = [
    refused("two candidates, and no top is named", None, TWO, "NoTop at 1:1"),
    runs("the first of two candidates", "one", TWO, ["one"]),
    runs("the second of two candidates", "two", TWO, ["two"]),
    refused("a top that no module is", "three", TWO, "NoTop at 1:1"),
    refused("a top in other letters", "One", TWO, "NoTop at 1:1"),
    runs("one candidate, and no top is named", None, INSIDE, ["top"]),
    runs("the only candidate by its name", "top", INSIDE, ["top top.u"], 'dut._log.info(f"{dut._path} {dut.u._path}")'),
    runs("a top that another module instantiates", "sub", INSIDE, ["sub sub.b"], 'dut._log.info(f"{dut._path} {dut.b._path}")'),
    refused("an instance is no module's name", "u", INSIDE, "NoTop at 1:1"),
    refused("modules that instantiate one another, and no top is named", None, CYCLE, "NoTop at 1:1"),
    refused("a top of those that instantiate one another", "one", CYCLE, "RecursiveInstance at 5:3"),
    refused("the other top of those that instantiate one another", "two", CYCLE, "RecursiveInstance at 2:3"),
    runs("a module that isn't reached may break a rule", "good", BROKEN, ["good"]),
    refused("under another top the design breaks a rule", "bad", BROKEN, "UnknownName at 4:14"),
    refused("no top is named of a design that breaks a rule under one alone", None, BROKEN, "NoTop at 1:1"),
    runs("a parameter as an instance gives it", "top", WIDTH, ["top.u 4"], 'dut._log.info(f"{dut.u._path} {len(dut.u.b)}")'),
    runs("a parameter of a top", "sub", WIDTH, ["sub 8"], LENGTHS),
    # the rules of the text come first, whatever the top
    refused("a text without a form under a top that isn't there", "three", "module top(input a)\nendmodule\n", "Syntax at 2:1"),
    refused("a byte that is no token under a top that isn't there", "three", "module top(input a);\n\\\nendmodule\n", "BadByte at 2:1"),
    refused("an empty design under a top", "top", "", "NoTop at 1:1"),
]
