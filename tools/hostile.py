#!/usr/bin/env python3
"""Runs the built command on hostile texts in a stack of 1 MiB: tools/hostile.py [--limit N] [--memory N] PROGRAM [WORD ..]

Each row of the table below has a design and a tests file, of which one is mostly a mebibyte long, and the status and the last line that are wanted.
These follow from docs/VERILOG.md, docs/PYTHON.md and docs/LIMITS.md, and never from what the program says. The rows of `long_texts.py` and the
shapes of `bench.py` are run beside them. For each it prints the status, the seconds of the processor, the most memory in MB, and what is wrong:
WRONG (another status or line), CRASH (a signal ended it), SLOW (over 10 seconds), LARGE (over 1 GiB, or short of memory where it shouldn't be). A run
ends at `--limit` seconds of the processor (60), and has room for `--memory` GiB (8). With words, only rows whose names hold one of them run. The status
is 1 where a row is WRONG or a CRASH.
"""
import argparse
import itertools
import os
import resource
import subprocess
import sys
import tempfile
from collections import namedtuple
from pathlib import Path

import bench
import long_texts
from long_texts import DESIGN, END, PASSED, TESTS

SIZE = 1 << 20
STACK = 1 << 20
SLOW, LARGE = 10, 1024
SMALL_DESIGN = DESIGN + END
SMALL_TESTS = TESTS + " pass\n"
# what stands behind some texts may take so many bytes
ROOM = " " * 60
WELL = PASSED.decode().splitlines()[-1]
FACTORY = "import cocotb\nfrom cocotb.regression import TestFactory\n"

# line: the last line that is wanted, None where the status says all
Row = namedtuple("Row", "name design tests status line")


def report(passed, failed=0, time=0):
    return f"** TESTS={passed + failed} PASS={passed} FAIL={failed} SKIP=0 TIME={time} **"


def filled(part, front="", behind=""):
    """A text of a mebibyte: a part as often as there is room, between two others, and line feeds behind them."""
    text = front + part * ((SIZE - len(front) - len(behind)) // len(part)) + behind
    return text + "\n" * (SIZE - len(text))


def numbered(part, front="", behind="", most=SIZE):
    """A text of about a mebibyte of parts that are made from their numbers, at most so many, and how many there are."""
    texts, left = [], SIZE - len(front) - len(behind)
    for number in range(most):
        texts.append(part(number))
        left -= len(texts[-1])
        if left < 0:
            texts.pop()
            break
    return front + "".join(texts) + behind, len(texts)


# ---- tests


def tests_row(name, tests, status=0, line=WELL):
    """A tests file on the small design; where it is refused the line is the rule and its place."""
    return Row("Python, " + name, SMALL_DESIGN, tests, status, f"error: t.py: {line}" if status == 4 else line)


def huge_parts():
    """One part that is nearly all of the text."""
    yield tests_row("one huge number", filled("7", TESTS + " n=", "\n"), 4, "BadLine at line 4")
    yield tests_row("a small number with a mebibyte of zeros", filled("0", TESTS + " n=0x", "7\n assert n==7\n"))
    yield tests_row("one huge word that is no number", filled("x", TESTS + " n=1", "\n"), 4, "BadLine at line 4")
    yield tests_row("one huge comment", filled("#", TESTS + " pass\n"))
    yield tests_row("one huge docstring", filled("a", TESTS + ' """', '"""\n'))
    yield tests_row("one huge docstring of lines and tabs", filled("\t\n", TESTS + ' """', '"""\n'))
    yield tests_row("one huge text", filled("a", TESTS + " n='", "'\n"), 1, report(0, 1))
    yield tests_row("one huge f-string", filled("a", TESTS + " n=f'", "'\n"), 1, report(0, 1))
    yield tests_row("one huge name", f"{TESTS} {'a' * 520_000}=1\n assert {'a' * 520_000}==1\n")
    yield tests_row("one huge name that is nowhere", filled("a", TESTS + " n=", "\n"), 4, "UnknownName at line 4")
    yield tests_row("one huge name of a test", filled("a", "import cocotb\n@cocotb.test()\nasync def ", "(dut):\n pass\n"))
    yield tests_row("one huge log line", filled("a", TESTS + " cocotb.log.info('", "')\n"), 1, report(0, 1))
    yield tests_row("one huge indentation", filled(" ", TESTS + " if 1:\n", "pass\n"))
    yield tests_row("one huge line of spaces", filled(" ", TESTS + " pass\n", "#"))
    yield tests_row("an attribute with a huge name", filled("a", TESTS + " n=dut.", "\n"), 1, report(0, 1))


def unclosed():
    """Texts, brackets and bytes with no place."""
    yield tests_row("an open docstring", filled("a\n", TESTS + ' """'), 4, "UnclosedText at line 4")
    yield tests_row("an open text", filled("a", TESTS + " n='"), 4, "UnclosedText at line 4")
    yield tests_row("open texts, one in each line", filled("'\n", TESTS + " pass\n"), 4, "UnclosedText at line 5")
    yield tests_row("an open f-string", filled("{n}", TESTS + " n=f'"), 4, "UnclosedText at line 4")
    yield tests_row("open brackets", filled("(", TESTS + " n="), 4, "UnclosedText at line 4")
    yield tests_row("open brackets, one in each line", filled("[\n", TESTS + " n="), 4, "UnclosedText at line 4")
    yield tests_row("closing brackets", filled(")", TESTS + " n="), 4, "BadByte at line 4")
    yield tests_row("brackets of two kinds", filled("([)]", TESTS + " n="), 4, "UnclosedText at line 4")
    yield tests_row("bytes 0", filled("\0"), 4, "BadByte at line 1")
    yield tests_row("carriage returns", filled("\r", TESTS + " pass\n"), 4, "BadByte at line 5")
    yield tests_row("tabs", filled("\t", TESTS + " pass\n"), 4, "Tab at line 5")
    yield tests_row("lines with a carriage return", filled(" n=1\r\n", TESTS))
    yield tests_row("nothing but line feeds", filled("\n"), 4, "NoTests at line 1")
    yield tests_row("nothing but comments", filled("#\n"), 4, "NoTests at line 1")
    yield tests_row("nothing but docstrings", filled("''\n"), 4, "NoTests at line 1")
    yield Row("Python, one byte too many", SMALL_DESIGN, filled("#") + "#", 4, "error: t.py: TooLong")
    yield tests_row("tokens side by side", filled("1 ", TESTS + " n="), 4, "BadLine at line 4")
    yield tests_row("a semicolon behind each", filled("n;", TESTS + " "), 4, "BadLine at line 4")


def levels():
    """Heights of 64 and 65, blocks of 32 and 33, and far more."""
    line = " n=" + "(" * 63 + "1" + ")" * 63 + "\n"
    yield tests_row("lines of height 64", filled(line, TESTS))
    higher = " n=" + "(" * 64 + "1" + ")" * 64 + "\n"
    text = filled(line, TESTS, higher)
    yield tests_row("lines of height 64, and a last one of 65", text, 4, f"TooDeep at line {text.rstrip().count(chr(10)) + 1}")
    signs = " n=" + "-" * 64 + "1\n"
    yield tests_row("a sign too much in the first line", filled(" n=" + "-" * 63 + "1\n", TESTS + signs), 4, "TooDeep at line 4")
    deep = "".join(" " * level + "if 1:\n" for level in range(1, 32)) + " " * 32 + "n=1\n"
    yield tests_row("blocks of 32 levels", filled(deep, TESTS))
    deeper = "".join(" " * level + "if 1:\n" for level in range(1, 33)) + " " * 33 + "n=1\n"
    text = filled(deep, TESTS, deeper)
    yield tests_row("blocks of 32 levels, and a last one of 33", text, 4, f"TooDeep at line {text.rstrip().count(chr(10)) + 1}")
    stairs = "".join(" " * level + "if 1:\n" for level in range(1, 1400)) + " " * 1400 + "n=1\n"
    yield tests_row("1,400 blocks inside one another", TESTS + stairs, 4, "TooDeep at line 36")
    tries = "".join(" " * level + "try:\n" for level in range(1, 32)) + " " * 32 + "n=1//0\n"
    handlers = "".join(" " * level + "except TypeError:\n" + " " * (level + 1) + "n=1\n" for level in range(31, 1, -1)) + " except:\n  n=2\n"
    yield tests_row("faults that go through 31 handlers", filled(tries + handlers, TESTS))
    recursive = "import cocotb\nasync def f(n):\n if n:\n  await f(n-1)\n@cocotb.test()\nasync def t(dut):\n"
    yield tests_row("a call inside 999 others", filled("#", recursive + " await f(998)\n"))
    yield tests_row("a call inside 1,000 others", filled("#", recursive + " await f(999)\n"), 1, report(0, 1))


def doubled():
    """One name many times."""
    yield tests_row("a function with a doubled parameter", filled("a,", "import cocotb\nasync def f(", "):\n pass\n"), 4, "DuplicateName at line 2")
    yield tests_row("a doubled function", filled("async def f():\n pass\n", "import cocotb\n"), 4, "DuplicateName at line 4")
    yield tests_row("a doubled import", filled("import cocotb\n"), 4, "DuplicateName at line 2")
    edges = filled("Edge,", "import cocotb\nfrom cocotb.triggers import (", ")\n")
    yield tests_row("a list of one imported name", edges, 4, "DuplicateName at line 2")
    yield tests_row("a doubled constant", filled("N=1\n", "import cocotb\n"), 4, "DuplicateName at line 3")
    yield tests_row("a doubled test", filled("@cocotb.test()\nasync def t(dut):\n pass\n", "import cocotb\n"), 4, "DuplicateName at line 6")
    option = filled("skip=True,", "import cocotb\n@cocotb.test(", ")\nasync def t(dut):\n pass\n")
    yield tests_row("a doubled option of a test", option, 4, "BadOption at line 2")
    unknown = "import cocotb\nfrom cocotb.triggers import ("
    yield tests_row("a list of unknown imports", filled("a,", unknown, ")\n"), 4, "UnknownImport at line 2")


def many():
    """As many parts as there is room for."""
    text, _ = numbered(lambda at: f" a{at}=0\n", TESTS)
    yield tests_row("names of one function's own", text)
    asked = "@cocotb.test()\nasync def t(dut):\n assert A60000==5\n"
    text, _ = numbered(lambda at: f"A{at}=A{at - 1}\n" if at else "A0=5\n", "import cocotb\n", asked)
    yield tests_row("constants, each named by the next", text)
    text, count = numbered(lambda at: f"async def f{at}():\n await f{at + 1}()\n", TESTS + " pass\n", ROOM)
    yield tests_row("functions that call the next one", text.rstrip(" ") + f"async def f{count}():\n pass\n")
    call, count = numbered(lambda at: f"a{at}=1,", "", most=40_000)
    parameters = "".join(f"a{at}," for at in range(count))
    called = f"import cocotb\nasync def f({parameters}):\n return a7\n@cocotb.test()\nasync def t(dut):\n n=await f({call})\n assert n==1\n"
    yield tests_row(f"a call of {count} arguments by name", called)
    yield tests_row("kinds of a handler", filled("TypeError,", TESTS + " try:\n  n=1//0\n except (", "ZeroDivisionError):\n  n=2\n assert n==2\n"))
    front = TESTS.replace("\n@", "\nfrom cocotb.triggers import First,Timer\n@", 1) + ' t=Timer(1,"step")\n n=First('
    yield tests_row("leaves of a First", filled("t,", front, ")\n"), 1, report(0, 1))
    yield tests_row("parts of a log line", filled("%s", TESTS + " cocotb.log.info('", "')\n"), 1, report(0, 1))
    formats = "%s" * 30_000 + "'" + ",1" * 30_000
    yield tests_row("parts of a log line with their values", TESTS + f" cocotb.log.info('{formats})\n")
    yield tests_row("texts that double", filled(" s=f'{s}{s}'\n", TESTS + " s='a'\n"), 1, report(0, 1))
    yield tests_row("numbers that double", filled(" n+=n\n", TESTS + " n=1\n"), 1, report(0, 1))
    forever = TESTS + " while 1:\n"
    yield tests_row("a loop without end", filled("  n=1\n", forever), 8, "BUDGET 10000000")
    yield tests_row("a loop of 2^100 turns", filled("  n=1\n", TESTS + " for i in range(1<<100):\n"), 8, "BUDGET 10000000")
    yield tests_row("writes of one signal", filled(" dut.a.value=1\n", TESTS))
    started = "import cocotb\nfrom cocotb.triggers import Timer\nasync def w(dut):\n await Timer(1,'step')\n@cocotb.test()\nasync def t(dut):\n"
    yield tests_row("65,535 tasks beside the test's own", started + " for i in range(65535):\n  cocotb.start_soon(w(dut))\n")
    yield tests_row("65,536 tasks beside the test's own", started + " for i in range(65536):\n  cocotb.start_soon(w(dut))\n", 1, report(0, 1))
    many_tests, count = numbered(lambda at: f"@cocotb.test()\nasync def t{at}(dut):\n pass\n", "import cocotb\n")
    yield tests_row("tests", many_tests, 0, report(count, 0, count - 1))


def factory(body, parameters, options, behind="f.generate_tests()\n"):
    head = f"{FACTORY}async def t(dut,{parameters}):\n {body}\nf=TestFactory(t)\n"
    return head + options + behind


def factories():
    """Factories with many cases, options and parameters."""
    letters = "abcdefghijklmnop"
    twice = "".join(f"f.add_option('{name}',[0,1])\n" for name in letters)
    all_names = ",".join(letters)
    whole = report(65_536, 0, 65_535)
    yield tests_row("a factory of 65,536 cases", factory("pass", all_names, twice), 0, whole)
    more = twice + "f.generate_tests()\ng=TestFactory(u)\n"
    second = f"{FACTORY}async def u(dut):\n pass\nasync def t(dut,{all_names}):\n pass\nf=TestFactory(t)\n"
    yield tests_row("two factories of 65,537 cases", second + more + "g.generate_tests()\n", 4, "TooManyCases at line 26")
    yield tests_row("an option of 65,536 values", factory("pass", "a", "f.add_option('a',[" + "0," * 65_536 + "])\n"), 0, whole)
    front = FACTORY + "async def t(dut,a):\n pass\nf=TestFactory(t)\nf.add_option('a',["
    yield tests_row("an option of as many values as fit", filled("0,", front, "])\nf.generate_tests()\n"), 4, "TooManyCases at line 7")
    ten = "".join(f"f.add_option('a{at}',[0,1,2,3,4,5,6,7,8,9])\n" for at in range(20_000))
    names = ",".join(f"a{at}" for at in range(20_000))
    yield tests_row("20,000 options of ten values", factory("pass", names, ten), 4, "TooManyCases at line 20006")
    one = "".join(f"f.add_option('a{at}',[0])\n" for at in range(20_000))
    yield tests_row("20,000 options of one value", factory("pass", names, one), 0, report(1))
    given = "a0," + ",".join(f"a{at}=1" for at in range(1, 20_000))
    values = "f.add_option('a0',[" + "0," * 65_536 + "])\n"
    yield tests_row("20,000 parameters in 65,536 cases", factory("pass", given, values), 0, whole)
    prefix = "f.generate_tests(prefix='" + "p" * (SIZE - 200) + "')\n"
    yield tests_row("a prefix of a mebibyte", factory("pass", "a", "f.add_option('a',[0])\n", prefix), 0, report(1))
    prefix = "f.generate_tests(prefix='" + "p" * 900_000 + "')\n"
    values = "f.add_option('a',[" + "0," * 1000 + "])\n"
    yield tests_row("a prefix of 900,000 bytes before 1,000 cases", factory("pass", "a", values, prefix), 0, report(1000, 0, 999))
    long = "f.add_option('a',['" + "x" * 60_000 + "'])\nf.add_option('b',[" + "0," * 65_536 + "])\n"
    yield tests_row("an option of 60,000 bytes in 65,536 cases", factory("pass", "a,b", long), 0, whole)


# ---- designs


def design_row(name, design, status=0, line=WELL):
    """A design under the small test; where it is refused the line is the rule and its place."""
    return Row("Verilog, " + name, design, SMALL_TESTS, status, f"error: d.v: {line}" if status == 3 else line)


def inside(body):
    return DESIGN + body + END


def huge_tokens():
    """One part that is nearly all of the text; the body begins on line 2."""
    yield design_row("one huge decimal number", filled("7", DESIGN + "wire b=", ";" + END), 3, "BadNumber at 2:8")
    yield design_row("a small decimal number with a mebibyte of zeros", filled("0", DESIGN + "wire b=", "1;" + END))
    yield design_row("one huge binary number", filled("1", DESIGN + "wire [7:0] b=8'b", ";" + END))
    yield design_row("one huge size", filled("0", DESIGN + "wire [7:0] b=", "8'd1;" + END))
    yield design_row("a size that is too great", filled("9", DESIGN + "wire [7:0] b=", "'d1;" + END), 3, "BadNumber at 2:14")
    yield design_row("one huge comment", filled("/", DESIGN + "//", "\n" + END))
    yield design_row("one huge comment of lines", filled("*\n", DESIGN + "/*", "*/" + END))
    yield design_row("an open comment", filled("*\n", DESIGN + "/*"), 3, "UnclosedText at 2:1")
    yield design_row("an open text", filled("a", DESIGN + 'initial $dumpfile("'), 3, "UnclosedText at 2:19")
    yield design_row("one huge text", filled("a", DESIGN + 'initial $dumpfile("', '");' + END))
    yield design_row("one huge name", f"{DESIGN}wire {'a' * 520_000}=a;wire c={'a' * 520_000};{END}")
    yield design_row("one huge name that is nowhere", filled("b", DESIGN + "wire c=", ";" + END), 3, "UnknownName at 2:8")
    yield design_row("one huge name of the top", filled("m", "module ", ";endmodule"))
    yield design_row("bytes 0", filled("\0"), 3, "BadByte at 1:1")
    yield design_row("backquotes", filled("`"), 3, "Directive at 1:1")
    yield design_row("names behind a dollar", filled("a", "$"), 3, "BadByte at 1:1")
    yield design_row("nothing but line feeds", filled("\n"), 3, "NoTop at 1:1")
    yield design_row("one byte too many", filled(" ") + " ", 3, "TooLong")
    yield design_row("brackets that stay open", filled("(", DESIGN + "wire b="), 3, f"TooDeep at 2:{7 + 64}")
    yield design_row("blocks that stay open", filled("begin ", DESIGN + "initial "), 3, f"TooDeep at 2:{9 + 6 * 64}")
    yield design_row("modules that stay open", filled("module "), 3, "Syntax at 1:8")


def directives():
    """Directives as many as fit."""
    yield design_row("conditionals that stay open", filled("`ifdef A\n", DESIGN), 3, "Directive at 2:1")
    yield design_row("ends of no conditional", filled("`endif\n", DESIGN), 3, "Directive at 2:1")
    text, _ = numbered(lambda at: f"`define A{at}\n`ifdef A{at}\n`endif\n", DESIGN, END)
    yield design_row("definitions, each asked for", text)
    text, _ = numbered(lambda at: f"`define A{at}\n`undef A{at}\n", DESIGN, END)
    yield design_row("definitions that are taken back", text)
    yield design_row("one definition again and again", filled("`define A\n", DESIGN, END))
    yield design_row("units", filled("`timescale 1ns/1ps\n", "", SMALL_DESIGN))
    yield design_row("a part that isn't taken", filled("`define A\n\"", DESIGN + "`ifdef A\n", "\n`endif\n" + END))


def declarations():
    """Names, ranges, ports and parameters."""
    yield design_row("a doubled wire", filled("wire b;", DESIGN, END), 3, "DuplicateName at 2:13")
    yield design_row("a doubled module", filled("module m;endmodule\n"), 3, "DuplicateName at 2:8")
    yield design_row("a list of one doubled register", filled("b,", DESIGN + "reg ", "b;" + END), 3, "DuplicateName at 2:7")
    yield design_row("a wire that is driven again", filled("assign b=a;", DESIGN + "wire b;", END), 3, "TwoDrivers at 2:26")
    text, _ = numbered(lambda at: f"module m{at};endmodule\n")
    yield design_row("modules of which none is the top", text, 3, "NoTop at 1:1")
    yield design_row("ports", numbered(lambda at: f",p{at}", "module top(input a", ");" + END, 65_000)[0])
    text, _ = numbered(lambda at: f",P{at}=P{at - 1}+1" if at else "#(parameter P0=1", "module top ", ")(input a);" + END)
    yield design_row("parameters, each made of the one before", text)
    yield design_row("braces of as many parts as fit", filled("a,", DESIGN + "wire b={", "a};" + END), 3, "TooWide at 2:8")
    yield design_row("a count of 2^32 - 1", inside("wire b={4294967295{a}};"), 3, "TooWide at 2:8")
    deep = "{2{" * 31 + "a" + "}}" * 31
    yield design_row("counts inside one another", inside(f"wire b={deep};"), 3, "TooWide at 2:8")
    yield design_row("65,535 words beside a port", inside("reg m[65534:0];"))
    yield design_row("65,536 words beside a port", inside("reg m[65535:0];"), 3, "TooMany at 2:5")
    yield design_row("2^32 words", inside("reg m[4294967295:0];"), 3, "TooMany at 2:5")
    yield design_row("events", filled(" or a", DESIGN + "reg r;always @(a", ") r=a;" + END))
    yield design_row("labels of one element of a case", filled("1,", DESIGN + "reg r;always @* case(a) ", "0:r=1;endcase" + END))
    for processes in (1_000, 32_760, 58_000):
        body = "reg r;reg m[32767:0];" + "always @* r=m[a];" * processes
        yield design_row(f"a memory that {processes} processes read by an index", f"module top(input [15:0] a);\n{body}{END}")


def chained(levels):
    """Modules of which each holds one of the next, and the last nothing."""
    return "".join(f"module m{at};m{at + 1} u();endmodule\n" for at in range(levels)) + f"module m{levels};endmodule\n"


def instance_too_many():
    """The place of the instance that is one more than may be, where each module but the 64th holds two of the next, with all in it."""
    left, waiting = 65_536, [(0, 0)]
    while True:
        level, column = waiting.pop()
        if not left:
            return f"{level}:{column}"
        left -= 1
        first = len(f"module m{level};") + 1
        if level < 63:
            waiting += [(level + 1, first + len(f"m{level + 1} u();")), (level + 1, first)]


def instances():
    """Instances: deep, many, doubled, with long names."""
    yield design_row("64 instances inside one another", chained(64))
    yield design_row("65 instances inside one another", chained(65), 3, "TooMany at 65:12")
    text, count = numbered(lambda at: f"module m{at};m{at + 1} u();endmodule\n", "", ROOM)
    yield design_row("modules, of which each holds the next one", text.rstrip() + f"\nmodule m{count};endmodule\n", 3, "TooMany at 65:12")
    trees = "".join(f"module m{at};m{at + 1} u();m{at + 1} v();endmodule\n" for at in range(63)) + "module m63;endmodule\n"
    yield design_row("2^63 instances", trees, 3, f"TooMany at {instance_too_many()}")
    text = "module s;endmodule\nmodule top;\n" + "".join(f"s u{at}();" for at in range(65_535))
    yield design_row("65,535 instances below the top", text + END)
    yield design_row("65,536 instances below the top", text + "s v();" + END, 3, f"TooMany at 3:{len(text) - text.rfind(chr(10))}")
    text, _ = numbered(lambda at: f"m u{at}();", "module top;m u();endmodule\nmodule m;", END)
    yield design_row("instances of a module in itself", text, 3, "RecursiveInstance at 2:10")
    for length in (50_000, 1_000_000):
        name = "u" * length
        yield design_row(f"a name of {length} bytes before 65,535 words", f"module s;reg m[65534:0];endmodule\nmodule top;s {name}();endmodule\n")
    text, _ = numbered(lambda at: f"reg r{at};", "module s;", f"endmodule\nmodule top;s {'u' * 50_000}();endmodule\n", 60_000)
    yield design_row("a name of 50,000 bytes before 60,000 registers", text)
    sum_text = bench.sum_of(150_000).replace("a", "1")
    many = "".join(f"s u{at}();" for at in range(4_000))
    yield design_row("a parameter of 150,000 terms in 4,000 instances", f"module s;parameter P={sum_text};endmodule\nmodule top;{many}endmodule\n")
    many = "".join(f"s u{at}();" for at in range(512))
    statements = f"module s(input a);reg r;initial begin {'r=a;' * 100_000} end endmodule\n"
    yield design_row("100,000 statements in 512 instances", f"{statements}module top;{many}endmodule\n", 7, "")


def loops():
    """Loops at their limits, and far beyond them."""
    head = "reg [15:0] r;integer i,j,k;initial "
    loop = "for({0}=0;{0}<{1};{0}={0}+1) "
    yield design_row("a loop of 4,096 turns", inside(head + loop.format("i", 4096) + "r=i;"))
    yield design_row("a loop of 4,097 turns", inside(head + loop.format("i", 4097) + "r=i;"), 3, f"LoopTooLong at 2:{len(head) + 1}")
    yield design_row("a loop without end", inside(head + "for(i=0;i>=0;i=i+1) r=i;"), 3, f"LoopTooLong at 2:{len(head) + 1}")
    yield design_row("4,096 turns in 4,096", inside(head + loop.format("i", 4096) + loop.format("j", 4096) + "r=i;"), 7, "")
    three = "".join(loop.format(name, 4096) for name in "ijk")
    yield design_row("4,096 turns in 4,096 in 4,096", inside(head + three + "r=i;"), 7, "")
    yield design_row("loops of 4,096 turns side by side", filled(loop.format("i", 4096) + ";", DESIGN + head + "begin ", " end" + END), 7, "")
    ripple, _ = numbered(lambda at: f"always @(r{at}) r{at + 1}=~r{at};reg r{at + 1};", DESIGN + "reg r0;always @(a) r0=a;", END, 60_000)
    yield design_row("registers, each of the one before", ripple)
    writes = "".join(f' dut.a.value={digit}\n await Timer(1,"step")\n' for digit in (0, 1))
    waiting = TESTS.replace("\n@", "\nfrom cocotb.triggers import Timer\n@", 1) + writes
    yield Row("Verilog, a ring that never settles", inside("wire b;assign b=~(b&a);"), waiting, 8, "BUDGET 10000000")


def beside():
    """The rows that other scripts have."""
    for row in long_texts.rows():
        design, tests = (text.decode() if text else small for text, small in ((row.design, SMALL_DESIGN), (row.tests, SMALL_TESTS)))
        yield Row("long, " + row.name, design, tests, row.status, (row.output or PASSED).decode().splitlines()[-1])
    for name, text in bench.texts_of_size(SIZE - 1):
        yield Row("bench, " + name, bench.DESIGN, text, 0, None)
    for name, text in bench.designs_of_size(SIZE - 1):
        status, line = (7, "") if name == "one sum in 4,096 turns" else (0, WELL)
        yield Row("bench, " + name, text, bench.HEAD + bench.TEST + "    pass\n", status, line)


MAKERS = (huge_parts, unclosed, levels, doubled, many, factories, huge_tokens, directives, declarations, instances, loops, beside)


def rows():
    return itertools.chain.from_iterable(maker() for maker in MAKERS)


# ---- runs


def ended(program, row, limits):
    """The status of a run, its last line, the seconds of the processor, and the most memory in MB."""
    seconds, gibibytes = limits

    def narrow():
        resource.setrlimit(resource.RLIMIT_STACK, (STACK, STACK))
        resource.setrlimit(resource.RLIMIT_CPU, (seconds, seconds))
        resource.setrlimit(resource.RLIMIT_AS, (gibibytes << 30, gibibytes << 30))

    words = ["--top", "top"] if row.name.startswith("bench, ") and "module top" in row.design else []
    with tempfile.TemporaryDirectory() as folder:
        Path(folder, "d.v").write_bytes(row.design.encode())
        Path(folder, "t.py").write_bytes(row.tests.encode())
        with open(f"{folder}/out", "w+b") as out:
            started = subprocess.Popen([program, *words, "d.v", "t.py"], cwd=folder, stdout=out, stdin=subprocess.DEVNULL, preexec_fn=narrow)
            _, status, usage = os.wait4(started.pid, 0)
            started.returncode = os.waitstatus_to_exitcode(status)
            out.seek(max(0, os.fstat(out.fileno()).st_size - 2 * SIZE))
            lines = out.read().decode("utf-8", "backslashreplace").splitlines()
    return started.returncode, lines[-1] if lines else "", usage.ru_utime + usage.ru_stime, usage.ru_maxrss / 1024


def faults(row, status, line, seconds, memory):
    """What is wrong with a run, in words."""
    if status < 0:
        yield f"CRASH by signal {-status}" if status != -9 else "SLOW without end"
    elif status == 7 and row.status != 7:
        yield "LARGE: memory was short"
    elif status != row.status or row.line is not None and line != row.line:
        yield f"WRONG: {status} {line[:80]!r}, wanted {row.status} {(row.line or '')[:80]!r}"
    if seconds > SLOW:
        yield "SLOW"
    if memory > LARGE:
        yield "LARGE"


def main():
    parser = argparse.ArgumentParser(description=__doc__.splitlines()[0])
    parser.add_argument("--limit", type=int, default=60, metavar="N")
    parser.add_argument("--memory", type=int, default=8, metavar="N")
    parser.add_argument("program")
    parser.add_argument("words", nargs="*")
    asked = parser.parse_args()
    program, count, bad = os.path.realpath(asked.program), 0, 0
    for row in rows():
        if asked.words and not any(word in row.name for word in asked.words):
            continue
        status, line, seconds, memory = ended(program, row, (asked.limit, asked.memory))
        wrong = list(faults(row, status, line, seconds, memory))
        count, bad = count + 1, bad + any(fault.startswith(("WRONG", "CRASH")) for fault in wrong)
        print(f"{row.name:70} {status:3} {seconds:7.2f} s {memory:6.0f} MB  {'; '.join(wrong)}", flush=True)
    print(f"{count} texts, {bad} answered otherwise")
    return 1 if bad else 0


if __name__ == "__main__":
    sys.exit(main())
