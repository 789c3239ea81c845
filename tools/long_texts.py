"""Texts with a long row of like parts, for `./test`: no chain in a text may make a recursion that is as deep as the chain is long.

Each stands within all limits of bytes. Where a row of operators, brackets or statements is a tree that is too high the text is refused, and else its
tests pass. What is wanted follows from the rules of `docs/PYTHON.md` and `docs/VERILOG.md`.
"""
from collections import namedtuple

# design and tests: the texts, None where the small one serves; output: None where it is that of the small tests.
Row = namedtuple("Row", "name design tests status output", defaults=(0, None))

# How many parts a row has.
MANY = 50_000
TESTS = "import cocotb\n@cocotb.test()\nasync def t(dut):\n"
DESIGN = "module top(input a);\n"
END = "\nendmodule\n"
PASSED = b"0 TEST t\n0 PASS t\n** TESTS=1 PASS=1 FAIL=0 SKIP=0 TIME=0 **\n"


def passing(name, body):
    """A test that passes."""
    return Row("Python, " + name, None, (TESTS + body).encode(), 0, PASSED)


def high(name, line):
    """A test with a line that is too high."""
    return Row("Python, " + name, None, (TESTS + " n=1\n" + line).encode(), 4, b"error: t.py: TooDeep at line 5\n")


def chains():
    """Clauses, statements and parts, of which a test may have as many as its text has room for."""
    elifs = " elif n:\n  n=1\n"
    yield passing("elif, of which none holds", " n=0\n if n:\n  n=1\n" + elifs * MANY + " else:\n  n=2\n assert n==2\n")
    yield passing("elif, of which the last holds", " n=0\n if n:\n  n=1\n" + elifs * MANY + " elif n==0:\n  n=3\n assert n==3\n")
    yield passing("elif behind an if that holds", " n=0\n if n==0:\n  n=4\n" + elifs * MANY + " assert n==4\n")
    looped = "  if n:\n   n=1\n" + "  elif n:\n   n=1\n" * MANY + "  else:\n   continue\n"
    yield passing("elif in a loop", " n=0\n for i in [1,2]:\n" + looped + " assert i==2\n")
    yield passing("statements", " n=0\n" + " n+=1\n" * MANY + f" assert n=={MANY}\n")
    yield passing("if", " n=0\n" + " if 1:\n  n+=1\n" * MANY + f" assert n=={MANY}\n")
    handlers = " except TypeError:\n  n=1\n" * (MANY // 2)
    yield passing("handlers", " n=0\n try:\n  raise ValueError\n" + handlers + " except ValueError:\n  n=2\n assert n==2\n")
    yield passing("parts of an f-string", " n=1\n m=f'" + "{n}" * MANY + "'\n assert m=='" + "1" * MANY + "'\n")
    yield passing("elements of a list", " n=0\n for i in [" + "1," * MANY + "]:\n  n+=i\n" + f" assert n=={MANY}\n")
    yield passing("comments", " n=1\n" + "#\n" * MANY + " assert n\n")
    parameters = "".join(f"a{at}," for at in range(MANY))
    function = f"import cocotb\nasync def f({parameters}):\n return a{MANY - 1}\n"
    call = "@cocotb.test()\nasync def t(dut):\n n=await f(" + "1," * (MANY - 1) + "2)\n assert n==2\n"
    yield Row("Python, parameters and arguments", None, (function + call).encode(), 0, PASSED)


def towers():
    """Rows that a line spells as a tree which is higher than may be."""
    for name, operator in (("sums", "+"), ("alternatives", " or "), ("shifts", "<<")):
        yield high(name, " n=" + operator.join("n" * MANY) + "\n")
    for name, front, back in (("brackets", "(", ")"), ("signs", "-", ""), ("calls", "int(", ")"), ("subscripts", "n[", "]")):
        yield high(name, " n=" + front * MANY + "n" + back * MANY + "\n")
    yield high("attributes", " n=dut" + ".a" * MANY + "\n")


def designs():
    """The same of designs."""
    for name, body in (
        ("statements", "reg b; always @* begin " + "b=a;" * MANY + " end"),
        ("elements of a case", "reg b; always @* case(a) " + "1:b=a;" * MANY + " endcase"),
        ("assignments", "wire b0; assign b0=a;" + "".join(f"wire b{at}=b{at - 1};" for at in range(1, MANY // 2))),
        ("comments", "//\n" * MANY),
        ("conditionals inside one another", "`ifdef A\n" * MANY + "`endif\n" * MANY),
        ("parts of a conditional", "`ifdef A\n" + "`elsif A\n" * MANY + "`endif\n"),
    ):
        yield Row("Verilog, " + name, (DESIGN + body + END).encode(), None)
    # The least tree that is too high has 65 levels: 64 operators over a name, 64 brackets around one, 63 `if` over an assignment, which has two, or
    # 65 blocks. The token is told that makes it so.
    for name, body, column in (
        ("sums", "wire b=" + "a+" * MANY + "a;", 7 + 2 * 64),
        ("brackets", "wire b=" + "(" * MANY + "a" + ")" * MANY + ";", 7 + 64),
        ("choices", "wire b=" + "a?a:" * MANY + "a;", 7 + 4 * 63 + 2),
        ("else if", "reg b; always @* " + "if(a)b=1;else " * MANY + "b=0;", 17 + 14 * 62 + 6),
        ("blocks", "reg b; always @* " + "begin " * MANY + "b=a;" + " end" * MANY, 17 + 6 * 64 + 1),
    ):
        refused = b"error: d.v: TooDeep at 2:%d\n" % column
        yield Row("Verilog, " + name, (DESIGN + body + END).encode(), None, 3, refused)


def rows():
    return [*chains(), *towers(), *designs()]
