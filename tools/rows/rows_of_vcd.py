"""Rows on VCD texts (IEEE 1364-2005, clause 18, four-state). By hand, but for those of oscillations, which are the models'.

`TEXTS` are commands with `--vcd`: a design, a body of a test, and the whole text that is put; `COMMANDS` are these as rows of the command, with those whose
puts fail, whose files are refused, and whose words stand in other orders. `READ` are texts with what a reader makes of
them: the changes that they tell, or the number of the first line that no VCD text has behind the lines before it; `tools/rows/vcd_rows.py`
compares both with `tools/models/vcd_text.py`.
"""
from collections import namedtuple

from models.run_model import model
from models.vcd_text import vcd
from models.verilog_model import flat_of
from rows.command_rows import command
from rows.rows_of_budgets import BUSY
from rows.rows_worked import WORKED

# rule, design, the body of a test, the budget, the status and the lines that are put
Text = namedtuple("Text", "rule design body budget status lines")
# rule, the text, and its changes as (time, path, digits), or the number of the refused line
Read = namedtuple("Read", "rule text answer")

HEAD = "import cocotb\nfrom cocotb.triggers import Timer\n\n@cocotb.test()\nasync def t(dut):\n"
FLIP_FLOP = "module top(input clk, input [7:0] a, output reg [7:0] q); always @(posedge clk) q <= a; endmodule\n"
START = """\
$timescale 1 ns $end
$scope module top $end
$var wire 1 ! clk $end
$var wire 8 " a [7:0] $end
$var reg 8 # q [7:0] $end
$upscope $end
$enddefinitions $end
#0
$dumpvars
z!
bzzzzzzzz "
bxxxxxxxx #
$end
"""


def tests_of(body):
    return HEAD + "".join(f"    {statement}\n" for statement in body.split("; "))


def text(rule, design, body, lines, budget=10_000_000, status="Passed"):
    return Text(rule, design, body, budget, status, lines)


# ---- the step: 1, 10 and 100 of each unit

ONE = "module top(input a); endmodule\n"
ONE_BEHIND = "$scope module top $end\n$var wire 1 ! a $end\n$upscope $end\n$enddefinitions $end\n#0\n$dumpvars\nz!\n$end\n"


def step(count, unit):
    design = f"`timescale {count} {unit} / {count} {unit}\n{ONE}"
    return text(f"a step of {count} {unit}, and nothing changes", design, "pass", f"$timescale {count} {unit} $end\n{ONE_BEHIND}")


# ---- declarations

INSIDE = """\
module top(input a); reg r; mid m(.b(a)); low l(.c(r)); endmodule
module mid(input b); reg [3:0] v; low u(.c(b)); wire w; endmodule
module low(input c); wire [1:0] x; endmodule
"""
INSIDE_TEXT = """\
$timescale 1 ns $end
$scope module top $end
$var wire 1 ! a $end
$var reg 1 " r $end
$scope module m $end
$var wire 1 # b $end
$var reg 4 $ v [3:0] $end
$var wire 1 % w $end
$scope module u $end
$var wire 1 & c $end
$var wire 2 ' x [1:0] $end
$upscope $end
$upscope $end
$scope module l $end
$var wire 1 ( c $end
$var wire 2 ) x [1:0] $end
$upscope $end
$upscope $end
$enddefinitions $end
#0
$dumpvars
z!
x"
z#
bxxxx $
z%
z&
bzz '
z(
bzz )
$end
x(
"""

MEMORY = "module top(input a); reg [3:0] m [0:1]; reg r; endmodule\n"
MEMORY_TEXT = """\
$timescale 1 ns $end
$scope module top $end
$var wire 1 ! a $end
$var reg 1 $ r $end
$upscope $end
$enddefinitions $end
#0
$dumpvars
z!
x$
$end
1!
"""


def many(count):
    """A design whose last signal, behind a memory, has that number."""
    return f"module top(input a); reg [0:0] m [1:{count - 1}]; reg r; endmodule\n"


def many_text(code):
    begin = f"$timescale 1 ns $end\n$scope module top $end\n$var wire 1 ! a $end\n$var reg 1 {code} r $end\n$upscope $end\n"
    return begin + f"$enddefinitions $end\n#0\n$dumpvars\nz!\nx{code}\n$end\n1{code}\n"


TEXTS = [
    text("one change at the start", FLIP_FLOP, 'dut.a.value = 5; await Timer(2, "step")', START + 'b00000101 "\n'),
    text("nothing changes", FLIP_FLOP, "pass", START),
    *[step(count, unit) for unit in ("s", "ms", "us", "ns", "ps", "fs") for count in (1, 10, 100)],
    text("instances inside one another, with reg, wire and vectors", INSIDE, 'await Timer(1, "step")', INSIDE_TEXT),
    text("words of a memory have numbers and no lines", MEMORY, 'dut.m[0].value = 3; dut.a.value = 1; await Timer(1, "step")', MEMORY_TEXT),
    text("a code of one letter, signal 93", many(93), 'dut.r.value = 1; await Timer(1, "step")', many_text("~")),
    text("a code of two letters, signal 94", many(94), 'dut.r.value = 1; await Timer(1, "step")', many_text('!"')),
    text("a code of three letters, signal 8,836", many(8836), 'dut.r.value = 1; await Timer(1, "step")', many_text('!!"')),
    text("two changes at one time, and one at a later time", FLIP_FLOP,
         'dut.a.value = 1; await Timer(3, "step"); dut.a.value = 2; dut.clk.value = 0; await Timer(1, "step")',
         START + 'b00000001 "\n#3\nb00000010 "\n0!\n'),
    text("a run that ends at its budget", FLIP_FLOP, 'dut.a.value = 5; await Timer(2, "step"); dut.a.value = 6; await Timer(2, "step")',
         START + 'b00000101 "\n', budget=5, status="Budget"),
    text("a failed test", FLIP_FLOP, "dut.a.value = 7; await Timer(1, 'step'); assert False", START + 'b00000111 "\n', status="Failed"),
]

# ---- rows of the command

def written(row, words, put=0):
    """A command with these words and the files of the row; where that put fails its own lines are those before."""
    lines = row.lines.splitlines()
    status, lines = ("WriteFault", lines[: put - 1]) if put else (row.status, lines)
    return command(f"VCD text: {row.rule}{f', put {put} fails' * bool(put)}", words, row.design, tests_of(row.body), status, lines, put=put)


def within(row, budget):
    """The waves of a run within a budget."""
    run = model(row.design, row.tests, budget, trace=True)
    lines = vcd(flat_of(row.design), run.lines).splitlines()
    return command(f"VCD text: {row.rule}, within {budget}", f"--vcd --budget {budget} d.v t.py", row.design, row.tests, run.status, lines)


OSCILLATIONS = [next(row for row in WORKED if row.rule == "an oscillation"), BUSY]
SMALLEST = text("the first text", FLIP_FLOP, TEXTS[0].body, TEXTS[0].lines)
COMMANDS = [
    *[written(row, f"--vcd --budget {row.budget} d.v t.py") for row in TEXTS],
    *[written(SMALLEST, "--vcd d.v t.py", put) for put in range(1, len(SMALLEST.lines.splitlines()) + 1)],
    *[
        written(SMALLEST._replace(rule=f"the words {words}"), words)
        for words in ["d.v --vcd t.py", "d.v t.py --vcd", "--top top --seed 7 --vcd d.v t.py", "--vcd --budget=9 --top=top d.v -- t.py"]
    ],
    *[within(row, budget) for row in OSCILLATIONS for budget in range(1, 21)],
    command("VCD text: a design that isn't there", "--vcd d.v t.py", None, "", "ReadFault", ["error: cannot read d.v"]),
    command("VCD text: tests that aren't there", "--vcd d.v t.py", FLIP_FLOP, None, "ReadFault", ["error: cannot read t.py"]),
    command("VCD text: a design that is refused", "--vcd d.v t.py", "modul", "", "DesignRefused", ["error: d.v: Syntax at 1:1"]),
    command("VCD text: tests that are refused", "--vcd d.v t.py", FLIP_FLOP, "x\n", "TestsRefused", ["error: t.py: BadLine at line 1"]),
    command("VCD text: a file named as the flag", "d.v -- --vcd", FLIP_FLOP, "", "ReadFault", ["error: cannot read --vcd"]),
]

# ---- texts that are read

LINES = START.splitlines(keepends=True)


def with_line(number, line):
    """The first lines up to that number, which is another one."""
    return "".join(LINES[: number - 1]) + line + "\n" + "".join(LINES[number:])


def bad(rule, number, line):
    return Read(rule, with_line(number, line), number)


NO_SIGNAL = "$timescale 1 ns $end\n$scope module top $end\n$upscope $end\n$enddefinitions $end\n#0\n$dumpvars\n$end\n"

READ = [
    Read("one change", START + 'b00000101 "\n', [(0, "top.a", "00000101")]),
    Read("no change", START, []),
    Read("a change that repeats a value", START + 'z!\nz!\n', [(0, "top.clk", "z"), (0, "top.clk", "z")]),
    Read("times", START + '0!\n#7\n1!\nb1x0z1x0z "\n#18446744073709551615\n0!\n',
         [(0, "top.clk", "0"), (7, "top.clk", "1"), (7, "top.a", "1x0z1x0z"), (2**64 - 1, "top.clk", "0")]),
    Read("a change of two digits of a signal of one", START + 'b00000101 "\n2!\n', 15),
    # the step
    bad("a step of 2", 1, "$timescale 2 ns $end"),
    bad("a unit that isn't one", 1, "$timescale 1 as $end"),
    bad("a step without a blank", 1, "$timescale 1ns $end"),
    bad("a step of 1000", 1, "$timescale 1000 ns $end"),
    bad("a date", 1, "$date today $end"),
    # scopes
    bad("a task's scope", 2, "$scope task top $end"),
    bad("a scope without a name", 2, "$scope module $end"),
    bad("a name that begins with a digit", 2, "$scope module 1top $end"),
    bad("a name with a dot", 2, "$scope module top.u $end"),
    bad("a signal before the top", 2, "$var wire 1 ! clk $end"),
    bad("a scope that has the name of a signal", 4, "$scope module clk $end"),
    Read("a signal behind an instance", "".join(LINES[:3]) + "$scope module u $end\n$upscope $end\n" + LINES[3], 6),
    Read("two instances of one name", "".join(LINES[:3]) + "$scope module u $end\n$upscope $end\n$scope module u $end\n", 6),
    Read("a second top", "".join(LINES[:6]) + "$scope module top $end\n", 7),
    Read("64 instances inside one another below the top", LINES[0] + "$scope module m $end\n" * 65, 66),
    Read("65 instances inside one another below the top", LINES[0] + "$scope module m $end\n" * 66, 67),
    # signals
    bad("an integer", 3, "$var integer 1 ! clk $end"),
    bad("a width of 0", 3, "$var wire 0 ! clk $end"),
    bad("a width of 129", 3, "$var wire 129 ! clk [128:0] $end"),
    bad("a width that begins with 0", 3, "$var wire 01 ! clk $end"),
    bad("a range behind one digit", 3, "$var wire 1 ! clk [0:0] $end"),
    bad("a vector without a range", 4, '$var wire 8 " a $end'),
    bad("another range", 4, '$var wire 8 " a [8:1] $end'),
    bad("a range without a blank", 4, '$var wire 8 " a[7:0] $end'),
    bad("a name twice", 4, '$var wire 8 " clk [7:0] $end'),
    bad("a code twice", 4, "$var wire 8 ! a [7:0] $end"),
    bad("a code with a leading zero digit", 4, '$var wire 8 "! a [7:0] $end'),
    bad("codes that fall", 5, "$var reg 8 ! q [7:0] $end"),
    bad("signal 65,536", 3, "$var wire 1 3H( clk $end"),
    bad("a code with a letter beyond the last", 3, "$var wire 1 \x7f clk $end"),
    Read("the last signal that there may be, and a change of it",
         "$timescale 1 ns $end\n$scope module top $end\n$var reg 1 2H( r $end\n$upscope $end\n$enddefinitions $end\n#0\n$dumpvars\n"
         "x2H(\n$end\n12H(\n",
         [(0, "top.r", "1")]),
    # behind the declarations
    bad("declarations that end with an open scope", 6, "$enddefinitions $end"),
    bad("another first time", 8, "#1"),
    bad("all values off", 9, "$dumpoff"),
    bad("an opening value of a net that is x", 10, "x!"),
    bad("an opening value of one digit with a blank", 10, "z !"),
    bad("an opening vector that is shorter", 11, 'bz "'),
    bad("an opening value of a register that is z", 12, "bzzzzzzzz #"),
    bad("an opening value that is missing", 12, "$end"),
    bad("an opening value too much", 13, "z!"),
    # changes
    Read("time 0 again", START + "#0\n", 14),
    Read("a time twice", START + "#3\n0!\n#3\n", 16),
    Read("a time that falls", START + "#3\n0!\n#2\n", 16),
    Read("two times in a row", START + "#3\n#4\n", 15),
    Read("a time that begins with 0", START + "#03\n", 14),
    Read("a time of 2^64", START + "#18446744073709551616\n", 14),
    Read("a change of a code that isn't declared", START + "0$\n", 14),
    Read("a change with too few digits", START + 'b101 "\n', 14),
    Read("a change of a vector without a blank", START + 'b00000101"\n', 14),
    Read("one digit as a vector", START + "b0 !\n", 14),
    Read("a capital X", START + "X!\n", 14),
    Read("a real number", START + "r1.5 !\n", 14),
    Read("a blank at the end of a line", START + "0! \n", 14),
    Read("an empty line", START + "\n", 14),
    Read("a carriage return", START + "0!\r\n", 14),
    Read("a time of a design without signals, which no value can have", NO_SIGNAL + "#3\n0!\n", 8),
    Read("a design without signals", NO_SIGNAL, []),
    # texts that end too early
    Read("an empty text", "", 1),
    Read("a text that ends within its first line", "$time", 1),
    Read("a text that ends with an open line", START + "0!", 14),
    Read("a text that ends behind the step", LINES[0], 1),
    Read("a text that ends with an open scope", "".join(LINES[:5]), 5),
    Read("a text that ends before the opening values do", "".join(LINES[:12]), 12),
    Read("a text that ends with a time", START + "0!\n#3\n", 15),
]
