"""Runs on signals, hierarchy, times and random numbers: what is written and read, and which faults come. Lines by hand."""
from models.random_rows import Generator
from rows.row_texts import HEADER, MORE, Row, failing, passing, report, test

DESIGN = """`timescale 1ns / 100ps
module top(input clk, input [7:0] a, input [3:0] n, output [8:0] sum, output y);
  reg [7:0] m [2:5];
  reg r;
  wire [127:0] wide = {16{a}};
  assign sum = a + n;
  sub u(.i(clk), .o(y));
  initial m[3] = 8'hx5;
  initial m[4] = 8'd200;
endmodule
module sub(input i, output o);
  wire w = ~i;
  assign o = w;
endmodule
"""
IMPORTS = HEADER + MORE + "from cocotb.utils import get_sim_time\nimport random\n"


def row(rule, body, lines, counts=None):
    return Row(rule, IMPORTS + test(body), lines, counts, design=DESIGN)


def caught(statement, kind):
    return f"try: {{ {statement} }} except {kind}: {{ dut._log.info(\"{kind}\") }}; "


SETTLE = "await ReadOnly(); "
VALUES = [
    row("an input that nobody wrote is z", 'dut._log.info(f"{dut.a.value} {dut.a.value.is_resolvable} {dut.sum.value}")',
        passing(0, "0 INFO zzzzzzzz False zzzzzzzzz")),
    row("a number is written", "dut.a.value = 0xA5; " + SETTLE + 'dut._log.info(f"{dut.a.value} {dut.a.value.integer} {dut.a.value.signed_integer}")',
        passing(0, "0 INFO 10100101 165 -91")),
    row("a number below 0 is written", "dut.a.value = -1; dut.n.value = -8; " + SETTLE + 'dut._log.info(f"{dut.a.value} {dut.n.value}")',
        passing(0, "0 INFO 11111111 1000")),
    row("the numbers that a signal just takes and doesn't", "dut.n.value = 15; dut.n.value = -8; " + caught("dut.n.value = 16", "OverflowError")
        + caught("dut.n.value = -9", "OverflowError") + SETTLE + 'dut._log.info(f"{dut.n.value}")', passing(0, "0 INFO OverflowError", "0 INFO OverflowError", "0 INFO 1000")),
    row("a truth value is written", "dut.clk.value = True; dut.n.value = False; " + SETTLE + 'dut._log.info(f"{dut.clk.value} {dut.n.value} {dut.y.value}")',
        passing(0, "0 INFO 1 0000 0")),
    row("a vector is written", "await ReadWrite(); dut.m[2].value = dut.m[3].value; " + "await ReadWrite(); " + 'dut._log.info(f"{dut.m[2].value}")', passing(0, "0 INFO xxxx0101")),
    row("a vector of another width is a ValueError", "dut.a.value = dut.n.value", failing(0, "ValueError")),
    row("a text is a TypeError", caught('dut.a.value = "1"', "TypeError") + "dut.a.value = None", failing(0, "TypeError", "0 INFO TypeError")),
    row("a signal is no value", "dut.a.value = dut.a", failing(0, "TypeError")),
    row("the widest signal", "dut.a.value = 1; " + SETTLE + 'dut._log.info(f"{dut.wide.value.binstr == dut.wide.value.binstr} {len(dut.wide)} {int(dut.wide.value)}")',
        passing(0, "0 INFO True 128 1334440654591915542993625911497130241")),
    row("a number of 128 digits is an operand, and no value", "dut.a.value = -1; " + SETTLE + 'dut._log.info(f"{dut.wide.value >> 100}"); x = int(dut.wide.value)',
        failing(0, "OverflowError", "0 INFO 268435455")),
    row("a digit x has no number", "x = dut.m[3].value + 1", failing(0, "ValueError")),
    row("a digit z has no number where it is compared", "assert dut.a.value == 0", failing(0, "ValueError")),
    row("a vector with unknown digits has a truth value", "await ReadWrite(); " + 'if dut.m[3].value: { dut._log.info("a digit is 1") }; if not dut.a.value: '
        '{ dut._log.info("none is") }', passing(0, "0 INFO a digit is 1", "0 INFO none is")),
    row("identity looks at unknown digits", 'dut._log.info(f"{dut.a.value is dut.a.value} {dut.a.value is dut.n.value} {dut.a is dut.a}")',
        passing(0, "0 INFO True False True")),
    row("a signal beside a number stands for its value", "dut.a.value = 5; " + SETTLE + 'dut._log.info(f"{dut.a == 5} {dut.a != 6} {dut.a == dut.n}"); x = dut.a + 1',
        failing(0, "TypeError", "0 INFO True True False")),
    row("arithmetic of vectors is that of numbers", "dut.a.value = 200; dut.n.value = 9; " + SETTLE
        + 'dut._log.info(f"{dut.a.value + dut.a.value} {dut.n.value - dut.a.value} {~dut.n.value} {dut.a.value // dut.n.value} {dut.sum.value.integer}")',
        passing(0, "0 INFO 400 -191 -10 22 209")),
    row("a value that was read doesn't change", "dut.a.value = 1; await ReadWrite(); x = dut.a.value; dut.a.value = 2; " + SETTLE + 'dut._log.info(f"{int(x)} {int(dut.a.value)}")',
        passing(0, "0 INFO 1 2")),
]

HIERARCHY = [
    row("paths and names", 'dut._log.info(f"{dut._path} {dut.u.w._path} {dut.m[4]._name} {dut.u._name} {dut.u} {dut.a} {dut.m}")',
        passing(0, "0 INFO top top.u.w m[4] u top.u top.a <memory>")),
    row("an inner signal", "dut.clk.value = 0; " + SETTLE + 'dut._log.info(f"{dut.u.i.value} {dut.u.w.value} {dut.u.o.value}")', passing(0, "0 INFO 0 1 1")),
    row("a name that isn't there", caught("x = dut.b", "AttributeError") + caught("x = dut.u.a", "AttributeError") + "x = dut.a.width",
        failing(0, "AttributeError", "0 INFO AttributeError", "0 INFO AttributeError")),
    row("words of a memory by their index", "await ReadWrite(); " + 'dut._log.info(f"{dut.m[4].value} {dut.m[2].value} {dut.m[True + 4].value}")',
        passing(0, "0 INFO 11001000 xxxxxxxx xxxxxxxx")),
    row("words that aren't there", caught("x = dut.m[1]", "IndexError") + caught("x = dut.m[6]", "IndexError") + caught("x = dut.m[-1]", "IndexError")
        + "x = dut.a[0]", failing(0, "TypeError", "0 INFO IndexError", "0 INFO IndexError", "0 INFO IndexError")),
    row("a write to a word", "dut.m[5].value = 7; await ReadWrite(); " + 'dut._log.info(f"{int(dut.m[5].value)}")', passing(0, "0 INFO 7")),
    row("a hierarchy has no value", "dut.u.value = 1", failing(0, "AttributeError")),
    row("a memory has no value", "dut.m.value = 1", failing(0, "AttributeError")),
    row("the right side is evaluated before the target", caught("dut.b.value = 1 // 0", "ZeroDivisionError") + "dut.b.value = 1",
        failing(0, "AttributeError", "0 INFO ZeroDivisionError")),
    row("the target of an immediate write is evaluated first", caught("dut.b.setimmediatevalue(1 // 0)", "AttributeError") + "dut.a.setimmediatevalue(1 // 0)",
        failing(0, "ZeroDivisionError", "0 INFO AttributeError")),
    row("a logger of what is no hierarchy", "dut.a._log.info(1 // 0)", failing(0, "AttributeError")),
    row("a logger of an instance", 'dut.u._log.error("from u"); cocotb.log.warning(dut.u)', passing(0, "0 ERROR from u", "0 WARNING top.u")),
    row("methods of other values", caught("x = dut.wait()", "AttributeError") + caught("dut.kill()", "AttributeError") + caught("x = None; y = x.is_set()", "AttributeError")
        + "dut.set()", failing(0, "AttributeError", *["0 INFO AttributeError"] * 3)),
]

TIMES = [
    row("a step of a tenth of a nanosecond", 'u = "ps"; await Timer(1, "ns"); dut._log.info(f"{get_sim_time()} {get_sim_time(u)}")', passing(10, "10 INFO 10 1000")),
    row("units of a Timer", 'await Timer(1, units="us"); await Timer(300, "ps"); await Timer(100000, "fs"); await Timer(2); dut._log.info("x")',
        passing(10006, "10006 INFO x")),
    row("a time that is no whole number of steps", caught('await Timer(50, "ps")', "ValueError") + caught("await Timer(0)", "ValueError")
        + caught('await Timer(-1, "ns")', "ValueError") + 'await Timer(1, "min")', failing(0, "ValueError", *["0 INFO ValueError"] * 3)),
    row("kinds in a Timer", caught('await Timer("1")', "TypeError") + caught("await Timer(1, 1)", "TypeError") + "await Timer(None)",
        failing(0, "TypeError", "0 INFO TypeError", "0 INFO TypeError")),
    row("a Timer of a truth value and of a vector", "dut.n.value = 3; await Timer(True); await Timer(dut.n.value); " + 'dut._log.info("x")', passing(4, "4 INFO x")),
    row("a time over 2^62", caught("x = Timer(4611686018427387905)", "OverflowError") + caught('x = Timer(1 << 100, "sec")', "OverflowError")
        + 'x = Timer(4611686018427387904); dut._log.info(f"{x}")', passing(0, "0 INFO OverflowError", "0 INFO OverflowError", "0 INFO <trigger>")),
    row("now in a unit that doesn't divide it", 'u = "ns"; await Timer(5); x = get_sim_time(u)', failing(5, "ValueError")),
    row("now in the units", "await Timer(20000000); for u in [\"step\", \"fs\", \"ps\", \"ns\", \"us\", \"ms\"]: { x = get_sim_time(u); dut._log.info(f\"{x}\") }; "
        'x = get_sim_time(units="sec")', failing(20000000, "ValueError", *[f"20000000 INFO {x}" for x in (20000000, 2 * 10**12, 2 * 10**9, 2 * 10**6, 2000, 2)])),
    row("a clock of an odd period", caught("c = Clock(dut.clk, 3)", "ValueError") + 'c = Clock(dut.clk, 1, "ns"); dut._log.info(f"{c}"); c = Clock(dut.a, 2)',
        failing(0, "TypeError", "0 INFO ValueError", "0 INFO <clock>")),
    row("a clock's levels", 'cocotb.start_soon(Clock(dut.clk, 4).start()); for i in range(4): { await Edge(dut.clk); dut._log.info(f"{dut.clk.value}") }',
        passing(6, "0 INFO 1", "2 INFO 0", "4 INFO 1", "6 INFO 0")),
    row("a clock that begins low, with cycles", 'await Clock(dut.clk, 4).start(cycles=2, start_high=False); dut._log.info(f"{dut.clk.value}")', passing(8, "8 INFO 1")),
    row("a clock of no cycles", 'await Clock(dut.clk, 4).start(0); dut._log.info(f"{dut.clk.value}")', passing(0, "0 INFO z")),
]
DRAWS = Generator.of_seed(0)
DRAWN = [DRAWS.randint(0, 99) for _ in range(5)]
NEXT = DRAWS.randint(-5, 5)
RANDOM = [
    row("random numbers of the seed 0", 'for i in range(5): { x = random.randint(0, 99); dut._log.info(f"{x}") }', passing(0, *[f"0 INFO {x}" for x in DRAWN])),
    row("a refused draw takes no word", "for i in range(5): { x = random.randint(0, 99); " + caught("y = random.randint(1, 0)", "ValueError")
        + 'try: { y = random.randint(0, 4294967296) } except ValueError: { pass } }; x = random.randint(-5, 5); dut._log.info(f"{x}")',
        passing(0, *["0 INFO ValueError"] * 5, f"0 INFO {NEXT}")),
    Row("draws go on from one test to the next", IMPORTS + test("for i in range(5): { x = random.randint(0, 99) }", "a") + test(
        'x = random.randint(-5, 5); dut._log.info(f"{x}")', "b"), ["0 TEST a", "0 PASS a", "1 TEST b", f"1 INFO {NEXT}", "1 PASS b", report(2, 2, 0, 0, 1)],
        design=DESIGN),
    row("kinds in a draw", caught('x = random.randint("a", 2)', "TypeError") + "x = random.randint(dut.a.value, 2)", failing(0, "ValueError", "0 INFO TypeError")),
    row("a draw of one number", 'x = random.randint(7, 7); dut._log.info(f"{x}")', passing(0, "0 INFO 7")),
]
# a clock that a process lets rise and fall in one activation
PULSE = """module top(input go, output reg clk, output reg n);
  initial n = 1;
  always @(posedge go) begin clk {0} 1; clk {0} 0; end
  always @(posedge clk) n <= clk;
endmodule
"""
PULSED = 'dut.go.value = 0; await Timer(1, "step"); dut.go.value = 1; await Timer(1, "step"); dut._log.info(f"{dut.n.value} {dut.clk.value}")'
PULSES = [
    Row("a pulse within one activation wakes nobody", IMPORTS + test(PULSED), passing(2, "2 INFO 1 0"), design=PULSE.format("=")),
    Row("a pulse of two updates wakes once, and what runs then sees its end", IMPORTS + test(PULSED), passing(2, "2 INFO 0 0"), design=PULSE.format("<=")),
]

NAMES = "module top(input _log, input value);\nendmodule\n"
SLOW = "`timescale 100s / 100s\nmodule top(input a);\nendmodule\n"
CORNERS = [
    row("operands of range", caught('for i in range(dut.a.value, "a"): { pass }', "TypeError") + caught("for i in range(dut.a.value): { pass }", "ValueError")
        + caught("for i in range(0, 3, False): { pass }", "ValueError") + "dut.a.value = 5; await ReadOnly(); "
        'for i in range(True, dut.a.value, 2): { dut._log.info(f"{i}") }', passing(0, "0 INFO TypeError", "0 INFO ValueError", "0 INFO ValueError", "0 INFO 1", "0 INFO 3")),
    row("bounds of a draw that no value holds", "dut.a.value = 255; await ReadOnly(); w = dut.wide.value; " + caught("y = random.randint(w, w)", "OverflowError")
        + caught("y = random.randint(w, 0)", "ValueError"), passing(0, "0 INFO OverflowError", "0 INFO ValueError")),
    row("cycles of a clock that are no count", 'c = Clock(dut.clk, 10, "step"); j = cocotb.start_soon(c.start(cycles="a")); ' + caught("await j", "TypeError")
        + "j = cocotb.start_soon(c.start(cycles=dut.a.value)); " + caught("await j", "ValueError")
        + 'j = cocotb.start_soon(c.start(cycles=-1)); r = await j; dut._log.info(f"{r}")', passing(0, "0 INFO TypeError", "0 INFO ValueError", "0 INFO None")),
    Row("signals that are named as attributes", IMPORTS + test('dut.value.value = 1; await ReadOnly(); dut._log.info(f"{dut.value.value} {dut._log.value}")'),
        passing(0, "0 INFO 1 z"), design=NAMES),
    Row("a step of more than a second", IMPORTS + test(caught('await Timer(1, "sec")', "ValueError") + 'await Timer(3, "step"); x = get_sim_time("sec"); dut._log.info(f"{x}")'),
        passing(3, "0 INFO ValueError", "3 INFO 300"), design=SLOW),
]

SIGNALS = [*VALUES, *HIERARCHY, *TIMES, *RANDOM, *PULSES, *CORNERS]
