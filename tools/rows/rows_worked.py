"""Runs that were worked out before there was a model, with their lines, counts and costs. `tools/rows/run_rows.py` tells what they are for."""
import itertools
from pathlib import Path

from models.made_texts import DESIGN as MADE_DESIGN, tests_of
from rows.row_texts import HEADER, MORE, SMALL, Row, failing, function, passing, report, test

RUN_FILES = Path(__file__).resolve().parents[2] / "crates" / "cocorun" / "data"
FLIP_FLOP = (RUN_FILES / "d.v").read_text()
FLIP_FLOP_TESTS = (RUN_FILES / "t.py").read_text()
PORT = "module top(input [7:0] a);\nendmodule\n"
OSCILLATOR = "module top(input en, output y); assign y = en & ~y; endmodule\n"
OPERATORS = """module top(input [3:0] a, output [3:0] s, output e, output c);
  assign s = a + 4'd9;
  assign e = (a == 4'b1x00);
  assign c = &a | ^a;
endmodule
"""
EXCHANGE = """module top(input clk, output reg p, output reg q);
  initial begin p = 0; q = 1; end
  always @(posedge clk) p <= q;
  always @(posedge clk) q <= p;
endmodule
"""


def factory(options):
    return """import cocotb
from cocotb.regression import TestFactory

@cocotb.test(expect_fail=True)
async def f(dut, x, y):
    assert x * 3 + y == 4

tf = TestFactory(f)
tf.add_option("x", [0, 1])
tf.add_option("y", [%s])
tf.generate_tests(prefix="p_")
""" % options


def made_lines(first, second):
    """The lines of the tests that are made of two numbers."""
    time = -1
    for case, (_, cycles) in enumerate(itertools.product(range(1, first + 1), range(1, second + 1))):
        begin, time = time + 1, time + 1 + 10 * (cycles if case else cycles - 1) + 3
        yield from (f"{begin} TEST made_{case + 1:03d}", f"{time} PASS made_{case + 1:03d}")


GENERATED_LINES = ["0 TEST made_001", "3 PASS made_001", report(1, 1, 0, 0, 3)]
FACTORY_LINES = [
    line
    for at in range(6)
    for line in (f"{at} TEST p_f_{at + 1:03d}", f"{at} FAIL p_f_005 (passed, but a failure was expected)" if at == 4 else f"{at} PASS p_f_{at + 1:03d}")
]
EXACT = HEADER + test('dut.a.value = 5; await Timer(2, units="ns"); assert dut.a.value == 5; dut._log.info(f"a={int(dut.a.value)} q={dut.q.value}")')
IDLE = function("idle(dut)", 'await Timer(50, "step")')
COMBINED = function("w(dut, j)", 'await Combine(RisingEdge(dut.clk), Edge(dut.a), Join(j), Timer(9, "step"))')
KILLED = (
    'j = cocotb.start_soon(idle(dut)); k = cocotb.start_soon(w(dut, j)); await Timer(1, "step"); dut.clk.setimmediatevalue(1); '
    'await Timer(1, "step"); k.kill(); await Timer(1, "step")'
)
LOOPS = function("f(dut, n)", "for i in range(n): { if i == 2: { return i } }; return 9")
LOOPED = (
    'x = await f(dut, 5); y = await f(dut, 1); try: { raise ValueError(f"{x}{y}") } except ValueError as e: { dut._log.warning("got %s", e) }; '
    "while x: { x -= 1 }; assert dut.a.value == 0"
)
ORDERED = function("f(dut)", 'dut._log.info("f")') + function("g(dut)", 'dut._log.info("g"); await Timer(1, "step"); dut._log.info("late")')
ORDERED_TEST = (
    'cocotb.start_soon(f(dut)); dut._log.info("one"); await cocotb.start(g(dut)); dut._log.info("two"); await Timer(1, "step"); dut._log.info("end")'
)
ORDERED_LINES = ["0 INFO one", "0 INFO f", "0 INFO g", "0 INFO two", "1 INFO late"]
# the same tasks in other spellings
REMARKED = '''"""Tests of the order
  of tasks."""
import cocotb  # the library

from cocotb.triggers import Timer


# the first of them
async def f(dut):
    """Says its name."""

    dut._log.info("f")  # once
        # a line of a remark alone may stand anywhere


async def g(dut):
    dut._log.info("g")

    await Timer(1, units="step")
    dut._log.info("late")
@cocotb.test()  # no option
async def t(dut):
    'Starts both.'
    cocotb.start_soon(f(dut))
    dut._log.info("one")
    await cocotb.start(g(dut))

    dut._log.info("two")
    await Timer(1, units="step")
    dut._log.info("end")  # and nothing more'''
BRACKETED = '''import cocotb
from cocotb.triggers import (
    Edge,
    Timer,
)
async def f(dut):
 dut._log.info(
"f"
 )
async def g(dut):
        dut . _log . info( 'g' )
        await Timer( 0x1 ,
            "step" )
        dut._log.info('late')
@cocotb.test(
)
async def t(dut):
   cocotb.start_soon(f(
       dut  # the top
   ))
   dut._log.info( 'one')
   await cocotb.start( g(dut) )
   dut._log.info('two' )
   await Timer(
       0b0_1, 'step')
   dut._log.info("end")
'''
RENAMED = HEADER + function("first_task(top)", 'top._log.info("f")') + function("g2(_x)", '_x._log.info("g"); await Timer(0o1, "step"); _x._log.info("late")') + test(
    'cocotb.start_soon(first_task(dut)); dut._log.info("one"); await cocotb.start(g2(dut)); dut._log.info("two"); await Timer(1_0 // 10, "step"); dut._log.info("end")',
    "the_order_of_tasks")

WORKED = [
    Row("a flip-flop and random numbers", FLIP_FLOP_TESTS, ["0 TEST dff_simple_test", "115000 PASS dff_simple_test", report(1, 1, 0, 0, 115000)],
        design=FLIP_FLOP),
    Row("the least run", HEADER + test("pass"), passing(0), (0, 0, 0), 1, SMALL),
    Row("the least run within the least budget", HEADER + test("pass"), passing(0), (0, 0, 0), 1, SMALL, 1),
    Row("a test ends in the read-only phase", HEADER + test("dut.a.value = 3; await ReadOnly()", "one") + test("assert dut.a.value == 3", "two"),
        ["0 TEST one", "0 PASS one", "1 TEST two", "1 PASS two", report(2, 2, 0, 0, 1)], (3, 0, 3)),
    Row("the largest time", HEADER + test(
        'try: { await Timer(4611686018427387905, "step") } except OverflowError: { dut._log.info("over") }; await Timer(4611686018427387904, "step"); '
        'try: { await Timer(1, "step") } except OverflowError: { dut._log.info("end") }'),
        passing(2**62, "0 INFO over", f"{2**62} INFO end")),
    Row("ties and identity", HEADER + test(
        'p = Timer(5, "step"); r = await First(p, p); dut._log.info(f"{r is p}"); u = Timer(5, "step"); v = Timer(5, "step"); r = await First(u, v); '
        'dut._log.info(f"{r is u} {r is v}")'), passing(10, "5 INFO True", "10 INFO True False"), (2, 0, 2)),
    Row("a kill inside a Combine", HEADER + IDLE + COMBINED + test(KILLED), passing(3), (7, 3, 4)),
    Row("a kill inside a Combine, and the budget ends behind it", HEADER + IDLE + COMBINED + test(KILLED), ["0 TEST t", "BUDGET 12"], (6, 2, 3), 12, budget=12),
    Row("no edge from the past", HEADER + test('dut.clk.setimmediatevalue(1); await First(RisingEdge(dut.clk), Timer(4, "step")); dut._log.info("late")'),
        passing(4, "4 INFO late"), (2, 1, 1)),
    Row("a write in the read-only phase", HEADER + function(
        "w(dut, e)", 'await e.wait(); try: { dut.a.value = 1 } except Exception: { dut._log.info("caught") }') + test(
        'e = Event(); cocotb.start_soon(w(dut, e)); await ReadOnly(); e.set(); await Timer(1, "step")'), failing(0, "ReadOnlyWrite: top.a"), (2, 1, 1)),
    Row("a kill of a woken task", HEADER + function("b(dut)", 'await Timer(1, "step"); await RisingEdge(dut.clk); dut._log.info("b")') + function(
        "c(dut)", 'dut._log.info("c")') + function("a(dut, other)", 'await RisingEdge(dut.clk); other.kill(); cocotb.start_soon(c(dut)); dut._log.info("a")') + test(
        'x = cocotb.start_soon(b(dut)); cocotb.start_soon(a(dut, x)); await Timer(2, "step"); dut.clk.value = 1; await Timer(2, "step")'),
        passing(4, "2 INFO a", "2 INFO c"), (5, 0, 5)),
    Row("set and clear", HEADER + function("w(dut, e)", 'await e.wait(); dut._log.info("woken")') + test(
        'e = Event(); cocotb.start_soon(w(dut, e)); await Timer(1, "step"); e.set(); e.clear(); dut._log.info(f"{e.is_set()}"); await Timer(1, "step"); '
        'e.set(); await e.wait(); dut._log.info("set")'), passing(2, "1 INFO False", "1 INFO woken", "2 INFO set")),
    Row("a lock", HEADER + function("w(dut, l, n)", 'await l.acquire(); dut._log.info(f"got {n}"); l.release()') + test(
        'l = Lock(); await l.acquire(); cocotb.start_soon(w(dut, l, 1)); m = cocotb.start_soon(w(dut, l, 2)); cocotb.start_soon(w(dut, l, 3)); '
        'await Timer(1, "step"); m.kill(); l.release(); await Timer(1, "step"); try: { l.release() } except TriggerException: { dut._log.info("free") }'),
        passing(2, "1 INFO got 1", "1 INFO got 3", "2 INFO free")),
    Row("joined and unjoined faults", HEADER + function("bad(dut)", 'await Timer(1, "step"); assert False, "boom"') + test(
        'j = cocotb.start_soon(bad(dut)); try: { await j } except AssertionError as x: { dut._log.info(f"joined {x}") }; k = cocotb.start_soon(bad(dut)); '
        'k.kill(); r = await Join(k); dut._log.info(f"{r}")', "one") + test('cocotb.start_soon(bad(dut)); await Timer(5, "step")', "two"),
        ["0 TEST one", "1 INFO joined boom", "1 INFO None", "1 PASS one", "2 TEST two", "3 FAIL two (AssertionError: boom)", report(2, 1, 1, 0, 3)]),
    Row("a factory", factory("0, 1, 2"), [*FACTORY_LINES, report(6, 5, 1, 0, 5)]),
    Row("a factory without cases", factory(""), [report(0, 0, 0, 0, 0)], (0, 0, 0), 0),
    Row("an oscillation", HEADER + test('dut.en.value = 0; await Timer(1, "step"); dut.en.value = 1; await Timer(1, "step")'),
        ["0 TEST t", "0 SIG top.y x", "0 SIG top.en 0", "0 SIG top.y 0", "1 SIG top.en 1", "1 SIG top.y 1", "1 SIG top.y 0", "1 SIG top.y 1", "BUDGET 20"],
        design=OSCILLATOR, budget=20, trace=True),
    Row("the exact budget", EXACT, passing(2, "0 SIG top.a 00000101", "2 INFO a=5 q=xxxxxxxx"), (2, 0, 2), 6, budget=6, trace=True),
    Row("one less than the exact budget", EXACT, ["0 TEST t", "0 SIG top.a 00000101", "BUDGET 5"], cost=5, budget=5, trace=True),
    Row("a stalled test", HEADER + test("e = Event(); await e.wait()", "one") + test("pass", "two"),
        ["0 TEST one", "0 FAIL one (Stalled)", "1 TEST two", "1 PASS two", report(2, 1, 1, 0, 1)]),
    Row("with_timeout of a call and of a task", HEADER + function("slow(dut, n)", 'await Timer(10, "step"); dut._log.info(f"done {n}")') + test(
        'try: { await with_timeout(slow(dut, 1), 3, "step") } except SimTimeoutError: { dut._log.info("out 1") }; k = cocotb.start_soon(slow(dut, 2)); '
        'try: { await with_timeout(k, 3, "step") } except SimTimeoutError: { dut._log.info("out 2") }; await k'),
        passing(13, "3 INFO out 1", "6 INFO out 2", "13 INFO done 2"), (4, 1, 3)),
    Row("options", HEADER + test("pass", "a", "skip=True") + test("x = 1 // 0", "b", "expect_error=ZeroDivisionError") + test(
        'await Timer(9, "step")', "c", 'timeout_time=4, timeout_unit="step"'),
        ["0 SKIP a", "0 TEST b", "0 PASS b", "1 TEST c", "5 FAIL c (SimTimeoutError)", report(3, 1, 1, 1, 5)], (3, 1, 2)),
    Row("whole numbers", HEADER + test(
        'dut._log.info(f"{-7 // 2} {-7 % 2} {7 % -2} {True + 1} {0 or 5}"); x = 170141183460469231731687303715884105727 + 1'),
        failing(0, "OverflowError", "0 INFO -4 1 -1 2 5")),
    Row("operators of a design", HEADER + test('dut.a.value = 12; await ReadOnly(); dut._log.info(f"{dut.s.value} {dut.e.value} {dut.c.value}")'),
        passing(0, "0 INFO 0101 x 0"), design=OPERATORS),
    Row("exchange by nonblocking assignments", HEADER + test(
        'dut.clk.value = 0; await Timer(1, "step"); dut.clk.value = 1; await RisingEdge(dut.clk); dut._log.info(f"{dut.p.value}{dut.q.value}"); '
        'await ReadOnly(); dut._log.info(f"{dut.p.value}{dut.q.value}")'), passing(1, "1 INFO 01", "1 INFO 10"), design=EXCHANGE),
    Row("repeated writes", HEADER + test("dut.a.value = 1; dut.clk.value = 0; dut.a.value = 2; await ReadOnly()"),
        passing(0, "0 SIG top.clk 0", "0 SIG top.a 00000010"), (2, 0, 2), trace=True),
    Row("a write, a Timer and an assertion", HEADER + test('dut.a.value = 5; await Timer(2, "step"); assert dut.a.value == 5'), passing(2), (2, 0, 2), 5, PORT),
    Row("an assertion behind a write that hasn't gone out", HEADER + test("dut.a.value = 5; assert dut.a.value == 5"), failing(0, "ValueError"), design=PORT),
    Row("tasks in their order", HEADER + ORDERED + test(ORDERED_TEST), passing(1, *ORDERED_LINES, "1 INFO end"), cost=11, design=PORT),
    Row("tasks in their order, with remarks and docstrings", REMARKED, passing(1, *ORDERED_LINES, "1 INFO end"), cost=11, design=PORT),
    Row("tasks in their order, with brackets over lines and other numbers", BRACKETED, passing(1, *ORDERED_LINES, "1 INFO end"), cost=11, design=PORT),
    Row("tasks in their order, under other names", RENAMED, ["0 TEST the_order_of_tasks", *ORDERED_LINES, "1 INFO end", "1 PASS the_order_of_tasks",
        report(1, 1, 0, 0, 1)], cost=11, design=PORT),
    Row("tasks in their order, with the budget of their cost", HEADER + ORDERED + test(ORDERED_TEST), passing(1, *ORDERED_LINES, "1 INFO end"), cost=11, design=PORT,
        budget=11),
    Row("tasks in their order, with one less", HEADER + ORDERED + test(ORDERED_TEST), ["0 TEST t", *ORDERED_LINES, "BUDGET 10"], cost=10, design=PORT, budget=10),
    Row("functions and loops", HEADER + LOOPS + test(LOOPED), failing(0, "ValueError", "0 WARNING got 29"), cost=21),
    Row("functions and loops, with one less than they cost", HEADER + LOOPS + test(LOOPED), ["0 TEST t", "0 WARNING got 29", "BUDGET 20"], cost=20, budget=20),
    Row("a thousand open calls, and one more", HEADER + function("r(dut, n)", "if n: { await r(dut, n - 1) }") + test(
        'await r(dut, 998); dut._log.info("deep"); await r(dut, 999)'), failing(0, "RuntimeError", "0 INFO deep")),
    Row("a clock and phases", HEADER + MORE + test(
        'clock = Clock(dut.clk, 10, "step"); cocotb.start_soon(clock.start(cycles=3)); await ClockCycles(dut.clk, 2); dut._log.info("c"); await ReadOnly(); '
        'await NextTimeStep(); await Edge(dut.clk); dut._log.info(f"{dut.clk.value}")'), passing(15, "10 INFO c", "15 INFO 0"), (13, 1, 12)),
    Row("generated tests, one case", tests_of(1, 1), GENERATED_LINES, design=MADE_DESIGN),
    Row("generated tests, four cases", tests_of(2, 2), [
        line for at, (begin, end) in enumerate([(0, 3), (4, 27), (28, 41), (42, 65)], 1) for line in (f"{begin} TEST made_{at:03d}", f"{end} PASS made_{at:03d}")
    ] + [report(4, 4, 0, 0, 65)], design=MADE_DESIGN),
    # behind the first case the clock is high where a test begins, so m cycles take 10 * m + 3 steps, and one step lies between two cases
    Row("generated tests, 256 cases", tests_of(16, 16), [*made_lines(16, 16), report(256, 256, 0, 0, 22773)], design=MADE_DESIGN),
    Row("a lock that is held in a loop with handlers", HEADER + function(
        "f(dut, l)", 'for i in range(3): { try: { async with l: { await Timer(1, "step"); if i == 1: { return i }; raise ValueError("v") } } '
        'except ValueError as e: { dut._log.info(f"{e} {l.locked}") } }') + test('l = Lock(); r = await f(dut, l); dut._log.info(f"{r} {l.locked}")'),
        passing(2, "1 INFO v False", "2 INFO 1 False")),
    Row("a killed task doesn't take with it what its with_timeout started", HEADER + function(
        "slow(dut)", 'await Timer(5, "step"); dut._log.info("alive")') + function("v(dut)", 'await with_timeout(slow(dut), 9, "step")') + test(
        'k = cocotb.start_soon(v(dut)); await Timer(1, "step"); k.kill(); await Timer(9, "step")'), passing(10, "5 INFO alive"), (4, 1, 3)),
]
