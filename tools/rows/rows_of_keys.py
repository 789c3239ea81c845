"""Runs on two ports with the keys that are registered, removed and fired, and runs on small designs with the changes that are told. All by hand."""
from rows.row_texts import SMALL, Row, failing, function, passing, test

HEADER = "import cocotb\nfrom cocotb.triggers import Timer\n"
TWO = "module top(input [7:0] a, input [7:0] b);\nendmodule\n"
WRITE = 'dut.a.value = 5; await Timer(2, "step"); assert dut.a.value == 5'


def row(rule, body, lines, counts=None, functions="", **more):
    return Row(rule, HEADER + functions + test(body), lines, counts, **{"design": TWO, **more})


def f(body):
    return function("f(dut)", body)


ORDERED = f('dut._log.info("f")') + function("g(dut)", 'dut._log.info("g"); await Timer(1, "step"); dut._log.info("late")')
ORDERED_TEST = (
    'cocotb.start_soon(f(dut)); dut._log.info("one"); await cocotb.start(g(dut)); dut._log.info("two"); await Timer(1, "step"); dut._log.info("end")'
)
ORDERED_LINES = ["0 INFO one", "0 INFO f", "0 INFO g", "0 INFO two", "1 INFO late", "1 INFO end"]

KEYS = [
    row("the read-write phase as the write is staged, and time 2 as the test waits: both fire", WRITE, passing(2), (2, 0, 2)),
    row("the same keys, though the test fails", WRITE.replace("== 5", "== 6"), failing(2, "AssertionError"), (2, 0, 2)),
    row("the read-write phase is removed where the test ends with the write still staged", "dut.a.value = 5; assert dut.a.value == 5",
        failing(0, "ValueError"), (1, 1, 0)),
    row("so it is where the test passes", "dut.a.value = 5", passing(0), (1, 1, 0)),
    row("nothing is waited for", 'dut._log.info("quiet")', passing(0, "0 INFO quiet"), (0, 0, 0)),
    row("times 1, 2 and 3, one after the other", 'await Timer(1, "step"); await Timer(1, "step"); await Timer(1, "step")', passing(3), (3, 0, 3)),
    row("the read-write phase once for three writes, and times 7 and 8", 'dut.a.value = 1; dut.b.value = 2; dut.a.value = 3; await Timer(7, "step"); '
        'assert dut.a.value == 3; assert dut.b.value == 2; await Timer(1, "step"); assert dut.a.value == 4', failing(8, "AssertionError"), (3, 0, 3)),
    row("a signal is written to the value that it has: the read-write phase at times 0 and 1, and times 1 and 2",
        'dut.a.value = 5; await Timer(1, "step"); dut.a.value = 5; await Timer(1, "step")', passing(2), (4, 0, 4)),
    row("two tasks stage writes in one step: one read-write phase, and time 1", 'cocotb.start_soon(f(dut)); dut.a.value = 1; await Timer(1, "step"); '
        "assert dut.b.value == 2", passing(1), (2, 0, 2), f("dut.b.value = 2")),
    row("two tasks wait for time 1: one key", ORDERED_TEST, passing(1, *ORDERED_LINES), (1, 0, 1), ORDERED),
    row("time 2 is waited for by f, and from time 1 on by the test too: one key again", 'cocotb.start_soon(f(dut)); await Timer(1, "step"); '
        'await Timer(1, "step")', passing(2), (2, 0, 2), f('await Timer(2, "step")')),
    row("the test ends at time 1 while f waits for time 5, which is removed", 'cocotb.start_soon(f(dut)); await Timer(1, "step")', passing(1), (2, 1, 1),
        f('await Timer(5, "step")')),
    row("two tasks wait for time 3 as the test ends: one key is removed", 'cocotb.start_soon(f(dut)); cocotb.start_soon(f(dut)); await Timer(1, "step")',
        passing(1), (2, 1, 1), f('await Timer(3, "step")')),
    row("a fault of f ends the test, which waits for time 4 and has staged a write: both keys are removed",
        'dut.a.value = 1; cocotb.start_soon(f(dut)); await Timer(4, "step")', failing(0, "ValueError"), (2, 2, 0), f("assert dut.a.value == 1")),
    row("the same without a write: time 1 is removed", 'cocotb.start_soon(f(dut)); await Timer(1, "step")', failing(0, "ValueError"), (1, 1, 0),
        f("assert dut.a.value == 0")),
    row("at time 1 a write is staged and dropped with the test: time 1 has fired, and the read-write phase is removed",
        'await Timer(1, "step"); dut.a.value = 1', passing(1), (2, 1, 1)),
    row("the budget stops the run with the write staged", WRITE, ["0 TEST t", "BUDGET 1"], (1, 0, 0), budget=1),
    row("the budget stops the run with the test waiting for time 2 too", WRITE, ["0 TEST t", "BUDGET 2"], (2, 0, 0), budget=2),
    row("the budget stops the run once the read-write phase fired", WRITE, ["0 TEST t", "BUDGET 3"], (2, 0, 1), budget=3),
    row("the budget stops the run once time 2 fired", WRITE, ["0 TEST t", "BUDGET 4"], (2, 0, 2), budget=4),
    row("the budget is exactly what the run costs: its end is free", WRITE, passing(2), (2, 0, 2), budget=5),
    row("time 1 has fired, and f waits on for time 5", 'cocotb.start_soon(f(dut)); await Timer(1, "step"); await Timer(9, "step")', ["0 TEST t", "BUDGET 4"],
        (2, 0, 1), f('await Timer(5, "step")'), budget=4),
    row("a number of two digits for a signal of one bit", "dut.a.value = 2", failing(0, "OverflowError"), (0, 0, 0), design=SMALL),
    row("the largest number of seven bits, and one more", 'dut.a.value = 127; await Timer(1, "step"); assert dut.a.value == 127; dut.a.value = 128',
        failing(1, "OverflowError"), (2, 0, 2), design="module top(input [6:0] a);\nendmodule\n"),
    row("a started task raises it too, and the write that stands staged is dropped", 'dut.a.value = 1; cocotb.start_soon(f(dut)); await Timer(1, "step")',
        failing(0, "OverflowError"), (2, 2, 0), f("dut.a.value = 255"), design=SMALL),
]


def told(rule, body, lines, **more):
    return row(rule, body, lines, trace=True, **more)


FLIP_FLOP = "module top(input c, input d, output reg q);\n  always @(posedge c) q <= d;\nendmodule\n"
COUNTER = "module top(input c, input r, output reg [3:0] n);\n  always @(posedge c)\n    if (r) n <= 0;\n    else n <= n + 1;\nendmodule\n"
MEMORY = """module top(input c, input [1:0] a, input [3:0] d, output [3:0] q);
  reg [3:0] m [0:3];
  always @(posedge c) m[a] <= d;
  assign q = m[a];
endmodule
"""
INSTANCE = "module low(input a, output y);\n  assign y = ~a;\nendmodule\nmodule top(input a, output y);\n  low u(.a(a), .y(y));\nendmodule\n"
STATES = """module top(input c, input g, output reg [1:0] s);
  initial s = 0;
  always @(posedge c)
    case (s)
      2'd0: if (g) s <= 2'd1;
      2'd1: s <= 2'd2;
      default: s <= 2'd0;
    endcase
endmodule
"""
STEP = 'await Timer(1, "step"); '
TRACES = [
    told("a write that goes out", WRITE, passing(2, "0 SIG top.a 00000101")),
    told("of two writes of a signal the last goes out, in its own place; each line stands before the turns of the tasks that are woken",
         "dut.a.value = 1; dut.b.value = 128; dut.a.value = 3; " + STEP + 'dut._log.info("on"); dut.a.value = 0; ' + STEP,
         passing(2, "0 SIG top.b 10000000", "0 SIG top.a 00000011", "1 INFO on", "1 SIG top.a 00000000")),
    told("an equal value is no change", "dut.a.value = 5; " + STEP + "dut.a.value = 5; " + STEP, passing(2, "0 SIG top.a 00000101")),
    told("a write that never goes out", "dut.a.value = 5", passing(0)),
    told("a flip-flop", "dut.d.value = 1; dut.c.value = 0; " + STEP + "dut.c.value = 1; " + STEP + "assert dut.q.value == 1",
         passing(2, "0 SIG top.d 1", "0 SIG top.c 0", "1 SIG top.c 1", "1 SIG top.q 1"), design=FLIP_FLOP),
    told("a counter with reset", "dut.r.value = 1; dut.c.value = 0; " + STEP + "dut.c.value = 1; " + STEP + "dut.c.value = 0; dut.r.value = 0; " + STEP
         + "dut.c.value = 1; " + STEP + "assert dut.n.value == 1", passing(4, "0 SIG top.r 1", "0 SIG top.c 0", "1 SIG top.c 1", "1 SIG top.n 0000",
         "2 SIG top.c 0", "2 SIG top.r 0", "3 SIG top.c 1", "3 SIG top.n 0001"), design=COUNTER),
    told("a memory, whose word is told by its index", "dut.a.value = 2; dut.d.value = 9; dut.c.value = 0; " + STEP + "dut.c.value = 1; " + STEP
         + "assert dut.q.value == 9", passing(2, "0 SIG top.q xxxx", "0 SIG top.a 10", "0 SIG top.d 1001", "0 SIG top.c 0", "1 SIG top.c 1",
         "1 SIG top.m[2] 1001", "1 SIG top.q 1001"), design=MEMORY),
    told("an instance, whose ports are assignments", "dut.a.value = 1; " + STEP + "assert dut.y.value == 0", passing(1, "0 SIG top.u.y x", "0 SIG top.y x",
         "0 SIG top.a 1", "0 SIG top.u.a 1", "0 SIG top.u.y 0", "0 SIG top.y 0"), design=INSTANCE),
    told("a state machine by a case", "dut.g.value = 1; dut.c.value = 0; " + STEP + "dut.c.value = 1; " + STEP + "dut.c.value = 0; " + STEP + "dut.c.value = 1; "
         + STEP + "assert dut.s.value == 2", passing(4, "0 SIG top.s 00", "0 SIG top.g 1", "0 SIG top.c 0", "1 SIG top.c 1", "1 SIG top.s 01", "2 SIG top.c 0",
         "3 SIG top.c 1", "3 SIG top.s 10"), design=STATES),
    told("a signal of one bit", "dut.a.value = 1; " + STEP + "assert dut.a.value == 1; dut.a.value = 0; " + STEP + "assert dut.a.value == 0",
         passing(2, "0 SIG top.a 1", "1 SIG top.a 0"), design=SMALL),
    told("a signal of 128 bits", "dut.a.value = 255; " + STEP + "assert dut.a.value == 255", passing(1, "0 SIG top.a " + "0" * 120 + "1" * 8),
         design="module top(input [127:0] a);\nendmodule\n"),
    told("a value of nine bits is compared whole", "dut.b.value = 5; " + STEP + "assert dut.a.value == 5",
         failing(1, "AssertionError", "0 SIG top.a 1zzzzzzzz", "0 SIG top.b 00000101", "0 SIG top.a 100000101"),
         design="module top(input [7:0] b, output [8:0] a);\n  assign a = {1'b1, b};\nendmodule\n"),
]
