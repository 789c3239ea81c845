"""Runs on delayed nonblocking assignments: when their updates come, in which order, and what they leave pending. Lines and counts by hand."""
from rows.row_texts import HEADER, MORE, Row, failing, function, passing, report, test

IMPORTS = HEADER + MORE
FLOP = "module top(input clk, input d, output reg q);\n  always @(posedge clk) q <= #3 d;\nendmodule\n"
CLOCKED = 'dut.d.value = 1; dut.clk.value = 0; await Timer(1, "step"); dut.clk.value = 1; '
SHOW = 'dut._log.info(f"{dut.q.value}"); '
LAST = 'dut.d.value = 1; dut.clk.value = 0; await Timer(%d, "step"); dut.clk.value = 1; '
# a target of each kind, and a clock that may rise twice before the first update comes
KINDS = """module top(input clk, input [3:0] d, input [1:0] n, output reg [3:0] q, output reg [1:0] p, output reg r);
  reg [3:0] m [0:3];
  always @(posedge clk) q[2:1] <= #2 d[1:0];
  always @(posedge clk) {p, r} <= #2 d[2:0];
  always @(posedge clk) m[n] <= #4 d;
  initial begin q = 0; m[0] = 0; m[1] = 0; end
endmodule
"""
ORDERED = """module top(input clk, output reg q, output reg [7:0] a);
  always @(posedge clk) q <= #5 0;
  always @(posedge clk) q <= #5 1;
  always @(posedge clk) begin a <= #2 1; a <= #1 2; a <= 3; end
endmodule
"""
# the rise at 1 gives an update for 4, whose edge gives one for 6
CHAIN = """module top(input clk, output reg a, output reg b);
  always @(posedge clk) a <= #3 1;
  always @(posedge a) b <= #2 ~a;
  initial a = 0;
endmodule
"""
UNITS = """`timescale 1ns / 100ps
module top(input clk, output reg q, output r, output s);
  always @(posedge clk) q <= #2 1;
  low u(.c(clk), .o(r));
  high v(.c(clk), .o(s));
endmodule
`timescale 100ps / 100ps
module low(input c, output reg o);
  always @(posedge c) o <= #2 1;
endmodule
`resetall
module high(input c, output reg o);
  always @(posedge c) o <= #3 1;
endmodule
"""


def row(rule, body, lines, counts=None, design=FLOP, functions="", **more):
    return Row(rule, IMPORTS + functions + test(body), lines, counts, design=design, **more)


def tests(rule, texts, lines, counts=None, design=FLOP, **more):
    return Row(rule, IMPORTS + "".join(test(body, name) for name, body in texts.items()), lines, counts, design=design, **more)


DELAYS = [
    row("an update alone makes a time step, and none comes without one", CLOCKED + "await NextTimeStep(); " + SHOW + "await ReadOnly(); " + SHOW + "await NextTimeStep()",
        failing(4, "Stalled", "4 INFO x", "4 INFO 1"), (6, 1, 5), cost=16),
    row("an update comes behind what fires at its time", CLOCKED + 'await Timer(3, "step"); ' + SHOW + "await ReadWrite(); " + SHOW,
        passing(4, "4 INFO x", "4 INFO 1"), (5, 0, 5)),
    row("no task waits for the time of an update", CLOCKED + 'await Timer(9, "step"); ' + SHOW, passing(10, "10 INFO 1"), (4, 0, 4)),
    row("an edge of an update wakes who waits for it", CLOCKED + "await RisingEdge(dut.q); " + SHOW, passing(4, "4 INFO 1"), (4, 0, 4)),
    row("the value is that of the assignment", CLOCKED + 'await Timer(1, "step"); dut.d.value = 0; await Timer(2, "step"); await ReadOnly(); ' + SHOW,
        passing(4, "4 INFO 1"), (7, 0, 7)),
    row("a delayed update isn't cancelled by one that comes before it", CLOCKED + 'await Timer(1, "step"); dut.clk.value = 0; dut.d.value = 0; await Timer(1, "step"); '
        'dut.clk.value = 1; await Edge(dut.q); ' + SHOW + "await Edge(dut.q); " + SHOW, passing(6, "4 INFO 1", "6 INFO 0"), (9, 0, 9)),
    row("a change of an update is told at its time", CLOCKED + 'await Timer(5, "step")',
        ["0 TEST t", "0 SIG top.d 1", "0 SIG top.clk 0", "1 SIG top.clk 1", "4 SIG top.q 1", "6 PASS t", report(1, 1, 0, 0, 6)], (4, 0, 4), trace=True),
    row("ReadOnly comes behind the update of its time", CLOCKED + "await NextTimeStep(); await ReadOnly(); " + SHOW, passing(4, "4 INFO 1"), (5, 0, 5)),
    row("NextTimeStep comes in the step of an update that is no other's", "cocotb.start_soon(n(dut)); " + CLOCKED + 'await Timer(9, "step")',
        passing(10, "1 INFO next", "4 INFO next", "10 INFO next"), None,
        functions=function("n(dut)", 'for i in range(3): { await NextTimeStep(); dut._log.info("next") }')),
    row("a limit is over before an update of its time", CLOCKED + "await with_timeout(RisingEdge(dut.q), 3, \"step\"); " + SHOW, failing(4, "SimTimeoutError"), (5, 1, 4)),
    row("a limit that is later than the update", CLOCKED + "await with_timeout(RisingEdge(dut.q), 4, \"step\"); " + SHOW, passing(4, "4 INFO 1"), (5, 1, 4)),
    row("parts, braces and words are those of the assignment", 'dut.d.value = 5; dut.n.value = 1; dut.clk.value = 0; await Timer(1, "step"); dut.clk.value = 1; '
        'await Timer(1, "step"); dut.n.value = 0; dut.d.value = 0; await Timer(1, "step"); await ReadWrite(); '
        'dut._log.info(f"{dut.q.value} {dut.p.value} {dut.r.value} {dut.m[1].value}"); await Timer(2, "step"); await ReadOnly(); dut._log.info(f"{dut.m[0].value} {dut.m[1].value}")',
        passing(5, "3 INFO 0010 10 1 0000", "5 INFO 0000 0101"), (9, 0, 9), design=KINDS),
    row("updates of one time come in the order of their assignments, and earlier ones first", 'dut.clk.value = 0; await Timer(1, "step"); dut.clk.value = 1; '
        'await Edge(dut.a); dut._log.info(f"{int(dut.a.value)}"); await Edge(dut.a); dut._log.info(f"{int(dut.a.value)}"); await Edge(dut.a); '
        'dut._log.info(f"{int(dut.a.value)}"); await Edge(dut.q); ' + SHOW + "await Edge(dut.q); " + SHOW,
        passing(6, "1 INFO 3", "2 INFO 2", "3 INFO 1", "6 INFO 0", "6 INFO 1"), (8, 0, 8), design=ORDERED),
    row("an update of an update", 'dut.clk.value = 0; await Timer(1, "step"); dut.clk.value = 1; await Edge(dut.a); dut._log.info("a"); await Edge(dut.b); '
        'dut._log.info(f"{dut.b.value}")', passing(6, "4 INFO a", "6 INFO 0"), (5, 0, 5), design=CHAIN),
    row("a delay is in the unit of its module", 'dut.clk.value = 0; await Timer(1, "step"); dut.clk.value = 1; cocotb.start_soon(e(dut)); cocotb.start_soon(f(dut)); '
        'await Edge(dut.q); dut._log.info("q"); await Timer(99, "step")', passing(120, "3 INFO r", "21 INFO q", "31 INFO s"), None, design=UNITS,
        functions=function("e(dut)", 'await Edge(dut.r); dut._log.info("r")') + function("f(dut)", 'await Edge(dut.s); dut._log.info("s")')),
    tests("an update comes at its time though its test has ended", {"one": CLOCKED + 'await Timer(1, "step")',
                                                                   "two": SHOW + 'await Timer(1, "step"); ' + SHOW + "await ReadOnly(); " + SHOW},
          ["0 TEST one", "2 PASS one", "3 TEST two", "3 INFO x", "4 INFO x", "4 INFO 1", "4 PASS two", report(2, 2, 0, 0, 4)], (7, 0, 7), cost=19),
    tests("an update comes in the time step in which the next test begins", {"one": CLOCKED + 'await Timer(2, "step")', "two": SHOW + "await ReadWrite(); " + SHOW},
          ["0 TEST one", "3 PASS one", "4 TEST two", "4 INFO x", "4 INFO 1", "4 PASS two", report(2, 2, 0, 0, 4)], (6, 0, 6)),
    tests("an update that waits keeps the next test from stalling", {"one": CLOCKED + "await ReadOnly()", "two": "await RisingEdge(dut.q); " + SHOW, "three": "await NextTimeStep()"},
          ["0 TEST one", "1 PASS one", "2 TEST two", "4 INFO 1", "4 PASS two", "5 TEST three", "5 FAIL three (Stalled)", report(3, 2, 1, 0, 5)], (8, 1, 7)),
    row("an update at the latest time", LAST % 4611686018427387901 + "await NextTimeStep(); " + SHOW + "await ReadWrite(); " + SHOW,
        passing(4611686018427387904, "4611686018427387904 INFO x", "4611686018427387904 INFO 1"), (5, 0, 5)),
    row("an update past the latest time is given up", LAST % 4611686018427387902 + "await NextTimeStep()", failing(4611686018427387902, "Stalled"), (4, 1, 3)),
    row("a run that ends at its budget while an update waits", CLOCKED + "await NextTimeStep(); " + SHOW, ["0 TEST t", "BUDGET 9"], (4, 0, 3), budget=9),
    row("a run that ends at its budget with the update", CLOCKED + "await NextTimeStep(); " + SHOW, ["0 TEST t", "4 INFO x", "4 PASS t", report(1, 1, 0, 0, 4)], (4, 0, 4),
        budget=11, cost=11),
]
