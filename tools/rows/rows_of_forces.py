"""Runs in which tests force, freeze and release signals: what shows, what is staged and replaced, who is woken, and what is refused.

Lines by hand, counts and costs where they tell.
"""
from rows.row_texts import HEADER, MORE, Row, failing, function, passing, report, test

IMPORTS = HEADER + MORE + "from cocotb.handle import Force, Freeze, Release\n"
STEP = 'await Timer(1, "step"); '
INVERTER = "module top(input a, output y, output reg q);\n  assign y = ~a;\n  initial q = 0;\nendmodule\n"
CHAIN = """module top(input [3:0] a, output [3:0] y);
  wire [3:0] w = a + 1;
  assign y = w ^ 4'd15;
endmodule
"""
PARTS = """module sub(input [3:0] i, output [3:0] o);
  assign o = i;
endmodule
module top(input clk, input [3:0] a, output [3:0] y);
  reg [3:0] m [0:1];
  sub u(.i(a), .o(y));
  always @(posedge clk) m[1] <= a;
endmodule
"""
DELAYED = "module top(input clk, input d, output reg q);\n  always @(posedge clk) q <= #3 d;\nendmodule\n"


def said(text):
    return f'dut._log.info("{text}"); '


def shown(*values):
    """A line with values of signals, or their numbers."""
    return 'dut._log.info(f"' + " ".join(f"{{{value}}}" for value in values) + '"); '


def now(signal, value):
    return f"dut.{signal}.setimmediatevalue({value}); "


def row(rule, body, lines, counts=None, functions="", **more):
    return Row(rule, IMPORTS + functions + test(body), lines, counts, **more)


def tests(rule, bodies, lines, counts=None):
    return Row(rule, IMPORTS + "".join(test(body, name) for name, body in bodies.items()), lines, counts)


def told(time, *lines):
    """The lines of a run of one test that passes, in which changes are told."""
    return ["0 TEST t", *lines, f"{time} PASS t", report(1, 1, 0, 0, time)]


A, Q, INT_A, INT_Q = "dut.a.value", "dut.q.value", "int(dut.a.value)", "int(dut.q.value)"
EDGE = function("e(dut)", 'await Edge(dut.a); dut._log.info("edge")')
RISE = function("e(dut)", 'await RisingEdge(dut.clk); dut._log.info("rise")')
FALL = function("e(dut)", 'await FallingEdge(dut.clk); dut._log.info("fall")')

WORKED = [
    row("a net that is forced and a register that is frozen, up to their releases", 'dut.a.value = 0; await Timer(1, "step"); dut.y.value = Force(0); dut.q.value = Freeze(); '
        'await Timer(1, "step"); dut.a.value = 1; dut.q.value = 1; await Timer(1, "step"); dut._log.info(f"{dut.y.value}{dut.q.value}"); dut.a.value = 0; '
        'await Timer(1, "step"); dut.y.value = Release(); dut.q.value = Release(); await Timer(1, "step"); dut._log.info(f"{dut.y.value}{dut.q.value}")',
        ["0 TEST t", "3 INFO 00", "5 INFO 10", "5 PASS t", report(1, 1, 0, 0, 5)], (10, 0, 10), design=INVERTER),
    row("a Release in the read-only phase", "await ReadOnly(); dut.a.value = Release()", ["0 TEST t", "0 FAIL t (ReadOnlyWrite: top.a)", report(1, 0, 1, 0, 0)], (1, 0, 1)),
    row("a Force over the width", "dut.a.value = Force(256)", ["0 TEST t", "0 FAIL t (OverflowError)", report(1, 0, 1, 0, 0)], (0, 0, 0)),
]

GIVEN = [
    row("the least and the greatest number of a Force", now("a", "Force(-128)") + shown(A) + now("a", "Force(255)") + shown(A), passing(0, "0 INFO 10000000", "0 INFO 11111111"), (0, 0, 0)),
    row("a Force under the width", now("a", "Force(-129)"), failing(0, "OverflowError"), (0, 0, 0)),
    row("a Force of a truth value", now("clk", "Force(True)") + shown("dut.clk.value"), passing(0, "0 INFO 1"), (0, 0, 0)),
    row("a Force of a vector with x digits", now("a", "Force(dut.q.value)") + shown(A), passing(0, "0 INFO xxxxxxxx"), (0, 0, 0)),
    row("a Force of a vector of another width", "dut.a.value = Force(dut.clk.value)", failing(0, "ValueError"), (0, 0, 0)),
    row("a Force of a text", 'dut.a.value = Force("5")', failing(0, "TypeError"), (0, 0, 0)),
    row("a Force of None", now("a", "Force(None)"), failing(0, "TypeError"), (0, 0, 0)),
    row("a Force of a signal and not of its value", "dut.a.value = Force(dut.q)", failing(0, "TypeError"), (0, 0, 0)),
    row("a Force of what is computed", "dut.a.value = 6; await ReadWrite(); dut.a.value = Force(dut.a.value.integer * 2 + 1); await ReadOnly(); " + shown(INT_A), passing(0, "0 INFO 13")),
    row("a Force of a hierarchy", "dut.value = Force(1)", failing(0, "AttributeError"), (0, 0, 0)),
    row("a Freeze of a number", "x = 5; x.value = Freeze()", failing(0, "AttributeError"), (0, 0, 0)),
    row("a Release of a hierarchy at once", "dut.setimmediatevalue(Release())", failing(0, "AttributeError"), (0, 0, 0)),
    row("a Force of a memory", "dut.m.value = Force(1)", failing(0, "AttributeError"), (0, 0, 0), design=PARTS),
    row("the value of a Force is evaluated before its signal", "x.value = Force(1 // 0); x = 1", failing(0, "ZeroDivisionError"), (0, 0, 0)),
    row("the signal of a Force at once is evaluated before its value", "x.setimmediatevalue(Force(1 // 0)); x = 1", failing(0, "UnboundLocalError"), (0, 0, 0)),
    row("the value of a Force is the one of its statement", "x = 5; dut.a.value = Force(x); x = 6; await ReadWrite(); " + shown(INT_A), passing(0, "0 INFO 5"), (1, 0, 1)),
    row("a Force, a Freeze and a Release cost one each", "dut.a.value = Force(1); " + now("a", "Freeze()") + "dut.a.value = Release()", passing(0), (1, 1, 0), cost=3),
]


def in_phase(rule, statement, path="top.a", **more):
    body = "await ReadOnly(); try: { " + statement + " } except Exception: { " + said("caught") + "}"
    return row(rule, body, failing(0, f"ReadOnlyWrite: {path}"), (1, 0, 1), **more)


REFUSED = [
    in_phase("a Force in the read-only phase", "dut.a.value = Force(1)"),
    in_phase("a Freeze in the read-only phase", "dut.a.value = Freeze()"),
    in_phase("a Force at once in the read-only phase", "dut.a.setimmediatevalue(Force(1))"),
    in_phase("a Freeze at once in the read-only phase", "dut.q.setimmediatevalue(Freeze())", "top.q"),
    in_phase("a Release at once in the read-only phase", "dut.clk.setimmediatevalue(Release())", "top.clk"),
    in_phase("a Freeze of a net of an instance in the read-only phase", "dut.u.o.value = Freeze()", "top.u.o", design=PARTS),
    in_phase("a Force of a word of a memory in the read-only phase", "dut.m[1].value = Force(2)", "top.m[1]", design=PARTS),
    row("a refused value in the read-only phase raises its fault", 'await ReadOnly(); try: { dut.a.value = Force("a") } except TypeError: { ' + said("kind") + "}; dut.a.value = Force(256)",
        failing(0, "OverflowError", "0 INFO kind"), (1, 0, 1)),
    row("a refused Force takes no staged write out", "dut.a.value = 3; try: { dut.a.value = Force(256) } except OverflowError: { pass }; await ReadOnly(); " + shown(INT_A),
        passing(0, "0 INFO 3"), (2, 0, 2)),
]

STAGED = [
    row("a staged Force shows once it goes out", "dut.a.value = Force(5); " + shown(A) + "await ReadWrite(); " + shown(A), passing(0, "0 INFO zzzzzzzz", "0 INFO 00000101"), (1, 0, 1)),
    row("a Force at once shows at once", now("a", "Force(5)") + shown(A), passing(0, "0 INFO 00000101"), (0, 0, 0)),
    row("of two staged Forces the later one goes out", "dut.a.value = Force(1); dut.a.value = Force(2); await ReadOnly()", told(0, "0 SIG top.a 00000010"), (2, 0, 2), trace=True),
    row("a Force that takes the place of another stands last", "dut.a.value = Force(1); dut.clk.value = 0; dut.a.value = Force(2); await ReadOnly()",
        told(0, "0 SIG top.clk 0", "0 SIG top.a 00000010"), (2, 0, 2), trace=True),
    row("a value that is staged behind a Force takes its place", "dut.a.value = Force(1); dut.a.value = 2; await ReadWrite(); " + shown(INT_A) + now("a", 3) + shown(INT_A),
        passing(0, "0 INFO 2", "0 INFO 3"), (1, 0, 1)),
    row("a Force that is staged behind a value takes its place", "dut.a.value = 2; dut.a.value = Force(1); await ReadWrite(); " + now("a", 3) + shown(INT_A), passing(0, "0 INFO 1"), (1, 0, 1)),
    row("a Release that is staged behind a Force takes its place", "dut.a.value = Force(1); dut.a.value = Release(); await ReadWrite(); " + shown(A), passing(0, "0 INFO zzzzzzzz"), (1, 0, 1)),
    row("a Force that is staged behind a Release takes its place", now("a", "Force(1)") + "dut.a.value = Release(); dut.a.value = Force(2); await ReadWrite(); " + now("a", 3) + shown(INT_A),
        passing(0, "0 INFO 2"), (1, 0, 1)),
    row("a Freeze that is staged behind a Force takes its place", "dut.a.value = Force(1); dut.a.value = Freeze(); await ReadWrite(); " + now("a", 7) + shown(A), passing(0, "0 INFO zzzzzzzz"), (1, 0, 1)),
    row("a Force at once leaves a staged value where it is", "dut.a.value = 2; " + now("a", "Force(1)") + "await ReadWrite(); " + shown(INT_A) + now("a", "Release()") + shown(INT_A),
        passing(0, "0 INFO 1", "0 INFO 2"), (1, 0, 1)),
    row("a Freeze takes the value of when it goes out", "dut.a.value = Freeze(); " + now("a", 7) + "await ReadWrite(); " + now("a", 9) + shown(INT_A), passing(0, "0 INFO 7"), (1, 0, 1)),
    row("a Freeze at once takes the value of now", now("a", 7) + now("a", "Freeze()") + now("a", 9) + shown(INT_A), passing(0, "0 INFO 7"), (0, 0, 0)),
    # y follows a by an activation, which comes behind the read-write phase
    row("a Freeze goes out before the design follows a write of its phase", "dut.a.value = 0; " + STEP + "dut.a.value = 1; dut.y.value = Freeze(); " + STEP + shown("dut.y.value")
        + now("y", "Release()") + shown("dut.y.value"), passing(2, "2 INFO 1", "2 INFO 0"), (4, 0, 4), design=INVERTER),
    row("a kill leaves a staged Force", "k = await cocotb.start(f(dut)); k.kill(); await ReadWrite(); " + shown(INT_A), passing(0, "0 INFO 5"), (2, 1, 1),
        function("f(dut)", 'dut.a.value = Force(5); await Timer(5, "step")')),
    row("who waits for an edge of a Force wakes before who waits for its phase", "cocotb.start_soon(e(dut)); " + STEP + "dut.a.value = Force(5); await ReadWrite(); " + said("phase")
        + STEP, passing(2, "1 INFO edge", "1 INFO phase"), (4, 0, 4), EDGE),
    tests("a staged Force is dropped with its test", {"one": "dut.a.value = Force(5)", "two": now("a", 3) + shown(INT_A)},
          ["0 TEST one", "0 PASS one", "1 TEST two", "1 INFO 3", "1 PASS two", report(2, 2, 0, 0, 1)], (2, 1, 1)),
]

FORCED = [
    row("a net shows at its release what was written meanwhile", now("a", 1) + now("a", "Force(5)") + now("a", 2) + shown(INT_A) + now("a", "Release()") + shown(INT_A),
        passing(0, "0 INFO 5", "0 INFO 2"), (0, 0, 0)),
    row("a net that nobody wrote shows at its release what it showed before", now("a", 1) + now("a", "Force(5)") + now("a", "Release()") + shown(INT_A), passing(0, "0 INFO 1"), (0, 0, 0)),
    row("a register keeps at its release what it shows", now("q", 1) + now("q", "Force(5)") + now("q", 2) + now("q", "Release()") + shown(INT_Q) + now("q", 3) + shown(INT_Q),
        passing(0, "0 INFO 5", "0 INFO 3"), (0, 0, 0)),
    row("a second Force leaves what is hidden", now("a", 1) + now("a", "Force(5)") + now("a", "Force(6)") + shown(INT_A) + now("a", "Release()") + shown(INT_A),
        passing(0, "0 INFO 6", "0 INFO 1"), (0, 0, 0)),
    row("a Freeze of what is forced leaves it as it is", now("a", 1) + now("a", "Force(5)") + now("a", "Freeze()") + now("a", 2) + shown(INT_A) + now("a", "Release()") + shown(INT_A),
        passing(0, "0 INFO 5", "0 INFO 2"), (0, 0, 0)),
    row("a Force to what is shown forces, too", now("a", 5) + now("a", "Force(5)") + now("a", 6) + shown(INT_A), passing(0, "0 INFO 5"), (0, 0, 0)),
    row("a Release of what isn't forced", now("a", 1) + now("a", "Release()") + shown(INT_A) + "dut.q.value = Release(); await ReadOnly(); " + shown(Q),
        passing(0, "0 INFO 1", "0 INFO xxxxxxxx"), (2, 0, 2)),
    row("a second Release does nothing", now("a", "Force(5)") + now("a", "Release()") + now("a", 3) + now("a", "Release()") + shown(INT_A), passing(0, "0 INFO 3"), (0, 0, 0)),
    row("a Freeze of x digits", now("clk", 0) + now("a", 5) + now("q", "Freeze()") + STEP + now("clk", 1) + STEP + shown(Q) + now("q", "Release()") + shown(Q) + now("clk", 0) + STEP
        + now("clk", 1) + STEP + shown(Q), passing(4, "2 INFO xxxxxxxx", "2 INFO xxxxxxxx", "4 INFO 00000101"), (4, 0, 4)),
    row("a Freeze of z digits", now("a", "Freeze()") + now("a", 5) + shown(A) + now("a", "Release()") + shown(A), passing(0, "0 INFO zzzzzzzz", "0 INFO 00000101"), (0, 0, 0)),
    # the driver left 0, and the write behind it 1
    row("a net shows at its release what driver and writes left", "dut.a.value = 1; " + STEP + now("y", "Force(0)") + now("y", 1) + shown("dut.y.value") + now("y", "Release()")
        + shown("dut.y.value"), passing(1, "1 INFO 0", "1 INFO 1"), (2, 0, 2), design=INVERTER),
    row("what reads a forced net reads what it shows", "dut.a.value = 1; " + STEP + shown("dut.y.value") + "dut.w.value = Force(0); " + STEP + shown("dut.y.value") + "dut.a.value = 2; "
        + STEP + shown("dut.y.value", "dut.w.value") + "dut.w.value = Release(); " + STEP + shown("dut.y.value", "dut.w.value"),
        passing(4, "1 INFO 1101", "2 INFO 1111", "3 INFO 1111 0000", "4 INFO 1100 0011"), (8, 0, 8), design=CHAIN),
    # the clock rises at 0, 2 and 4
    row("a forced register takes no assignment, up to the next one behind its release", 'dut.a.value = 1; cocotb.start_soon(Clock(dut.clk, 2, "step").start()); ' + STEP + shown(INT_Q)
        + 'dut.q.value = Force(9); await Timer(2, "step"); ' + shown(INT_Q) + "dut.a.value = 4; dut.q.value = Release(); await ReadWrite(); " + shown(INT_Q)
        + 'await Timer(2, "step"); ' + shown(INT_Q), passing(5, "1 INFO 1", "3 INFO 9", "3 INFO 9", "5 INFO 4")),
    row("an update with a delay comes while its register is forced", "dut.d.value = 1; dut.clk.value = 0; " + STEP + "dut.clk.value = 1; " + STEP + 'dut.q.value = Force(0); await Timer(3, "step"); '
        + shown(Q) + "dut.q.value = Release(); await ReadWrite(); " + shown(Q), passing(5, "5 INFO 0", "5 INFO 0"), (7, 0, 7), design=DELAYED),
    row("a word of a memory is forced", "dut.m[1].value = Force(9); dut.clk.value = 0; dut.a.value = 3; " + STEP + "dut.clk.value = 1; " + STEP + shown("int(dut.m[1].value)")
        + "dut.m[1].value = Release(); dut.clk.value = 0; " + STEP + shown("int(dut.m[1].value)") + "dut.clk.value = 1; " + STEP + shown("int(dut.m[1].value)", "dut.m[0].value"),
        passing(4, "2 INFO 9", "3 INFO 9", "4 INFO 3 xxxx"), (8, 0, 8), design=PARTS),
    row("a net of an instance is forced", "dut.u.i.value = Force(6); dut.a.value = 1; await ReadOnly(); " + shown("dut.u.i.value", "dut.y.value", A) + STEP
        + "dut.u.i.value = Release(); await ReadOnly(); " + shown("dut.u.i.value", "dut.y.value", A), passing(1, "0 INFO 0110 0110 0001", "1 INFO 0001 0001 0001"), (5, 0, 5), design=PARTS),
    tests("a forced signal stays forced in the next tests", {"one": "dut.a.value = Force(5); await ReadOnly()",
                                                           "two": shown(INT_A) + "dut.a.value = 7; await ReadOnly(); " + shown(INT_A),
                                                           "three": "dut.a.value = Release(); await ReadOnly(); " + shown(INT_A)},
          ["0 TEST one", "0 PASS one", "1 TEST two", "1 INFO 5", "1 INFO 5", "1 PASS two", "2 TEST three", "2 INFO 7", "2 PASS three", report(3, 3, 0, 0, 2)], (8, 0, 8)),
    tests("a signal stays forced where its test failed", {"one": "dut.a.value = Force(5); await ReadOnly(); dut.a.value = Release()", "two": now("a", 7) + shown(INT_A)},
          ["0 TEST one", "0 FAIL one (ReadOnlyWrite: top.a)", "1 TEST two", "1 INFO 5", "1 PASS two", report(2, 1, 1, 0, 1)], (3, 0, 3)),
]

WOKEN = [
    row("a Force is an edge to who waits for it", "cocotb.start_soon(e(dut)); " + STEP + now("clk", "Force(1)") + said("forced") + STEP, passing(2, "1 INFO forced", "1 INFO rise"), (3, 0, 3), RISE),
    row("a Release of a net is an edge to who waits for it", now("clk", 0) + now("clk", "Force(1)") + "cocotb.start_soon(e(dut)); " + STEP + now("clk", "Release()") + said("released") + STEP,
        passing(2, "1 INFO released", "1 INFO fall"), (3, 0, 3), FALL),
    row("a Release of a register is no edge", now("q", 1) + now("q", "Force(5)") + now("q", 2) + "cocotb.start_soon(f(dut)); " + STEP + now("q", "Release()") + STEP, passing(2), (3, 1, 2),
        function("f(dut)", "await Edge(dut.q); " + said("edge"))),
    row("a hidden write is no edge", now("a", "Force(5)") + "cocotb.start_soon(e(dut)); " + STEP + now("a", 6) + "dut.a.value = 7; " + STEP, passing(2), (4, 1, 3), EDGE),
    row("a Force to what is shown is no edge", now("a", 5) + "cocotb.start_soon(e(dut)); " + STEP + now("a", "Force(5)") + STEP, passing(2), (3, 1, 2), EDGE),
    row("a Freeze is no edge", now("a", 5) + "cocotb.start_soon(e(dut)); " + STEP + "dut.a.value = Freeze(); " + STEP, passing(2), (4, 1, 3), EDGE),
    row("the design sees a Force", now("a", 5) + now("clk", 0) + STEP + now("clk", "Force(1)") + "await ReadOnly(); " + shown(INT_Q), passing(1, "1 INFO 5"), (2, 0, 2)),
    row("the design sees a Release", now("a", 5) + now("clk", 1) + now("clk", "Force(0)") + STEP + now("clk", "Release()") + "await ReadOnly(); " + shown(INT_Q), passing(1, "1 INFO 5"), (2, 0, 2)),
    # the clock writes 1 at 0, 4 and 8, and 0 at 2 and 6
    row("a forced clock stands still, and its last write shows at its release", 'dut.a.value = 5; cocotb.start_soon(Clock(dut.clk, 4, "step").start()); await Timer(3, "step"); '
        + 'dut.clk.value = Force(0); try: { await with_timeout(RisingEdge(dut.clk), 6, "step") } except SimTimeoutError: { ' + shown("dut.clk.value") + "}; "
        "dut.a.value = 7; dut.clk.value = Release(); await RisingEdge(dut.clk); await ReadOnly(); " + shown(INT_Q), passing(9, "9 INFO 0", "9 INFO 7")),
    row("a clock's write takes the place of a Force that was staged in its time step", 'cocotb.start_soon(Clock(dut.clk, 2, "step").start()); ' + STEP
        + "dut.clk.value = Force(1); await ReadWrite(); " + shown("dut.clk.value") + "await RisingEdge(dut.clk); " + said("rise"), passing(2, "1 INFO 0", "2 INFO rise")),
    row("a Force that is staged behind a clock's write takes its place", 'await cocotb.start(Clock(dut.clk, 2, "step").start()); ' + STEP
        + 'dut.clk.value = Force(1); await Timer(3, "step"); ' + shown("dut.clk.value"), passing(4, "4 INFO 1")),
]

COUNTED = [
    row("a Force and a Release that are done count as deposits", "await cocotb.start(f(dut)); " + now("a", "Force(1)") + STEP + now("a", "Release()"), passing(1), (3, 0, 3),
        function("f(dut)", "await Edge(dut.a); await Edge(dut.a)")),
    # the edge of a ends the First before clk is forced
    row("two staged Forces of one phase are two effects", "await cocotb.start(f(dut)); dut.a.value = Force(1); dut.clk.value = Force(1); " + STEP, passing(1), (4, 1, 3),
        function("f(dut)", "await First(Edge(dut.a), Edge(dut.clk))")),
    row("changes by Force and Release are told", now("a", 1) + now("a", "Force(5)") + now("a", 2) + now("a", "Freeze()") + now("a", "Release()"),
        told(0, "0 SIG top.a 00000001", "0 SIG top.a 00000101", "0 SIG top.a 00000010"), (0, 0, 0), trace=True),
    row("a change by Force is told before those that follow from it", "dut.a.value = 0; " + STEP + "dut.a.value = Force(1); dut.q.value = Force(1); " + STEP + "dut.q.value = Release()",
        told(2, "0 SIG top.y x", "0 SIG top.q 0", "0 SIG top.a 0", "0 SIG top.y 1", "1 SIG top.a 1", "1 SIG top.q 1", "1 SIG top.y 0"), (5, 1, 4), design=INVERTER, trace=True),
    row("what is hidden is told at the release of a net alone", "dut.a.value = 0; " + STEP + "dut.y.value = Force(0); dut.q.value = Freeze(); " + STEP + "dut.a.value = 1; dut.q.value = 1; " + STEP
        + "dut.a.value = 0; " + STEP + "dut.y.value = Release(); dut.q.value = Release(); " + STEP,
        told(5, "0 SIG top.y x", "0 SIG top.q 0", "0 SIG top.a 0", "0 SIG top.y 1", "1 SIG top.y 0", "2 SIG top.a 1", "3 SIG top.a 0", "4 SIG top.y 1"), (10, 0, 10),
        design=INVERTER, trace=True),
    row("the budget ends with a Force", "dut.a.value = 0; " + STEP + "dut.a.value = Force(1); " + STEP, ["0 TEST t", "0 SIG top.a 00000000", "BUDGET 5"], (3, 0, 2), budget=5, cost=5, trace=True),
]

FORCES = [*WORKED, *GIVEN, *REFUSED, *STAGED, *FORCED, *WOKEN, *COUNTED]
