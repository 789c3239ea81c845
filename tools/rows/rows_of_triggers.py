"""Runs on what a task waits for: each kind of leaf alone, `First` and `Combine` of two, ties, limits, phases. Lines and counts by hand.

The counts are (registered, removed, fired). The comment at a group says how they come about.
"""
from rows.row_texts import HEADER, MORE, Row, failing, function, passing, test

ALL = HEADER + MORE
# a second task drives the clock: up at 1, down at 2, up at 3
DRIVE = function("drive(dut)", "for i in range(3): { await Timer(1, \"step\"); dut.clk.setimmediatevalue((i + 1) % 2) }")
WITH_DRIVE = "cocotb.start_soon(drive(dut)); "


def row(rule, body, lines, counts, functions="", **more):
    return Row(rule, ALL + functions + test(body), lines, counts, **more)


def driven(rule, body, lines, counts, **more):
    return row(rule, WITH_DRIVE + body, lines, counts, DRIVE, **more)


# One key each. Where the drive runs it has registered and fired At(1), At(2), At(3) if the test is long enough, and what is
# pending at the end is removed.
LEAVES = [
    # At(3)
    row("a Timer", 'await Timer(3, "step"); dut._log.info("x")', passing(3, "3 INFO x"), (1, 0, 1)),
    row("a Timer of nanoseconds", 'await Timer(3, "ns"); dut._log.info(f"{get_sim_time()}")', passing(3, "3 INFO 3"), (1, 0, 1),
        "\nfrom cocotb.utils import get_sim_time\n"),
    # Rise, At(1); both fire; the drive registers At(2), removed
    driven("a RisingEdge", 'await RisingEdge(dut.clk); dut._log.info(f"{dut.clk.value}")', passing(1, "1 INFO 1"), (3, 1, 2)),
    # Fall, At(1), At(2) fire, At(3) is removed
    driven("a FallingEdge", 'await FallingEdge(dut.clk); dut._log.info(f"{dut.clk.value}")', passing(2, "2 INFO 0"), (4, 1, 3)),
    driven("an Edge", 'await Edge(dut.clk); dut._log.info(f"{dut.clk.value}")', passing(1, "1 INFO 1"), (3, 1, 2)),
    # Rise(clk) twice, At(1), At(2), At(3) fire; the drive ends with its last write
    driven("a ClockCycles of rises", 'await ClockCycles(dut.clk, 2); dut._log.info("x")', passing(3, "3 INFO x"), (5, 0, 5)),
    driven("a ClockCycles of falls", 'await ClockCycles(dut.clk, 1, rising=False); dut._log.info("x")', passing(2, "2 INFO x"), (4, 1, 3)),
    # ReadWrite; ReadOnly; NextStep with At(1)
    row("ReadWrite", 'await ReadWrite(); dut._log.info("x")', passing(0, "0 INFO x"), (1, 0, 1)),
    row("ReadOnly", 'await ReadOnly(); dut._log.info("x")', passing(0, "0 INFO x"), (1, 0, 1)),
    driven("NextTimeStep", 'await NextTimeStep(); dut._log.info("x")', passing(1, "1 INFO x"), (2, 0, 2)),
    # an event has no key: At(1) alone, and what the drive has
    row("the wait of an event", 'e = Event(); cocotb.start_soon(later(dut, e)); await e.wait(); dut._log.info("x")', passing(1, "1 INFO x"), (1, 0, 1),
        function("later(dut, e)", 'await Timer(1, "step"); e.set()')),
    # Change(a) and ReadWrite, and Change fires as the write goes out
    row("an Edge of a wide signal", 'dut.a.value = 1; await Edge(dut.a); dut._log.info(f"{dut.a.value}")', passing(0, "0 INFO 00000001"), (2, 0, 2)),
    # NextStep alone makes no time step: it is removed with the test
    row("NextTimeStep with nothing else", "await NextTimeStep()", failing(0, "Stalled"), (1, 1, 0)),
    row("an edge that never comes", "await RisingEdge(dut.clk)", failing(0, "Stalled"), (1, 1, 0)),
]

# First: what isn't done is removed. Combine: all fire.
GROUPS = [
    row("First of two Timers", 'r = await First(Timer(2, "step"), Timer(3, "step")); dut._log.info("x"); await Timer(5, "step")',
        passing(7, "2 INFO x"), (3, 1, 2)),
    row("First gives its part", 's = Timer(2, "step"); r = await First(Timer(3, "step"), s); dut._log.info(f"{r is s}")', passing(2, "2 INFO True"), (2, 1, 1)),
    driven("First of a Timer and an edge", 'e = RisingEdge(dut.clk); r = await First(Timer(9, "step"), e); dut._log.info(f"{r is e}")',
           passing(1, "1 INFO True"), (4, 2, 2)),
    driven("First of an edge and a phase", 'p = ReadOnly(); r = await First(RisingEdge(dut.clk), p); dut._log.info(f"{r is p}")',
           passing(0, "0 INFO True"), (3, 2, 1)),
    driven("First of NextTimeStep and a Timer of that time", 'n = NextTimeStep(); r = await First(Timer(1, "step"), n); dut._log.info(f"{r is n}")',
           passing(1, "1 INFO True"), (2, 0, 2)),
    driven("First of an event and an edge", 'e = Event(); r = await First(e.wait(), RisingEdge(dut.clk)); dut._log.info(f"{r is RisingEdge(dut.clk)}")',
           passing(1, "1 INFO True"), (3, 1, 2)),
    # the event is set, so the Timer to its right never begins: no key at all
    row("First begins no part behind one that is done", 'e = Event(); e.set(); await First(e.wait(), Timer(3, "step")); dut._log.info("x")',
        passing(0, "0 INFO x"), (0, 0, 0)),
    # the edge is registered before the part that is done, as one effect with its end: no key is ever awaited
    row("First drops the parts before one that is done", 'e = Event(); e.set(); await First(Timer(3, "step"), e.wait()); dut._log.info("x")',
        passing(0, "0 INFO x"), (0, 0, 0)),
    row("Combine of two Timers", 'c = Combine(Timer(2, "step"), Timer(3, "step")); r = await c; dut._log.info(f"{r is c}")', passing(3, "3 INFO True"), (2, 0, 2)),
    row("Combine of two equal Timers", 'await Combine(Timer(2, "step"), Timer(2, "step")); dut._log.info("x")', passing(2, "2 INFO x"), (1, 0, 1)),
    driven("Combine of a rise and a fall", 'await Combine(RisingEdge(dut.clk), FallingEdge(dut.clk)); dut._log.info("x")', passing(2, "2 INFO x"), (5, 1, 4)),
    # At(2) is the key of the drive's second Timer too
    driven("Combine of an edge and a Timer", 'await Combine(RisingEdge(dut.clk), Timer(2, "step")); dut._log.info("x")', passing(2, "2 INFO x"), (3, 0, 3)),
    row("Combine of two phases", 'await Combine(ReadOnly(), ReadWrite()); dut._log.info("x")', passing(0, "0 INFO x"), (2, 0, 2)),
    row("Combine of an event that is set and a Timer", 'e = Event(); e.set(); await Combine(e.wait(), Timer(2, "step")); dut._log.info("x")',
        passing(2, "2 INFO x"), (1, 0, 1)),
    # the inner First ends at 2 and removes At(9)
    row("First inside Combine", 'await Combine(First(Timer(2, "step"), Timer(9, "step")), Timer(3, "step")); dut._log.info("x")', passing(3, "3 INFO x"), (3, 1, 2)),
    row("Combine inside First", 'await First(Combine(Timer(2, "step"), Timer(3, "step")), Timer(9, "step")); dut._log.info("x")', passing(3, "3 INFO x"), (3, 1, 2)),
    # At(4) is removed at 2: the next event is at 9
    row("what is left of a part that is done is awaited no more", 'await Combine(First(Timer(2, "step"), Timer(4, "step")), Timer(9, "step")); dut._log.info("x")',
        passing(9, "9 INFO x"), (3, 1, 2), cost=4),
    row("what is left of a Combine with a fault is awaited no more", 'j = cocotb.start_soon(bad(dut)); try: { await First(Combine(j, Timer(4, "step")), '
        'Timer(9, "step")) } except ValueError: { dut._log.info("x") }; await Timer(6, "step")', passing(8, "2 INFO x"), (4, 2, 2),
        function("bad(dut)", 'await Timer(2, "step"); raise ValueError')),
    row("First of nothing", "await First()", failing(0, "ValueError"), (0, 0, 0)),
    row("Combine of nothing", "await Combine()", failing(0, "ValueError"), (0, 0, 0)),
]

# One key for several leaves counts once. Keys of one change: Rise or Fall, then Change.
TIES = [
    row("one key in two parts: the leftmost", 'u = Timer(5, "step"); v = Timer(5, "step"); r = await First(u, v); dut._log.info(f"{r is u} {r is v}")',
        passing(5, "5 INFO True False"), (1, 0, 1)),
    # Rise fires first, though the Edge stands before it
    driven("two keys of one change: the rise comes before the change", 'r = await First(Edge(dut.clk), RisingEdge(dut.clk)); '
           'dut._log.info(f"{r is RisingEdge(dut.clk)}")', passing(1, "1 INFO True"), (4, 1, 3)),
    # At(2) is the key of all three, and the test's own task waits first: the others have their first turns behind it
    row("tasks that wait for one key wake in the order of their awaits", 'cocotb.start_soon(w(dut, 1)); cocotb.start_soon(w(dut, 2)); await Timer(2, "step"); '
        'dut._log.info("0"); await Timer(1, "step")', passing(3, "2 INFO 0", "2 INFO 1", "2 INFO 2"), (2, 0, 2),
        function("w(dut, n)", 'await Timer(2, "step"); dut._log.info(f"{n}")')),
    # ReadWrite by the write; ReadWrite awaited; Change(a)
    row("who waits for the change of a staged write wakes before who waits for the phase",
        'cocotb.start_soon(p(dut)); cocotb.start_soon(c(dut)); dut.a.value = 1; await Timer(1, "step")', passing(1, "0 INFO change", "0 INFO phase"), (3, 0, 3),
        function("p(dut)", 'await ReadWrite(); dut._log.info("phase")') + function("c(dut)", 'await Edge(dut.a); dut._log.info("change")')),
    # Rise is awaited again by the ClockCycles: registered anew, not removed
    driven("a key that is awaited again is registered anew", 'cocotb.start_soon(one(dut)); await ClockCycles(dut.clk, 2); dut._log.info("two")',
           passing(3, "1 INFO one", "3 INFO two"), (5, 0, 5)),
]
TIES[-1] = TIES[-1]._replace(tests=ALL + DRIVE + function("one(dut)", 'await RisingEdge(dut.clk); dut._log.info("one")') + test(
    WITH_DRIVE + 'cocotb.start_soon(one(dut)); await ClockCycles(dut.clk, 2); dut._log.info("two")'))

LIMITS = [
    row("a limit that doesn't fire", 't = Timer(2, "step"); r = await with_timeout(t, 5, "step"); dut._log.info(f"{r is t}")', passing(2, "2 INFO True"), (2, 1, 1)),
    row("a limit that fires", 'await with_timeout(Timer(9, "step"), 4, "step")', failing(4, "SimTimeoutError"), (2, 1, 1)),
    row("a limit at the time of what it limits doesn't fire", 'await with_timeout(Timer(4, "step"), 4, "step"); dut._log.info("x")',
        passing(4, "4 INFO x"), (1, 0, 1)),
    row("a limit of an edge that never comes", 'try: { await with_timeout(RisingEdge(dut.clk), 3, "step") } except SimTimeoutError: { dut._log.info("out") }',
        passing(3, "3 INFO out"), (2, 1, 1)),
    # At(5) outside of the inner call's At(3), which fires; the join has no key
    row("a limit inside of a limit: the inner fires", 'try: { await with_timeout(inner(dut), 5, "step") } except SimTimeoutError: { dut._log.info("outer") }; '
        'dut._log.info("end")', passing(3, "3 INFO inner", "3 INFO end"), (3, 2, 1),
        function("inner(dut)", 'try: { await with_timeout(Timer(9, "step"), 3, "step") } except SimTimeoutError: { dut._log.info("inner") }')),
    # At(2) outside, At(9) and At(3) inside, which the kill removes
    row("a limit inside of a limit: the outer fires", 'try: { await with_timeout(inner(dut), 2, "step") } except SimTimeoutError: { dut._log.info("outer") }; '
        'dut._log.info("end")', passing(2, "2 INFO outer", "2 INFO end"), (3, 2, 1),
        function("inner(dut)", 'try: { await with_timeout(Timer(9, "step"), 3, "step") } except SimTimeoutError: { dut._log.info("inner") }')),
    row("a limit of a time below 1 is refused before its call starts", 'try: { await with_timeout(f(dut), 0, "step") } except ValueError: { dut._log.info("no") }; '
        'await Timer(1, "step")', passing(1, "0 INFO no"), (1, 0, 1), function("f(dut)", 'dut._log.info("started")')),
    row("the operands of a limit come before its kinds, and these before its time", 'try: { await with_timeout(5, 1 // 0, "step") } except ZeroDivisionError: { '
        'dut._log.info("operand") }; try: { await with_timeout(5, 0, "step") } except TypeError: { dut._log.info("kind") }; try: { await with_timeout('
        'Timer(1), 0, 5) } except TypeError: { dut._log.info("unit") }; await with_timeout(Timer(1), 0, "step")',
        failing(0, "ValueError", "0 INFO operand", "0 INFO kind", "0 INFO unit"), (0, 0, 0)),
    row("a limit whose due time is too late leaves the task that it started", 'await Timer(1, "step"); try: { await with_timeout(f(dut), 4611686018427387904, '
        '"step") } except OverflowError: { dut._log.info("no") }; await Timer(1, "step")', passing(2, "1 INFO no", "1 INFO started"), (2, 0, 2),
        function("f(dut)", 'dut._log.info("started")')),
]

PHASES = [
    row("ReadWrite in the read-only phase", 'await ReadOnly(); try: { await ReadWrite() } except RuntimeError: { dut._log.info("no") }',
        passing(0, "0 INFO no"), (1, 0, 1)),
    row("ReadOnly in the read-only phase", "await ReadOnly(); await ReadOnly()", failing(0, "RuntimeError"), (1, 0, 1)),
    row("a refused leaf to the right begins none to its left", 'await ReadOnly(); try: { await First(Timer(1, "step"), ReadOnly()) } '
        'except RuntimeError: { dut._log.info("no") }', passing(0, "0 INFO no"), (1, 0, 1)),
    row("a staged write in the read-only phase", 'await ReadOnly(); try: { dut.a.value = 1 } except: { dut._log.info("caught") }',
        failing(0, "ReadOnlyWrite: top.a"), (1, 0, 1)),
    row("a write at once in the read-only phase", "await ReadOnly(); dut.a.setimmediatevalue(1)", failing(0, "ReadOnlyWrite: top.a"), (1, 0, 1)),
    row("a refused value in the read-only phase is a fault like any other", 'await ReadOnly(); try: { dut.a.value = 256 } except OverflowError: '
        '{ dut._log.info("no") }', passing(0, "0 INFO no"), (1, 0, 1)),
    row("ReadWrite twice in one time", 'await ReadWrite(); dut.a.value = 1; await ReadWrite(); dut._log.info(f"{dut.a.value}")',
        passing(0, "0 INFO 00000001"), (2, 0, 2)),
    row("an immediate write is seen at once", 'dut.a.setimmediatevalue(7); dut._log.info(f"{dut.a.value}"); dut.a.value = 8; dut._log.info(f"{dut.a.value}")',
        passing(0, "0 INFO 00000111", "0 INFO 00000111"), (1, 1, 0)),
    # ReadOnly, At(1), then ReadWrite at 1
    row("after the read-only phase a new time is open", 'await ReadOnly(); await Timer(1, "step"); dut.a.value = 3; await ReadWrite(); '
        'dut._log.info(f"{int(dut.a.value)}")', passing(1, "1 INFO 3"), (3, 0, 3)),
    # Rise(clk), ReadWrite by the write; q isn't changed yet where the edge is seen
    row("at an edge a register still has its old value", 'dut.a.value = 5; dut.clk.value = 0; await Timer(1, "step"); dut.clk.value = 1; '
        'await RisingEdge(dut.clk); dut._log.info(f"{dut.q.value}"); await ReadOnly(); dut._log.info(f"{dut.q.value}")',
        passing(1, "1 INFO xxxxxxxx", "1 INFO 00000101"), (5, 0, 5)),
    row("a fault of a value in a Timer", "await Timer(0)", failing(0, "ValueError"), (0, 0, 0)),
    row("an edge of a wide signal is refused", "await RisingEdge(dut.a)", failing(0, "TypeError"), (0, 0, 0)),
    row("ClockCycles of no edge is refused", "await ClockCycles(dut.clk, 0)", failing(0, "ValueError"), (0, 0, 0)),
]

# 64 leaves, and 64 triggers inside of one another, are the most
DOUBLED = 't = Timer(3, "step"); for i in range(6): { t = Combine(t, t) }; '
NESTED = 't = Timer(3, "step"); for i in range(63): { t = First(t) }; '
SIZES = [
    row("a tree of 64 leaves", DOUBLED + 'await t; dut._log.info("x")', passing(3, "3 INFO x"), (1, 0, 1)),
    row("a tree of 64 leaves that are written out", "t = First(" + ", ".join(f"Timer({at + 2})" for at in range(64)) + '); await t; dut._log.info("x")',
        passing(2, "2 INFO x"), (64, 63, 1)),
    row("a tree of 65 leaves", DOUBLED + 'try: { u = First(t, Edge(dut.a)) } except ValueError: { dut._log.info("no") }; u = First(t); dut._log.info("yes")',
        passing(0, "0 INFO no", "0 INFO yes"), (0, 0, 0)),
    row("64 triggers inside of one another", NESTED + 'await t; dut._log.info("x")', passing(3, "3 INFO x"), (1, 0, 1)),
    row("65 triggers inside of one another", NESTED + "t = Combine(t)", failing(0, "ValueError"), (0, 0, 0)),
    row("the time of a limit is a leaf", DOUBLED + 'await with_timeout(t, 9, "step")', failing(0, "ValueError"), (0, 0, 0)),
    row("a limit is one of the triggers inside of one another", NESTED + 'await with_timeout(t, 9, "step")', failing(0, "ValueError"), (0, 0, 0)),
    row("a trigger is awaited again", 't = Timer(2, "step"); await t; await t; r = await First(t, t); dut._log.info(f"{r is t}")', passing(6, "6 INFO True"), (3, 0, 3)),
    row("a trigger that two tasks await", 't = Timer(2, "step"); cocotb.start_soon(w(dut, t)); await Timer(1, "step"); await t; dut._log.info("t")',
        passing(3, "2 INFO w", "3 INFO t"), (3, 0, 3), function("w(dut, t)", 'await t; dut._log.info("w")')),
]

# with the changes of signals
TOLD = [
    row("writes go out in the order in which they were staged last", "dut.a.value = 1; dut.q.value = 2; dut.clk.value = 0; dut.a.value = 3; await ReadOnly()",
        passing(0, "0 SIG top.q 00000010", "0 SIG top.clk 0", "0 SIG top.a 00000011"), (2, 0, 2), trace=True),
    row("a write of the value that a signal has tells nothing and wakes nobody", 'dut.a.setimmediatevalue(1); cocotb.start_soon(w(dut)); await Timer(1, "step"); '
        'dut.a.value = 1; await Timer(1, "step")', passing(2, "0 SIG top.a 00000001"), (4, 1, 3), function("w(dut)", 'await Edge(dut.a); dut._log.info("w")'), trace=True),
    row("a change is told before whom it wakes goes on", 'cocotb.start_soon(w(dut)); await Timer(1, "step"); dut.a.setimmediatevalue(1); dut._log.info("t"); '
        'await Timer(1, "step")', passing(2, "1 SIG top.a 00000001", "1 INFO t", "1 INFO w"), (3, 0, 3), function("w(dut)", 'await Edge(dut.a); dut._log.info("w")'),
        trace=True),
    row("all staged writes go out before anybody goes on", 'cocotb.start_soon(w(dut)); dut.a.value = 1; dut.clk.value = 1; await Timer(1, "step")',
        passing(1, "0 SIG top.a 00000001", "0 SIG top.clk 1", "0 INFO w 1", "0 SIG top.q 00000001"), (3, 0, 3),
        function("w(dut)", 'await Edge(dut.a); dut._log.info(f"w {dut.clk.value}")'), trace=True),
    row("a register changes behind the edge, and those who wait for it go on then", 'dut.a.value = 5; cocotb.start_soon(c(dut)); cocotb.start_soon(q(dut)); '
        'dut.clk.value = 1; await Timer(1, "step")', passing(1, "0 SIG top.a 00000101", "0 SIG top.clk 1", "0 INFO clk xxxxxxxx", "0 SIG top.q 00000101",
        "0 INFO q 00000101"), (4, 0, 4), function("c(dut)", 'await RisingEdge(dut.clk); dut._log.info(f"clk {dut.q.value}")') + function(
        "q(dut)", 'await Edge(dut.q); dut._log.info(f"q {dut.q.value}")'), trace=True),
]

# how the test comes to a region at the time 1, and what it then does, with the time at which it goes on
# and how it is refused in the region End
REGIONS = {
    "Begin": 'await Timer(1, "step"); ',
    "Active": 'dut.a.value = 1; dut.clk.value = 0; await Timer(1, "step"); dut.clk.value = 1; await Edge(dut.q); ',
    "Settle": 'await Timer(1, "step"); await ReadWrite(); ',
    "End": 'await Timer(1, "step"); await ReadOnly(); ',
}
DEEDS = {
    "ReadWrite": ("await ReadWrite(); ", 1, "RuntimeError"), "ReadOnly": ("await ReadOnly(); ", 1, "RuntimeError"),
    "NextTimeStep": ("await NextTimeStep(); ", 3, None), "a Timer": ('await Timer(1, "step"); ', 2, None),
    "a staged write": ("dut.n.value = 9; await Edge(dut.n); ", 1, "ReadOnlyWrite: top.n"),
    "a write at once": ("dut.n.setimmediatevalue(9); ", 1, "ReadOnlyWrite: top.n"),
}
WITH_N = "module top(input clk, input [7:0] a, input [7:0] n, output reg [7:0] q);\n  always @(posedge clk) q <= a;\nendmodule\n"
LATE = function("late(dut)", 'await Timer(3, "step"); dut._log.info("late")')


def in_region(region, deed):
    body, time, refusal = DEEDS[deed]
    is_refused = region == "End" and refusal
    lines = failing(1, refusal) if is_refused else passing(time, f"{time} INFO x")
    text = "cocotb.start_soon(late(dut)); " + REGIONS[region] + body + 'dut._log.info("x")'
    return row(f"{deed} in the region {region}", text, lines, None, LATE, design=WITH_N)


IN_REGIONS = [in_region(region, deed) for region in REGIONS for deed in DEEDS]

TRIGGERS = [*LEAVES, *GROUPS, *TIES, *LIMITS, *PHASES, *SIZES, *TOLD, *IN_REGIONS]
