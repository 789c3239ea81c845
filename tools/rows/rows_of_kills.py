"""Runs on kills: each kind of waiting, killed before the task's first turn, while it waits, and when it was woken but had no turn since.

In each of them the task would log `alive` if it went on, and the test goes on for three steps behind the kill. Behind these stand waits at queues, with
a staged Force, and for the update of a delayed assignment. Lines by hand.
"""
from collections import namedtuple

from rows.row_texts import DESIGN, HEADER, MORE, Row, failing, function, passing, test

# waits: what the task awaits; high: what the helper writes to clk at 2; wakes: what the test does until the task was woken;
# first: does the task have its first turn before that; at: the time at which the task was woken
Kind = namedtuple("Kind", "name waits wakes at high first", defaults=(1, False))

KINDS = [
    Kind("a Timer", 'Timer(2, "step")', 'await Timer(2, "step")', 2),
    Kind("a RisingEdge", "RisingEdge(dut.clk)", "await RisingEdge(dut.clk)", 2),
    Kind("a FallingEdge", "FallingEdge(dut.clk)", "await FallingEdge(dut.clk)", 2, 0),
    Kind("an Edge", "Edge(dut.clk)", "await Edge(dut.clk)", 2),
    Kind("ReadWrite", "ReadWrite()", "await ReadWrite()", 0),
    Kind("ReadOnly", "ReadOnly()", "await ReadOnly()", 0),
    Kind("NextTimeStep", "NextTimeStep()", "await NextTimeStep()", 2),
    Kind("ClockCycles", "ClockCycles(dut.clk, 1)", "await RisingEdge(dut.clk)", 2),
    Kind("the wait of an event", "e.wait()", "e.set()", 0, 1, True),
    Kind("the acquire of a lock", "l.acquire()", "l.release()", 0, 1, True),
    Kind("a Join", "Join(j)", "await Join(j)", 2),
    Kind("a First", 'First(RisingEdge(dut.clk), Timer(2, "step"), Join(j))', 'await Timer(2, "step")', 2),
    Kind("a Combine", 'Combine(Timer(1, "step"), Timer(2, "step"), e.wait())', 'e.set(); await Timer(2, "step")', 2),
    Kind("with_timeout of a trigger", 'with_timeout(Timer(2, "step"), 9, "step")', 'await Timer(2, "step")', 2),
    Kind("with_timeout of a call", 'with_timeout(inner(dut), 9, "step")', 'await Timer(1, "step"); await Timer(1, "step")', 2),
]
HELPER = function("h(dut, n)", 'await Timer(2, "step"); dut.clk.setimmediatevalue(n); return n') + function("inner(dut)", 'await Timer(2, "step")')
SETUP = "e = Event(); l = Lock(); await l.acquire(); j = cocotb.start_soon(h(dut, %d)); "
SOON, FIRST_TURN = "k = cocotb.start_soon(v(dut, e, l, j)); ", "k = await cocotb.start(v(dut, e, l, j)); "
BEHIND = 'k.kill(); dut._log.info(f"{k.done()}"); await Timer(3, "step")'


def killed(kind, rule, start, wakes, time):
    victim = function("v(dut, e, l, j)", f'await {kind.waits}; dut._log.info("alive")')
    body = SETUP % kind.high + start + (wakes + "; " if wakes else "") + BEHIND
    return Row(f"{kind.name}, killed {rule}", HEADER + MORE + HELPER + victim + test(body), passing(time + 3, f"{time} INFO True"), keys=True)


BEFORE = [killed(kind, "before its first turn", SOON, "", 0) for kind in KINDS]
WHILE = [killed(kind, "while it waits", FIRST_TURN, "", 0) for kind in KINDS]
WOKEN = [killed(kind, "when it was woken", FIRST_TURN if kind.first else SOON, kind.wakes, kind.at) for kind in KINDS]

# `p` has no item, and `r` no room; the rise of `clk` at 1 gives `q` an update for 3, which is 1 where it isn't forced
LATE_FLOP = "module top(input clk, input [7:0] a, output reg q);\n  initial q = 0;\n  always @(posedge clk) q <= #2 1;\nendmodule\n"
QUEUES = "from cocotb.queue import Queue\nfrom cocotb.handle import Force\n"
RISES = 'dut.clk.setimmediatevalue(0); await Timer(1, "step"); dut.clk.setimmediatevalue(1); '
OTHER_KINDS = [
    (DESIGN, "", 0, Kind("a get of an empty queue", "p.get()", "p.put_nowait(1)", 0, 1, True)),
    (DESIGN, "", 0, Kind("a put to a full queue", "r.put(2)", "x = r.get_nowait()", 0, 1, True)),
    (LATE_FLOP, RISES, 1, Kind("an edge of a delayed update", "RisingEdge(dut.q)", "await RisingEdge(dut.q)", 3)),
    # the victim has its turn before the test has the next one, so it isn't killed between
    (LATE_FLOP, RISES + "dut.q.value = Force(1); ", 1, Kind("an edge that a staged Force makes", "RisingEdge(dut.q)", None, 1)),
]


def killed_beside(design, before, begun, kind, rule, start, wakes, time):
    """The same with two queues, on a design of its own, behind what brings the test to the time at which it begins."""
    victim = function("v(dut, p, r)", f'await {kind.waits}; dut._log.info("alive")')
    queues, started = "p = Queue(); r = Queue(1); r.put_nowait(1); ", start.replace("(dut, e, l, j)", "(dut, p, r)")
    body, end = queues + before + started + (wakes + "; " if wakes else "") + BEHIND, max(time, begun)
    lines = passing(end + 3, f"{end} INFO True")
    return Row(f"{kind.name}, killed {rule}", HEADER + MORE + QUEUES + victim + test(body), lines, keys=True, design=design)


OTHERS_BEFORE = [killed_beside(*kind, "before its first turn", SOON, "", 0) for kind in OTHER_KINDS]
OTHERS_WHILE = [killed_beside(*kind, "while it waits", FIRST_TURN, "", 0) for kind in OTHER_KINDS]
OTHERS_WOKEN = [
    killed_beside(*kind, "when it was woken", FIRST_TURN if kind[3].first else SOON, kind[3].wakes, kind[3].at) for kind in OTHER_KINDS[:3]
]


def row(rule, functions, body, lines, counts=None):
    return Row(rule, HEADER + MORE + functions + test(body), lines, counts, keys=True)


LATE = function("late(dut)", 'await Timer(5, "step"); dut._log.info("late")')
OTHERS = [
    row("a second kill does nothing", LATE, 'k = cocotb.start_soon(late(dut)); await Timer(1, "step"); k.kill(); k.kill(); dut._log.info(f"{k.done()}")',
        passing(1, "1 INFO True"), (2, 1, 1)),
    row("a kill of a task that has ended does nothing", LATE, 'k = cocotb.start_soon(late(dut)); await k; k.kill(); r = await k; dut._log.info(f"{r}")',
        passing(5, "5 INFO late", "5 INFO None"), (1, 0, 1)),
    row("the join of a killed task gives None", LATE + function("j(dut, k)", 'r = await k; dut._log.info(f"{r}")'),
        'k = cocotb.start_soon(late(dut)); cocotb.start_soon(j(dut, k)); await Timer(1, "step"); k.kill(); await Timer(1, "step")',
        passing(2, "1 INFO None"), (3, 1, 2)),
    row("a killed task's lock stays held", function("h(dut, l)", 'async with l: { await Timer(9, "step") }'),
        'l = Lock(); k = cocotb.start_soon(h(dut, l)); await Timer(1, "step"); k.kill(); dut._log.info(f"{l.locked}"); l.release(); '
        'dut._log.info(f"{l.locked}")', passing(1, "1 INFO True", "1 INFO False"), (2, 1, 1)),
    row("no handler of a killed task runs", function("h(dut)", 'try: { await Timer(9, "step") } except: { dut._log.info("handled") }; dut._log.info("on")'),
        'k = cocotb.start_soon(h(dut)); await Timer(1, "step"); k.kill(); await Timer(9, "step")', passing(10), (3, 1, 2)),
    row("a key that another task awaits too stays registered", LATE, 'k = cocotb.start_soon(late(dut)); cocotb.start_soon(late(dut)); await Timer(1, "step"); '
        'k.kill(); await Timer(5, "step")', passing(6, "5 INFO late"), (3, 0, 3)),
    row("a task that was woken by a fired limit and killed before its turn doesn't kill what it started", LATE + function(
        "v(dut)", 'await with_timeout(late(dut), 2, "step")'), 'k = cocotb.start_soon(v(dut)); await Timer(2, "step"); k.kill(); await Timer(9, "step")',
        passing(11, "5 INFO late"), (3, 0, 3)),
    row("the kill by with_timeout comes in the turn of the task that waits", LATE + function(
        "v(dut)", 'try: { await with_timeout(late(dut), 2, "step") } except SimTimeoutError: { dut._log.info("out") }'),
        'cocotb.start_soon(v(dut)); await Timer(9, "step")', passing(9, "2 INFO out"), (3, 1, 2)),
    # the lock is granted to the task that is to be killed, between the fired limit and the turn of the task that waits
    row("a task may still get a lock between the fired limit and its kill", function("inner(dut, l)", 'await l.acquire(); dut._log.info("alive")') + function(
        "v(dut, l)", 'try: { await with_timeout(inner(dut, l), 2, "step") } except SimTimeoutError: { dut._log.info(f"out {l.locked}") }') + function(
        "x(dut, l)", 'await Timer(2, "step"); l.release(); dut._log.info(f"{l.locked}")'), 'l = Lock(); await l.acquire(); cocotb.start_soon(x(dut, l)); '
        'cocotb.start_soon(v(dut, l)); await Timer(5, "step")', passing(5, "2 INFO True", "2 INFO out True"), (2, 0, 2)),
    row("a kill of the task that a Combine waits for lets it go on", LATE + function(
        "c(dut, k)", 'await Combine(k, Timer(3, "step")); dut._log.info("both")'), 'k = cocotb.start_soon(late(dut)); m = cocotb.start_soon(c(dut, k)); '
        'await Timer(1, "step"); k.kill(); await Timer(5, "step")', passing(6, "3 INFO both"), (4, 1, 3)),
    row("a fault of a killed task's joiner is its own", LATE + function("j(dut, k)", 'await k; raise ValueError("mine")'),
        'k = cocotb.start_soon(late(dut)); cocotb.start_soon(j(dut, k)); await Timer(1, "step"); k.kill(); await Timer(1, "step")',
        failing(1, "ValueError: mine"), (3, 2, 1)),
]
KILLS = [*BEFORE, *WHILE, *WOKEN, *OTHERS, *OTHERS_BEFORE, *OTHERS_WHILE, *OTHERS_WOKEN]
