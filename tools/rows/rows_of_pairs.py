"""`First` and `Combine` of each two things that a task waits for. The rule tells the time at which they are done, which was worked out by hand.

A helper raises the clock at 1, lowers it and sets the event at 2, and at 3 raises the clock again, changes `a` and releases the lock; a task ends
at 2. A `Combine` of the lock and the lock is left out, since it would want two releases.
"""
from rows.row_texts import HEADER, MORE, Row, function, test

# the name, the expression, and the time at which it is done
KINDS = [
    ("a Timer", 'Timer(2, "step")', 2), ("a later Timer", 'Timer(3, "step")', 3), ("a RisingEdge", "RisingEdge(dut.clk)", 1),
    ("a FallingEdge", "FallingEdge(dut.clk)", 2), ("an Edge", "Edge(dut.a)", 3), ("ReadWrite", "ReadWrite()", 0), ("ReadOnly", "ReadOnly()", 0),
    ("NextTimeStep", "NextTimeStep()", 1), ("ClockCycles", "ClockCycles(dut.clk, 2)", 3), ("an event", "e.wait()", 2), ("a lock", "l.acquire()", 3),
    ("a join", "Join(j)", 2),
]
HELPER = function(
    "h(dut, e, l)", 'await Timer(1, "step"); dut.clk.setimmediatevalue(1); await Timer(1, "step"); dut.clk.setimmediatevalue(0); e.set(); '
    'await Timer(1, "step"); dut.clk.setimmediatevalue(1); dut.a.setimmediatevalue(1); l.release()') + function("task(dut)", 'await Timer(2, "step"); return 7')
SETUP = "e = Event(); l = Lock(); await l.acquire(); j = await cocotb.start(task(dut)); await cocotb.start(h(dut, e, l)); "


def row(form, first, second, done):
    (left, one, _), (right, other, _) = first, second
    body = f"p = {one}; q = {other}; c = {form}(p, q); r = await c; " + 'dut._log.info(f"{r} {r is p} {r is q} {r is c}"); await Timer(5, "step"); ' + (
        'dut._log.info(f"{l.locked}")')
    return Row(f"{form} of {left} and {right} is done at {done}", HEADER + MORE + HELPER + test(SETUP + body), None)


PAIRS = [row("First", first, second, min(first[2], second[2])) for first in KINDS for second in KINDS]
PAIRS += [
    row("Combine", first, second, max(first[2], second[2])) for at, first in enumerate(KINDS) for second in KINDS[at:]
    if not first[0] == second[0] == "a lock"
]
