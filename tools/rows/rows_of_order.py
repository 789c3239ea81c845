"""Runs on the order of events, locks and joins, on `async with` and on faults that nobody joins. Lines by hand, counts where a key counts."""
from rows.row_texts import HEADER, Row, failing, function, passing, test

WAITER = function("w(dut, e, n)", 'await e.wait(); dut._log.info(f"{n}")')
TAKER = function("w(dut, l, n)", 'await l.acquire(); dut._log.info(f"got {n}")')
USER = function("u(dut, l, n)", 'async with l: { dut._log.info(f"in {n}"); await Timer(1, "step") }; dut._log.info(f"out {n}")')
BAD = function("bad(dut)", 'await Timer(1, "step"); raise ValueError("boom")')
GOOD = function("good(dut, n)", 'await Timer(n, "step"); return n')
SAYS = function("says(dut)", 'dut._log.info("other")')
NOW = function("now(dut)", "return 7")
THREE = "for i in range(3): { cocotb.start_soon(w(dut, %s, i)) }; "


def row(rule, functions, body, lines, counts=None, **more):
    return Row(rule, HEADER + functions + test(body), lines, counts, **more)


EVENTS = [
    row("an event wakes its waiters in the order of their awaits", WAITER, "e = Event(); " + THREE % "e" + 'await Timer(1, "step"); e.set(); '
        'dut._log.info("set"); await Timer(1, "step")', passing(2, "1 INFO set", "1 INFO 0", "1 INFO 1", "1 INFO 2"), (2, 0, 2)),
    row("an event that is set and cleared at once still wakes", WAITER, "e = Event(); " + THREE % "e" + 'await Timer(1, "step"); e.set(); e.clear(); '
        'await Timer(1, "step"); dut._log.info(f"{e.is_set()}")', passing(2, "1 INFO 0", "1 INFO 1", "1 INFO 2", "2 INFO False")),
    row("an event that is set doesn't give up the turn", SAYS, 'e = Event(); cocotb.start_soon(says(dut)); e.set(); await e.wait(); '
        'dut._log.info("first"); await Timer(1, "step")', passing(1, "0 INFO first", "0 INFO other"), (1, 0, 1)),
    row("an event that one task waits for twice in one tree", "", 'e = Event(); cocotb.start_soon(s(dut, e)); c = Combine(e.wait(), e.wait()); r = await c; '
        'dut._log.info(f"{r is c}")', passing(1, "1 INFO True"), (1, 0, 1)),
    row("the leftmost of two waits for one event", "", 'e = Event(); cocotb.start_soon(s(dut, e)); a = e.wait(); b = e.wait(); r = await First(b, a); '
        'dut._log.info(f"{r is a} {r is b}")', passing(1, "1 INFO False True")),
    row("a set event is set again without a wake", WAITER, "e = Event(); e.set(); e.set(); e.clear(); " + THREE % "e" + 'await Timer(1, "step")', passing(1)),
    row("an event inside a First with an edge", WAITER, 'e = Event(); cocotb.start_soon(s(dut, e)); await First(RisingEdge(dut.clk), e.wait()); '
        'dut._log.info("x")', passing(1, "1 INFO x"), (2, 1, 1)),
]
SETTER = function("s(dut, e)", 'await Timer(1, "step"); e.set()')
EVENTS = [each._replace(tests=each.tests.replace("\n@cocotb", SETTER + "\n@cocotb", 1)) for each in EVENTS]

LOCKS = [
    row("three waiters for one lock get it in the order of their awaits", TAKER, "l = Lock(); await l.acquire(); " + THREE % "l" + 'await Timer(1, "step"); '
        'for i in range(3): { l.release(); await Timer(1, "step") }', passing(4, "1 INFO got 0", "2 INFO got 1", "3 INFO got 2"), (4, 0, 4)),
    row("a released lock is held while somebody waits", TAKER, "l = Lock(); await l.acquire(); cocotb.start_soon(w(dut, l, 1)); "
        'await Timer(1, "step"); l.release(); dut._log.info(f"{l.locked}"); await Timer(1, "step"); l.release(); dut._log.info(f"{l.locked}")',
        passing(2, "1 INFO True", "1 INFO got 1", "2 INFO False")),
    row("a free lock is taken without giving up the turn", SAYS, 'l = Lock(); cocotb.start_soon(says(dut)); await l.acquire(); dut._log.info("mine"); '
        'l.release(); async with l: { dut._log.info(f"{l.locked}") }; await Timer(1, "step")', passing(1, "0 INFO mine", "0 INFO True", "0 INFO other"), (1, 0, 1)),
    row("release of a free lock", "", "l = Lock(); l.release()", failing(0, "TriggerException")),
    row("any task may release", function("r(dut, l)", "l.release()"), 'l = Lock(); await l.acquire(); cocotb.start_soon(r(dut, l)); await l.acquire(); '
        'dut._log.info("again")', passing(0, "0 INFO again")),
    row("a waiter inside a First gets the lock", "", 'l = Lock(); await l.acquire(); cocotb.start_soon(f(dut, l)); await Timer(1, "step"); l.release(); '
        'await Timer(1, "step"); dut._log.info(f"{l.locked}")', passing(2, "1 INFO first", "2 INFO True"), (3, 1, 2)),
    row("a First whose other part ends it leaves the lock to the next", TAKER, 'l = Lock(); await l.acquire(); cocotb.start_soon(f(dut, l)); '
        'cocotb.start_soon(w(dut, l, 2)); await Timer(7, "step"); l.release(); await Timer(1, "step")', passing(8, "5 INFO first", "7 INFO got 2"), (3, 0, 3)),
    row("a free lock in a First ends it, and the parts behind don't begin", "", 'l = Lock(); r = await First(l.acquire(), Timer(5, "step")); '
        'dut._log.info(f"{l.locked}")', passing(0, "0 INFO True"), (0, 0, 0)),
    row("a First doesn't take a free lock behind a part that is done", "", 'l = Lock(); e = Event(); e.set(); await First(e.wait(), l.acquire()); '
        'dut._log.info(f"{l.locked}")', passing(0, "0 INFO False")),
    row("two locks in one Combine", TAKER, 'a = Lock(); b = Lock(); await b.acquire(); cocotb.start_soon(c(dut, a, b)); await Timer(1, "step"); '
        'dut._log.info(f"{a.locked} {b.locked}"); b.release(); await Timer(1, "step"); dut._log.info(f"{a.locked} {b.locked}")',
        passing(2, "1 INFO True True", "1 INFO both", "2 INFO True True")),
    row("a part that is done is granted no lock", "", 'l = Lock(); await l.acquire(); cocotb.start_soon(o(dut, l)); await Timer(3, "step"); l.release(); '
        'dut._log.info(f"{l.locked}"); await Timer(9, "step")', passing(12, "3 INFO False", "9 INFO over"), (4, 0, 4)),
    row("one lock twice in one tree: each leaf wants a grant", "", 'l = Lock(); cocotb.start_soon(c(dut, l, l)); await Timer(1, "step"); l.release(); '
        'await Timer(1, "step"); dut._log.info(f"{l.locked}")', passing(2, "1 INFO both", "2 INFO True")),
    row("a lock that a done First took stays taken", "", 'l = Lock(); e = Event(); cocotb.start_soon(s(dut, e)); '
        'await First(Combine(l.acquire(), Timer(9, "step")), e.wait()); dut._log.info(f"{l.locked}")', passing(1, "1 INFO True"), (2, 1, 1)),
    # the First gets the lock at 1, the Combine at 2 but waits for its Timer, the last at 3
    row("three waiters for one lock, with a First, a Combine and nothing around it", TAKER + function(
        "k(dut, l)", 'await Combine(Timer(5, "step"), l.acquire()); dut._log.info("combined")'), 'l = Lock(); await l.acquire(); cocotb.start_soon(f(dut, l)); '
        'cocotb.start_soon(k(dut, l)); cocotb.start_soon(w(dut, l, 3)); for i in range(3): { await Timer(1, "step"); l.release() }; await Timer(9, "step")',
        passing(12, "1 INFO first", "3 INFO got 3", "5 INFO combined"), (5, 0, 5)),
    row("a lock that is granted inside of a First goes no further where the First is done", TAKER, 'l = Lock(); await l.acquire(); cocotb.start_soon(f(dut, l)); '
        'cocotb.start_soon(w(dut, l, 2)); await Timer(1, "step"); l.release(); await Timer(9, "step"); dut._log.info(f"{l.locked}")',
        passing(10, "1 INFO first", "10 INFO True"), (3, 1, 2)),
    row("locks are granted over all tasks by the number of the await", TAKER, 'l = Lock(); await l.acquire(); cocotb.start_soon(f(dut, l)); '
        'cocotb.start_soon(w(dut, l, 2)); await Timer(1, "step"); l.release(); l.release(); await Timer(1, "step")',
        passing(2, "1 INFO first", "1 INFO got 2"), (3, 1, 2)),
]
FIRST = function("f(dut, l)", 'await First(Timer(5, "step"), l.acquire()); dut._log.info("first")')
OVER = function("o(dut, l)", 'await Combine(First(l.acquire(), Timer(2, "step")), Timer(9, "step")); dut._log.info("over")')
BOTH = function("c(dut, a, b)", 'await Combine(a.acquire(), b.acquire()); dut._log.info("both")')
LOCKS = [each._replace(tests=each.tests.replace("\n@cocotb", FIRST + BOTH + OVER + SETTER + "\n@cocotb", 1)) for each in LOCKS]

HELD = [
    row("async with: one after the other", USER, "l = Lock(); for i in range(2): { cocotb.start_soon(u(dut, l, i)) }; await Timer(3, \"step\")",
        passing(3, "0 INFO in 0", "1 INFO out 0", "1 INFO in 1", "2 INFO out 1"), (3, 0, 3)),
    row("async with is left by return", function("g(dut, l)", "async with l: { return l.locked }"), 'l = Lock(); r = await g(dut, l); dut._log.info(f"{r} {l.locked}")',
        passing(0, "0 INFO True False")),
    row("async with is left by break", "", 'l = Lock(); for i in range(3): { async with l: { if i == 1: { break } } }; dut._log.info(f"{i} {l.locked}")',
        passing(0, "0 INFO 1 False")),
    row("async with is left by continue", "", 'l = Lock(); for i in range(3): { async with l: { continue } }; dut._log.info(f"{i} {l.locked}")',
        passing(0, "0 INFO 2 False")),
    row("async with is left by a fault: the lock is free in the handler", "", 'l = Lock(); try: { async with l: { x = 1 // 0 } } '
        'except ZeroDivisionError: { dut._log.info(f"{l.locked}") }', passing(0, "0 INFO False")),
    row("async with inside of async with", "", 'a = Lock(); b = Lock(); try: { async with a: { async with b: { raise ValueError("v") } } } '
        'except ValueError as x: { dut._log.info(f"{x} {a.locked} {b.locked}") }', passing(0, "0 INFO v False False")),
    row("a fault of the release takes the place of what went on", "", 'l = Lock(); try: { async with l: { l.release(); raise ValueError("v") } } '
        'except TriggerException: { dut._log.info("free") }', passing(0, "0 INFO free")),
    row("async with hands the lock to a waiter", USER + TAKER, 'l = Lock(); cocotb.start_soon(u(dut, l, 1)); cocotb.start_soon(w(dut, l, 2)); '
        'await Timer(2, "step")', passing(2, "0 INFO in 1", "1 INFO out 1", "1 INFO got 2"), (2, 0, 2)),
    row("async with of what is no lock", "", "e = Event(); async with e: { pass }", failing(0, "TypeError")),
]

JOINS = [
    row("a join gives the value", GOOD, 'j = cocotb.start_soon(good(dut, 2)); r = await j; dut._log.info(f"{r}")', passing(2, "2 INFO 2"), (1, 0, 1)),
    row("a join of a task that ends in the same turn", NOW, 'j = cocotb.start_soon(now(dut)); r = await j; s = await Join(j); dut._log.info(f"{r} {s}")',
        passing(0, "0 INFO 7 7"), (0, 0, 0)),
    row("several joins of one task, in the order of their awaits", GOOD + function("k(dut, j, n)", 'r = await j; dut._log.info(f"{n} {r}")'),
        'j = cocotb.start_soon(good(dut, 2)); cocotb.start_soon(k(dut, j, 1)); cocotb.start_soon(k(dut, j, 2)); await Timer(3, "step")',
        passing(3, "2 INFO 1 2", "2 INFO 2 2"), (2, 0, 2)),
    row("a fault goes to all that join", BAD + function("k(dut, j, n)", 'try: { await j } except ValueError as x: { dut._log.info(f"{n} {x}") }'),
        'j = cocotb.start_soon(bad(dut)); cocotb.start_soon(k(dut, j, 1)); cocotb.start_soon(k(dut, j, 2)); await Timer(3, "step")',
        passing(3, "1 INFO 1 boom", "1 INFO 2 boom"), (2, 0, 2)),
    row("a fault that nobody joins ends the test at once", BAD, 'cocotb.start_soon(bad(dut)); await Timer(5, "step")', failing(1, "ValueError: boom"), (2, 1, 1)),
    row("a task that failed and was joined raises its fault in a later join", BAD, 'j = cocotb.start_soon(bad(dut)); for i in range(2): { try: { await j } '
        'except ValueError as x: { dut._log.info(f"{i} {x} {j.done()}") } }', passing(1, "1 INFO 0 boom True", "1 INFO 1 boom True")),
    row("a fault inside a Combine is raised at once", BAD, 'j = cocotb.start_soon(bad(dut)); try: { await Combine(Timer(9, "step"), j) } '
        'except ValueError as x: { dut._log.info(f"{x}") }', passing(1, "1 INFO boom"), (2, 1, 1)),
    row("a fault inside a First", BAD, 'j = cocotb.start_soon(bad(dut)); try: { await First(Timer(9, "step"), j) } except ValueError: { dut._log.info("x") }',
        passing(1, "1 INFO x"), (2, 1, 1)),
    row("a First gives the value of a join", GOOD, 'j = cocotb.start_soon(good(dut, 3)); r = await First(j, Timer(9, "step")); dut._log.info(f"{r}")',
        passing(3, "3 INFO 3"), (2, 1, 1)),
    row("await of a start gives the task, behind its first turn", GOOD, 'j = await cocotb.start(good(dut, 1)); dut._log.info(f"{j.done()} {j}"); await j; '
        'dut._log.info(f"{j.done()}")', passing(1, "0 INFO False <task 1>", "1 INFO True")),
    row("the await of a task that has ended doesn't give up the turn", SAYS + NOW, 'j = await cocotb.start(now(dut)); cocotb.start_soon(says(dut)); r = await j; '
        's = await First(j, Timer(1, "step")); c = Combine(j, j); u = await c; dut._log.info(f"{r} {s} {u is c}"); await Timer(1, "step")',
        passing(1, "0 INFO 7 7 True", "0 INFO other"), (1, 0, 1)),
    row("a fault of a started call before the caller goes on", function("b(dut)", "raise ValueError"), 'await cocotb.start(b(dut)); dut._log.info("x")',
        failing(0, "ValueError")),
    row("a start that is returned", GOOD + function("g(dut)", "return cocotb.start_soon(good(dut, 1))"), 'j = await g(dut); r = await j; dut._log.info(f"{r}")',
        passing(1, "1 INFO 1")),
    row("with_timeout of a call gives its value", GOOD, 'r = await with_timeout(good(dut, 2), 5, "step"); dut._log.info(f"{r}")', passing(2, "2 INFO 2"), (2, 1, 1)),
    row("with_timeout of a call raises its fault", BAD, 'try: { await with_timeout(bad(dut), 5, "step") } except ValueError as x: { dut._log.info(f"{x}") }',
        passing(1, "1 INFO boom"), (2, 1, 1)),
    row("with_timeout kills what it started, and not what it was given", GOOD, 'k = cocotb.start_soon(good(dut, 4)); try: { await with_timeout(k, 1, "step") } '
        'except SimTimeoutError: { dut._log.info(f"{k.done()}") }; r = await k; dut._log.info(f"{r}")', passing(4, "1 INFO False", "4 INFO 4"), (2, 0, 2)),
    row("await of what is no trigger", "", "await 5", failing(0, "TypeError")),
]

LATER = function("y(dut)", 'await Timer(3, "step"); dut._log.info("timer")')
BOTH_SOON = "cocotb.start_soon(x(dut)); cocotb.start_soon(y(dut)); "
TURNS = [
    row("a task whose Combine was served in part keeps its place", function("x(dut)", 'await Combine(Timer(1, "step"), Timer(3, "step")); dut._log.info("both")') + LATER,
        BOTH_SOON + 'await Timer(4, "step")', passing(4, "3 INFO both", "3 INFO timer"), (3, 0, 3)),
    row("a task whose Combine got a lock keeps its place", function("x(dut, l)", 'await Combine(l.acquire(), Timer(3, "step")); dut._log.info("both")') + LATER,
        'l = Lock(); await l.acquire(); cocotb.start_soon(x(dut, l)); cocotb.start_soon(y(dut)); await Timer(1, "step"); l.release(); await Timer(4, "step")',
        passing(5, "3 INFO both", "3 INFO timer"), (3, 0, 3)),
    row("a rise wakes before a change, whoever waited first", function("x(dut)", 'await Edge(dut.clk); dut._log.info("edge")') + function(
        "y(dut)", 'await RisingEdge(dut.clk); dut._log.info("rise")'), BOTH_SOON + 'await Timer(1, "step"); dut.clk.setimmediatevalue(1); await Timer(1, "step")',
        passing(2, "1 INFO rise", "1 INFO edge"), (4, 0, 4)),
    row("the first of two staged writes wakes first, whoever waited first", function("x(dut)", 'await Edge(dut.a); dut._log.info("a")') + function(
        "y(dut)", 'await Edge(dut.clk); dut._log.info("clk")'), BOTH_SOON + 'await Timer(1, "step"); dut.clk.value = 1; dut.a.value = 1; await Timer(1, "step")',
        passing(2, "1 INFO clk", "1 INFO a"), (5, 0, 5)),
    row("a join that nobody waits for any more takes no fault", function("b(dut)", 'await Timer(5, "step"); raise ValueError("b")'),
        'j = cocotb.start_soon(b(dut)); await First(j, Timer(1, "step")); await Timer(9, "step")', failing(5, "ValueError: b"), (3, 1, 2)),
    row("of two faults of a Combine the leftmost counts", function("b(dut, n)", 'await Timer(1, "step"); raise ValueError(n)') + function(
        "c(dut, j)", "try: { await j } except ValueError: { pass }"), 'j = cocotb.start_soon(b(dut, "1")); k = cocotb.start_soon(b(dut, "2")); '
        'cocotb.start_soon(c(dut, j)); cocotb.start_soon(c(dut, k)); await Timer(2, "step"); try: { await Combine(Timer(5, "step"), j, k) } '
        'except ValueError as e: { dut._log.info(f"{e}") }', passing(2, "2 INFO 1"), (2, 0, 2)),
]

ORDER = [*EVENTS, *LOCKS, *HELD, *JOINS, *TURNS]
