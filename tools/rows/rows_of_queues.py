"""Runs with queues between tasks: what they are made with, who waits for what, who is woken, and what a kill and a limit leave.

Lines by hand, counts and costs where they tell.
"""
from rows.row_texts import HEADER, SMALL, Row, failing, function, passing, report, test

IMPORTS = HEADER + "from cocotb.queue import Queue, QueueEmpty, QueueFull\n"
STEP = 'await Timer(1, "step"); '
SIZE = 'dut._log.info(f"{q.qsize()}"); '
LOOK = 'dut._log.info(f"{q.qsize()} {q.empty()} {q.full()}"); '
TAKER = function("taker(dut, q, n)", 'x = await q.get(); dut._log.info(f"{n} got {x}")')
PUTTER = function("putter(dut, q, n)", 'await q.put(n); dut._log.info(f"put {n}")')
OTHER = function("other(dut)", 'dut._log.info("other")')
LATE = function("late(dut, q)", 'await Timer(2, "step"); q.put_nowait(7)')
MANY = "for i in range(%d): { cocotb.start_soon(%s(dut, q, i)) }; "


def said(text):
    return f'dut._log.info("{text}")'


def row(rule, body, lines, counts=None, functions="", **more):
    return Row(rule, IMPORTS + functions + test(body), lines, counts, **more)


def least(rule, body, lines, counts=(0, 0, 0), functions="", **more):
    """A run that needs no design, in which no time passes."""
    return row(rule, body, lines, counts, functions, design=SMALL, **more)


def tests(rule, bodies, lines, counts=None):
    return Row(rule, IMPORTS + "".join(test(body, name) for name, body in bodies.items()), lines, counts)


def raising(rule, statement, kind, before="", **more):
    return least(rule, before + statement, failing(0, kind), **more)


WORKED = [
    row("a put waits for space, and the items come in order", 'q = Queue(maxsize=1); cocotb.start_soon(prod(dut, q)); await Timer(1, "step"); a = await q.get(); '
        'await Timer(1, "step"); b = await q.get(); await Timer(1, "step"); dut._log.info(f"{a} {b} {q.qsize()}"); c = q.get_nowait(); dut._log.info(f"{c}")',
        ["0 TEST t", "0 INFO put 0", "1 INFO put 1", "2 INFO put 2", "3 INFO 0 1 1", "3 INFO 2", "3 PASS t", report(1, 1, 0, 0, 3)], (3, 0, 3),
        function("prod(dut, q)", 'for i in range(3): { await q.put(i); dut._log.info(f"put {i}") }')),
    row("a getter that is killed between its wake and its turn loses no item", 'q = Queue(); g = cocotb.start_soon(taker(dut, q, 1)); '
        'cocotb.start_soon(taker(dut, q, 2)); await Timer(1, "step"); q.put_nowait(7); g.kill(); await Timer(1, "step"); try: { x = q.get_nowait() } '
        'except QueueEmpty: { dut._log.info("empty") }',
        ["0 TEST t", "1 INFO 2 got 7", "2 INFO empty", "2 PASS t", report(1, 1, 0, 0, 2)], (2, 0, 2), TAKER),
]

MADE = [
    least("a queue without a bound is never full", "q = Queue(); " + LOOK + "for i in range(3): { q.put_nowait(i) }; " + LOOK,
          passing(0, "0 INFO 0 True False", "0 INFO 3 False False")),
    least("a bound by its place", "q = Queue(2); " + LOOK + "q.put_nowait(1); " + LOOK + "q.put_nowait(2); " + LOOK,
          passing(0, "0 INFO 0 True False", "0 INFO 1 False False", "0 INFO 2 False True")),
    least("a bound by its name", "q = Queue(maxsize=1); q.put_nowait(1); " + LOOK, passing(0, "0 INFO 1 False True")),
    least("a bound of 0 means none", "q = Queue(0); q.put_nowait(1); " + LOOK, passing(0, "0 INFO 1 False False")),
    least("a bound under 0 means none", "q = Queue(-3); q.put_nowait(1); " + LOOK, passing(0, "0 INFO 1 False False")),
    least("a bound of True is 1", "q = Queue(True); q.put_nowait(5); " + LOOK, passing(0, "0 INFO 1 False True")),
    least("a bound of False means none", "q = Queue(maxsize=False); q.put_nowait(5); " + LOOK, passing(0, "0 INFO 1 False False")),
    least("a bound is an expression", "n = 1; q = Queue(maxsize=n + 1); q.put_nowait(5); q.put_nowait(6); " + LOOK, passing(0, "0 INFO 2 False True")),
    raising("a bound that is a text", 'q = Queue("2")', "TypeError"),
    raising("a bound that is None", "q = Queue(None)", "TypeError"),
    row("a bound that is a vector", "dut.a.value = 2; await ReadOnly(); q = Queue(dut.a.value)", failing(0, "TypeError"), (2, 0, 2)),
    raising("a bound that is a queue", "q = Queue(q)", "TypeError", "q = Queue(); "),
    least("a bound of 65,536", "q = Queue(65536); " + LOOK, passing(0, "0 INFO 0 True False")),
    raising("a bound over 65,536", "q = Queue(65537)", "ValueError"),
    raising("the greatest number as a bound", "q = Queue(maxsize=170141183460469231731687303715884105727)", "ValueError"),
    least("the least number as a bound means none", "q = Queue(-170141183460469231731687303715884105727 - 1); " + LOOK, passing(0, "0 INFO 0 True False")),
    raising("a bound that raises a fault makes no queue", "try: { q = Queue(1 // 0) } except ZeroDivisionError: { pass }; q = Queue(); raise ValueError(q)",
            "ValueError: <queue 0>"),
    least("a queue takes two numbers of events", 'e = Event(); q = Queue(); f = Event(); r = Queue(1); g = Event(); dut._log.info(f"{e} {q} {f} {r} {g}")',
          passing(0, "0 INFO <event 0> <queue 0> <event 3> <queue 1> <event 6>")),
    least("a queue takes no number of locks", 'q = Queue(); l = Lock(); dut._log.info(f"{l}")', passing(0, "0 INFO <lock 0>")),
    least("a queue with one number of events left", 'for i in range(65535): { e = Event() }; try: { q = Queue() } except RuntimeError: { ' + said("no queue") + ' }; '
          'e = Event(); dut._log.info(f"{e}")', passing(0, "0 INFO no queue", "0 INFO <event 65535>")),
    least("a queue with two numbers of events left", 'for i in range(65534): { e = Event() }; q = Queue(); dut._log.info(f"{q}"); e = Event()',
          failing(0, "RuntimeError", "0 INFO <queue 0>")),
    least("32,768 queues", 'for i in range(32768): { q = Queue(1) }; dut._log.info(f"{q}"); q = Queue()', failing(0, "RuntimeError", "0 INFO <queue 32767>")),
    least("the fault of a bound comes before that of the numbers", 'for i in range(65536): { e = Event() }; try: { q = Queue("a") } except TypeError: { '
          + said("kind") + " }; q = Queue(0)", failing(0, "RuntimeError", "0 INFO kind")),
    tests("queues are numbered anew in each test", {"one": 'q = Queue(); r = Queue(); dut._log.info(f"{r}")', "two": 'q = Queue(); e = Event(); dut._log.info(f"{q} {e}")'},
          ["0 TEST one", "0 INFO <queue 1>", "0 PASS one", "1 TEST two", "1 INFO <queue 0> <event 2>", "1 PASS two", report(2, 2, 0, 0, 1)], (1, 0, 1)),
]

NOW = [
    row("items of each kind come out as they went in, the first first", 'e = Event(); q = Queue(); q.put_nowait(-5); q.put_nowait(True); q.put_nowait("text"); '
        'q.put_nowait(None); q.put_nowait(dut.q.value); q.put_nowait(dut); q.put_nowait(dut.a); q.put_nowait(e); '
        'for i in range(8): { x = q.get_nowait(); dut._log.info(f"{x}") }; dut._log.info(f"{x is e}")',
        passing(0, "0 INFO -5", "0 INFO True", "0 INFO text", "0 INFO None", "0 INFO xxxxxxxx", "0 INFO top", "0 INFO top.a", "0 INFO <event 0>", "0 INFO True"), (0, 0, 0)),
    least("puts and gets by turns keep the order", "q = Queue(2); q.put_nowait(1); q.put_nowait(2); a = q.get_nowait(); q.put_nowait(3); b = q.get_nowait(); "
          'c = q.get_nowait(); dut._log.info(f"{a} {b} {c} {q.empty()}")', passing(0, "0 INFO 1 2 3 True")),
    raising("a get at once from an empty queue", "x = q.get_nowait()", "QueueEmpty", "q = Queue(); "),
    raising("a put at once into a full queue", "q.put_nowait(2)", "QueueFull", "q = Queue(1); q.put_nowait(1); "),
    least("a put at once that is refused leaves the queue as it was", "q = Queue(1); q.put_nowait(1); try: { q.put_nowait(2) } except QueueFull: { " + said("full") + " }; "
          'x = q.get_nowait(); dut._log.info(f"{x} {q.empty()}")', passing(0, "0 INFO full", "0 INFO 1 True")),
    least("a queue that was emptied is filled again", "q = Queue(1); for i in range(3): { q.put_nowait(i); x = q.get_nowait() }; "
          'dut._log.info(f"{x} {q.qsize()}")', passing(0, "0 INFO 2 0")),
    row("what is got at once is written and returned", "q = Queue(); q.put_nowait(3); q.put_nowait(4); dut.a.value = q.get_nowait(); x = await f(dut, q); await ReadOnly(); "
        'dut._log.info(f"{dut.a.value} {x}")', passing(0, "0 INFO 00000011 4"), (2, 0, 2), function("f(dut, q)", "return q.get_nowait()")),
    least("a put at once stores nothing where its item raises a fault", "q = Queue(); try: { q.put_nowait(1 // 0) } except ZeroDivisionError: { pass }; " + SIZE,
          passing(0, "0 INFO 0")),
    raising("the queue is evaluated before its item", "q.put_nowait(1 // 0); q = Queue()", "UnboundLocalError"),
    raising("the item is evaluated before it is asked for a queue", "e.put_nowait(1 // 0)", "ZeroDivisionError", "e = Event(); "),
]

LIMITS = [
    least("65,536 items in a queue without a bound, and one more", "q = Queue(); for i in range(65536): { q.put_nowait(i) }; " + LOOK
          + "try: { q.put_nowait(0) } except RuntimeError: { " + said("no more") + " }; x = q.get_nowait(); q.put_nowait(9); " + SIZE + "await q.put(0)",
          failing(0, "RuntimeError", "0 INFO 65536 False False", "0 INFO no more", "0 INFO 65536")),
    least("65,536 items in a queue of that bound, and one more", "q = Queue(65536); for i in range(65536): { await q.put(i) }; " + LOOK + "q.put_nowait(0)",
          failing(0, "QueueFull", "0 INFO 65536 False True"), cost=1 + 65536 * 4 + 1 + 1 + 1),
    least("put and get are open calls of their task", "q = Queue(); try: { await r(dut, q, 998) } except RuntimeError: { " + said("too deep") + " }; "
          "await r(dut, q, 997); " + SIZE, passing(0, "0 INFO too deep", "0 INFO 1"), functions=function("r(dut, q, n)", "if n: { await r(dut, q, n - 1) } else: { await q.put(n) }")),
    least("a get is an open call, too", "q = Queue(); q.put_nowait(4); try: { x = await r(dut, q, 998) } except RuntimeError: { " + said("too deep") + " }; "
          'x = await r(dut, q, 997); dut._log.info(f"{x}")', passing(0, "0 INFO too deep", "0 INFO 4"),
          functions=function("r(dut, q, n)", "if n: { return await r(dut, q, n - 1) }; return await q.get()")),
]

COSTS = [
    # a put with room costs its statement, the question and its put; a get its statement, the question and its return
    least("put and get cost as their texts do", "q = Queue(); await q.put(1); x = await q.get()", passing(0), cost=7),
    least("put and get at once cost one each", "q = Queue(); q.put_nowait(1); x = q.get_nowait()", passing(0), cost=3),
    least("the budget ends before the put of a put", "q = Queue(); await q.put(1); x = await q.get()", ["0 TEST t", "BUDGET 3"], budget=3, cost=3),
    least("the budget ends before the question of a get", "q = Queue(); await q.put(1); x = await q.get()", ["0 TEST t", "BUDGET 5"], budget=5, cost=5),
    least("the budget ends before the return of a get", "q = Queue(); await q.put(1); x = await q.get()", ["0 TEST t", "BUDGET 6"], budget=6, cost=6),
    # the get: its statement, question and wait; the wake by the other's put (its statement and two more): question and return
    least("a get that waits costs its wait and one more question", "q = Queue(); cocotb.start_soon(q.put(3)); x = await q.get()", passing(0), cost=1 + 1 + 3 + 2 + 2),
    least("a started put that has room costs no statement of a call", "q = Queue(); k = cocotb.start_soon(q.put(3)); await k", passing(0), cost=3 + 2),
    # the puts cost 3, 5 and 7, since the second waits once and the third twice; the first get waits, which costs 2 more
    least("each wake of a put that finds the queue full costs", "q = Queue(1); " + MANY % (3, "p") + "for i in range(3): { x = await q.get(); await cocotb.start(n(dut)) }",
          passing(0), functions=function("p(dut, q, i)", "await q.put(i)") + function("n(dut)", "pass"), cost=1 + 4 + 3 + 4 + 3 * 4 + 3 + (3 + 5 + 7) + 2),
]

WAITING = [
    row("a get waits for a put", "q = Queue(); cocotb.start_soon(taker(dut, q, 1)); " + STEP + "q.put_nowait(5); " + said("stored") + "; " + STEP,
        passing(2, "1 INFO stored", "1 INFO 1 got 5"), (2, 0, 2), TAKER),
    row("a put waits for a get", "q = Queue(1); q.put_nowait(4); cocotb.start_soon(putter(dut, q, 5)); " + STEP + "x = q.get_nowait(); "
        'dut._log.info(f"{x}"); ' + STEP + 'dut._log.info(f"{q.qsize()}")', passing(2, "1 INFO 4", "1 INFO put 5", "2 INFO 1"), (2, 0, 2), PUTTER),
    least("a get of an item that is there doesn't give up the turn", "q = Queue(); q.put_nowait(1); cocotb.start_soon(other(dut)); x = await q.get(); "
          'dut._log.info(f"{x}"); await cocotb.start(other(dut))', passing(0, "0 INFO 1", "0 INFO other", "0 INFO other"), functions=OTHER),
    least("a put that has room doesn't give up the turn", "q = Queue(1); cocotb.start_soon(other(dut)); await q.put(1); " + said("stored") + "; await cocotb.start(other(dut))",
          passing(0, "0 INFO stored", "0 INFO other", "0 INFO other"), functions=OTHER),
    least("a put gives None, and a get the item", 'q = Queue(); x = await q.put(3); y = await q.get(); dut._log.info(f"{x} {y}")', passing(0, "0 INFO None 3")),
    row("what is got is written and returned, or let go", "q = Queue(); for i in range(3): { q.put_nowait(i + 5) }; await q.get(); dut.a.value = await q.get(); "
        'x = await f(dut, q); await ReadOnly(); dut._log.info(f"{int(dut.a.value)} {x} {q.empty()}")', passing(0, "0 INFO 6 7 True"), (2, 0, 2),
        function("f(dut, q)", "return await q.get()")),
    row("a put of what is awaited before", "q = Queue(); x = await f(dut); await q.put(x); y = q.get_nowait(); " 'dut._log.info(f"{y}")', passing(1, "1 INFO 8"), (1, 0, 1),
        function("f(dut)", STEP + "return 8")),
    # the second finds the queue empty and waits again
    row("one put wakes two getters, and the second waits again", "q = Queue(); " + MANY % (2, "taker") + STEP + "q.put_nowait(7); " + STEP + "q.put_nowait(8); " + STEP,
        passing(3, "1 INFO 0 got 7", "2 INFO 1 got 8"), (3, 0, 3), TAKER, cost=1 + 5 + 5 + (3 + 3) + (3 + 2 + 3) + 3),
    row("two puts in one turn serve two getters, in the order of their awaits", "q = Queue(); " + MANY % (2, "taker") + STEP + "q.put_nowait(7); q.put_nowait(8); " + STEP,
        passing(2, "1 INFO 0 got 7", "1 INFO 1 got 8"), (2, 0, 2), TAKER),
    row("a put into a queue that isn't empty wakes nobody more", "q = Queue(); cocotb.start_soon(taker(dut, q, 0)); " + STEP + "q.put_nowait(7); q.put_nowait(8); " + STEP + SIZE,
        passing(2, "1 INFO 0 got 7", "2 INFO 1"), (2, 0, 2), TAKER),
    row("a woken getter whose item was taken waits again", "q = Queue(); cocotb.start_soon(taker(dut, q, 0)); " + STEP + "q.put_nowait(7); x = q.get_nowait(); "
        'dut._log.info(f"{x}"); ' + STEP + "q.put_nowait(8); " + STEP, passing(3, "1 INFO 7", "2 INFO 0 got 8"), (3, 0, 3), TAKER),
    row("a getter that comes between a put and a woken one gets the item", "q = Queue(); cocotb.start_soon(taker(dut, q, 0)); " + STEP + "q.put_nowait(7); "
        'x = await q.get(); dut._log.info(f"{x}"); ' + STEP + "q.put_nowait(8); " + STEP, passing(3, "1 INFO 7", "2 INFO 0 got 8"), (3, 0, 3), TAKER),
    # a put wakes all; the first takes the item and waits again, before the others do
    row("of three getters in loops the first gets each item that comes alone", "q = Queue(); " + MANY % (3, "loop") + 'for i in range(3): { await Timer(1, "step"); q.put_nowait(i) }; '
        + STEP, passing(4, "1 INFO 0 got 0", "2 INFO 0 got 1", "3 INFO 0 got 2"), (4, 0, 4),
        function("loop(dut, q, n)", 'while True: { x = await q.get(); dut._log.info(f"{n} got {x}") }')),
    row("three getters in loops share the items that come at once", "q = Queue(); " + MANY % (3, "loop") + STEP + "for i in range(5): { q.put_nowait(i) }; " + STEP,
        passing(2, "1 INFO 0 got 0", "1 INFO 0 got 1", "1 INFO 0 got 2", "1 INFO 0 got 3", "1 INFO 0 got 4"), (2, 0, 2),
        function("loop(dut, q, n)", 'while True: { x = await q.get(); dut._log.info(f"{n} got {x}") }')),
    row("a bound of one with three producers", "q = Queue(maxsize=1); " + MANY % (3, "putter") + 'for i in range(3): { await Timer(1, "step"); x = await q.get(); '
        'dut._log.info(f"got {x}") }', passing(3, "0 INFO put 0", "1 INFO got 0", "1 INFO put 1", "2 INFO got 1", "2 INFO put 2", "3 INFO got 2"), (3, 0, 3), PUTTER),
    row("one get wakes all putters, and one of them has room", "q = Queue(2); " + MANY % (5, "putter") + STEP + "x = q.get_nowait(); " + STEP + SIZE + "x = q.get_nowait(); x = q.get_nowait(); "
        + STEP + SIZE, passing(3, "0 INFO put 0", "0 INFO put 1", "1 INFO put 2", "2 INFO 2", "2 INFO put 3", "2 INFO put 4", "3 INFO 2"), (3, 0, 3), PUTTER),
    row("a woken putter whose room was taken waits again", "q = Queue(1); q.put_nowait(1); cocotb.start_soon(putter(dut, q, 2)); " + STEP + "x = q.get_nowait(); q.put_nowait(3); "
        + STEP + "x = q.get_nowait(); " 'dut._log.info(f"{x}"); ' + STEP, passing(3, "2 INFO 3", "2 INFO put 2"), (3, 0, 3), PUTTER),
    least("one producer and one consumer by turns, while no time passes", "q = Queue(1); cocotb.start_soon(p(dut, q)); for i in range(3): { x = await q.get(); "
          'dut._log.info(f"got {x}") }', passing(0, "0 INFO put 0", "0 INFO got 0", "0 INFO put 1", "0 INFO got 1", "0 INFO put 2", "0 INFO got 2"),
          functions=function("p(dut, q)", 'for i in range(3): { await q.put(i); dut._log.info(f"put {i}") }')),
    row("a fast producer and a slow consumer", "q = Queue(2); cocotb.start_soon(p(dut, q)); for i in range(4): { await Timer(2, \"step\"); x = await q.get(); "
        'dut._log.info(f"got {x}") }', passing(8, "0 INFO put 0", "0 INFO put 1", "2 INFO got 0", "2 INFO put 2", "4 INFO got 1", "4 INFO put 3", "6 INFO got 2", "8 INFO got 3"), (4, 0, 4),
        function("p(dut, q)", 'for i in range(4): { await q.put(i); dut._log.info(f"put {i}") }')),
    least("two tasks that play through two queues", "q = Queue(); r = Queue(); cocotb.start_soon(echo(dut, q, r)); for i in range(3): { q.put_nowait(i); x = await r.get(); "
          'dut._log.info(f"{x}") }', passing(0, "0 INFO 10", "0 INFO 11", "0 INFO 12"),
          functions=function("echo(dut, q, r)", "while True: { x = await q.get(); await r.put(x + 10) }")),
    least("a woken getter stands behind what was ready", "q = Queue(); await cocotb.start(taker(dut, q, 0)); cocotb.start_soon(other(dut)); q.put_nowait(1); await cocotb.start(other(dut)); "
          "await cocotb.start(other(dut))", passing(0, "0 INFO other", "0 INFO 0 got 1", "0 INFO other", "0 INFO other"), functions=TAKER + OTHER),
    row("a test that waits for an item that nobody puts", "q = Queue(); await q.get()", failing(0, "Stalled"), (0, 0, 0)),
    row("a test that waits for room that nobody makes", "q = Queue(1); await q.put(1); await q.put(2)", failing(0, "Stalled"), (0, 0, 0)),
]

KILLED = [
    row("a getter that is killed while it waits takes nothing", "q = Queue(); k = cocotb.start_soon(taker(dut, q, 0)); cocotb.start_soon(taker(dut, q, 1)); " + STEP + "k.kill(); "
        "q.put_nowait(7); " + STEP, passing(2, "1 INFO 1 got 7"), (2, 0, 2), TAKER),
    row("a putter that is killed while it waits puts nothing", "q = Queue(1); q.put_nowait(1); k = cocotb.start_soon(putter(dut, q, 2)); " + STEP + "k.kill(); x = q.get_nowait(); "
        + STEP + LOOK, passing(2, "2 INFO 0 True False"), (2, 0, 2), PUTTER),
    row("a putter that is killed between its wake and its turn puts nothing", "q = Queue(1); q.put_nowait(1); k = cocotb.start_soon(putter(dut, q, 2)); " + STEP + "x = q.get_nowait(); "
        "k.kill(); " + STEP + LOOK, passing(2, "2 INFO 0 True False"), (2, 0, 2), PUTTER),
    row("room that was a killed putter's goes to the next", "q = Queue(1); q.put_nowait(9); k = cocotb.start_soon(putter(dut, q, 0)); cocotb.start_soon(putter(dut, q, 1)); " + STEP
        + "x = q.get_nowait(); k.kill(); " + STEP + "x = q.get_nowait(); " 'dut._log.info(f"{x}")', passing(2, "1 INFO put 1", "2 INFO 1"), (2, 0, 2), PUTTER),
    row("an item that was given is gone with its task", "q = Queue(); q.put_nowait(7); k = cocotb.start_soon(f(dut, q)); " + STEP + "k.kill(); " + LOOK,
        passing(1, "1 INFO 0 True False"), (2, 1, 1), function("f(dut, q)", 'x = await q.get(); await Timer(9, "step")')),
    row("all getters but the last of a put are killed", "q = Queue(); a = cocotb.start_soon(taker(dut, q, 0)); b = cocotb.start_soon(taker(dut, q, 1)); cocotb.start_soon(taker(dut, q, 2)); "
        + STEP + "q.put_nowait(7); b.kill(); a.kill(); " + STEP, passing(2, "1 INFO 2 got 7"), (2, 0, 2), TAKER),
    row("the only getter is killed between its wake and its turn", "q = Queue(); k = cocotb.start_soon(taker(dut, q, 0)); " + STEP + "q.put_nowait(7); k.kill(); " + STEP
        + "x = q.get_nowait(); " 'dut._log.info(f"{x}")', passing(2, "2 INFO 7"), (2, 0, 2), TAKER),
    tests("the end of a test drops its queues with who waits for them", {"one": "q = Queue(); k = cocotb.start_soon(q.get()); " + STEP + "q.put_nowait(1)",
                                                                       "two": 'q = Queue(); dut._log.info(f"{q} {q.empty()}"); k = cocotb.start_soon(q.get()); dut._log.info(f"{k}")'},
          ["0 TEST one", "1 PASS one", "2 TEST two", "2 INFO <queue 0> True", "2 INFO <task 1>", "2 PASS two", report(2, 2, 0, 0, 2)], (2, 0, 2)),
]

# In both the items that come out, in order, are those that went in: each taker notes what it gets within its turn.
NOTER = function("noter(dut, q, out)", 'while True: { x = await q.get(); out.put_nowait(x); await Timer(1, "step") }')
ONCE = function("once(dut, q, out)", "x = await q.get(); out.put_nowait(x)")
MAKER = function("maker(dut, q)", 'for i in range(40): { if i % 3 == 0: { await Timer(1, "step") }; await q.put(i) }')
REST = "while not q.empty(): { x = q.get_nowait(); out.put_nowait(x) }; for i in range(%d): { x = out.get_nowait(); assert x == i }; assert out.empty()"
ALL_OUT = [
    # at each put a task that was woken by it is killed
    row("whoever is killed, items come out once and in order", "q = Queue(2); out = Queue(); n = 0; for i in range(8): { "
        'a = cocotb.start_soon(noter(dut, q, out)); b = cocotb.start_soon(noter(dut, q, out)); await Timer(1, "step"); q.put_nowait(n); a.kill(); '
        'await Timer(2, "step"); q.put_nowait(n + 1); b.kill(); c = cocotb.start_soon(q.put(99)); c.kill(); n += 2 }; ' + REST % 16, passing(24), functions=NOTER),
    row("whichever limit is over, items come out once and in order", "k = cocotb.start_soon(work(dut)); " 'await Timer(200, "step"); assert k.done()', passing(200),
        functions=MAKER + ONCE + function("work(dut)", "q = Queue(1); out = Queue(); p = cocotb.start_soon(maker(dut, q)); for i in range(10): { for n in [1, 2, 1]: { "
        'try: { await with_timeout(once(dut, q, out), n, "step") } except SimTimeoutError: { pass }; if q.full(): { '
        'try: { await with_timeout(q.put(99), 1, "step"); raise ValueError } except SimTimeoutError: { pass } } } }; '
        "while not p.done(): { await once(dut, q, out) }; " + REST % 40)),
]

TIMED = [
    row("a get under a limit that is over takes nothing", "q = Queue(); try: { x = await with_timeout(q.get(), 2, \"step\") } except SimTimeoutError: { " + said("late") + " }; q.put_nowait(5); "
        + STEP + LOOK, passing(3, "2 INFO late", "3 INFO 1 False False"), (2, 0, 2)),
    row("a get under a limit that gets its item", "q = Queue(); cocotb.start_soon(late(dut, q)); x = await with_timeout(q.get(), 5, \"step\"); " 'dut._log.info(f"{x} {q.empty()}")',
        passing(2, "2 INFO 7 True"), (2, 1, 1), LATE),
    row("a put under a limit that is over puts nothing", "q = Queue(1); q.put_nowait(1); try: { await with_timeout(q.put(2), 3, \"step\") } except SimTimeoutError: { " + said("late")
        + " }; x = q.get_nowait(); " + STEP + LOOK, passing(4, "3 INFO late", "4 INFO 0 True False"), (2, 0, 2)),
    row("a put under a limit that has room", "q = Queue(1); x = await with_timeout(q.put(2), 3, \"step\"); " 'dut._log.info(f"{x} {q.qsize()}")', passing(0, "0 INFO None 1"), (1, 1, 0)),
    row("a put under a limit that gets room in time", "q = Queue(1); q.put_nowait(1); cocotb.start_soon(f(dut, q)); await with_timeout(q.put(2), 3, \"step\"); x = q.get_nowait(); "
        'dut._log.info(f"{x}")', passing(1, "1 INFO 2"), (2, 1, 1), function("f(dut, q)", STEP + "x = q.get_nowait()")),
    # at 2 the limit's task is ready before the one that puts
    row("a limit that is over before the item comes, at one time", "q = Queue(); cocotb.start_soon(late(dut, q)); try: { x = await with_timeout(q.get(), 2, \"step\") } "
        "except SimTimeoutError: { " + SIZE + "}; " + STEP + SIZE, passing(3, "2 INFO 0", "3 INFO 1"), (2, 0, 2), LATE),
    # at 2 the other puts and wakes the get, which is killed before its turn
    row("a limit that is over when the item has come, at one time", "q = Queue(); await cocotb.start(late(dut, q)); try: { x = await with_timeout(q.get(), 2, \"step\") } "
        "except SimTimeoutError: { " + SIZE + "}; " + STEP + SIZE, passing(3, "2 INFO 1", "3 INFO 1"), (2, 0, 2), LATE),
    row("a limit that is over when there is room, at one time", "q = Queue(1); q.put_nowait(1); await cocotb.start(f(dut, q)); try: { await with_timeout(q.put(2), 2, \"step\") } "
        "except SimTimeoutError: { " + SIZE + "}; " + STEP + SIZE, passing(3, "2 INFO 0", "3 INFO 0"), (2, 0, 2), function("f(dut, q)", 'await Timer(2, "step"); x = q.get_nowait()')),
    least("a limit with a refused time starts no task", "q = Queue(); try: { await with_timeout(q.put(1), 0, \"step\") } except ValueError: { k = cocotb.start_soon(q.get()); "
          'dut._log.info(f"{k} {q.qsize()}") }', passing(0, "0 INFO <task 1> 0")),
    least("a get under a limit is a task", "q = Queue(); q.put_nowait(1); x = await with_timeout(q.get(), 3, \"step\"); k = cocotb.start_soon(q.get()); " 'dut._log.info(f"{k}")',
          passing(0, "0 INFO <task 2>"), (1, 1, 0)),
    # the task that was started for the call isn't killed with the one that waits for it
    row("a getter under a limit is killed, and its call takes the next item", "q = Queue(); k = cocotb.start_soon(f(dut, q)); " + STEP + "k.kill(); q.put_nowait(7); " + STEP + LOOK,
        passing(2, "2 INFO 0 True False"), (3, 1, 2), function("f(dut, q)", 'x = await with_timeout(q.get(), 100, "step"); dut._log.info(f"{x}")')),
    row("a putter under a limit is killed, and its call puts the item", "q = Queue(1); q.put_nowait(1); k = cocotb.start_soon(f(dut, q)); " + STEP + "k.kill(); x = q.get_nowait(); " + STEP
        + "x = q.get_nowait(); " 'dut._log.info(f"{x}")', passing(2, "2 INFO 2"), (3, 1, 2), function("f(dut, q)", 'await with_timeout(q.put(2), 100, "step")')),
    row("a limit over a get that was started takes nothing, and the get goes on", "q = Queue(); k = cocotb.start_soon(q.get()); try: { x = await with_timeout(k, 2, \"step\") } "
        "except SimTimeoutError: { " + said("late") + " }; q.put_nowait(7); " + STEP + 'x = await k; dut._log.info(f"{x} {q.qsize()}")', passing(3, "2 INFO late", "3 INFO 7 0"), (2, 0, 2)),
    Row("the deadline of a test that waits for an item", IMPORTS + test("q = Queue(); await q.get()", options='timeout_time=4, timeout_unit="step"'), failing(4, "SimTimeoutError"), (1, 0, 1)),
]

STARTED = [
    least("a started get is a task, whose join gives the item", 'q = Queue(); k = cocotb.start_soon(q.get()); dut._log.info(f"{k} {k.done()}"); q.put_nowait(6); x = await k; '
          'dut._log.info(f"{x} {k.done()}")', passing(0, "0 INFO <task 1> False", "0 INFO 6 True")),
    least("a started put is a task, whose join gives None", 'q = Queue(1); k = cocotb.start_soon(q.put(6)); dut._log.info(f"{q.qsize()}"); x = await k; dut._log.info(f"{x} {q.qsize()}")',
          passing(0, "0 INFO 0", "0 INFO None 1")),
    least("a put that is started gives way", "q = Queue(); k = await cocotb.start(q.put(6)); " 'dut._log.info(f"{k} {k.done()} {q.qsize()}")', passing(0, "0 INFO <task 1> True 1")),
    least("the item of a started get that nobody joins is gone", "q = Queue(); q.put_nowait(1); cocotb.start_soon(q.get()); await cocotb.start(other(dut)); " + SIZE,
          passing(0, "0 INFO other", "0 INFO 0"), functions=OTHER),
    row("a started get in a First beside a time", "q = Queue(); k = cocotb.start_soon(q.get()); late = Timer(2, \"step\"); x = await First(k, late); " 'dut._log.info(f"{x is late}"); '
        "q.put_nowait(3); x = await k; " 'dut._log.info(f"{x}")', passing(2, "2 INFO True", "2 INFO 3"), (1, 0, 1)),
    least("two started gets in a Combine", "q = Queue(); a = cocotb.start_soon(q.get()); b = cocotb.start_soon(q.get()); cocotb.start_soon(q.put(1)); cocotb.start_soon(q.put(2)); "
          'await Combine(a, b); x = await a; y = await b; dut._log.info(f"{x} {y}")', passing(0, "0 INFO 1 2")),
    least("a started get that is killed", 'q = Queue(); k = cocotb.start_soon(q.get()); await cocotb.start(other(dut)); k.kill(); q.put_nowait(1); x = await k; dut._log.info(f"{x} {q.qsize()}")',
          passing(0, "0 INFO other", "0 INFO None 1"), functions=OTHER),
    least("the item of a started put is evaluated at the start", 'q = Queue(); x = 1; k = cocotb.start_soon(q.put(x)); x = 2; await k; y = q.get_nowait(); dut._log.info(f"{y}")',
          passing(0, "0 INFO 1")),
]

VALUES = [
    least("a queue in a text", 'q = Queue(); r = Queue(3); s = str(r); dut._log.info(f"{q} {s}"); dut._log.info("%s", q)', passing(0, "0 INFO <queue 0> <queue 1>", "0 INFO <queue 0>")),
    least("a queue is true, though it is empty", 'q = Queue(); dut._log.info(f"{bool(q)} {not q} {q and 3}")', passing(0, "0 INFO True False 3")),
    least("a queue compared with itself and with another", 'q = Queue(); r = Queue(); s = q; dut._log.info(f"{q == s} {q is s} {q != s} {q == r} {q is r} {q is not r}")',
          passing(0, "0 INFO True True False False False True")),
    least("a queue compared with what is none", 'q = Queue(); e = Event(); dut._log.info(f"{q == None} {q is None} {q == 0} {q != e} {q == dut.a}")',
          passing(0, "0 INFO False False False True False")),
    least("a queue in a queue", 'q = Queue(); r = Queue(1); q.put_nowait(r); x = q.get_nowait(); await x.put(4); dut._log.info(f"{x is r} {x} {r.full()}")',
          passing(0, "0 INFO True <queue 1> True")),
    least("a queue in itself", 'q = Queue(); q.put_nowait(q); x = q.get_nowait(); dut._log.info(f"{x is q} {q.qsize()}")', passing(0, "0 INFO True 0")),
    least("a queue that a function makes and returns", 'q = await f(dut); x = await q.get(); dut._log.info(f"{x} {q}")', passing(0, "0 INFO 2 <queue 0>"),
          functions=function("f(dut)", "q = Queue(); q.put_nowait(2); return q")),
    least("a queue as the value of an ended task", 'k = cocotb.start_soon(f(dut)); q = await k; dut._log.info(f"{q.qsize()}")', passing(0, "0 INFO 1"),
          functions=function("f(dut)", "q = Queue(); q.put_nowait(2); return q")),
    raising("a queue is no number", "x = q + 1", "TypeError", "q = Queue(); "),
    raising("a queue has no order", "x = q < q", "TypeError", "q = Queue(); "),
    raising("a queue has no length", "x = len(q)", "TypeError", "q = Queue(); "),
    raising("a queue has no index", "x = q[0]", "TypeError", "q = Queue(); "),
    raising("a queue is no trigger", "await q", "TypeError", "q = Queue(); "),
    raising("a queue in a First", "await First(q)", "TypeError", "q = Queue(); "),
    raising("a queue is no lock", "async with q: { pass }", "TypeError", "q = Queue(); "),
    raising("a queue is no written value", "dut.a.value = q", "TypeError", "q = Queue(); "),
    raising("a queue has no attributes", "x = q.maxsize", "AttributeError", "q = Queue(4); "),
    raising("a method of a queue is no attribute", "x = q.empty", "AttributeError", "q = Queue(4); "),
    raising("a queue is no event", "await q.wait()", "AttributeError", "q = Queue(); "),
    raising("a queue has no join", "await q.join()", "AttributeError", "q = Queue(); "),
    raising("a queue can't be set", "q.set()", "AttributeError", "q = Queue(); "),
    raising("qsize of an event", "x = e.qsize()", "AttributeError", "e = Event(); "),
    raising("empty of a hierarchy", "x = dut.empty()", "AttributeError"),
    raising("full of a number", "x = e.full()", "AttributeError", "e = 5; "),
    raising("a put at once into an event", "e.put_nowait(1)", "AttributeError", "e = Event(); "),
    raising("a get at once from a signal", "x = dut.a.get_nowait()", "AttributeError"),
    raising("a put into a text", 'await e.put(1)', "AttributeError", 'e = "a"; '),
    raising("a get from None", "x = await e.get()", "AttributeError", "e = None; "),
    raising("a started get from a lock", "k = cocotb.start_soon(e.get())", "AttributeError", "e = Lock(); "),
    raising("a put into a task under a limit", 'await with_timeout(e.put(1), 1, "step")', "AttributeError", "e = cocotb.start_soon(f(dut)); ", functions=function("f(dut)", "pass")),
]

FAULTS = [
    least("the text of QueueEmpty and QueueFull is empty", 'q = Queue(1); try: { x = q.get_nowait() } except QueueEmpty as e: { dut._log.info(f"[{e}]") }; q.put_nowait(1); '
          'try: { q.put_nowait(2) } except QueueFull as e: { dut._log.info(f"[{e}]") }', passing(0, "0 INFO []", "0 INFO []")),
    raising("QueueFull that is raised with a text", 'raise QueueFull("no room")', "QueueFull: no room"),
    raising("QueueEmpty that is raised without a text", "raise QueueEmpty", "QueueEmpty"),
    least("one handler for both kinds", "q = Queue(); try: { x = q.get_nowait() } except (QueueFull, QueueEmpty): { " + said("caught") + " }", passing(0, "0 INFO caught")),
    raising("the handler of the other kind doesn't catch it", "try: { x = q.get_nowait() } except QueueFull: { pass }", "QueueEmpty", "q = Queue(); "),
    least("Exception catches QueueEmpty", "q = Queue(); try: { x = q.get_nowait() } except Exception: { " + said("caught") + " }", passing(0, "0 INFO caught")),
    least("a bare handler catches QueueFull", "q = Queue(1); q.put_nowait(1); try: { q.put_nowait(1) } except: { " + said("caught") + " }", passing(0, "0 INFO caught")),
    least("QueueEmpty of a task goes to who joins it", "q = Queue(); k = cocotb.start_soon(f(dut, q)); try: { await k } except QueueEmpty: { " + said("joined") + " }",
          passing(0, "0 INFO joined"), functions=function("f(dut, q)", "return q.get_nowait()")),
    row("QueueFull of a task that nobody joins ends the test", "q = Queue(1); q.put_nowait(1); cocotb.start_soon(f(dut, q)); " + STEP, failing(0, "QueueFull"), (1, 1, 0),
        function("f(dut, q)", "q.put_nowait(2)")),
    Row("a test that expects QueueEmpty", IMPORTS + test("q = Queue(); x = q.get_nowait()", options="expect_error=QueueEmpty"), passing(0), (0, 0, 0)),
    Row("a test that expects QueueEmpty, and gets QueueFull", IMPORTS + test("raise QueueFull", options="expect_error=QueueEmpty"), failing(0, "QueueFull"), (0, 0, 0)),
    Row("a test that expects QueueFull, and passes", IMPORTS + test("pass", options="expect_error=QueueFull"), failing(0, "passed, but QueueFull was expected"), (0, 0, 0)),
]

QUEUES = [*WORKED, *MADE, *NOW, *LIMITS, *COSTS, *WAITING, *KILLED, *ALL_OUT, *TIMED, *STARTED, *VALUES, *FAULTS]
