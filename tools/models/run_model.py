#!/usr/bin/env python3
"""A model of the runner of tests files: what a run of tests on a design writes, and what it costs.

    tools/models/run_model.py [--top NAME] [--budget N] [--seed N] [--trace] [--counts] DESIGN TESTS

It is written from the rules of tasks, triggers and turns, apart from the definitions and the code of the crates. A tests file runs as CPython's
own coroutines: `ast` reads it, each form whose meaning is not CPython's is put in place of a call of this script (`Forms`), each statement that
costs counts itself, and CPython does all of control: loops, calls, `try`, `return`. Awaiting asks the run (`Run`) whether it has to wait; only
then the coroutine gives up its turn. Designs are those of `tools/models/verilog_model.py`, values those of `tools/models/value_model.py`.

It takes accepted files only: no refusal is told. With `--counts` a last line tells the keys that were registered, removed and fired, and the cost.
"""
import argparse
import ast
import itertools
import sys
from pathlib import Path

ROOT = Path(__file__).resolve().parents[2]
sys.path.insert(0, str(ROOT / "tools"))

from models.random_rows import Generator
import models.value_model as values
from models.value_model import KINDS, Event, Hierarchy, Lock, Queue, QueueEmpty, QueueFull, Signal, SimTimeoutError, Task, Trigger, TriggerException
from models.verilog_model import Simulator, flat_of

LIVE_TASKS, STARTED_TASKS, OPEN_CALLS, MADE_OBJECTS = 65536, 2**24, 1000, 65536
sys.setrecursionlimit(50000)

CLOCK_START = """
async def start(s, half, first, cycles):
    n = 0
    while cycles is None or n < cycles:
        s.value = first
        await Timer(half, "step")
        s.value = 1 - first
        await Timer(half, "step")
        n = n + 1
"""


class Spent(BaseException):
    """The next step doesn't fit into the budget."""


class Ended(BaseException):
    """The test has its outcome: a fault, `normal`, `stalled`, or the path of a signal that was written in the read-only phase."""

    def __init__(self, kind, what=None):
        self.kind, self.what = kind, what


# ---- what a task waits for

class Given:
    """What an await gives: a value or a fault."""

    def __init__(self, value=None, fault=None):
        self.value, self.fault = value, fault

    def take(self):
        if self.fault is not None:
            raise self.fault
        return self.value


def joined(task):
    return Given(fault=task.result) if task.state == "failed" else Given(task.result)


class Leaf:
    """A key, an event, a lock or a task, that is waited for once or, by a `ClockCycles`, several times."""

    def __init__(self, trigger, cause, count=1):
        self.trigger, self.cause, self.left, self.over = trigger, cause, count, None

    def leaves(self):
        return [] if self.over else [self.cause]

    def reached(self):
        kind, what = self.cause[0], self.cause[-1]
        self.over = joined(what) if kind == "Join" else Given(self.trigger)

    def begin(self):
        kind, what = self.cause[0], self.cause[-1]
        if kind == "Event" and what.is_set or kind == "Join" and what.state != "live" or kind == "Lock" and not what.is_held:
            self.reached()
        if kind == "Lock":
            what.is_held = True

    def fire(self, cause):
        if not self.over and cause == self.cause:
            self.left -= 1
            if not self.left:
                self.reached()

    grant = fire


class First:
    def __init__(self, parts):
        self.parts, self.over = parts, None

    def leaves(self):
        return [] if self.over else [leaf for part in self.parts for leaf in part.leaves()]

    def settle(self):
        self.over = self.over or next((part.over for part in self.parts if part.over), None)

    def begin(self):
        for part in self.parts:
            part.begin()
            if part.over:
                break
        self.settle()

    def fire(self, cause):
        for part in self.parts:
            part.fire(cause)
        self.settle()

    def grant(self, cause):
        next(part for part in self.parts if cause in part.leaves()).grant(cause)
        self.settle()


class Combine(First):
    def __init__(self, trigger, parts):
        super().__init__(parts)
        self.trigger = trigger

    def settle(self):
        fault = next((part.over for part in self.parts if part.over and part.over.fault), None)
        is_done = all(part.over for part in self.parts)
        self.over = self.over or fault or (Given(self.trigger) if is_done else None)

    def begin(self):
        for part in self.parts:
            part.begin()
        self.settle()


class Limit(First):
    def __init__(self, inner, due):
        super().__init__([inner])
        self.due = ("At", due)

    def leaves(self):
        return [] if self.over else [*self.parts[0].leaves(), self.due]

    def fire(self, cause):
        super().fire(cause)
        if not self.over and cause == self.due:
            self.over = Given(fault=SimTimeoutError())


def tree_of(trigger, now):
    form, parts = trigger.form, trigger.parts
    match form:
        case "Time":
            return Leaf(trigger, ("At", now + parts[0]))
        case "Cycles":
            return Leaf(trigger, ("Rise" if parts[2] else "Fall", parts[0]), parts[1])
        case "First":
            return First([tree_of(part, now) for part in parts[0]])
        case "Combine":
            return Combine(trigger, [tree_of(part, now) for part in parts[0]])
        case "Limit":
            return Limit(tree_of(parts[0], now), now + parts[1])
    return Leaf(trigger, (form, *parts))


KEYS = {"At", "Rise", "Fall", "Change", "ReadWrite", "ReadOnly", "NextStep"}


class Waiting:
    def __init__(self, task, tree):
        self.task, self.tree = task, tree


class Wait:
    """An awaitable: it gives up the turn only where the run says that there is something to wait for."""

    def __init__(self, asked):
        self.asked = asked

    def __await__(self):
        given = self.asked()
        if given is None:
            given = yield
        return given.take()


class Log:
    """A logger: what stands before `.info`."""


class Action(tuple):
    """A write that is no value: `force` and what is forced, `freeze`, or `release`."""


class Holding:
    """`async with`: the lock is released however the block is left, but not where the task is killed or the run is over."""

    def __init__(self, run, lock):
        if not isinstance(lock, Lock):
            raise TypeError
        self.run, self.lock = run, lock

    async def __aenter__(self):
        await self.run.wait(Trigger("Lock", self.lock))

    async def __aexit__(self, kind, fault, trace):
        if kind is None or issubclass(kind, Exception):
            self.run.release(self.lock)


# ---- a run

class Run:
    """One run of some tests on a design. The calls down to `randint` are what the text of a test comes to."""

    def __init__(self, flat, tests, budget=10_000_000, seed=0, trace=False):
        self.flat, self.simulator, self.budget, self.trace = flat, Simulator(flat), budget, trace
        self.generator = Generator.of_seed(seed)
        self.lines, self.spent, self.passed, self.failed, self.skipped = [], 0, 0, 0, 0
        self.status = None
        self.waiting, self.ready, self.staged, self.serving = [], [], {}, []
        self.deadline = self.planned = None
        self.watched = []
        self.clear()
        self.file = File(self, tests)

    def clear(self):
        self.tasks, self.events, self.locks, self.queues, self.running = [], 0, 0, 0, None
        self.live = 0

    @property
    def now(self):
        return self.simulator.time

    def read(self, signal):
        return self.simulator.values[signal]

    def line(self, text):
        self.lines.append(f"{self.now} {text}" if not text.startswith(("**", "BUDGET")) else text)

    def cost(self):
        if self.spent >= self.budget:
            raise Spent
        self.spent += 1
        return True

    # keys

    def awaited(self):
        keys = {leaf for waiting in self.waiting for leaf in waiting.tree.leaves() if leaf[0] in KEYS}
        if self.staged:
            keys.add(("ReadWrite",))
        keys.update(("At", time) for time in (self.deadline, self.planned) if time is not None)
        return keys.difference(self.serving)

    def watch(self):
        """Keeps the keys that are awaited after a turn: as many as were registered and neither removed nor fired."""
        keys, simulator = self.awaited(), self.simulator
        assert keys == simulator.keys and len(keys) == simulator.primed - simulator.removed - simulator.fired
        self.watched.append(sorted(keys))

    def effect(self):
        """The registered keys become the awaited ones."""
        awaited, registered = self.awaited(), set(self.simulator.keys)
        for key in registered - awaited:
            self.simulator.remove(key)
        for key in awaited - registered:
            self.simulator.register(key)

    def wake(self, cause):
        """Serves what waits for a cause, in the order in which it began to wait."""
        still = []
        for waiting in self.waiting:
            waiting.tree.fire(cause)
            if waiting.tree.over:
                self.ready.append((waiting.task, waiting.tree.over))
            else:
                still.append(waiting)
        self.waiting = still

    def told(self, moved):
        if moved.change and self.trace:
            signal, digits = moved.change
            self.line(f"SIG {self.flat.signals[signal].path} {digits}")

    def done(self, signal, write):
        """A write that is done: a deposit, or a force, a freeze or a release, which counts as one."""
        act, digits = write
        if act == "release":
            moved = self.simulator.release(signal)
        elif act == "plain":
            moved = self.simulator.deposit(signal, digits)
        else:
            moved = self.simulator.force(signal, self.read(signal) if act == "freeze" else digits)
        self.told(moved)
        outer, self.serving = self.serving, self.serving + moved.fired
        for key in moved.fired:
            self.wake(key)
        self.serving = outer
        self.effect()

    def serve(self, keys):
        self.serving = list(keys)
        is_late, is_due = ("At", self.deadline) in keys, ("At", self.planned) in keys
        self.deadline = None if is_late else self.deadline
        self.planned = None if is_due else self.planned
        if ("ReadWrite",) in keys:
            while self.staged:
                signal = next(iter(self.staged))
                self.done(signal, self.staged.pop(signal))
        for key in keys:
            self.wake(key)
        self.serving = []
        self.effect()
        if is_late:
            raise Ended("fault", SimTimeoutError())
        return is_due

    def event(self):
        """One event of the simulator; whether the planned start fired."""
        if self.simulator.is_idle():
            raise Ended("stalled")
        self.cost()
        moved = self.simulator.advance()
        self.told(moved)
        return self.serve(moved.fired)

    # tasks

    def start(self, coroutine):
        if self.live >= LIVE_TASKS or len(self.tasks) >= STARTED_TASKS:
            coroutine.close()
            raise RuntimeError
        task = Task(len(self.tasks), coroutine)
        self.tasks.append(task)
        self.live += 1
        self.ready.append((task, None))
        return task

    def give_way(self, coroutine):
        """`await cocotb.start(..)`."""
        def asked():
            task = self.start(coroutine)
            self.ready.append((self.running, Given(task)))
        return Wait(asked)

    def turn(self):
        """One turn of the first ready task."""
        task, given = self.ready.pop(0)
        self.running = task
        try:
            task.coroutine.send(given)
        except StopIteration as end:
            self.end(task, "done", end.value)
        except Exception as fault:
            self.end(task, "failed", fault)
        self.running = None

    def end(self, task, state, result):
        task.state, task.result = state, result
        self.live -= 1
        cause = ("Join", task)
        is_joined = any(cause in waiting.tree.leaves() for waiting in self.waiting)
        self.wake(cause)
        self.effect()
        if state == "failed" and not is_joined:
            raise Ended("fault", result)
        if state == "done" and task.number == 0:
            raise Ended("normal")

    def kill(self, task):
        if task.state != "live":
            return
        if task is self.running:
            raise RuntimeError
        self.ready = [entry for entry in self.ready if entry[0] is not task]
        self.waiting = [waiting for waiting in self.waiting if waiting.task is not task]
        task.coroutine.close()
        self.end(task, "killed", None)

    def begin(self, trigger):
        """The running task begins to wait; what is given where it needn't."""
        tree = tree_of(trigger, self.now)
        for leaf in tree.leaves():
            if leaf[0] == "At" and leaf[1] > values.LAST_TIME:
                raise OverflowError
            if leaf[0] in ("ReadWrite", "ReadOnly") and self.simulator.region == "End":
                raise RuntimeError
        tree.begin()
        if tree.over:
            return tree.over
        self.waiting.append(Waiting(self.running, tree))
        self.effect()

    def wait(self, value):
        """`await` of a trigger or a task."""
        trigger = values.as_trigger(value)
        return Wait(lambda: self.begin(trigger))

    async def call(self, coroutine):
        """`await f(..)`: the call runs in the same task."""
        task = self.running
        if task.depth >= OPEN_CALLS:
            coroutine.close()
            raise RuntimeError
        task.depth += 1
        try:
            return await coroutine
        finally:
            task.depth -= 1

    async def limit(self, what, time, unit="step"):
        """`await with_timeout(..)`."""
        is_call = hasattr(what, "send")
        try:
            trigger = None if is_call else values.as_trigger(what)
            steps = values.steps_of(self, time, unit)
            if not is_call:
                values.whole(Trigger("Limit", trigger, steps))
        except Exception:
            if is_call:
                what.close()
            raise
        if not is_call:
            return await self.wait(Trigger("Limit", trigger, steps))
        task = self.start(what)
        try:
            return await self.wait(Trigger("Limit", Trigger("Join", task), steps))
        except SimTimeoutError:
            self.kill(task)
            raise

    # what else a test does

    def stage(self, value, signal):
        write = self.write_of(signal, value)
        self.staged.pop(signal.number, None)
        self.staged[signal.number] = write
        self.effect()

    def put(self, signal, value):
        self.done(signal.number, self.write_of(signal, value))

    def write_of(self, signal, value):
        """What is done to a signal, and the digits that this takes. A good write in the read-only phase ends the test."""
        if not isinstance(signal, Signal):
            raise AttributeError
        act, *given = value if isinstance(value, Action) else ("plain", value)
        digits = values.written(given[0], signal.width) if given else None
        if self.simulator.region == "End":
            raise Ended("read-only", signal.path)
        return act, digits

    def act(self, value, name):
        wanted = {"set": Event, "clear": Event, "release": Lock, "kill": Task}[name]
        if not isinstance(value, wanted):
            raise AttributeError
        if name == "kill":
            return self.kill(value)
        if name == "release":
            return self.release(value)
        value.is_set = name == "set"
        if value.is_set:
            self.wake(("Event", value))
        self.effect()

    def release(self, lock):
        if not lock.is_held:
            raise TriggerException
        cause = ("Lock", lock)
        for at, waiting in enumerate(self.waiting):
            if cause in waiting.tree.leaves():
                waiting.tree.grant(cause)
                if waiting.tree.over:
                    del self.waiting[at]
                    self.ready.append((waiting.task, waiting.tree.over))
                break
        else:
            lock.is_held = False
        self.effect()

    def event_made(self, *text):
        if self.events >= MADE_OBJECTS:
            raise RuntimeError
        self.events += 1
        return Event(self.events - 1)

    def queue_made(self, maxsize=0):
        """A queue, which takes two of the numbers of events."""
        bound = values.bound_of(maxsize)
        if self.events + 2 > MADE_OBJECTS:
            raise RuntimeError
        made = Queue(self.queues, bound, Event(self.events), Event(self.events + 1))
        self.events, self.queues = self.events + 2, self.queues + 1
        return made

    def put_now(self, queue, item):
        self.queue(queue)
        if queue.is_full():
            raise QueueFull
        if len(queue.held) >= values.MOST_ITEMS:
            raise RuntimeError
        queue.held.append(item)
        self.noted(queue)

    def get_now(self, queue):
        self.queue(queue)
        if not queue.held:
            raise QueueEmpty
        item = queue.held.pop(0)
        self.noted(queue)
        return item

    def queue(self, value):
        if not isinstance(value, Queue):
            raise AttributeError

    def noted(self, queue):
        """Items came or went: an event that is set by that serves its waiters."""
        before = [event for event in (queue.items_event, queue.space_event) if event.is_set]
        queue.note()
        for event in (queue.items_event, queue.space_event):
            if event.is_set and event not in before:
                self.wake(("Event", event))
        self.effect()

    def queue_put(self, queue, item):
        """The call `queue.put(item)`: the coroutine."""
        self.queue(queue)
        return self.putting(queue, item)

    def queue_get(self, queue):
        self.queue(queue)
        return self.getting(queue)

    async def putting(self, queue, item):
        """`while queue.full():` wait for space; `queue.put_nowait(item)`."""
        while self.cost() and queue.is_full():
            self.cost()
            await self.wait(Trigger("Event", queue.space_event))
        self.cost()
        self.put_now(queue, item)

    async def getting(self, queue):
        """`while queue.empty():` wait for an item; `return queue.get_nowait()`."""
        while self.cost() and not queue.held:
            self.cost()
            await self.wait(Trigger("Event", queue.items_event))
        self.cost()
        return self.get_now(queue)

    def lock_made(self, *text):
        if self.locks >= MADE_OBJECTS:
            raise RuntimeError
        self.locks += 1
        return Lock(self.locks - 1)

    def logger(self, value):
        if not isinstance(value, Hierarchy):
            raise AttributeError
        return Log()

    def log(self, logger, level, text, *arguments):
        if arguments:
            parts = text.split("%s")
            text = values.limited("".join(part for pair in itertools.zip_longest(parts, map(values.shown, arguments), fillvalue="") for part in pair))
        self.line(f"{level.upper()} {values.shown(text)}")

    def randint(self, low, high):
        low, high = values.numbers(low, high)
        if not 1 <= high - low + 1 <= 2**32:
            raise ValueError
        values.held(low), values.held(high)
        return self.generator.randint(low, high)

    def clock_start(self, clock, cycles=None, start_high=True):
        if not isinstance(clock, values.Clock):
            raise AttributeError
        return self.file.clock_start(clock.signal, clock.half, 1 if start_high else 0, cycles)

    def each(self, numbers):
        """What a `for` goes over. The first question was paid where its arguments were evaluated."""
        for number in numbers:
            yield number
            self.cost()

    # tests

    def run(self):
        try:
            self.run_all()
        except Spent:
            self.line(f"BUDGET {self.budget}")
            self.status = "Budget"
            self.close()
        return self

    def run_all(self):
        is_first = True
        for case in self.file.cases():
            if case.options.get("skip"):
                self.line(f"SKIP {case.name}")
                self.skipped += 1
                continue
            if not is_first:
                self.next_start()
            is_first = False
            self.run_test(case)
        total = self.passed + self.failed + self.skipped
        self.line(f"** TESTS={total} PASS={self.passed} FAIL={self.failed} SKIP={self.skipped} TIME={self.now} **")
        self.status = "Failed" if self.failed else "Passed"

    def next_start(self):
        self.planned = self.now + 1
        self.effect()
        while not self.event():
            pass

    def run_test(self, case):
        try:
            self.begin_test(case)
            while True:
                if self.ready:
                    self.turn()
                else:
                    self.event()
                self.watch()
        except Ended as end:
            self.drop()
            reason = refusal(end, case.options)
        self.passed, self.failed = self.passed + (reason is None), self.failed + (reason is not None)
        self.line(f"PASS {case.name}" if reason is None else f"FAIL {case.name} ({reason})")

    def begin_test(self, case):
        self.line(f"TEST {case.name}")
        self.start(case.make(Hierarchy(self.flat.top)))
        if "timeout_time" in case.options:
            try:
                due = self.now + values.steps_of(self, case.options["timeout_time"], case.options.get("timeout_unit", "step"))
            except Exception as fault:
                raise Ended("fault", fault) from None
            self.deadline = due if due <= values.LAST_TIME else None
        self.effect()

    def drop(self):
        """The end of a test: all of it is dropped as one effect."""
        self.waiting, self.ready, self.staged, self.serving, self.deadline = [], [], {}, [], None
        self.close()
        self.clear()
        self.effect()

    def close(self):
        for task in self.tasks:
            if task.state == "live":
                task.coroutine.close()


def refusal(end, options):
    """The reason for which a test with this end failed, or None."""
    wanted, is_wanted = options.get("expect_error"), options.get("expect_fail", False)
    if end.kind == "normal":
        return "passed, but a failure was expected" if is_wanted else f"passed, but {wanted.__name__} was expected" if wanted else None
    if end.kind == "stalled":
        return "Stalled"
    if end.kind == "read-only":
        return f"ReadOnlyWrite: {end.what}"
    kind, text = type(end.what), values.fault_text(end.what)
    if is_wanted and kind is AssertionError or wanted in (kind, Exception):
        return None
    return f"{kind.__name__}: {text}" if text else kind.__name__


# ---- a tests file

class Case:
    def __init__(self, name, function, options, arguments):
        self.name, self.function, self.options, self.arguments = name, function, options, arguments

    def make(self, top):
        return self.function(top, **self.arguments)


class Factory:
    def __init__(self, file, test_function):
        self.file, self.function, self.options = file, test_function, []
        file.named.add(test_function)

    def add_option(self, name, optionlist):
        self.options.append((name, optionlist))

    def generate_tests(self, prefix="", postfix=""):
        names = [name for name, _ in self.options]
        for at, chosen in enumerate(itertools.product(*[each for _, each in self.options]), 1):
            name = f"{prefix}{self.function.__name__}{postfix}_{at:03d}"
            self.file.listed.append((False, Case(name, self.function, getattr(self.function, "options", {}), dict(zip(names, chosen)))))


class File:
    """What a tests text stands for: the names of its module and its tests, in order."""

    def __init__(self, run, text):
        self.listed, self.named = [], set()
        tree = ast.parse(text)
        functions = {node.name for node in tree.body if isinstance(node, ast.AsyncFunctionDef)}
        self.names = names_for(run, self)
        exec(compile(Forms(set()).module(ast.parse(CLOCK_START)), "clock", "exec"), self.names)
        self.clock_start = self.names.pop("start")
        exec(compile(Forms(functions).module(tree), "t.py", "exec"), self.names)

    def cases(self):
        return [case for is_plain, case in self.listed if not (is_plain and case.function in self.named)]

    def test(self, **options):
        def decorate(function):
            function.options = options
            self.listed.append((True, Case(function.__name__, function, options, {})))
            return function
        return decorate


class Space:
    def __init__(self, **names):
        self.__dict__.update(names)


def names_for(run, file):
    """The names of a module: those of a tests file's imports, those that are built in, and `run_` with the calls that stand for forms."""
    return {
        **KINDS, "cocotb": Space(test=file.test), "TestFactory": lambda test_function: Factory(file, test_function),
        "run_": run, "holding_": lambda lock: Holding(run, lock), "action_": Action, "values_": values, "view_": run,
        "attribute_": lambda value, name: values.attribute(run, value, name),
        "int": lambda value: values.held(values.numbers(value)[0]), "str": values.shown, "bool": lambda value: bool(value), "len": values.length,
        "Timer": lambda time, units="step": Trigger("Time", values.steps_of(run, time, units)),
        "Edge": values.edge("Change"), "RisingEdge": values.edge("Rise"), "FallingEdge": values.edge("Fall"),
        "ReadWrite": lambda: Trigger("ReadWrite"), "ReadOnly": lambda: Trigger("ReadOnly"), "NextTimeStep": lambda: Trigger("NextStep"),
        "ClockCycles": values.cycles, "Join": values.join, "First": values.group("First"), "Combine": values.group("Combine"),
        "Clock": lambda signal, period, units="step": values.clock(run, signal, period, units),
        "get_sim_time": lambda units="step": values.sim_time(run, units), "Event": run.event_made, "Lock": run.lock_made, "Queue": run.queue_made,
    }


# ---- forms

SIGNS = {
    ast.Add: "+", ast.Sub: "-", ast.Mult: "*", ast.FloorDiv: "//", ast.Mod: "%", ast.BitAnd: "&", ast.BitOr: "|", ast.BitXor: "^",
    ast.LShift: "<<", ast.RShift: ">>", ast.USub: "-", ast.UAdd: "+", ast.Invert: "~", ast.Eq: "==", ast.NotEq: "!=", ast.Lt: "<",
    ast.LtE: "<=", ast.Gt: ">", ast.GtE: ">=", ast.Is: "is", ast.IsNot: "is not",
}
FUNCTIONS = {
    "int", "str", "bool", "len", "get_sim_time", "Timer", "Edge", "RisingEdge", "FallingEdge", "ReadWrite", "ReadOnly", "NextTimeStep",
    "ClockCycles", "Join", "First", "Combine", "Clock",
}
METHODS, ACTIONS = {"wait", "acquire", "join", "is_set", "done", "qsize", "empty", "full"}, {"set", "clear", "release", "kill"}
# the calls of an object that are started, with their numbers of arguments
STARTS = {"put": 1, "get": 0}
SIMPLE = (ast.Pass, ast.Break, ast.Continue, ast.Return, ast.Raise, ast.Assert, ast.Assign, ast.AugAssign, ast.Expr)


def named(path):
    """An expression of names with points between."""
    first, *rest = path.split(".")
    found = ast.Name(first, ast.Load())
    for name in rest:
        found = ast.Attribute(found, name, ast.Load())
    return found


def called(path, *arguments, keywords=()):
    return ast.Call(named(path), list(arguments), list(keywords))


def said(value):
    return ast.Constant(value)


def paid(tree):
    """The tree, evaluated after its cost was counted."""
    return ast.BoolOp(ast.And(), [called("run_.cost"), tree])


def is_call(tree, *path):
    """Is it a call of names with points between?"""
    return isinstance(tree, ast.Call) and ast.unparse(tree.func) in path


class Forms:
    """Puts calls of the run in place of the forms of a tests file. A form that no tests file has is refused."""

    def __init__(self, functions):
        self.functions = functions

    def module(self, tree):
        kept = [node for node in tree.body if not isinstance(node, (ast.Import, ast.ImportFrom))]
        body = [self.function(node) if isinstance(node, ast.AsyncFunctionDef) else node for node in kept]
        return ast.fix_missing_locations(ast.Module(body, []))

    def function(self, node):
        return ast.AsyncFunctionDef(node.name, node.args, self.block(node.body), node.decorator_list)

    def block(self, body):
        found = []
        for node in body:
            is_docstring = isinstance(node, ast.Expr) and isinstance(node.value, ast.Constant)
            if isinstance(node, (ast.AsyncWith, *SIMPLE)) and not is_docstring:
                found.append(ast.Expr(called("run_.cost")))
            found.append(ast.Pass() if is_docstring else self.statement(node))
        return found

    def statement(self, node):
        match node:
            case ast.Pass() | ast.Break() | ast.Continue():
                return node
            case ast.Return():
                return ast.Return(node.value and self.right(node.value))
            case ast.Raise(exc=ast.Name()):
                return ast.Raise(ast.Call(node.exc, [], []))
            case ast.Raise(exc=ast.Call(args=[text])):
                return ast.Raise(ast.Call(node.exc.func, [self.text(text)], []))
            case ast.Assert():
                return ast.Assert(self.value(node.test), node.msg and self.text(node.msg))
            case ast.Assign(targets=[ast.Name()]):
                return ast.Assign(node.targets, self.right(node.value))
            case ast.Assign(targets=[ast.Attribute(attr="value")]):
                return ast.Expr(called("run_.stage", self.write(node.value) or self.right(node.value), self.value(node.targets[0].value)))
            case ast.AugAssign(target=ast.Name()):
                old = ast.Name(node.target.id, ast.Load())
                return ast.Assign([node.target], called("values_.binary", said(SIGNS[type(node.op)]), old, self.value(node.value)))
            case ast.Expr(value=ast.Await()):
                return ast.Expr(self.awaited(node.value.value))
            case ast.Expr(value=ast.Call()):
                return ast.Expr(self.action(node.value))
        return self.compound(node)

    def compound(self, node):
        match node:
            case ast.If():
                inner = node.orelse
                is_chain = len(inner) == 1 and isinstance(inner[0], ast.If)
                return ast.If(paid(self.value(node.test)), self.block(node.body), [self.statement(inner[0])] if is_chain else self.block(inner))
            case ast.While(orelse=[]):
                return ast.While(paid(self.value(node.test)), self.block(node.body), [])
            case ast.For(target=ast.Name(), orelse=[]):
                return ast.For(node.target, called("run_.each", paid(self.gone_over(node.iter))), self.block(node.body), [])
            case ast.Try(orelse=[], finalbody=[]):
                return ast.Try(self.block(node.body), [self.handler(each) for each in node.handlers], [], [])
            case ast.AsyncWith(items=[ast.withitem(optional_vars=None)]):
                held = called("holding_", self.value(node.items[0].context_expr))
                return ast.AsyncWith([ast.withitem(held)], self.block(node.body))
        raise NotImplementedError(ast.unparse(node))

    def handler(self, node):
        return ast.ExceptHandler(node.type or ast.Name("Exception", ast.Load()), node.name, self.block(node.body))

    def gone_over(self, node):
        return called("values_.range_of", *map(self.value, node.args)) if is_call(node, "range") else ast.List(node.elts, ast.Load())

    def text(self, node):
        return called("values_.FaultText", called("values_.shown", self.value(node)))

    def started(self, node):
        """A call that is started: the coroutine."""
        keywords = [ast.keyword(each.arg, self.value(each.value)) for each in node.keywords]
        arguments = [self.value(each) for each in node.args]
        if isinstance(node.func, ast.Name):
            return ast.Call(node.func, arguments, keywords)
        if node.func.attr in STARTS:
            if keywords or len(arguments) != STARTS[node.func.attr]:
                raise NotImplementedError(ast.unparse(node))
            return called(f"run_.queue_{node.func.attr}", self.value(node.func.value), *arguments)
        return called("run_.clock_start", self.value(node.func.value), *arguments, keywords=keywords)

    def is_started(self, node):
        """Is it a call of a function of the file, of a clock's `start`, or of a queue's `put` or `get`?"""
        if not isinstance(node, ast.Call):
            return False
        if isinstance(node.func, ast.Name):
            return node.func.id in self.functions
        return isinstance(node.func, ast.Attribute) and node.func.attr in ("start", *STARTS)

    def write(self, node):
        """A write that is no value, or None."""
        if is_call(node, "Force") and len(node.args) == 1 and not node.keywords:
            return called("action_", ast.Tuple([said("force"), self.value(node.args[0])], ast.Load()))
        if is_call(node, "Freeze", "Release") and not (node.args or node.keywords):
            return called("action_", ast.Tuple([said(node.func.id.lower())], ast.Load()))
        return None

    def awaited(self, node):
        if is_call(node, "cocotb.start"):
            return ast.Await(called("run_.give_way", self.started(node.args[0])))
        if is_call(node, "with_timeout"):
            first = self.started(node.args[0]) if self.is_started(node.args[0]) else self.value(node.args[0])
            keywords = [ast.keyword("unit", self.value(each.value)) for each in node.keywords]
            return ast.Await(called("run_.limit", first, *map(self.value, node.args[1:]), keywords=keywords))
        if self.is_started(node):
            return ast.Await(called("run_.call", self.started(node)))
        return ast.Await(called("run_.wait", self.value(node)))

    def right(self, node):
        """What stands behind `=` or `return`."""
        if isinstance(node, ast.Await):
            return self.awaited(node.value)
        if is_call(node, "cocotb.start_soon"):
            return called("run_.start", self.started(node.args[0]))
        if is_call(node, "random.randint"):
            return called("run_.randint", *map(self.value, node.args))
        if is_call(node, "Event", "Lock"):
            return ast.Call(node.func, [], [])
        return self.of_queue(node) or self.value(node)

    def of_queue(self, node):
        """A queue that is made, what is got from one at once, or None."""
        if is_call(node, "Queue") and len(node.args) + len(node.keywords) <= 1:
            bound = [ast.keyword(each.arg, self.value(each.value)) for each in node.keywords]
            return ast.Call(node.func, list(map(self.value, node.args)), bound)
        is_method = isinstance(node, ast.Call) and isinstance(node.func, ast.Attribute) and not (node.args or node.keywords)
        if is_method and node.func.attr == "get_nowait":
            return called("run_.get_now", self.value(node.func.value))
        return None

    def action(self, node):
        """A call that is a statement."""
        if is_call(node, "cocotb.start_soon"):
            return self.right(node)
        on, name = node.func.value, node.func.attr
        if name == "setimmediatevalue":
            return called("run_.put", self.value(on), self.write(node.args[0]) or self.value(node.args[0]))
        if name == "put_nowait" and len(node.args) == 1 and not node.keywords:
            return called("run_.put_now", self.value(on), self.value(node.args[0]))
        if name in ACTIONS:
            return called("run_.act", self.value(on), said(name))
        if name not in ("info", "warning", "error"):
            raise NotImplementedError(ast.unparse(node))
        logger = said(None) if ast.unparse(on) == "cocotb.log" else called("run_.logger", self.value(on.value))
        return called("run_.log", logger, said(name), *map(self.value, node.args))

    def value(self, node):
        match node:
            case ast.Constant() | ast.Name():
                return node
            case ast.BinOp():
                return called("values_.binary", said(SIGNS[type(node.op)]), self.value(node.left), self.value(node.right))
            case ast.UnaryOp(op=ast.Not()):
                return ast.UnaryOp(node.op, self.value(node.operand))
            case ast.UnaryOp():
                return called("values_.unary", said(SIGNS[type(node.op)]), self.value(node.operand))
            case ast.BoolOp():
                return ast.BoolOp(node.op, list(map(self.value, node.values)))
            case ast.Compare(ops=[sign], comparators=[right]):
                return called("values_.compared", named("view_"), said(SIGNS[type(sign)]), self.value(node.left), self.value(right))
            case ast.Attribute():
                return called("attribute_", self.value(node.value), said(node.attr))
            case ast.Subscript():
                return called("values_.indexed", named("view_"), self.value(node.value), self.value(node.slice))
            case ast.JoinedStr():
                return called("values_.joined", *[self.value(part) for part in node.values])
            case ast.FormattedValue(conversion=-1, format_spec=None):
                return self.value(node.value)
            case ast.Call():
                return self.function_call(node)
        raise NotImplementedError(ast.unparse(node))

    def function_call(self, node):
        arguments = list(map(self.value, node.args))
        if isinstance(node.func, ast.Name) and node.func.id in FUNCTIONS:
            return ast.Call(node.func, arguments, [ast.keyword(each.arg, self.value(each.value)) for each in node.keywords])
        if isinstance(node.func, ast.Attribute) and node.func.attr in METHODS and not arguments:
            return called("values_.method", self.value(node.func.value), said(node.func.attr))
        raise NotImplementedError(ast.unparse(node))


def model(design, tests, budget=10_000_000, seed=0, trace=False, top=None):
    """The run of a tests text on a design's text."""
    return Run(flat_of(design, top), tests, budget, seed, trace).run()


def counts(run):
    return run.simulator.primed, run.simulator.removed, run.simulator.fired


def main():
    words = argparse.ArgumentParser(description=__doc__.splitlines()[0])
    words.add_argument("--top")
    words.add_argument("--budget", type=int, default=10_000_000)
    words.add_argument("--seed", type=int, default=0)
    words.add_argument("--trace", action="store_true")
    words.add_argument("--counts", action="store_true")
    words.add_argument("design")
    words.add_argument("tests")
    given = words.parse_args()
    design, tests = (Path(name).read_text(encoding="latin-1") for name in (given.design, given.tests))
    run = model(design, tests, given.budget, given.seed, given.trace, given.top)
    print("\n".join(run.lines))
    if given.counts:
        print(counts(run), run.spent)
    return {"Passed": 0, "Failed": 1, "Budget": 8}[run.status]


if __name__ == "__main__":
    sys.exit(main())
