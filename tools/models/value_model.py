"""A model of the values of tests files and of what is done with them, written from docs/VALUES.md. `tools/models/run_model.py` uses it.

None, truth values, whole numbers and texts are CPython's; vectors, signals and the like have classes here. Faults are CPython's exceptions; the
text of one is a `FaultText` where `raise` or `assert` gave it, and empty otherwise. What needs the running simulation has a `view` as its first
parameter: `view.read(number)` are the digits of a signal, `view.flat` is the design, `view.now` the time in steps.
"""
from models.verilog_model import number

LEAST, MOST = -(2**127), 2**127 - 1
LAST_TIME = 2**62
TEXT_LIMIT = 65536
# the most items that a queue holds
MOST_ITEMS = 65536
UNITS = {"fs": 1, "ps": 10**3, "ns": 10**6, "us": 10**9, "ms": 10**12, "sec": 10**15}


class SimTimeoutError(Exception):
    pass


class TriggerException(Exception):
    pass


class QueueEmpty(Exception):
    pass


class QueueFull(Exception):
    pass


KINDS = {
    kind.__name__: kind
    for kind in (
        AssertionError, AttributeError, IndexError, OverflowError, QueueEmpty, QueueFull, RuntimeError, SimTimeoutError, TriggerException, TypeError,
        UnboundLocalError, ValueError, ZeroDivisionError, Exception,
    )
}


class FaultText(str):
    """The text that a test gave to a fault."""


class Vector:
    def __init__(self, digits):
        self.digits = digits

    def __bool__(self):
        return "1" in self.digits


class Signal:
    def __init__(self, number_, path, width):
        self.number, self.path, self.width = number_, path, width


class Hierarchy:
    def __init__(self, node):
        self.node, self.path = node, node.path


class Memory:
    def __init__(self, first, low, count):
        self.first, self.low, self.count = first, low, count


class Event:
    def __init__(self, number_):
        self.number, self.is_set = number_, False


class Lock:
    def __init__(self, number_):
        self.number, self.is_held = number_, False


class Queue:
    """`bound` is 0 where there is none. Its two events are set while it has an item, and while it isn't full."""

    def __init__(self, number_, bound, items_event, space_event):
        self.number, self.bound, self.held = number_, bound, []
        self.items_event, self.space_event = items_event, space_event
        self.note()

    def is_full(self):
        return self.bound > 0 and len(self.held) >= self.bound

    def note(self):
        """The events become what the items are."""
        self.items_event.is_set, self.space_event.is_set = bool(self.held), not self.is_full()


class Clock:
    def __init__(self, signal, half):
        self.signal, self.half = signal, half


class Task:
    """`state` is live, done, failed or killed; `result` the value or the fault."""

    def __init__(self, number_, coroutine):
        self.number, self.coroutine, self.depth = number_, coroutine, 1
        self.state, self.result = "live", None


class Trigger:
    """`form` names the kind; `parts` are what it is made of."""

    def __init__(self, form, *parts):
        self.form, self.parts = form, parts


SHARED = {"Rise", "Fall", "Change", "ReadWrite", "ReadOnly", "NextStep", "Join"}


# ---- what values are

def fault_text(fault):
    return str(fault.args[0]) if fault.args and isinstance(fault.args[0], FaultText) else ""


def is_numeric(value):
    return isinstance(value, (bool, int, Vector))


def numbers(*values):
    """The numbers of values: TypeErrors before ValueErrors."""
    if not all(map(is_numeric, values)):
        raise TypeError
    found = [number(value.digits) if isinstance(value, Vector) else int(value) for value in values]
    if None in found:
        raise ValueError
    return found


def held(result):
    """A whole number that a value can hold."""
    if not LEAST <= result <= MOST:
        raise OverflowError
    return result


def limited(text):
    if len(text) > TEXT_LIMIT:
        raise OverflowError
    return text


def shown(value):
    match value:
        case None | bool() | int():
            return str(value)
        case str():
            return limited(value)
        case Vector():
            return value.digits
        case BaseException():
            return limited(fault_text(value))
        case Signal() | Hierarchy():
            return limited(value.path)
        case Memory():
            return "<memory>"
        case Clock():
            return "<clock>"
        case Trigger():
            return "<trigger>"
    return f"<{type(value).__name__.lower()} {value.number}>"


def joined(*parts):
    """An f-string."""
    return limited("".join([shown(part) for part in parts]))


# ---- operators

def binary(sign, a, b):
    a, b = numbers(a, b)
    if sign in ("<<", ">>"):
        return moved(sign, a, b)
    if sign in ("//", "%") and b == 0:
        raise ZeroDivisionError
    table = {
        "+": lambda: a + b, "-": lambda: a - b, "*": lambda: a * b, "//": lambda: a // b, "%": lambda: a % b,
        "&": lambda: a & b, "|": lambda: a | b, "^": lambda: a ^ b,
    }
    return held(table[sign]())


def moved(sign, a, count):
    if count < 0:
        raise ValueError
    if sign == ">>":
        return held(a >> min(count, 200))
    if a and count > 127:
        raise OverflowError
    return held(a << count) if a else 0


def unary(sign, a):
    a, = numbers(a)
    return held({"-": -a, "+": a, "~": ~a}[sign])


def same(a, b):
    """`is`."""
    if type(a) is not type(b):
        return False
    match a:
        case None | bool() | int() | str():
            return a == b
        case Vector():
            return a.digits == b.digits
        case BaseException():
            return fault_text(a) == fault_text(b)
        case Signal():
            return a.number == b.number
        case Hierarchy():
            return a.path == b.path
        case Memory():
            return a.first == b.first
        case Clock():
            return (a.signal.number, a.half) == (b.signal.number, b.half)
        case Trigger() if a.form in SHARED:
            return (a.form, a.parts) == (b.form, b.parts)
    return a is b


def equal(view, a, b):
    objects = (Signal, Hierarchy, Memory)
    if isinstance(a, Signal) and not isinstance(b, objects):
        a = Vector(view.read(a.number))
    elif isinstance(b, Signal) and not isinstance(a, objects):
        b = Vector(view.read(b.number))
    if is_numeric(a) and is_numeric(b):
        a, b = numbers(a, b)
        return a == b
    return same(a, b)


def compared(view, sign, a, b):
    if sign in ("is", "is not"):
        return same(a, b) == (sign == "is")
    if sign in ("==", "!="):
        return equal(view, a, b) == (sign == "==")
    a, b = numbers(a, b)
    return {"<": a < b, "<=": a <= b, ">": a > b, ">=": a >= b}[sign]


# ---- attributes, indices, functions

def attribute(view, value, name):
    if isinstance(value, Hierarchy) and name in value.node.children:
        return child(view, value.node.children[name])
    if isinstance(value, (Signal, Hierarchy)) and name in ("_path", "_name"):
        return limited(value.path if name == "_path" else value.path.split(".")[-1])
    if isinstance(value, Signal) and name == "value":
        return Vector(view.read(value.number))
    if isinstance(value, Lock) and name == "locked":
        return value.is_held
    if isinstance(value, Vector):
        return of_vector(value, name)
    raise AttributeError


def child(view, spot):
    if spot[0] == "inner":
        return Hierarchy(spot[1])
    if spot[0] == "words":
        return Memory(*spot[1:])
    return signal_of(view, spot[1])


def signal_of(view, number_):
    signal = view.flat.signals[number_]
    return Signal(number_, signal.path, signal.width)


def of_vector(value, name):
    if name == "binstr":
        return value.digits
    if name == "is_resolvable":
        return number(value.digits) is not None
    if name == "integer":
        return held(numbers(value)[0])
    if name == "signed_integer":
        found = numbers(value)[0]
        return found - 2 ** len(value.digits) if value.digits[0] == "1" else found
    raise AttributeError


def indexed(view, value, index):
    if not isinstance(value, Memory):
        raise TypeError
    at = numbers(index)[0] - value.low
    if not 0 <= at < value.count:
        raise IndexError
    return signal_of(view, value.first + at)


def length(value):
    if not isinstance(value, Signal):
        raise TypeError
    return value.width


def steps_of(view, time, unit="step"):
    """A time in steps. TypeErrors, then ValueErrors, then OverflowError."""
    if not is_numeric(time) or not isinstance(unit, str):
        raise TypeError
    time, = numbers(time)
    if unit != "step" and unit not in UNITS:
        raise ValueError
    steps, rest = (time, 0) if unit == "step" else divmod(time * UNITS[unit], view.flat.step)
    if rest or steps < 1:
        raise ValueError
    if steps > LAST_TIME:
        raise OverflowError
    return steps


def sim_time(view, units="step"):
    if not isinstance(units, str):
        raise TypeError
    if units != "step" and units not in UNITS:
        raise ValueError
    time, rest = (view.now, 0) if units == "step" else divmod(view.now * view.flat.step, UNITS[units])
    if rest:
        raise ValueError
    return held(time)


def written(value, width):
    """The digits that a value has on a signal of that width."""
    if isinstance(value, Vector):
        if len(value.digits) != width:
            raise ValueError
        return value.digits
    if not isinstance(value, (bool, int)):
        raise TypeError
    if not -(2 ** (width - 1)) <= value < 2**width:
        raise OverflowError
    return format(int(value) % 2**width, f"0{width}b")


def bound_of(value):
    """The bound of a queue, 0 where there is none."""
    if not isinstance(value, (bool, int)):
        raise TypeError
    if value > MOST_ITEMS:
        raise ValueError
    return max(int(value), 0)


def in_range(start, stop, step):
    """The numbers of `range`; one that no value can hold is an OverflowError when it is asked for."""
    at = start
    while at < stop if step > 0 else at > stop:
        yield held(at)
        at += step


def range_of(*arguments):
    found = numbers(*arguments)
    start, stop, step = (0, *found, 1) if len(found) == 1 else (*found, 1) if len(found) == 2 else found
    if step == 0:
        raise ValueError
    return in_range(start, stop, step)


# ---- triggers

def single(value):
    if not isinstance(value, Signal) or value.width != 1:
        raise TypeError
    return value


def edge(form):
    def make(signal):
        if form == "Change" and isinstance(signal, Signal):
            return Trigger(form, signal.number)
        return Trigger(form, single(signal).number)
    return make


def cycles(signal, count, rising=True):
    if not is_numeric(count):
        raise TypeError
    signal, (count,) = single(signal), numbers(count)
    if count < 1:
        raise ValueError
    if count > 2**64 - 1:
        raise OverflowError
    return Trigger("Cycles", signal.number, count, bool(rising))


def as_trigger(value):
    if isinstance(value, Task):
        return Trigger("Join", value)
    if not isinstance(value, Trigger):
        raise TypeError
    return value


def measure(trigger):
    """The leaves and the height of a trigger."""
    if trigger.form not in ("First", "Combine", "Limit"):
        return 1, 1
    parts = trigger.parts[0] if trigger.form != "Limit" else [trigger.parts[0]]
    found = [measure(part) for part in parts]
    return sum(size for size, _ in found) + (trigger.form == "Limit"), 1 + max((high for _, high in found), default=0)


def whole(trigger):
    leaves, height = measure(trigger)
    if not 1 <= leaves <= 64 or height > 64:
        raise ValueError
    return trigger


def group(form):
    def make(*parts):
        return whole(Trigger(form, [as_trigger(part) for part in parts]))
    return make


def join(task):
    if not isinstance(task, Task):
        raise TypeError
    return Trigger("Join", task)


def clock(view, signal, period, units="step"):
    if not is_numeric(period) or not isinstance(units, str):
        raise TypeError
    signal = single(signal)
    time, = numbers(period)
    try:
        steps = steps_of(view, time, units)
    except OverflowError:
        steps = time if units == "step" else time * UNITS[units] // view.flat.step
    if steps % 2:
        raise ValueError
    if steps > LAST_TIME:
        raise OverflowError
    return Clock(signal, steps // 2)


def method(value, name):
    """A call without arguments that gives a value."""
    wanted = {"wait": Event, "is_set": Event, "acquire": Lock, "join": Task, "done": Task, "qsize": Queue, "empty": Queue, "full": Queue}[name]
    if not isinstance(value, wanted):
        raise AttributeError
    match name:
        case "wait":
            return Trigger("Event", value)
        case "is_set":
            return value.is_set
        case "acquire":
            return Trigger("Lock", value)
        case "join":
            return Trigger("Join", value)
        case "qsize":
            return len(value.held)
        case "empty":
            return not value.held
        case "full":
            return value.is_full()
    return value.state != "live"
