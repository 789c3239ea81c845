#!/usr/bin/env python3
"""A model of Verilog designs: what a text stands for, and how a simulation of it goes on, event by event.

    tools/models/verilog_model.py          compares itself with tools/data/elaboration_values.txt and tools/data/delay_values.txt

It is written from docs/VERILOG.md and from the part "The simulator" of docs/SEMANTICS.md, shares no code with the crates, and reads texts by
`tools/models/verilog_trees.py`, the second reader of Verilog. It takes designs that break no rule, and says nothing good of others. Values are texts of
the digits 0, 1, x and z, the highest first. The comparison runs each design of the tables, whose values are those of Icarus Verilog but where
a row says why they aren't, and ends with the status 1 where a value differs.

    flat_of(text, top)     the flat design: signals, processes, hierarchy, step
    Simulator(flat)        a simulation at its start: `advance`, `deposit`, `force`, `release`, `register`, `remove`
"""
import re
import sys
from collections import namedtuple
from fractions import Fraction
from pathlib import Path

ROOT = Path(__file__).resolve().parents[2]
sys.path.insert(0, str(ROOT / "tools"))

from models.verilog_trees import Reader

TABLES = [ROOT / "tools" / "data" / name for name in ("elaboration_values.txt", "delay_values.txt")]
LATEST_UPDATE = 2**62
FEMTOSECONDS = {"s": 10**15, "ms": 10**12, "us": 10**9, "ns": 10**6, "ps": 1000, "fs": 1}

Signal = namedtuple("Signal", "path width start")
# kind: assign, always or initial; wakes: pairs of a signal and any, pos or neg; run: of the values and the updates, which are pairs of a delay
# and a piece
Process = namedtuple("Process", "kind wakes run")
# children: ("signal", number), ("words", first, low, count) or ("inner", Node), by name
Node = namedtuple("Node", "path children")
Flat = namedtuple("Flat", "signals processes top step")


# ---- values

def number(digits):
    """The number that the digits say, or None where one is unknown."""
    return None if "x" in digits or "z" in digits else int(digits, 2)


def digits(value, width):
    return format(value % 2**width, f"0{width}b")


def resized(value, width):
    return value[-width:].rjust(width, "0")


def and_digit(a, b):
    return "0" if "0" in (a, b) else "1" if a == b == "1" else "x"


def or_digit(a, b):
    return "1" if "1" in (a, b) else "0" if a == b == "0" else "x"


def xor_digit(a, b):
    return "x" if a in "xz" or b in "xz" else "01"[a != b]


def not_digit(a):
    return {"0": "1", "1": "0"}.get(a, "x")


def inverted(value):
    return "".join(map(not_digit, value))


def folded(step, start, value):
    for digit in value:
        start = step(start, digit)
    return start


def truth(value):
    return folded(or_digit, "0", value)


def compared(sign, a, b):
    """One digit: what a comparison of two values of one width gives."""
    if sign in ("===", "!=="):
        return "01"[(a == b) == (sign == "===")]
    if sign in ("==", "!="):
        pairs = [xor_digit(*pair) for pair in zip(a, b)]
        equal = "0" if "1" in pairs else "x" if "x" in pairs else "1"
        return equal if sign == "==" else not_digit(equal)
    a, b = number(a), number(b)
    if a is None or b is None:
        return "x"
    return "01"[{"<": a < b, "<=": a <= b, ">": a > b, ">=": a >= b}[sign]]


def reckoned(sign, a, b, width):
    """The result of an operator of arithmetic."""
    a, b = number(a), number(b)
    if a is None or b is None or (sign in "/%" and b == 0):
        return "x" * width
    result = {"+": a + b, "-": a - b, "*": a * b}.get(sign)
    if result is None:
        result = a // b if sign == "/" else a % b
    return digits(result, width)


def shifted(sign, value, count):
    width, count = len(value), number(count)
    if count is None:
        return "x" * width
    count = min(count, width)
    return value[count:] + "0" * count if sign in ("<<", "<<<") else "0" * count + value[: width - count]


def merged(a, b):
    return "".join(x if x == y and x in "01" else "x" for x, y in zip(a, b))


BITWISE = {"&": and_digit, "|": or_digit, "^": xor_digit, "~^": lambda a, b: not_digit(xor_digit(a, b))}
REDUCTIONS = {
    "all": lambda v: folded(and_digit, "1", v), "nand": lambda v: not_digit(folded(and_digit, "1", v)),
    "any": truth, "nor": lambda v: not_digit(truth(v)),
    "odd": lambda v: folded(xor_digit, "0", v), "even": lambda v: not_digit(folded(xor_digit, "0", v)), "not": lambda v: not_digit(truth(v)),
}
COMPARISONS = {"==", "!=", "===", "!==", "<", "<=", ">", ">="}
SHIFTS = {"<<", ">>", "<<<", ">>>"}


def edge_of(old, new):
    """`pos`, `neg` or None, of the lowest digits."""
    old, new = old[-1], new[-1]
    if old == new or (old in "xz" and new in "xz"):
        return None
    return "pos" if old == "0" or new == "1" else "neg"


# ---- texts

def plain(text):
    """The text without comments and directives, its step and the units of its modules, in order, in femtoseconds."""
    text = re.sub(r"/\*.*?\*/|//[^\n]*", " ", text, flags=re.S)
    defined, taken, steps, kept, unit, units = {"COCOTB_SIM"}, [], [], [], FEMTOSECONDS["ns"], []
    for line in text.split("\n"):
        word, *rest = line.split() or [""]
        name = rest[0] if rest else ""
        if word in ("`ifdef", "`ifndef"):
            taken.append((name in defined) == (word == "`ifdef"))
        elif word == "`else":
            taken[-1] = not taken[-1]
        elif word == "`endif":
            taken.pop()
        elif not all(taken):
            pass
        elif word == "`define":
            defined.add(name)
        elif word == "`resetall":
            unit = FEMTOSECONDS["ns"]
        elif found := re.search(r"`timescale\s+(\d+)\s*(\w+)\s*/\s*(\d+)\s*(\w+)", line):
            unit = int(found[1]) * FEMTOSECONDS[found[2]]
            steps.append(int(found[3]) * FEMTOSECONDS[found[4]])
        elif not word.startswith("`"):
            kept.append(line)
            units += [unit] * len(re.findall(r"\bmodule\b", line))
    return "\n".join(kept), min(steps, default=10**6), units


def tree_of(text):
    """A tree of `verilog_trees` as nested lists of words."""
    stack = [[]]
    for token in re.findall(r"[()]|[^\s()]+", text):
        if token == "(":
            stack.append([])
        elif token == ")":
            done = stack.pop()
            stack[-1].append(done)
        else:
            stack[-1].append(token)
    return stack[0][0]


# ---- names

# what a name stands for: `kind` is signal, words or constant; `number` is the signal's, or the first word's
Named = namedtuple("Named", "kind number width left right low count value")


def vector(number_, width, left, right, kind="signal", value=None):
    return Named(kind, number_, width, left, right, 0, 0, value)


def position(named, index):
    """Where in the vector, from the lowest digit, the index lies."""
    return index - named.right if named.left >= named.right else named.right - index


class Scope:
    """The names of one instance, and how many steps its unit has. `names` may be copied with a loop's name in it as a constant."""

    def __init__(self, path, steps, names=None):
        self.path, self.steps, self.names = path, steps, {} if names is None else names

    def with_constant(self, name, value):
        held = self.names[name]
        names = {**self.names, name: vector(None, len(value), held.left, held.right, "constant", value)}
        return Scope(self.path, self.steps, names)

    def constant(self, tree):
        return number(term(tree, self, width_of(tree, self))([]))

    def bounds(self, tree):
        return (0, 0) if tree == "-" else tuple(self.constant(bound) % 2**32 for bound in tree[1:])


# ---- expressions

def is_number(tree):
    return isinstance(tree, str)


def select_width(tree, scope):
    named = scope.names[tree[1]]
    selects = tree[2:]
    if named.kind == "words":
        selects = selects[1:]
    if not selects:
        return named.width
    form = selects[0]
    if form[0] == "bit":
        return 1
    return scope.constant(form[2]) if form[0] == "from" else abs(scope.constant(form[1]) - scope.constant(form[2])) + 1


def width_of(tree, scope):
    if is_number(tree):
        return len(tree)
    form, parts = tree[0], tree[1:]
    if form == "name":
        return select_width(tree, scope)
    if form == "brackets" or form in ("plus", "minus", "invert") or form in SHIFTS:
        return width_of(parts[0], scope)
    if form == "repeat":
        return scope.constant(parts[0]) * sum(width_of(part, scope) for part in parts[1:])
    if form == "join":
        return sum(width_of(part, scope) for part in parts)
    if form == "?":
        return max(width_of(part, scope) for part in parts[1:])
    if form in COMPARISONS or form in ("&&", "||") or form in REDUCTIONS:
        return 1
    return max(width_of(part, scope) for part in parts)


def own(tree, scope):
    """The expression at its own width."""
    return term(tree, scope, width_of(tree, scope))


def term(tree, scope, width):
    """A function of the values of the signals: the expression in a context of that width."""
    if is_number(tree):
        return lambda values: resized(tree, width)
    form, parts = tree[0], tree[1:]
    if form == "brackets":
        return term(parts[0], scope, width)
    if form in ("name", "join", "repeat"):
        read = braces(form, parts, scope) if form != "name" else operand(tree, scope)
        return lambda values: resized(read(values), width)
    if form in ("plus", "minus", "invert"):
        return unary(form, term(parts[0], scope, width), width)
    if form in REDUCTIONS:
        inner, reduce = own(parts[0], scope), REDUCTIONS[form]
        return lambda values: resized(reduce(inner(values)), width)
    if form == "?":
        return choice(own(parts[0], scope), term(parts[1], scope, width), term(parts[2], scope, width))
    return binary(form, parts, scope, width)


def unary(form, inner, width):
    if form == "invert":
        return lambda values: inverted(inner(values))
    return lambda values: reckoned("+" if form == "plus" else "-", "0" * width, inner(values), width)


def choice(condition, yes, no):
    def value(values):
        chosen = truth(condition(values))
        return yes(values) if chosen == "1" else no(values) if chosen == "0" else merged(yes(values), no(values))
    return value


def binary(form, parts, scope, width):
    left, right = parts
    if form in COMPARISONS:
        greatest = max(width_of(left, scope), width_of(right, scope))
        a, b = term(left, scope, greatest), term(right, scope, greatest)
        return lambda values: resized(compared(form, a(values), b(values)), width)
    if form in ("&&", "||"):
        a, b, table = own(left, scope), own(right, scope), and_digit if form == "&&" else or_digit
        return lambda values: resized(table(truth(a(values)), truth(b(values))), width)
    if form in SHIFTS:
        a, b = term(left, scope, width), own(right, scope)
        return lambda values: shifted(form, a(values), b(values))
    a, b = term(left, scope, width), term(right, scope, width)
    if form in BITWISE:
        table = BITWISE[form]
        return lambda values: "".join(map(table, a(values), b(values)))
    return lambda values: reckoned(form, a(values), b(values), width)


def braces(form, parts, scope):
    count, parts = (scope.constant(parts[0]), parts[1:]) if form == "repeat" else (1, parts)
    terms = [own(part, scope) for part in parts]
    return lambda values: "".join(part(values) for part in terms) * count


def place(tree, scope):
    """A function of the values: the signal or None, the lowest position, and the number of digits, of a name with its selects."""
    named, selects = scope.names[tree[1]], tree[2:]
    word = own(selects[0][1], scope) if named.kind == "words" else None
    inner = positions(named, selects[1:] if named.kind == "words" else selects, scope)

    def found(values):
        chosen = named.number if word is None else word_of(named, number(word(values)))
        low, width = inner(values)
        return chosen, low, width
    return found


def word_of(named, index):
    is_there = index is not None and named.low <= index < named.low + named.count
    return named.number + index - named.low if is_there else None


def positions(named, selects, scope):
    if not selects:
        return lambda values: (0, named.width)
    form = selects[0]
    if form[0] == "part":
        ends = [position(named, scope.constant(bound)) for bound in form[1:]]
        return lambda values: (min(ends), max(ends) - min(ends) + 1)
    index, width = own(form[1], scope), 1 if form[0] == "bit" else scope.constant(form[2])

    def found(values):
        base = number(index(values))
        if base is None:
            return None, width
        return min(position(named, base), position(named, base + width - 1)), width
    return found


def operand(tree, scope):
    """The digits that a name with its selects has; those that aren't there are x."""
    find, named = place(tree, scope), scope.names[tree[1]]

    def value(values):
        chosen, low, width = find(values)
        if named.kind == "constant":
            held = named.value
        else:
            held = "x" * named.width if chosen is None else values[chosen]
        if low is None:
            return "x" * width
        return "".join(held[-1 - at] if 0 <= at < len(held) else "x" for at in range(low + width - 1, low - 1, -1))
    return value


def names_in(tree, scope):
    """The signals that a tree reads."""
    if isinstance(tree, str):
        return set()
    found = set()
    if tree[0] == "name":
        named = scope.names[tree[1]]
        if named.kind == "signal":
            found.add(named.number)
        if named.kind == "words":
            found.update(range(named.number, named.number + named.count))
        return found.union(*[names_in(part, scope) for select in tree[2:] for part in select[1:]])
    return found.union(*[names_in(part, scope) for part in tree[1:]])


# ---- targets and statements

def target_parts(tree, scope):
    """The parts of a target, from the left: a width and a function of the values that finds the place."""
    if tree[0] == "join":
        return [part for inner in tree[1:] for part in target_parts(inner, scope)]
    return [(select_width(tree, scope), place(tree, scope))]


def assignment(target, value, scope, target_scope=None):
    """A function of the values: the pieces to write, each a signal, its lowest position and digits. A connection has two scopes."""
    parts = target_parts(target, target_scope or scope)
    width = sum(part[0] for part in parts)
    read = term(value, scope, max(width, width_of(value, scope)))

    def pieces(values):
        rest, found = resized(read(values), width), []
        for size, find in parts:
            front, rest = rest[:size], rest[size:]
            chosen, low, _ = find(values)
            if chosen is not None and low is not None:
                found.append((chosen, low, front))
        return found
    return pieces


def piece_inside(values, chosen, low, front):
    """The digits of a piece that lie inside of the signal."""
    width = len(values[chosen])
    inside = [(at, front[len(front) - 1 - (at - low)]) for at in range(low, low + len(front)) if 0 <= at < width]
    return (chosen, inside[0][0], "".join(digit for _, digit in reversed(inside))) if inside else None


class Values(list):
    """The values that the signals show. `hidden` has those that are hidden, by the numbers of the forced signals."""

    def __init__(self, values):
        super().__init__(values)
        self.hidden = {}

    def written(self, piece):
        """What a signal holds, hidden where it is forced, when the piece is written into it."""
        chosen, low, front = piece
        held = self.hidden.get(chosen, self[chosen])
        end = len(held) - low
        return held[: end - len(front)] + front + held[end:]


def write(values, piece):
    held = values.hidden if piece[0] in values.hidden else values
    held[piece[0]] = values.written(piece)


def statement(tree, scope):
    """A function of the values and the updates."""
    form, parts = tree[0], tree[1:]
    if form in ("null", "dumpfile", "dumpvars", "delay"):
        return lambda values, later: None
    if form == "begin":
        return block([statement(part, scope) for part in parts[1:]])
    if form in ("=", "<="):
        return assigned(form, assignment(*parts[-2:], scope), delay_of(parts[0], scope))
    if form == "if":
        return branch(own(parts[0], scope), [statement(part, scope) for part in parts[1:]])
    if form == "for":
        return loop(parts, scope)
    return case(form, parts, scope)


def block(statements):
    def run(values, later):
        for each in statements:
            each(values, later)
    return run


def delay_of(tree, scope):
    """The steps of a delay: 0 where there is none."""
    return int(number(tree[1]) * scope.steps) if tree[0] == "delay" else 0


def assigned(form, pieces, delay=0):
    def run(values, later):
        inside = [piece_inside(values, *piece) for piece in pieces(values)]
        for piece in filter(None, inside):
            if form == "=":
                write(values, piece)
            else:
                later.append((delay, piece))
    return run


def branch(condition, branches):
    def run(values, later):
        if truth(condition(values)) == "1":
            branches[0](values, later)
        elif len(branches) > 1:
            branches[1](values, later)
    return run


def loop(parts, scope):
    """A `for`: its turns, each with the name as a constant, and the assignment of the last value."""
    (_, name, start), condition, (_, _, step), body = parts
    width = scope.names[name].width
    inner = scope.with_constant(name, resized(term(start, scope, max(width, width_of(start, scope)))([]), width))
    turns = []
    while truth(own(condition, inner)([])) == "1":
        turns.append(statement(body, inner))
        value = resized(term(step, inner, max(width, width_of(step, inner)))([]), width)
        inner = scope.with_constant(name, value)
    last = inner.names[name].value
    return block([*turns, assigned("=", assignment(["name", name], last, scope))])


def agrees(form, a, b):
    free = {"case": "", "casez": "z", "casex": "xz"}[form]
    return all(x == y or x in free or y in free for x, y in zip(a, b))


def case(form, parts, scope):
    labels = [label for item in parts[1:] if item[0] == "match" for label in item[1:-1]]
    width = max(width_of(tree, scope) for tree in [parts[0], *labels])
    subject = term(parts[0], scope, width)
    items = [([term(label, scope, width) for label in item[1:-1]], statement(item[-1], scope)) for item in parts[1:] if item[0] == "match"]
    default = [statement(item[-1], scope) for item in parts[1:] if item[0] == "default"]

    def run(values, later):
        value = subject(values)
        for wanted, chosen in items:
            if any(agrees(form, value, label(values)) for label in wanted):
                return chosen(values, later)
        if default:
            default[0](values, later)
    return run


def reads_of(tree, scope):
    """The signals that a statement reads, the indices of its targets among them."""
    if isinstance(tree, str) or tree[0] in ("dumpfile", "dumpvars", "delay", "null"):
        return set()
    if tree[0] in ("=", "<="):
        return target_reads(tree[-2], scope) | names_in(tree[-1], scope)
    if tree[0] == "for":
        inner = scope.with_constant(tree[1][1], "0" * scope.names[tree[1][1]].width)
        return reads_of(tree[4], inner)
    if tree[0] == "begin":
        return set().union(*[reads_of(part, scope) for part in tree[2:]])
    if tree[0] in ("match", "default"):
        return set().union(*[names_in(label, scope) for label in tree[1:-1]]) | reads_of(tree[-1], scope)
    return names_in(tree[1], scope).union(*[reads_of(part, scope) for part in tree[2:]])


def target_reads(tree, scope):
    if tree[0] == "join":
        return set().union(*[target_reads(part, scope) for part in tree[1:]])
    return set().union(*[names_in(part, scope) for select in tree[2:] for part in select[1:]])


# ---- elaboration

class Builder:
    def __init__(self, source, step, units):
        self.modules = {module[1]: module[2:] for module in source[1:]}
        self.steps = {module[1]: Fraction(unit, step) for module, unit in zip(source[1:], units)}
        self.signals, self.processes = [], []

    def top(self, wanted):
        used = {item[1] for items in self.modules.values() for item in items if item[0] == "instance"}
        return wanted or next(name for name in self.modules if name not in used)

    def instance(self, module, path, values):
        """The node of an instance, and its names; its own processes are behind it in `pending` order."""
        items, scope, node = self.modules[module], Scope(path, self.steps[module]), Node(path, {})
        self.parameters(items, scope, values)
        self.declare(items, scope, node)
        return items, scope, node

    def parameters(self, items, scope, values):
        """The parameters in order; `values` are those that are given, by name or by place."""
        kind, given = values
        place_, range_ = 0, "-"
        for item in items:
            found = [item[2]] if item[0] == "parameter" and isinstance(item[2], str) else None
            if item[0] not in ("parameter", "localparam"):
                continue
            if found:
                range_, sets = (range_ if item[1] == "same" else item[1]), [["set", item[2], item[3]]]
            else:
                range_, sets = item[1], item[2:]
            for _, name, tree in sets:
                digits_ = given.get(name if kind == "named" else place_) if item[0] == "parameter" else None
                place_ += item[0] == "parameter"
                self.parameter(scope, name, range_, own(tree, scope)([]) if digits_ is None else digits_)

    def parameter(self, scope, name, range_, value):
        left, right = (len(value) - 1, 0) if range_ == "-" else scope.bounds(range_)
        value = resized(value, abs(left - right) + 1)
        scope.names[name] = vector(None, len(value), left, right, "constant", value)

    def declare(self, items, scope, node):
        """The signals: the ports in the order of the header, then the others."""
        declared = declarations(items)
        header = [name for item in items for name in header_names(item)]
        for name in [*header, *(name for name in declared if name not in header)]:
            kind, range_, words = declared[name]
            self.signal(scope, node, name, kind, scope.bounds(range_), words)

    def signal(self, scope, node, name, kind, bounds, words):
        left, right = bounds
        width, start, first = abs(left - right) + 1, "x" if kind == "reg" else "z", len(self.signals)
        if words is None:
            self.signals.append(Signal(f"{scope.path}.{name}", width, start * width))
            scope.names[name] = vector(first, width, left, right)
            node.children[name] = ("signal", first)
            return
        low, high = sorted((scope.constant(words[1]), scope.constant(words[2])))
        self.signals += [Signal(f"{scope.path}.{name}[{word}]", width, start * width) for word in range(low, high + 1)]
        scope.names[name] = Named("words", first, width, left, right, low, high - low + 1, None)
        node.children[name] = ("words", first, low, high - low + 1)

    def walk(self, items, scope, node):
        """The processes of an instance, and what stands below it."""
        for item in items:
            if item[0] == "assign":
                for _, target, value in item[1:]:
                    self.assign(target, value, scope)
            elif item[0] == "wire":
                for _, name, value in item[2:]:
                    if value != "-":
                        self.assign(["name", name], value, scope)
            elif item[0] == "reg":
                for register in item[2:]:
                    if len(register) > 2 and register[2][0] != "words":
                        run = assigned("=", assignment(["name", register[1]], register[2], scope))
                        self.processes.append(Process("initial", [], run))
            elif item[0] == "initial":
                self.processes.append(Process("initial", [], statement(item[1], scope)))
            elif item[0] == "always":
                self.always(item, scope)
            elif item[0] == "instance":
                self.below(item, scope, node)

    def assign(self, target, value, scope, target_scope=None):
        pieces = assignment(target, value, scope, target_scope)
        wakes = [(number_, "any") for number_ in sorted(names_in(value, scope))]
        self.processes.append(Process("assign", wakes, assigned("=", pieces)))

    def always(self, item, scope):
        events, body = item[1:-1], item[-1]
        if events == ["*"]:
            wakes = [(number_, "any") for number_ in sorted(reads_of(body, scope))]
        else:
            edges = {"change": "any", "posedge": "pos", "negedge": "neg"}
            wakes = [(scope.names[name].number, edges[edge]) for edge, name in events]
        self.processes.append(Process("always", wakes, statement(body, scope)))

    def below(self, item, scope, node):
        _, module, name, values, ports = item
        items, inner, child = self.instance(module, f"{scope.path}.{name}", given_values(values, scope))
        node.children[name] = ("inner", child)
        directions = port_directions(items)
        for port, value in connections(ports, list(directions)):
            if value == "-":
                continue
            if directions[port] == "input":
                self.assign(["name", port], value, scope, inner)
            else:
                self.assign(value, ["name", port], inner, scope)
        self.walk(items, inner, child)


def header_names(item):
    if item[0] == "port":
        return [item[2]]
    return [name for name in item[1:]] if item[0] == "ports" and all(isinstance(part, str) for part in item[1:]) else []


def heads(items):
    """Each declaration of ports: the head, as a direction, a kind and a range, and the names."""
    last = None
    for item in items:
        if item[0] == "port":
            last = last if item[1] == "same" else item[1]
            yield last, [item[2]]
        elif item[0] == "ports" and len(item) > 1 and isinstance(item[1], list):
            yield item[1], item[2:]


def declarations(items):
    """For each name, by its first declaration: `reg` or `wire`, the range, and the words of a memory or None."""
    found = {}
    for (direction, kind, range_), names in heads(items):
        for name in names:
            found[name] = ("reg" if kind == "reg" else "wire", range_, None)
    for item in items:
        if item[0] == "integer":
            found.update({name: ("reg", ["range", "11111", "0"], None) for name in item[1:]})
        elif item[0] in ("wire", "reg"):
            for _, name, *rest in item[2:]:
                words = rest[0] if rest and item[0] == "reg" and rest[0][0] == "words" else None
                range_ = found[name][1] if name in found else item[1]
                found[name] = (item[0], range_, words)
    return found


def port_directions(items):
    """The direction of each port, in the order of the header."""
    directions = {name: head[0] for head, names in heads(items) for name in names}
    header = [name for item in items for name in header_names(item)]
    return {name: directions[name] for name in header}


def given_values(values, scope):
    if values == "-":
        return "ordered", {}
    if values[0] == "named":
        return "named", {name: own(tree, scope)([]) for _, name, tree in values[1:] if tree != "-"}
    return "ordered", {place_: own(tree, scope)([]) for place_, tree in enumerate(values[1:])}


def connections(ports, names):
    """The connected ports, in the order of the child's header."""
    if ports == "-":
        return []
    if ports[0] == "ordered":
        return list(zip(names, ports[1:]))
    given = {name: value for _, name, value in ports[1:]}
    return [(name, given[name]) for name in names if name in given]


def flat_of(text, top=None):
    text, step, units = plain(text)
    builder = Builder(tree_of(Reader(text).source()), step, units)
    name = builder.top(top)
    items, scope, node = builder.instance(name, name, ("ordered", {}))
    builder.walk(items, scope, node)
    return Flat(builder.signals, builder.processes, node, step)


# ---- the simulation

# change: the number of a signal and its new digits, or None; fired: keys, in order
Moved = namedtuple("Moved", "change fired")


class Simulator:
    """Keys are pairs: ("At", time), ("Rise", signal), ("Fall", signal), ("Change", signal), ("ReadWrite",), ("ReadOnly",), ("NextStep",)."""

    def __init__(self, flat):
        self.flat = flat
        self.values = Values(signal.start for signal in flat.signals)
        self.active = [at for at, process in enumerate(flat.processes) if process.kind != "always"]
        # delayed: pairs of a time and a piece, by rising time, and for one time as they came
        self.reports, self.due, self.later, self.delayed = [], [], [], []
        self.time, self.region = 0, "Begin"
        self.keys = set()
        self.primed = self.removed = self.fired = 0

    def register(self, key):
        assert key not in self.keys
        self.keys.add(key)
        self.primed += 1

    def remove(self, key):
        self.keys.remove(key)
        self.removed += 1

    def fire(self, *keys):
        """Those of the keys that are registered; they aren't afterwards."""
        found = [key for key in keys if key in self.keys]
        self.keys.difference_update(found)
        self.fired += len(found)
        return found

    def edge_keys(self, signal, new):
        edges = {"1": ("Rise", signal), "0": ("Fall", signal)}
        return self.fire(*([edges[new]] if new in edges else []), ("Change", signal))

    def wake(self, changes, running=None):
        """Changes are triples of a signal, its old and its new digits."""
        olds = {signal: (old, new) for signal, old, new in changes}
        for at, process in enumerate(self.flat.processes):
            if at not in self.active and not (at == running and process.kind == "always"):
                if any(signal in olds and (edge == "any" or edge == edge_of(*olds[signal])) for signal, edge in process.wakes):
                    self.active.append(at)

    def changed(self, signal, new):
        """The signal gets the digits; what the change fires, or None where there is none."""
        old = self.values[signal]
        if old == new:
            return None
        self.values[signal] = new
        self.wake([(signal, old, new)])
        return Moved((signal, new), self.edge_keys(signal, new))

    def put(self, signal, new):
        """A write: of a forced signal the hidden value alone changes."""
        if signal in self.values.hidden:
            self.values.hidden[signal] = new
            return Moved(None, [])
        return self.changed(signal, new) or Moved(None, [])

    def deposit(self, signal, new):
        assert self.region != "End"
        return self.put(signal, new)

    def force(self, signal, new):
        assert self.region != "End"
        self.values.hidden.setdefault(signal, self.values[signal])
        return self.changed(signal, new) or Moved(None, [])

    def release(self, signal):
        """A net shows its hidden value, a register goes on with what it shows."""
        assert self.region != "End"
        old = self.values.hidden.pop(signal, None)
        is_net = self.flat.signals[signal].start[0] == "z"
        return (self.changed(signal, old) if is_net and old is not None else None) or Moved(None, [])

    def is_resting(self):
        """Whether nothing is left to be done at this time."""
        return not (self.reports or self.due or self.active or self.later)

    def is_idle(self):
        is_open = self.region != "End" and (("ReadWrite",) in self.keys or ("ReadOnly",) in self.keys)
        return self.is_resting() and not (is_open or self.delayed or any(key[0] == "At" for key in self.keys))

    def activate(self, at):
        """One activation of a process: its changes are reports, its nonblocking updates come later, or at their time."""
        before, updates = list(self.values), []
        self.flat.processes[at].run(self.values, updates)
        self.later += [piece for delay, piece in updates if not delay]
        self.delayed += [(self.time + delay, piece) for delay, piece in updates if delay and self.time + delay <= LATEST_UPDATE]
        self.delayed.sort(key=lambda each: each[0])
        changes = [(signal, old, new) for signal, (old, new) in enumerate(zip(before, self.values)) if old != new]
        self.wake(changes, at)
        self.reports += changes

    def update(self):
        piece = self.due.pop(0)
        return self.put(piece[0], self.values.written(piece))

    def advance(self):
        """One event; None where there is nothing to do."""
        if self.is_idle():
            return None
        if not self.is_resting():
            self.region = "Active"
        if self.reports:
            signal, _, new = self.reports.pop(0)
            return Moved((signal, new), self.edge_keys(signal, new))
        if not self.due and self.active:
            self.activate(self.active.pop(0))
            return Moved(None, [])
        if not self.due and self.later:
            self.due, self.later = self.later, []
        if self.due:
            return self.update()
        return self.phase()

    def phase(self):
        for key, region in ((("ReadWrite",), "Settle"), (("ReadOnly",), "End")):
            if key in self.keys and self.region != "End":
                self.region = region
                return Moved(None, self.fire(key))
        self.time = min([key[1] for key in self.keys if key[0] == "At"] + [time for time, _ in self.delayed])
        self.later = [piece for time, piece in self.delayed if time == self.time]
        self.delayed = [each for each in self.delayed if each[0] != self.time]
        self.region = "Begin"
        return Moved(None, self.fire(("NextStep",), ("At", self.time)))

    def settle(self):
        """Until nothing is left to be done at this time."""
        while not self.is_resting():
            self.advance()

    def run_out(self):
        """Until nothing is left, at any time."""
        while self.advance():
            pass

    def wait(self, steps):
        key = ("At", self.time + steps)
        self.register(key)
        while key in self.keys:
            self.advance()


# ---- the comparison

def obey(simulator, word):
    """Does what a word of a step says (`tools/rows/value_rows.py`)."""
    does, number_, given = re.fullmatch(r"([!~@]?)(\d+)=?(\w*)", word).groups()
    if does == "@":
        simulator.wait(int(number_))
    elif does == "~":
        simulator.release(int(number_))
    elif does == "!":
        simulator.force(int(number_), given)
    else:
        simulator.deposit(int(number_), given)


def row_values(flat, stimulus):
    """The values after each step: at its own time where some step waits, else when nothing is left."""
    simulator = Simulator(flat)
    rest = simulator.settle if "@" in stimulus else simulator.run_out
    rest()
    for step in stimulus.split("|"):
        for word in step.split():
            obey(simulator, word)
        rest()
        yield " ".join(simulator.values)


def main():
    lines = [line for table in TABLES for line in table.read_text(encoding="ascii").splitlines()]
    rows = [line.split("\t") for line in lines if not line.startswith("#")]
    wrong = 0
    for _, name, top, text, signals, stimulus, values, _ in rows:
        text = re.sub(r"\\([0-9a-f]{2})", lambda found: chr(int(found[1], 16)), text)
        flat = flat_of(text, None if top == "-" else top)
        found = "|".join(row_values(flat, stimulus))
        if found != values or " ".join(signal.path for signal in flat.signals) != signals:
            wrong += 1
            print(f"{name}: {values}\n  {found}")
    print(f"{len(rows)} designs, {wrong} differ")
    return 1 if wrong or not rows else 0


if __name__ == "__main__":
    sys.exit(main())
