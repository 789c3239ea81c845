#!/usr/bin/env python3
"""A second reader of Verilog texts, written from the grammar of docs/VERILOG.md.

    tools/models/verilog_trees.py            compares the trees in crates/design_tests/stdout with its own
    tools/models/verilog_trees.py TEXT ..    prints the trees of these texts

It prints a tree in the form of the part `verilog` of the program `design_tests`, whose output the gate compares with that file. It reads accepted
texts only: heights and refusals are none of its business, and it ends with an error where a text isn't of the grammar. It
shares no code with the crates: tokens by regular expressions, rules by recursive descent, operators by a table of their levels.
The gate doesn't need it.
"""
import re
import sys
from pathlib import Path

sys.path.insert(0, str(Path(__file__).resolve().parents[1]))

from rows.part_rows import stored

TOKEN = re.compile(
    r"\s*(?:(?P<number>(?:[0-9][0-9_]*)?'[bBoOdDhH][0-9a-fA-FxXzZ?_]+|[0-9][0-9_]*)|(?P<name>[A-Za-z_][A-Za-z0-9_$]*)|(?P<task>\$[A-Za-z0-9_$]+)"
    r'|(?P<text>"[^"\n]*")|(?P<mark>===|!==|<<<|>>>|<=|>=|==|!=|&&|\|\||<<|>>|~&|~\||~\^|\^~|\+:|[#();,=\[\]:@*.{}?|^&<>+\-/%!~]))'
)
WORDS = set(
    "always assign begin case casex casez default else end endcase endmodule for if initial input integer localparam module "
    "negedge or output parameter posedge reg wire".split()
)
LEVELS = [["||"], ["&&"], ["|"], ["^", "~^", "^~"], ["&"], ["==", "!=", "===", "!=="], ["<", "<=", ">", ">="], ["<<", ">>", "<<<", ">>>"], ["+", "-"], ["*", "/", "%"]]
UNARY = {"+": "plus", "-": "minus", "!": "not", "~": "invert", "&": "all", "~&": "nand", "|": "any", "~|": "nor", "^": "odd", "~^": "even", "^~": "even"}
BITS = {"b": 1, "o": 3, "h": 4}


def digits_of(text):
    """The digits that a number stands for, the highest first."""
    if "'" not in text:
        return format(int(text.replace("_", "")) % 2**32, "032b")
    size, written = text.split("'")
    size, base, written = int(size.replace("_", "") or "32"), written[0].lower(), written[1:].lower().replace("_", "").replace("?", "z")
    if base == "d":
        return written * size if written in ("x", "z") else format(int(written) % 2**size, f"0{size}b")
    bits = "".join(digit * BITS[base] if digit in "xz" else format(int(digit, 16), f"0{BITS[base]}b") for digit in written)
    fill = written[0] if written[0] in "xz" else "0"
    return bits.rjust(size, fill)[-size:]


class Reader:
    def __init__(self, text):
        self.tokens, at, text = [], 0, text.rstrip()
        while at < len(text):
            found = TOKEN.match(text, at)
            assert found, f"no token at {at} of {text}"
            kind = found.lastgroup
            word = found[kind]
            self.tokens.append(("word" if kind == "name" and word in WORDS else kind, word))
            at = found.end()

    def next(self):
        return self.tokens[0] if self.tokens else ("end", "")

    def stands(self, *words):
        return self.next()[0] in ("word", "mark", "task") and self.next()[1] in words

    def take(self, *words):
        assert self.stands(*words), f"{words} is wanted before {self.tokens}"
        return self.tokens.pop(0)[1]

    def maybe(self, *words):
        return self.tokens.pop(0)[1] if self.stands(*words) else None

    def kind(self, kind):
        assert self.next()[0] == kind, f"a {kind} is wanted before {self.tokens}"
        return self.tokens.pop(0)[1]

    def name(self):
        return self.kind("name")

    def listed(self, read):
        found = [read()]
        while self.maybe(","):
            found.append(read())
        return found

    # expressions

    def expression(self):
        condition = self.binary(0)
        if not self.maybe("?"):
            return condition
        yes = self.expression()
        self.take(":")
        return node("?", condition, yes, self.expression())

    def binary(self, level):
        if level == len(LEVELS):
            return self.unary()
        left = self.binary(level + 1)
        while self.stands(*LEVELS[level]):
            sign = self.take(*LEVELS[level]).replace("^~", "~^")
            left = node(sign, left, self.binary(level + 1))
        return left

    def unary(self):
        sign = self.maybe(*UNARY)
        return node(UNARY[sign], self.unary()) if sign else self.primary()

    def primary(self):
        kind, word = self.next()
        if kind == "number":
            return digits_of(self.kind("number"))
        if kind == "name":
            return self.operand()
        if self.maybe("("):
            inner = self.expression()
            self.take(")")
            return node("brackets", inner)
        self.take("{")
        first = self.expression()
        if self.maybe("{"):
            parts = self.listed(self.expression)
            self.take("}")
            self.take("}")
            return node("repeat", first, *parts)
        parts = [first]
        while self.maybe(","):
            parts.append(self.expression())
        self.take("}")
        return node("join", *parts)

    def operand(self):
        name = self.name()
        if not self.stands("["):
            return node("name", name)
        first = self.select()
        if first.startswith("(bit") and self.stands("["):
            return node("name", name, first.replace("(bit", "(word", 1), self.select())
        return node("name", name, first)

    def select(self):
        self.take("[")
        first, form = self.expression(), "bit"
        parts = [first]
        sign = self.maybe(":", "+:")
        if sign:
            form = "part" if sign == ":" else "from"
            parts.append(self.expression())
        self.take("]")
        return node(form, *parts)

    def target(self):
        if self.maybe("{"):
            parts = self.listed(self.target)
            self.take("}")
            return node("join", *parts)
        return self.operand()

    # statements

    def statement(self):
        if self.maybe(";"):
            return node("null")
        if self.maybe("begin"):
            label = self.name() if self.maybe(":") else "-"
            parts = []
            while not self.maybe("end"):
                parts.append(self.statement())
            return node("begin", label, *parts)
        if self.maybe("if"):
            parts = [self.bracketed(), self.statement()]
            if self.maybe("else"):
                parts.append(self.statement())
            return node("if", *parts)
        word = self.maybe("case", "casez", "casex")
        if word:
            parts = [self.bracketed(), self.case_item()]
            while not self.maybe("endcase"):
                parts.append(self.case_item())
            return node(word, *parts)
        if self.maybe("for"):
            self.take("(")
            initial = self.variable()
            self.take(";")
            condition = self.expression()
            self.take(";")
            step = self.variable()
            self.take(")")
            return node("for", initial, condition, step, self.statement())
        task = self.maybe("$dumpfile", "$dumpvars")
        if task:
            arguments = []
            if self.maybe("(") and not self.maybe(")"):
                arguments = self.listed(self.argument)
                self.take(")")
            self.take(";")
            return node(task[1:], *arguments)
        if self.maybe("#"):
            delay = digits_of(self.kind("number"))
            self.take(";")
            return node("delay", delay)
        target = self.target()
        sign, delay = self.take("=", "<="), []
        if sign == "<=" and self.maybe("#"):
            delay = [node("delay", digits_of(self.kind("number")))]
        value = self.expression()
        self.take(";")
        return node(sign, *delay, target, value)

    def bracketed(self):
        self.take("(")
        inner = self.expression()
        self.take(")")
        return inner

    def variable(self):
        name = self.name()
        self.take("=")
        return node("set", name, self.expression())

    def argument(self):
        if self.next()[0] == "text":
            return node("text", self.kind("text")[1:-1])
        return self.expression()

    def case_item(self):
        if self.maybe("default"):
            self.maybe(":")
            return node("default", self.statement())
        labels = self.listed(self.expression)
        self.take(":")
        return node("match", *labels, self.statement())

    # modules

    def range(self):
        if not self.maybe("["):
            return "-"
        left = self.expression()
        self.take(":")
        right = self.expression()
        self.take("]")
        return node("range", left, right)

    def head(self):
        direction = self.take("input", "output")
        kind = self.maybe("wire", "reg") or "-"
        return node(direction, kind, self.range())

    def net(self):
        name = self.name()
        return node("net", name, self.expression() if self.maybe("=") else "-")

    def register(self):
        name = self.name()
        if self.maybe("="):
            return node("register", name, self.expression())
        words = self.range()
        return node("register", name) if words == "-" else node("register", name, words.replace("(range", "(words", 1))

    def assignment(self):
        target = self.target()
        self.take("=")
        return node("=", target, self.expression())

    def event(self):
        edge = self.maybe("posedge", "negedge") or "change"
        return node(edge, self.name())

    def events(self):
        self.take("@")
        if self.maybe("*"):
            return ["*"]
        self.take("(")
        found = ["*"] if self.maybe("*") else [self.event()]
        while self.maybe("or", ","):
            found.append(self.event())
        self.take(")")
        return found

    def connection(self):
        self.take(".")
        port = self.name()
        self.take("(")
        value = "-" if self.stands(")") else self.expression()
        self.take(")")
        return node("connect", port, value)

    def connections(self):
        if self.stands("."):
            return node("named", *self.listed(self.connection))
        return node("ordered", *self.listed(self.expression))

    def instance(self):
        module, values, ports = self.name(), "-", "-"
        if self.maybe("#"):
            self.take("(")
            values = self.connections()
            self.take(")")
        name = self.name()
        self.take("(")
        if not self.stands(")"):
            ports = self.connections()
        self.take(")")
        self.take(";")
        return node("instance", module, name, values, ports)

    def item(self):
        if self.next()[0] == "name":
            return self.instance()
        if self.maybe("always"):
            events = self.events()
            return node("always", *events, self.statement())
        if self.maybe("initial"):
            return node("initial", self.statement())
        if self.stands("input", "output"):
            found = node("ports", self.head(), *self.listed(self.name))
        elif self.maybe("wire"):
            found = node("wire", self.range(), *self.listed(self.net))
        elif self.maybe("reg"):
            found = node("reg", self.range(), *self.listed(self.register))
        elif self.maybe("integer"):
            found = node("integer", *self.listed(self.name))
        elif self.maybe("assign"):
            found = node("assign", *self.listed(self.assignment))
        else:
            word = self.take("parameter", "localparam")
            found = node(word, self.range(), *self.listed(self.variable))
        self.take(";")
        return found

    def parameter(self):
        head = self.range() if self.maybe("parameter") else "same"
        return "(parameter " + head + " " + self.variable()[len("(set "):]

    def port(self):
        head = self.head() if self.stands("input", "output") else "same"
        return node("port", head, self.name())

    def module(self):
        self.take("module")
        parts = [self.name()]
        if self.maybe("#"):
            self.take("(")
            parts += self.listed(self.parameter)
            self.take(")")
        ports = [node("ports")]
        if self.maybe("("):
            if self.stands("input", "output"):
                ports = self.listed(self.port)
            elif not self.stands(")"):
                ports = [node("ports", *self.listed(self.name))]
            self.take(")")
        self.take(";")
        parts += ports
        while not self.maybe("endmodule"):
            parts.append(self.item())
        return node("module", *parts)

    def source(self):
        modules = []
        while self.tokens:
            modules.append(self.module())
        return node("source", *modules)


def node(name, *parts):
    return "(" + " ".join((name,) + parts) + ")"


def main(texts):
    if texts:
        for text in texts:
            print(Reader(text).source())
        return 0
    same = wrong = 0
    for (asked, rule, *parts), answer in stored("design_tests", "verilog"):
        tree = answer[len(rule) + 2 :]
        if asked != "tree" or not tree.startswith("("):
            continue
        found = Reader(re.sub(r"\\([0-9a-f]{2})", lambda byte: chr(int(byte[1], 16)), parts[0])).source()
        same += found == tree
        if found != tree:
            wrong += 1
            print(f"{rule}: {parts[0]}\n  {tree}\n  {found}")
    print(f"{same} trees are the same, {wrong} aren't")
    return 1 if wrong or not same else 0


if __name__ == "__main__":
    sys.exit(main(sys.argv[1:]))
