#!/usr/bin/env python3
"""Says which line failed, and with which values: runs tests as ./cocorun does, and once more with a text at each assertion.

    tools/where.py [OPTION ..] DESIGN TESTS        with the options of ./cocorun

It prints the lines of the run, and behind each `FAIL` the lines of the tests file on which the fault rose, from the outermost call to the innermost; below a bare
`assert` stand the values of its two sides. The status is that of the run.

For the second run the tests are written anew. A bare `assert` gets a text with its line and the values of what it compares, which are evaluated where the assertion
has failed, and not else. Where a fault ended a test each statement stands in a `try` that raises the same kind again, with its line before the text. Neither takes a
turn or draws a number, so the verdicts, the times and the draws are the same; that they are is looked at, and where they aren't no lines are told. A `try` sees neither
`Stalled` and `ReadOnlyWrite` nor the limit of a whole test. It needs Python 3.9.
"""
import ast
import os
import re
import subprocess
import sys
import tempfile
from pathlib import Path

TOP = Path(__file__).resolve().parent.parent
KINDS = ("AssertionError AttributeError IndexError OverflowError QueueEmpty QueueFull RuntimeError SimTimeoutError TriggerException TypeError "
         "UnboundLocalError ValueError ZeroDivisionError Exception").split()
IMPORTED = {"SimTimeoutError": "cocotb.result", "TriggerException": "cocotb.triggers", "QueueEmpty": "cocotb.queue", "QueueFull": "cocotb.queue"}
VALUED = ("--top", "--budget", "--seed", "--made")
HEADERS = (ast.If, ast.While, ast.For, ast.AsyncWith)
QUIET = (ast.Pass, ast.Break, ast.Continue)
# What is written before the text of a fault: the line of a statement that it left; of an assertion the line, which text it is, and the values.
LEFT, FAILED = r"@(\d+)@", r"@(\d+)\.(\d+)"
# Why no line is told of some failures.
UNSEEN = {
    "SimTimeoutError": "the limit of the whole test ran out",
    "Stalled": "nothing was left that could happen, and each task waited",
    "ReadOnlyWrite": "a signal was written in the read-only phase, which no `except` sees",
}
VERDICT = re.compile(r"(\d+ FAIL \w+) \((\w+)(?:: (.*))?\)")


class Texts:
    """The texts of assertions: what stands in an f-string has no quotes, so a text inside of an expression becomes a constant of the module."""

    def __init__(self, source):
        self.prefix = "where"
        while self.prefix in source:
            self.prefix += "_"
        self.constants = {}
        self.sides = {}

    def shown(self, node):
        """The parts of an f-string that show an expression; none where it holds an f-string and isn't one."""
        pieces = node.values if isinstance(node, ast.JoinedStr) else [ast.FormattedValue(node, -1, None)]
        values = [piece.value for piece in pieces if isinstance(piece, ast.FormattedValue)]
        if any(isinstance(part, ast.JoinedStr) for value in values for part in ast.walk(value)):
            return []
        return [ast.FormattedValue(self.plain(piece.value), -1, None) if isinstance(piece, ast.FormattedValue) else piece for piece in pieces]

    def plain(self, node):
        """An expression without texts: constants of the module stand for them."""
        texts = self

        class Lift(ast.NodeTransformer):
            def visit_Constant(self, node):
                if not isinstance(node.value, str):
                    return node
                name = texts.constants.setdefault(node.value, f"{texts.prefix}_text_{len(texts.constants)}")
                return ast.Name(name, ast.Load())

        return Lift().visit(ast.parse(ast.unparse(node), mode="eval").body)

    def text(self, line, nodes):
        """A text with the values of expressions."""
        number = sum(at == line for at, _ in self.sides)
        shown = {ast.unparse(node): self.shown(node) for node in nodes if not isinstance(node, ast.Constant)}
        self.sides[line, number] = [source for source, parts in shown.items() if parts]
        parts = [ast.Constant(f"@{line}.{number}")]
        for source in self.sides[line, number]:
            parts += [ast.Constant("|"), *shown[source]]
        return ast.JoinedStr(parts)

    def failing(self, line, node, is_true=False):
        """The text of a condition that came out false, or true: only what was evaluated stands in it."""
        if isinstance(node, ast.UnaryOp) and isinstance(node.op, ast.Not):
            return self.failing(line, node.operand, not is_true)
        if isinstance(node, ast.BoolOp):
            if isinstance(node.op, ast.And) == is_true:
                # each operand was evaluated
                return self.text(line, [side for operand in node.values for side in sides(operand)])
            *front, last = node.values
            text = self.failing(line, last, is_true)
            for operand in reversed(front):
                rest = [ast.UnaryOp(ast.Not(), operand)] if is_true else [operand]
                text = ast.BoolOp(ast.Or(), [ast.BoolOp(ast.And(), [*rest, text]), self.failing(line, operand, is_true)])
            return text
        return self.text(line, sides(node))


def sides(node):
    """What is evaluated of a condition, whatever it comes to."""
    if isinstance(node, ast.UnaryOp) and isinstance(node.op, ast.Not):
        return sides(node.operand)
    if isinstance(node, ast.BoolOp):
        return sides(node.values[0])
    return [node.left, *node.comparators] if isinstance(node, ast.Compare) else [node]


class Rewriter:
    """Writes a tests file anew; kinds: the faults for which each statement stands in a `try`."""

    def __init__(self, source, kinds):
        self.tree, self.kinds, self.texts = ast.parse(source), kinds, Texts(source)

    def written(self):
        for item in self.tree.body:
            if isinstance(item, ast.AsyncFunctionDef):
                item.body = self.block(item.body)
        body = self.tree.body
        known = {name.asname or name.name for item in body if isinstance(item, (ast.Import, ast.ImportFrom)) for name in item.names}
        for kind in self.kinds:
            if kind in IMPORTED and kind not in known:
                body.append(ast.ImportFrom(IMPORTED[kind], [ast.alias(kind)], 0))
        body += [ast.Assign([ast.Name(name, ast.Store())], ast.Constant(text), lineno=0) for text, name in self.texts.constants.items()]
        return ast.unparse(ast.fix_missing_locations(self.tree)) + "\n"

    def block(self, statements):
        return [self.statement(statement) for statement in statements]

    def statement(self, node):
        line = node.lineno
        for name in ("body", "orelse", "finalbody"):
            if getattr(node, name, None):
                setattr(node, name, self.block(getattr(node, name)))
        if isinstance(node, ast.Try):
            for handler in node.handlers:
                handler.body = self.block(handler.body)
            return node
        if isinstance(node, ast.If) and len(node.orelse) == 1 and isinstance(node.orelse[0], ast.Try) and hasattr(node.orelse[0], "of_elif"):
            # an `elif` stays one
            node.orelse = node.orelse[0].body
        if isinstance(node, ast.Assert) and node.msg is None:
            node.msg = self.texts.failing(line, node.test)
        if not self.kinds or isinstance(node, QUIET) or isinstance(node, ast.Expr) and isinstance(node.value, ast.Constant):
            return node
        return self.guarded(node, line)

    def guarded(self, node, line):
        """A statement in a `try`, which raises what it catches once more, with the line before its text."""
        name = f"{self.texts.prefix}_fault"
        text = ast.JoinedStr([ast.Constant(f"@{line}@"), ast.FormattedValue(ast.Name(name, ast.Load()), -1, None)])
        handlers = [
            ast.ExceptHandler(ast.Name(kind, ast.Load()), name, [ast.Raise(ast.Call(ast.Name(kind, ast.Load()), [text], []), None)]) for kind in self.kinds
        ]
        guard = ast.Try([node], handlers, [], [])
        guard.lineno, guard.of_elif = line, isinstance(node, ast.If)
        return guard


def is_same(lines, others):
    """Whether two runs have the same verdicts and times, and the same lines but for the texts of faults."""
    def bare(line):
        verdict = VERDICT.match(line)
        if verdict:
            return verdict[1] + verdict[2]
        # A log line may show the text of a fault that was caught.
        return re.sub(rf"({LEFT})+|{FAILED}.*", "", line) if line.split(" ")[1:2] in (["INFO"], ["WARNING"], ["ERROR"]) else line

    return [bare(line) for line in lines] == [bare(line) for line in others]


def valued(source, value):
    """A side of an assertion with its value; a vector's digits, and its number."""
    number = f", which is {int(value, 2)}" if source.endswith(".value") and re.fullmatch("[01]+", value) else ""
    return f"{source} is {value}{number}"


class Places:
    """What the texts of the second run tell of lines."""

    def __init__(self, name, source, texts):
        self.name, self.lines, self.sides = name, source.splitlines(), texts.sides
        nodes = [node for node in ast.walk(ast.parse(source)) if isinstance(node, HEADERS)]
        self.inside = {node.lineno: range(node.lineno, node.end_lineno + 1) for node in nodes}

    def told(self, verdict, reason):
        """What is told of a verdict, by the text of the second run's fault."""
        text = reason or ""
        left = [int(line) for line in re.findall(LEFT, re.match(rf"({LEFT})*", text)[0])]
        failed = re.match(FAILED, re.sub(rf"^({LEFT})*", "", text))
        chain = left + ([int(failed[1])] if failed else [])
        # A header is no call of what stands in it.
        chain = [line for line, following in zip(chain, [*chain[1:], None]) if following is None or following not in self.inside.get(line, [line])]
        if not chain:
            yield f"    no line can be told: {UNSEEN.get(verdict[2], 'no statement of the tests raised it')}"
        for line in chain:
            yield f"    {self.name}:{line}: {self.lines[line - 1].strip()}"
        if failed:
            sides = self.sides[int(failed[1]), int(failed[2])]
            values = re.sub(rf"^({LEFT})*{FAILED}", "", text).split("|", len(sides))[1:]
            yield from (f"        {valued(side, value)}" for side, value in zip(sides, values))


def words_of(words):
    """The options of the words, and the places of the files in them."""
    files, at = [], 0
    while at < len(words):
        if words[at] == "--":
            files += range(at + 1, len(words))
            break
        if words[at] in VALUED:
            at += 1
        elif not words[at].startswith("-") or words[at] == "-":
            files.append(at)
        at += 1
    return files


def rerun(program, words, place, source, kinds):
    """The lines of the run of the rewritten tests, with what its texts say; nothing where the program doesn't take them."""
    rewriter = Rewriter(source, kinds)
    with tempfile.TemporaryDirectory() as folder:
        tests = Path(folder) / "t.py"
        tests.write_text(rewriter.written(), encoding="utf-8")
        given = [*words[:place], str(tests), *words[place + 1:]]
        done = subprocess.run([program, *given], stdout=subprocess.PIPE, encoding="utf-8", errors="surrogateescape")
    return (done.stdout.splitlines(), rewriter.texts) if done.returncode in (0, 1, 8) else ([], rewriter.texts)


def places_of(program, words, lines):
    """For each failing line of a run what is told of it, or nothing where the second run isn't the same."""
    place = words_of(words)[1]
    name, failing = words[place], [VERDICT.match(line) for line in lines]
    source = Path(name).read_text(encoding="utf-8", errors="surrogateescape")
    kinds = sorted({verdict[2] for verdict in failing if verdict and verdict[2] in KINDS}, key=KINDS.index)
    # The first that runs as the tests do counts: with each statement in a `try`, or with texts at bare assertions alone.
    for guarded in (kinds, []):
        others, texts = rerun(program, words, place, source, guarded)
        if is_same(lines, others):
            where = Places(name, source, texts)
            return [[*where.told(verdict, VERDICT.match(other)[3])] if verdict else [] for verdict, other in zip(failing, others)]
    return [["    no line can be told: with a text at each assertion the run isn't the same"] if verdict else [] for verdict in failing]


def main(words):
    env = {**os.environ, "COCORUN_WHICH": "1"}
    program = subprocess.run([str(TOP / "cocorun")], env=env, stdout=subprocess.PIPE, check=True, encoding="utf-8").stdout.rstrip("\n")
    done = subprocess.run([str(TOP / "cocorun"), *words], stdout=subprocess.PIPE, encoding="utf-8", errors="surrogateescape")
    lines = done.stdout.splitlines()
    told = places_of(program, words, lines) if len(words_of(words)) == 2 and any(map(VERDICT.match, lines)) else [[] for _ in lines]
    for line, places in zip(lines, told):
        print("\n".join([line, *places]))
    return done.returncode


if __name__ == "__main__":
    sys.stdout.reconfigure(errors="surrogateescape")
    sys.exit(main(sys.argv[1:]))
