#!/usr/bin/env python3
"""Compares what the check of tests files says with what CPython makes of the same texts.

    tools/compare/python_accepts.py [PROGRAM FILE ..]

The texts are the rows of crates/check_tests, those of crates/python_tests that are read as modules, and the tests of the tables of runs, tools/data/*_rows.txt.
PROGRAM is the built program `check_tests`; with it the FILEs are looked at as well. The gate doesn't run this. The status is 1 where one of these doesn't hold.

- A text that is accepted: `ast` reads it. Its lines outside of functions run: its imports, from stand-ins for the modules of cocotb 1.8 that have the names
  of `MODULES`, and the rest with stubs that do what cocotb 1.8 says of `cocotb.test` and of `TestFactory` (the product of the options by `itertools`).
  The functions, the tests in order, their arguments and options are those that the row shows. The names that a function assigns are those that
  `symtable` finds. `ast` reads each text of python_tests that has a tree. CPython compiles the tests of each run, and takes their lines outside of functions.
- A text that is refused, where CPython has a word on it: CPython refuses no line above the one that is told, and where it refuses that one by a
  message of `MESSAGES`, it is one of the rule. What breaks `Dedent`, `NoBlock` or `UnclosedText` is refused by CPython. What breaks a rule of the
  check is read by `ast`, but for a decorator before no function.

What docs/PYTHON.md names as read otherwise by CPython is left out: a kind of fault stays one in `expect_error`, what a module imports anywhere
is known in all of it, and a function that a factory names is no test by itself.
"""
import ast
import itertools
import re
import subprocess
import symtable
import sys
import types
import unittest.mock
import warnings
from pathlib import Path

ROOT = Path(__file__).resolve().parents[2]
CRATES = ROOT / "crates"
# the functions of the library
LIBRARY = "def s half first cycles / n; def q x /; def q /; "
SHOWN = 12
# modules of cocotb 1.8, with the names that their pages have and that tests import
MODULES = {
    "cocotb.triggers": "Timer Edge RisingEdge FallingEdge ReadWrite ReadOnly NextTimeStep Event Lock Join First Combine ClockCycles NullTrigger Trigger "
                       "GPITrigger TriggerException with_timeout",
    "cocotb.clock": "Clock", "cocotb.regression": "TestFactory", "cocotb.utils": "get_sim_time get_sim_steps get_time_from_sim_steps",
    "cocotb.result": "SimTimeoutError TestFailure TestSuccess TestError",
    "cocotb.queue": "Queue PriorityQueue LifoQueue QueueEmpty QueueFull",
    "cocotb.handle": "Force Freeze Release Deposit SimHandleBase",
}
# Messages of CPython 3.11 on a line, and the rules that say the same of it, or count before on one line.
MESSAGES = {
    "unindent does not match": {"Dedent"},
    "inconsistent use of tabs": {"Tab"},
    "was never closed": {"UnclosedText"},
    "unterminated": {"UnclosedText"},
    "unmatched": {"BadByte"},
    "does not match opening": {"BadByte"},
    "unexpected character after line continuation": {"BadByte"},
    "invalid non-printable character": {"BadByte"},
    "invalid character": {"BadByte"},
    "unexpected indent": {"BadLine"},
    "expected an indented block": {"BadLine", "NoBlock"},
    "outside loop": {"UnknownName", "Misplaced"},
    "not properly in loop": {"UnknownName", "Misplaced"},
    "duplicate argument": {"UnknownName", "Misplaced", "DuplicateName"},
    "keyword argument repeated": {"UnknownName", "Misplaced", "BadOption"},
}
OF_LINES = {"Tab", "Dedent", "UnclosedText", "BadByte"}
OF_TREES = {"BadLine", "NoBlock", "TooDeep"}


def plain(part):
    """The text that a part of a row says."""
    return re.sub(r"\\([0-9a-f]{2})", lambda found: chr(int(found[1], 16)), part)


def run_texts():
    """The tests of the tables of runs, each with its name."""
    for table in sorted((ROOT / "tools" / "data").glob("*_rows.txt")):
        for line in table.read_text(encoding="ascii").splitlines():
            asked, *parts = line.split("\t")
            if asked in ("run", "trace"):
                yield f"{table.name}: {parts[0]}", plain(parts[3])


def escaped(text):
    """A part of a row that says the text."""
    return "".join(char if " " <= char <= "~" and char != "\\" else f"\\{ord(char):02x}" for char in text)


def rows_of(crate):
    rows = (CRATES / crate / "stdin").read_text(encoding="latin-1").splitlines()
    answers = (CRATES / crate / "stdout").read_text(encoding="utf-8").splitlines()
    return zip(rows, answers, strict=True)


def checked_rows():
    """The texts of check_tests, each with its name and its answer."""
    for row, answer in rows_of("check_tests"):
        name, part = row.split("\t", 1)
        yield name, plain(part), answer.removeprefix(name + ": ")


def file_rows(program, files):
    """The texts of the files, each with what the program says of it."""
    texts = [Path(file).read_bytes().decode("latin-1") for file in files]
    rows = "".join(f"{at}\t{escaped(text)}\n" for at, text in enumerate(texts))
    shown = subprocess.run([program], input=rows, capture_output=True, text=True, check=True).stdout.splitlines()
    return [(file, text, answer.split(": ", 1)[1]) for file, text, answer in zip(files, texts, shown, strict=True)]


def read_rows():
    """The texts of python_tests that are read as modules, each with its name and its answer."""
    for row, answer in rows_of("python_tests"):
        asked, name, *parts = row.split("\t")
        if asked in ("tree", "read"):
            yield name, plain(parts[0]), answer.removeprefix(name + ": ")
        elif asked == "repeat":
            times, front, part, middle, other, back = int(parts[0]), *map(plain, parts[1:])
            yield name, front + part * times + middle + other * times + back, answer.removeprefix(name + ": ")


# ---- what CPython makes of an accepted text


def assigned(nodes):
    """The names that statements assign, in the order in which they stand."""
    for node in nodes:
        match node:
            case ast.Assign(targets=[ast.Name(id=name)]) | ast.AugAssign(target=ast.Name(id=name)):
                yield name
            case ast.For():
                yield node.target.id
                yield from assigned(node.body)
            case ast.ExceptHandler():
                yield from [node.name] if node.name else []
                yield from assigned(node.body)
            case ast.If() | ast.While() | ast.AsyncWith():
                yield from assigned(node.body)
                yield from assigned(getattr(node, "orelse", []))
            case ast.Try():
                yield from assigned(node.body)
                yield from assigned(node.handlers)


def function_text(node, table):
    parameters = [each.arg for each in node.args.args]
    others = list(dict.fromkeys(name for name in assigned(node.body) if name not in parameters))
    if set(table.get_locals()) != {*parameters, *others}:
        raise ValueError(f"the names of {node.name} are {table.get_locals()}")
    return "".join(["def", *(" " + name for name in parameters), " /", *(" " + name for name in others), "; "])


def shown(value):
    return f"'{value}'" if isinstance(value, str) else str(value)


class KeepKinds(ast.NodeTransformer):
    """A kind of fault stays one in `expect_error`."""

    def visit_keyword(self, node):
        if node.arg == "expect_error":
            node.value = ast.Call(ast.Name("_Kind", ast.Load()), [ast.Constant(node.value.id)], [])
        return node


class Kind(str):
    """A kind of fault by its name."""


class Tests:
    """cocotb's part: the tests of a module in order."""

    def __init__(self, tree, made):
        functions = [node for node in tree.body if isinstance(node, ast.AsyncFunctionDef)]
        self.numbers = {node.lineno: number for number, node in enumerate(functions)}
        self.made, self.options, self.found = made, {}, []

    def test(self, **options):
        def decorate(function):
            self.options[function] = options
            if function.__name__ not in self.made:
                defaults = function.__defaults__ or ()
                self.add(function, function.__name__, defaults)
            return function
        return decorate

    def add(self, function, name, arguments):
        options = self.options.get(function, {})
        said = "".join(" " + shown(value) for value in arguments)
        if "timeout_time" in options:
            said += f" timeout_time={shown(options['timeout_time'])} timeout_unit={shown(options.get('timeout_unit', 'step'))}"
        said += " expect_fail" if options.get("expect_fail") else ""
        said += f" expect_error={options['expect_error']}" if "expect_error" in options else ""
        said += " skip" if options.get("skip") else ""
        self.found.append(f"; {name}={self.number_of(function)}{said}")

    def number_of(self, function):
        # a decorated function's code begins at its decorator's line
        first = function.__code__.co_firstlineno
        return self.numbers[min(line for line in self.numbers if line >= first)]

    def factory(self):
        tests = self

        class TestFactory:
            def __init__(self, test_function):
                self.function, self.chosen = test_function, {}

            def add_option(self, name, optionlist):
                self.chosen[name] = optionlist

            def generate_tests(self, prefix="", postfix=""):
                further = self.function.__code__.co_varnames[1:self.function.__code__.co_argcount]
                defaults = dict(zip(reversed(further), reversed(self.function.__defaults__ or ())))
                for number, values in enumerate(itertools.product(*self.chosen.values()), 1):
                    given = {**defaults, **dict(zip(self.chosen, values))}
                    tests.add(self.function, f"{prefix}{self.function.__name__}{postfix}_{number:03d}", [given[name] for name in further])

        return TestFactory


def module(name, items):
    found = types.ModuleType(name)
    vars(found).update(items)
    return found


def stand_ins(tests):
    """The modules that tests import."""
    names = {name: {each: object() for each in known.split()} for name, known in MODULES.items()}
    names["cocotb.regression"]["TestFactory"] = tests.factory()
    made = {name: module(name, items) for name, items in names.items()}
    parts = {name.removeprefix("cocotb."): each for name, each in made.items()}
    return {**made, "random": module("random", {}), "cocotb": module("cocotb", {"test": tests.test, **parts})}


def accepted_text(text):
    """What an accepted text stands for, by CPython."""
    tree = ast.parse(text)
    tables = [table for table in symtable.symtable(text, "t.py", "exec").get_children() if table.get_type() == "function"]
    functions = [node for node in tree.body if isinstance(node, ast.AsyncFunctionDef)]
    said = "".join(function_text(node, table) for node, table in zip(functions, tables, strict=True))
    made = set()
    for node in ast.walk(tree):
        if isinstance(node, ast.Call) and isinstance(node.func, ast.Name) and node.func.id == "TestFactory":
            made.add((node.args + [keyword.value for keyword in node.keywords])[0].id)
    tests = Tests(tree, made)
    # what a module imports anywhere is known in all of it
    tree.body.sort(key=lambda node: not isinstance(node, (ast.Import, ast.ImportFrom)))
    with unittest.mock.patch.dict(sys.modules, stand_ins(tests)):
        exec(compile(ast.fix_missing_locations(KeepKinds().visit(tree)), "t.py", "exec"), {"_Kind": Kind})
    count = len(tests.found)
    last = " .." + tests.found[-1] if count > SHOWN else ""
    return said + LIBRARY + f"{count} tests" + "".join(tests.found[:SHOWN]) + last


# ---- what CPython says of a refused text


def complaint(text):
    """What CPython has against a text that is accepted, or None."""
    try:
        accepted_text(text)
    except (SyntaxError, NameError, ImportError, ValueError, TypeError, KeyError) as fault:
        return repr(fault)
    return None


def word_of(reads, text):
    """CPython's message on a text that it refuses, with its line, or None. Of a header without its block it is the header's line."""
    try:
        with warnings.catch_warnings():
            warnings.simplefilter("ignore")
            reads(text, "t.py")
    except SyntaxError as fault:
        found = re.search(r"after .* on line (\d+)$", fault.msg)
        return fault.msg, int(found[1]) if found else fault.lineno
    except (ValueError, RecursionError, MemoryError):
        pass
    return None


def parser_word(text):
    return word_of(ast.parse, text)


def compiler_word(text):
    return word_of(lambda source, name: compile(source, name, "exec"), text)


def is_alone(text):
    """Whether a decorator stands before no function."""
    lines = [line for line in text.split("\n") if line.strip()]
    return any(line.startswith("@") and not (lines[at + 1:] or [""])[0].startswith("async def") for at, line in enumerate(lines))


def compared(text, rule, line):
    """How CPython's word on a refused text fits, and the word."""
    word = parser_word(text)
    if word and rule not in OF_LINES | OF_TREES and not is_alone(text):
        return "other", word
    if word is None and rule in ("Dedent", "NoBlock", "UnclosedText"):
        return "other", "it is read"
    word = word or (None if rule in OF_LINES | OF_TREES else compiler_word(text))
    if word is None:
        return "refused here alone", word
    # the rules of lines count first, wherever they are broken
    if word[1] < line and rule not in OF_LINES:
        return "other", word
    rules = [rules for message, rules in MESSAGES.items() if message in word[0]]
    if word[1] > line or not rules:
        return "refused by both, no word on the rule", word
    return "refused alike" if rule in rules[0] or rule in OF_LINES else "other", word


def refusal_of(answer):
    found = re.fullmatch(r"(\w+)\((\d+)\)", answer)
    return (found[1], int(found[2])) if found else None


def main(program=None, *files):
    kinds = ["accepted alike", "read", "run", "refused alike", "refused here alone", "refused by both, no word on the rule", "other"]
    counts = dict.fromkeys(kinds, 0)

    def count(kind, name, text, here, word):
        counts[kind] += 1
        if kind == "other":
            print(f"{name}: {text[:400]!r}\n  here    {here}\n  CPython {word}")

    checked = [*checked_rows(), *(file_rows(program, files) if program else [])]
    for name, text, answer in [*checked, *read_rows()]:
        refusal = refusal_of(answer)
        if refusal:
            kind, word = compared(text, *refusal)
            count(kind, name, text, answer, word)
        elif answer.startswith(("(module", "a tree")):
            # a decorator before no function is the matter of a later rule
            word = None if is_alone(text) else parser_word(text)
            count("other" if word else "read", name, text, "a tree", word)
        else:
            wanted = complaint(text) or accepted_text(text)
            count("accepted alike" if wanted == answer else "other", name, text, answer, wanted)
    for name, text in run_texts():
        fault = complaint(text)
        count("other" if fault else "run", name, text, "a run", fault)
    print(", ".join(f"{kind}: {number}" for kind, number in counts.items()))
    return 1 if counts["other"] else 0


if __name__ == "__main__":
    sys.exit(main(*sys.argv[1:]))
