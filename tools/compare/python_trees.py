#!/usr/bin/env python3
"""Compares the modules that `py_parse` reads with the trees of CPython's `ast`.

    tools/compare/python_trees.py [PROGRAM FILE ..]

The texts are the `tree` rows of crates/python_tests: where `stdout` has a module for one, CPython must read the text too, and its tree
must be the same. PROGRAM is the built program `python_tests`; with it the FILEs are compared as well. The gate doesn't run this.

What a form doesn't keep is left out on both sides: docstrings, brackets, the text of `Event` and `Lock`, and whether an argument was
given by its name where its place tells it.
"""
import ast
import re
import subprocess
import sys
from pathlib import Path

CRATE = Path(__file__).resolve().parents[2] / "crates" / "python_tests"
BINARY = {
    ast.BitOr: "|", ast.BitXor: "^", ast.BitAnd: "&", ast.LShift: "<<", ast.RShift: ">>", ast.Add: "+", ast.Sub: "-",
    ast.Mult: "*", ast.FloorDiv: "//", ast.Mod: "%",
}
COMPARED = {
    ast.Eq: "==", ast.NotEq: "!=", ast.Lt: "<", ast.LtE: "<=", ast.Gt: ">", ast.GtE: ">=", ast.Is: "is", ast.IsNot: "is-not",
}
UNARY = {ast.Not: "not", ast.USub: "-", ast.UAdd: "+", ast.Invert: "~"}
# arguments that stand last, whether by their places or by their names
LAST = {"units", "rising", "timeout_unit", "test_function", "name", "optionlist", "maxsize"}


def quoted(text):
    return "'" + text.encode("latin-1").hex() + "'"


def constant(value):
    return quoted(value) if isinstance(value, str) else str(value)


def part(node):
    """A part of an f-string."""
    if isinstance(node, ast.Constant):
        return node.value.encode("latin-1").hex()
    return "{" + expression(node.value) + "}"


def call(node):
    name = node.func.id if isinstance(node.func, ast.Name) else None
    if name in ("Event", "Lock"):
        return f"(call {name})"
    is_known = name in ("Timer", "get_sim_time", "Clock", "ClockCycles", "with_timeout", "TestFactory", "Queue")
    is_option = isinstance(node.func, ast.Attribute) and node.func.attr == "add_option"
    parts = [expression(argument) for argument in node.args]
    keywords = node.keywords
    if isinstance(node.func, ast.Attribute) and node.func.attr == "generate_tests":
        keywords = sorted(keywords, key=lambda keyword: keyword.arg != "prefix")
    if is_option:
        keywords = sorted(keywords, key=lambda keyword: keyword.arg != "name")
    for keyword in keywords:
        by_place = keyword.arg in LAST and (is_known or is_option)
        parts.append(expression(keyword.value) if by_place else f"{keyword.arg}={literal(keyword.value)}")
    return " ".join(["(call " + expression(node.func), *parts]) + ")"


def literal(node):
    """A constant; a number behind a sign is one."""
    if isinstance(node, ast.UnaryOp) and isinstance(node.op, ast.USub) and isinstance(node.operand, ast.Constant):
        return str(-node.operand.value)
    return expression(node)


def expression(node):
    match node:
        case ast.Constant():
            return constant(node.value)
        case ast.Name():
            return node.id
        case ast.Attribute():
            return f"(. {expression(node.value)} {node.attr})"
        case ast.Subscript():
            return f"([] {expression(node.value)} {expression(node.slice)})"
        case ast.Call():
            return call(node)
        case ast.UnaryOp():
            return f"({UNARY[type(node.op)]} {expression(node.operand)})"
        case ast.BinOp():
            return f"({BINARY[type(node.op)]} {expression(node.left)} {expression(node.right)})"
        case ast.Compare():
            return f"({COMPARED[type(node.ops[0])]} {expression(node.left)} {expression(node.comparators[0])})"
        case ast.BoolOp():
            word = "and" if isinstance(node.op, ast.And) else "or"
            found = expression(node.values[0])
            for value in node.values[1:]:
                found = f"({word} {found} {expression(value)})"
            return found
        case ast.JoinedStr():
            return "(f " + "".join(part(value) for value in node.values) + ")"
        case ast.Await():
            return f"(await {expression(node.value)})"
        case ast.List():
            return " ".join(["(list", *(literal(item) for item in node.elts)]) + ")"
        case ast.Tuple():
            return " ".join(["(tuple", *(expression(item) for item in node.elts)]) + ")"
    raise ValueError(ast.dump(node))


def block(nodes):
    return "".join(" " + shown for node in nodes for shown in statements(node))


def branches(node, word):
    """An `if` or an `elif` with the clauses behind it."""
    found = [f"({word} {expression(node.test)}{block(node.body)})"]
    rest = node.orelse
    if len(rest) == 1 and isinstance(rest[0], ast.If) and rest[0].col_offset == node.col_offset:
        return found + branches(rest[0], "elif")
    return found + ([f"(else{block(rest)})"] if rest else [])


def handler(node):
    kind = "" if node.type is None else " " + expression(node.type)
    return f"(except{kind}{' as ' + node.name if node.name else ''}{block(node.body)})"


def parameters(arguments):
    defaults = [None] * (len(arguments.args) - len(arguments.defaults)) + arguments.defaults
    found = ["(parameters"]
    for argument, default in zip(arguments.args, defaults):
        found.append(argument.arg if default is None else f"{argument.arg}={literal(default)}")
    return " ".join(found) + ")"


def statements(node):
    """What a statement is printed as, clause by clause; a docstring as nothing."""
    match node:
        case ast.Pass():
            return ["(pass)"]
        case ast.Break():
            return ["(break)"]
        case ast.Continue():
            return ["(continue)"]
        case ast.Return():
            return ["(return)" if node.value is None else f"(return {expression(node.value)})"]
        case ast.Raise():
            return [f"(raise {expression(node.exc)})"]
        case ast.Assert():
            return [f"(assert {expression(node.test)}{'' if node.msg is None else ' ' + expression(node.msg)})"]
        case ast.Assign():
            of = literal if node.col_offset == 0 else expression
            return [f"(= {expression(node.targets[0])} {of(node.value)})"]
        case ast.AugAssign():
            return [f"(augment {expression(node.target)} ({BINARY[type(node.op)]} {expression(node.value)}))"]
        case ast.Expr():
            is_text = isinstance(node.value, ast.Constant) and isinstance(node.value.value, str)
            return [] if is_text else [f"(expr {expression(node.value)})"]
        case ast.Import():
            return [f"(import {node.names[0].name})"]
        case ast.ImportFrom():
            return [f"(from {node.module.replace('.', ' ')} import {' '.join(name.name for name in node.names)})"]
        case ast.If():
            return branches(node, "if")
        case ast.While():
            return [f"(while {expression(node.test)}{block(node.body)})"]
        case ast.For():
            return [f"(for {node.target.id} {expression(node.iter)}{block(node.body)})"]
        case ast.AsyncWith():
            return [f"(with {expression(node.items[0].context_expr)}{block(node.body)})"]
        case ast.Try():
            return [f"(try{block(node.body)})", *(handler(each) for each in node.handlers)]
        case ast.AsyncFunctionDef():
            decorators = [f"(decorator {expression(each)})" for each in node.decorator_list]
            return [*decorators, f"(def {node.name} {parameters(node.args)}{block(node.body)})"]
    raise ValueError(ast.dump(node))


def plain(part):
    """The text that a part of a row says."""
    return re.sub(r"\\([0-9a-f]{2})", lambda found: chr(int(found[1], 16)), part)


def escaped(text):
    """A part of a row that says the text."""
    return "".join(char if " " <= char <= "~" and char != "\\" else f"\\{ord(char):02x}" for char in text)


def table_rows():
    """The texts of the tables, each with what is read of it."""
    rows = (CRATE / "stdin").read_text(encoding="utf-8").splitlines()
    answers = (CRATE / "stdout").read_text(encoding="utf-8").splitlines()
    for row, answer in zip(rows, answers, strict=True):
        asked, rule, part = row.split("\t", 2)
        if asked == "tree":
            yield plain(part), answer.removeprefix(rule + ": ")


def file_rows(program, files):
    """The texts of the files, each with what the program reads of it."""
    texts = [Path(file).read_text(encoding="latin-1") for file in files]
    rows = "".join(f"tree\tfile\t{escaped(text)}\n" for text in texts)
    shown = subprocess.run([program], input=rows, capture_output=True, text=True, check=True).stdout.splitlines()
    return [(text, answer.removeprefix("file: ")) for text, answer in zip(texts, shown, strict=True)]


def is_alone(text):
    """Whether a decorator stands before no function, which is the matter of a later rule."""
    lines = [line for line in text.split("\n") if line.strip()]
    return any(line.startswith("@") and not (lines[at + 1:] or [""])[0].startswith("async def") for at, line in enumerate(lines))


def main(program=None, *files):
    counts = {"same": 0, "refused": 0, "other": 0}
    for text, shown in [*table_rows(), *(file_rows(program, files) if program else [])]:
        if not shown.startswith("(module"):
            counts["refused"] += 1
            continue
        if is_alone(text):
            continue
        try:
            wanted = "(module" + block(ast.parse(text).body) + ")"
        except SyntaxError as fault:
            wanted = f"SyntaxError: {fault}"
        counts["same" if shown == wanted else "other"] += 1
        if shown != wanted:
            print(f"text: {text!r}\n  here:    {shown}\n  CPython: {wanted}")
    print(", ".join(f"{kind}: {count}" for kind, count in counts.items()))
    return 1 if counts["other"] else 0


if __name__ == "__main__":
    sys.exit(main(*sys.argv[1:]))
