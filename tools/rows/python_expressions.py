#!/usr/bin/env python3
"""Rows of the part `expressions` of crates/value_tests, with CPython's answers.

    tools/rows/python_expressions.py rows       the rows, for the front of the part in `stdin`
    tools/rows/python_expressions.py answers    their answers, for `stdout`

The names are those of crates/value_tests/src/expressions/variables.rt that Python knows by itself. A number outside of -2^127 .. 2^127 - 1 is an
OverflowError in the profile, wherever an operator gives one.
"""
import ast
import sys

NAMES = {"i": 7, "j": -3, "b": True, "n": None, "t": "ns"}

EXPRESSIONS = [
    'f"{-7 // 2} {-7 % 2} {7 % -2} {True + 1} {0 or 5}"',
    "1 + 2 * 3 - 4", "(1 + 2) * 3", "2 - 3 - 4", "100 // 7 // 2", "100 % 7 * 2", "-i // 2", "-(i // 2)", "~i + 1", "- - i", "-j", "+b",
    "1 << 3 + 1", "1 + 1 << 3", "256 >> 2 >> 1", "6 & 3 | 8", "6 ^ 3 & 1", "1 | 2 == 3", "not 1 == 2", "not n", "not not t",
    "i or j", "0 or n", "n or 0", "0 or '' or n or t", "i and j", "i and 0 and j", "'' and i", "n and zz or 5", "i or zz", "0 and zz",
    "i and j or b", "0 or i and 5", "(0 or i) and 5", "b and t", "f'{i}{j}'", 'f"{{{i}}}"', 'f"{i + j * 2}"', 'f"{n} {b} {t}"', 'f""', 'f"a{i or zz}b"',
    "i == 7", "i != 7", "j < i", "j <= -3", "i >= 8", "b == 1", "n == 0", "t == 'ns'", "t != 'ns'", "'a' == 1", "n is None", "i is not None", "b is True",
    "int(b)", "int(-5)", "str(i)", "str(j)", "str(n)", "bool(0)", "bool(t)", "bool('')", "bool(n)", "str(1 << 100)",
    "i // 0", "i % 0", "i // (j + 3)", "n + 1", "-t", "t < 1", "1 << -1", "1 >> -1", "i + (1 // 0)", "(1 // 0) + zz", "n + 1 // 0",
    "170141183460469231731687303715884105727 + 1", "170141183460469231731687303715884105727 + 0", "-170141183460469231731687303715884105727 - 1",
    "-170141183460469231731687303715884105727 - 2", "1 << 126", "1 << 127", "-1 << 127", "(1 << 126) * 2 - 1", "zz", "zz + 1", "1 + zz",
]


def within(value):
    """The value, where a value of the profile can hold it."""
    if isinstance(value, int) and not -(1 << 127) <= value < 1 << 127:
        raise OverflowError
    return value


class Checked(ast.NodeTransformer):
    """Asks of each operator's result whether it is within the limits."""

    def checked(self, node):
        self.generic_visit(node)
        return ast.Call(ast.Name("within", ast.Load()), [node], [])

    visit_BinOp = checked
    visit_UnaryOp = checked


def answer(text):
    tree = ast.fix_missing_locations(Checked().visit(ast.parse(text, mode="eval")))
    try:
        value = eval(compile(tree, "row", "eval"), {"within": within}, dict(NAMES))
    except NameError:
        return "UnboundLocalError"
    except Exception as fault:
        return type(fault).__name__
    return "'" + value if isinstance(value, str) else str(value)


for text in EXPRESSIONS:
    print(f"{text}\t{text}" if sys.argv[1] == "rows" else f"{text}: {answer(text)}")
