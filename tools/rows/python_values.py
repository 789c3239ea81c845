#!/usr/bin/env python3
"""Makes the rows of the part `values` of `value_tests` whose answers are CPython's: operators on whole numbers, truth values, texts and None.

    tools/rows/python_values.py rows       the rows, for the front of the part in `stdin`
    tools/rows/python_values.py answers    their answers, for `stdout`

Results that no value can hold are OverflowErrors, as `docs/VALUES.md` says, and `is` is asked of kind and value, since CPython makes equal numbers twice. All
else is what CPython answers.
"""
import operator
import random
import sys

sys.set_int_max_str_digits(0)

LEAST, GREATEST = -(2**127), 2**127 - 1

BINARY = {
    "==": operator.eq, "!=": operator.ne, "<": operator.lt, "<=": operator.le, ">": operator.gt, ">=": operator.ge,
    "is": lambda a, b: type(a) is type(b) and a == b, "is not": lambda a, b: not (type(a) is type(b) and a == b),
    "|": operator.or_, "^": operator.xor, "&": operator.and_, "<<": operator.lshift, ">>": operator.rshift,
    "+": operator.add, "-": operator.sub, "*": operator.mul, "//": operator.floordiv, "%": operator.mod,
}
UNARY = {"not": operator.not_, "neg": operator.neg, "pos": operator.pos, "~": operator.invert, "int": int, "bool": bool, "str": str}

NUMBERS = [0, 1, -1, 2, -2, 3, -3, 5, 7, -7, 8, 63, 64, 126, 127, 128, 255, -256, 2**31, -(2**31), 2**63 - 1, -(2**63), 2**64,
           10**20, -(10**20), 2**126, -(2**126), GREATEST, GREATEST - 1, LEAST, LEAST + 1]


def written(v):
    """A value as rows have it."""
    if isinstance(v, str):
        return "'" + v
    return str(v)


def answer(f, *operands):
    """CPython's result, or the kind of its fault."""
    try:
        result = f(*operands)
    except (TypeError, ValueError, ZeroDivisionError, OverflowError) as fault:
        return type(fault).__name__
    if isinstance(result, bool) or result is None or isinstance(result, str):
        return written(result)
    result = int(result)
    return str(result) if LEAST <= result <= GREATEST else "OverflowError"


def shift(word, a, b):
    """Shifts by counts that CPython can't compute with are left to the rows by hand."""
    return word in ("<<", ">>") and isinstance(b, int) and b > 1000


def main():
    rng = random.Random(25)
    rows = []
    for word in BINARY:
        pairs = [(rng.choice(NUMBERS), rng.choice(NUMBERS)) for _ in range(9)]
        same = rng.choice(NUMBERS)
        pairs += [(-7, 2), (7, -2), (-7, -2), (True, 1), (rng.choice(NUMBERS), False), (same, same)]
        if word in ("<<", ">>"):
            pairs += [(rng.choice(NUMBERS), n) for n in (0, 1, 63, 126, 127, 128)] + [(-1, 127), (-1, 200), (0, 500), (5, 500), (1, -1)]
        for a, b in pairs:
            if not shift(word, a, b):
                rows.append((f"{written(a)} {word} {written(b)}", word, a, b, answer(BINARY[word], a, b)))
    for a, b in [("a", "a"), ("a", "b"), ("a", "ab"), ("", ""), ("a", 97), (None, None), (None, 0), (None, False), (True, True), (True, False)]:
        for word in ("==", "!=", "is", "is not"):
            rows.append((f"{written(a)} {word} {written(b)}", word, a, b, answer(BINARY[word], a, b)))
    for a, b in [(None, 1), (1, None), (None, None)]:
        for word in ("+", "<", "//", "<<", "&"):
            rows.append((f"{written(a)} {word} {written(b)}", word, a, b, answer(BINARY[word], a, b)))
    for word, f in UNARY.items():
        for a in [0, 1, -1, 5, -6, GREATEST, LEAST, True, False]:
            rows.append((f"{word} {written(a)}", word, a, None, answer(f, a)))
    for word in ("not", "bool", "str"):
        for a in ["", "a", "0", None]:
            rows.append((f"{word} {written(a)}", word, a, None, answer(UNARY[word], a)))
    for word in ("neg", "pos", "~"):
        for a in ["a", None]:
            rows.append((f"{word} {written(a)}", word, a, None, answer(UNARY[word], a)))
    for rule, word, a, b, result in rows:
        print(f"{rule}\t{word}\t{written(a)}\t{written(b)}" if sys.argv[1] == "rows" else f"{rule}: {result}")


if __name__ == "__main__":
    main()
