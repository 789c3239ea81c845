"""Short tests files, one for each rule of control: the rule, the functions and tests, and a budget or None. `tools/rows/control_rows.py` runs them."""
from rows.row_texts import function, test


def say(text):
    return f'dut._log.info(f"{text}")'


def one(rule, body, *functions, budget=None):
    return rule, (*functions, test(body)), budget


LOOPS = [
    one("for over range of a stop", "for i in range(3): { " + say("{i}") + " }"),
    one("for over range of a start and a stop", "for i in range(2, 5): { " + say("{i}") + " }"),
    one("for over range with a step", "for i in range(1, 8, 3): { " + say("{i}") + " }"),
    one("for over range with a negative step", "for i in range(5, 0, -2): { " + say("{i}") + " }"),
    one("for over range with a negative step and bounds below 0", "for i in range(-1, -8, -3): { " + say("{i}") + " }"),
    one("for over an empty range", "for i in range(3, 3): { " + say("{i}") + " }; for i in range(0, 5, -1): { " + say("{i}") + " }; " + say("end")),
    one("a step of 0", "for i in range(0, 5, 0): { pass }"),
    one("the name of a for keeps its last value", "for i in range(3): { pass }; " + say("{i}")),
    one("the name of a for without turns is unassigned", "for i in range(0): { pass }; " + say("{i}")),
    one("an assignment to the name of a for changes no turn", "for i in range(3): { " + say("{i}") + "; i = 10 }; " + say("{i}")),
    one("range is evaluated once, at the first question", "n = 3; for i in range(n): { n = 9; " + say("{i} {n}") + " }"),
    one("range is evaluated where the for begins", "n = 1; n = 2; for i in range(n): { " + say("{i}") + " }"),
    one("for over a list of constants", "for x in [1, -2, True, None, \"text\", 'other']: { " + say("{x}") + " }"),
    one("for over an empty list", "for x in []: { " + say("{x}") + " }; " + say("end")),
    ("for over a list with constants of the module", ("\nA = 7\nB = \"b\"\n", test("for x in [A, B, 0x10]: { " + say("{x}") + " }")), None),
    one("break leaves the innermost loop alone", "for i in range(3): { for j in range(3): { if j == 1: { break }; " + say("{i} {j}") + " } }"),
    one("continue goes on with the innermost loop", "for i in range(2): { for j in range(3): { if j == 1: { continue }; " + say("{i} {j}") + " } }"),
    one("while asks its condition before each turn", "n = 3; while n: { n -= 1; " + say("{n}") + " }"),
    one("while with break and continue", "n = 0; while True: { n += 1; if n == 2: { continue }; if n == 4: { break }; " + say("{n}") + " }; " + say("{n}")),
    one("while whose condition is false at once", "while False: { " + say("never") + " }; while 0: { pass }; while \"\": { pass }; " + say("end")),
    one("a loop inside of a while", "n = 2; while n: { for i in range(n): { " + say("{n} {i}") + " }; n -= 1 }"),
    one("a loop that waits", 'for i in range(3): { await Timer(2, "step"); ' + say("{i}") + " }"),
]

BRANCHES = [
    one("if, elif and else", "for i in range(4): { if i == 0: { " + say("zero") + " } elif i == 1: { " + say("one") + " } elif i == 2: { " + say("two") + " } else: { "
        + say("more") + " } }"),
    one("a condition behind one that holds is not evaluated", "if True: { " + say("yes") + " } elif 1 // 0: { " + say("no") + " } else: { pass }"),
    one("an elif is evaluated where those before it don't hold", "if False: { pass } elif 1 // 0: { " + say("no") + " }"),
    one("an else inside of an if", "for i in range(3): { if i: { if i == 2: { " + say("two") + " } else: { " + say("one") + " } } }"),
    one("an if without an else", "if None: { " + say("no") + " }; " + say("end")),
    one("and, or and not", say("{0 and 1} {2 and 3} {0 or 4} {5 or 6} {not 0} {not 7} {None or False} {1 and 0 or 8}")),
    one("and and or evaluate the second operand where they need it", "x = 0 and 1 // 0; y = 1 or 1 // 0; " + say("{x} {y}") + "; z = 1 and 1 // 0"),
    one("comparisons", "x = 3; " + say("{1 < 2} {2 <= 1} {3 > 2} {3 >= 4} {1 == True} {1 != 0} {None is None} {x is not None}")),
]

FAULTS = [
    one("a try without a fault", "try: { " + say("in") + " } except: { " + say("no") + " }; " + say("end")),
    one("the first handler that fits", 'try: { raise ValueError("v") } except TypeError: { ' + say("type") + " } except ValueError: { " + say("value")
        + " } except Exception: { " + say("any") + " }"),
    one("a handler for several kinds", "for i in range(2): { try: { if i: { raise IndexError }; raise OverflowError } except (OverflowError, IndexError): { " + say("{i}")
        + " } }"),
    one("Exception catches every kind", "try: { x = 1 // 0 } except Exception: { " + say("caught") + " }"),
    one("a bare except catches every kind", "try: { assert False } except: { " + say("caught") + " }"),
    one("a kind that no handler has goes out", "try: { raise RuntimeError } except ValueError: { " + say("no") + " }"),
    one("the inner try comes before the outer", 'try: { try: { raise ValueError("v") } except ValueError: { ' + say("inner") + " } } except ValueError: { " + say("outer")
        + " }"),
    one("the outer try where the inner doesn't fit", 'try: { try: { raise ValueError("v") } except TypeError: { ' + say("inner") + " } } except ValueError: { "
        + say("outer") + " }; " + say("end")),
    one("a fault in a handler goes to the try around", 'try: { try: { raise ValueError("v") } except ValueError: { raise TypeError("t") } } except TypeError as e: { '
        + say("{e}") + " }"),
    one("a fault in a handler isn't caught by the handlers beside it", 'try: { raise ValueError("v") } except ValueError: { raise TypeError("t") } except TypeError: { '
        + say("no") + " }"),
    one("a fault in a handler of the same kind isn't caught by it again", 'try: { raise ValueError("v") } except ValueError: { raise ValueError("w") }'),
    one("what stands behind a fault in its block isn't done", "try: { " + say("before") + "; x = 1 // 0; " + say("behind") + " } except ZeroDivisionError: { pass }; "
        + say("end")),
    one("try in a loop goes on with the loop", "for i in range(3): { try: { if i == 1: { raise ValueError }; " + say("{i}") + " } except ValueError: { " + say("odd")
        + " } }"),
    one("break in a try", "for i in range(3): { try: { if i == 1: { break }; " + say("{i}") + " } except: { " + say("no") + " } }; " + say("end {i}")),
    one("continue in a try", "for i in range(3): { try: { if i == 1: { continue }; " + say("{i}") + " } except: { " + say("no") + " } }"),
    one("break in a handler", "for i in range(3): { try: { raise ValueError } except ValueError: { break } }; " + say("{i}")),
    one("continue in a handler", "for i in range(2): { try: { raise ValueError } except ValueError: { continue }; " + say("no") + " }; " + say("{i}")),
    one("a loop in a try that a fault leaves", "try: { for i in range(5): { if i == 2: { raise IndexError } } } except IndexError: { " + say("{i}") + " }"),
    one("a loop in a handler", "try: { raise ValueError } except ValueError: { for i in range(2): { " + say("{i}") + " } }"),
    one("try, loop, try, loop", "for i in range(2): { try: { for j in range(2): { try: { if j == i: { raise ValueError }; raise TypeError } except ValueError: { "
        + say("{i} {j} value") + " } } } except TypeError: { " + say("{i} {j} type") + " } }"),
    one("the name behind as holds the fault", 'try: { raise ValueError("v") } except ValueError as e: { ' + say("{e}") + " }"),
    one("the name behind as is unassigned behind its block", 'try: { raise ValueError("v") } except ValueError as e: { pass }; ' + say("{e}")),
    one("the name behind as loses what it held before", "e = 5; try: { raise ValueError } except ValueError as e: { pass }; try: { " + say("{e}")
        + " } except UnboundLocalError: { " + say("unassigned") + " }"),
    one("the name behind as keeps its value where no fault comes", "e = 5; try: { pass } except ValueError as e: { pass }; " + say("{e}")),
    one("the name behind as is unassigned where break leaves its block", "for i in range(2): { try: { raise ValueError } except ValueError as e: { break } }; "
        + say("{e}")),
    one("the name behind as is unassigned where a fault leaves its block", 'try: { try: { raise ValueError("v") } except ValueError as e: { raise TypeError } } '
        "except TypeError: { " + say("{e}") + " }"),
    one("a value of the name behind as is kept under another name", 'try: { raise ValueError("v") } except ValueError as e: { f = e }; ' + say("{f}")),
    one("an assignment to the name behind as", "try: { raise ValueError } except ValueError as e: { e = 3; " + say("{e}") + " }; " + say("{e}")),
    one("each kind is raised and caught", "".join(
        f"try: {{ raise {kind} }} except {kind}: {{ {say(kind)} }}; " for kind in
        ("AssertionError", "AttributeError", "IndexError", "OverflowError", "RuntimeError", "TypeError", "UnboundLocalError", "ValueError", "ZeroDivisionError",
         "Exception"))),
    one("a raise with a number and with None", "for i in range(2): { try: { if i: { raise ValueError(None) }; raise ValueError(7) } except ValueError as e: { "
        + say("{e}") + " } }"),
    one("a fault that isn't caught, with a text", 'raise RuntimeError("a text")'),
    one("a fault that isn't caught, with an empty text", 'raise RuntimeError("")'),
    one("the text of a raise is evaluated first", "raise ValueError(1 // 0)"),
    one("an assert that holds doesn't evaluate its text", "assert 1, 1 // 0; " + say("end")),
    one("an assert that doesn't hold", 'x = 3; assert x == 4, f"x is {x}"'),
    one("an assert without a text", "assert not True"),
    one("an assert with a number", "try: { assert 0, 12 } except AssertionError as e: { " + say("{e}") + " }"),
    one("a fault in the text of an assert", "assert False, 1 // 0"),
]

RETURN_IN_LOOP = function("f(dut, n)", "for i in range(5): { try: { if i == n: { return i } } except: { pass } }; return 9")
RETURN_IN_HANDLER = function("f(dut, n)", "while True: { try: { x = 10 // n; return x } except ZeroDivisionError: { return -1 } }")
RETURN_NESTED = function("f(dut)", "for i in range(3): { try: { for j in range(3): { try: { if j == 1: { return i * 10 + j } } except ValueError: { pass } } } "
                         "except: { pass } }")
FACTORIAL = function("f(dut, n)", "if n < 2: { return 1 }; m = await f(dut, n - 1); return n * m")
EVEN = function("even(dut, n)", "if n == 0: { return True }; r = await odd(dut, n - 1); return r") + function(
    "odd(dut, n)", "if n == 0: { return False }; r = await even(dut, n - 1); return r")
FIBONACCI = function("fib(dut, n)", "if n < 2: { return n }; a = await fib(dut, n - 1); b = await fib(dut, n - 2); return a + b")
DEFAULTS = function('f(dut, a, b=2, c="c", d=None)', say("{a} {b} {c} {d}"))
DEEP = function("f(dut)", "await g(dut); " + say("no")) + function("g(dut)", "await h(dut); " + say("no")) + function("h(dut)", 'raise IndexError("deep")')
CALLS = [
    one("return out of a try in a loop", "for n in [0, 3, 7]: { r = await f(dut, n); " + say("{r}") + " }", RETURN_IN_LOOP),
    one("return out of a handler in a loop", "for n in [2, 0]: { r = await f(dut, n); " + say("{r}") + " }", RETURN_IN_HANDLER),
    one("return out of two tries in two loops", "r = await f(dut); " + say("{r}"), RETURN_NESTED),
    one("a function that ends gives None", "r = await f(dut); s = await g(dut); " + say("{r} {s}"), function("f(dut)", "pass"), function("g(dut)", "return")),
    one("return ends the test", say("one") + "; return; " + say("two")),
    one("return of a test out of a loop", "for i in range(3): { if i == 1: { return }; " + say("{i}") + " }"),
    one("recursion", "r = await f(dut, 20); " + say("{r}"), FACTORIAL),
    one("two functions that call one another", "r = await even(dut, 7); s = await even(dut, 4); " + say("{r} {s}"), EVEN),
    one("two calls in each call", "r = await fib(dut, 8); " + say("{r}"), FIBONACCI),
    one("a hundred open calls", "r = await f(dut, 100); " + say("{r}"), function("f(dut, n)", "if n: { m = await f(dut, n - 1); return m + 1 }; return 0")),
    one("default values", 'await f(dut, 1); await f(dut, 1, 5); await f(dut, 1, 5, "x", 6)', DEFAULTS),
    one("named arguments", 'await f(dut, a=1, c="x"); await f(dut, d=4, a=2); await f(dut, 3, d=True)', DEFAULTS),
    one("named arguments are evaluated as they are written", "try: { await f(dut, c=1 // 0, a=x) } except ZeroDivisionError: { " + say("c first") + " }; x = 1", DEFAULTS),
    one("arguments are evaluated from left to right", "try: { await f(dut, 1 // 0, x) } except ZeroDivisionError: { " + say("division") + " }; try: { await f(dut, x, 1 // 0) } "
        "except UnboundLocalError: { " + say("x") + " }; x = 1", DEFAULTS),
    one("a fault of an argument is the caller's", "try: { await f(dut, 1 // 0) } except ZeroDivisionError: { " + say("caught") + " }",
        function("f(dut, n)", "try: { " + say("in") + " } except: { " + say("no") + " }")),
    one("a fault goes out through three calls", "try: { await f(dut) } except IndexError as e: { " + say("{e}") + " }", DEEP),
    one("a fault that goes out of all calls", "await f(dut)", DEEP),
    one("a handler in the middle of the calls", "await f(dut); " + say("end"), function("f(dut)", "try: { await g(dut) } except ValueError as e: { " + say("{e}") + " }"),
        function("g(dut)", 'raise ValueError("g")')),
    one("a call inside of a handler", "try: { raise ValueError } except ValueError: { r = await f(dut, 3); " + say("{r}") + " }", function("f(dut, n)", "return n + 1")),
    one("a call inside of a loop inside of a try", "try: { for i in range(3): { r = await f(dut, i); " + say("{r}") + " } } except ZeroDivisionError: { "
        + say("end {i}") + " }", function("f(dut, n)", "return 4 // (1 - n)")),
    one("a function's names are its own", "n = 5; r = await f(dut, 1); " + say("{n} {r}"), function("f(dut, m)", "n = m + 1; return n")),
    one("a parameter that gets another value", "n = 5; await f(dut, n); " + say("{n}"), function("f(dut, n)", "n += 1; " + say("{n}"))),
    one("a name of the caller isn't the callee's", "n = 5; await f(dut, 0); " + say("{n}"), function("f(dut, k)", "if k: { n = 1 }; " + say("{n}"))),
    one("a name that isn't assigned yet", say("{x}") + "; x = 1"),
    one("a name that only the other branch assigns", "for i in range(2): { if i == 0: { x = 1 } else: { y = 2 } }; " + say("{x} {y}") + "; if 0: { z = 1 }; " + say("{z}")),
    one("an unassigned name is a fault like any other", "try: { y = x } except UnboundLocalError: { " + say("unassigned") + " }; x = 1; " + say("{x}")),
    ("a constant of the module, and a name that hides one", ("\nN = 4\n", function("f(dut)", "return N"), test("N = 5; r = await f(dut); " + say("{N} {r}"))), None),
    ("a test that another test calls", (test(say("one"), "one"), test("await one(dut); " + say("two"), "two")), None),
    ("several tests, one of which fails", (test(say("a"), "a"), test('await Timer(3, "step"); assert False, "b"', "b"), test("pass", "c")), None),
]

ASSIGNMENTS = "; ".join(f"x {sign}= {value}; {say('{x}')}" for sign, value in
                        [("+", 5), ("-", 2), ("*", 7), ("//", 2), ("%", 40), ("<<", 3), (">>", 1), ("|", 3), ("&", 250), ("^", 15)])
VALUES = [
    one("augmented assignments", "x = 10; " + ASSIGNMENTS),
    one("an augmented assignment to an unassigned name", "x += 1"),
    one("an augmented assignment evaluates its right side whole", "x = 10; x -= 2 + 3; " + say("{x}") + "; x *= 1 - 3; " + say("{x}")),
    one("an augmented assignment reads the name first", "x += 1 // 0"),
    one("a fault keeps the old value", "x = 1; try: { x = 1 // 0 } except ZeroDivisionError: { pass }; try: { x //= 0 } except ZeroDivisionError: { pass }; " + say("{x}")),
    one("f-strings", 'n = 3; s = "s"; ' + say("{{{n}}} {n + 1}{s} {n == 3} {None} {-n} {(n)}")),
    one("texts", "a = \"it's\"; b = 'a \"word\"'; " + say("{a} {b}") + "; dut._log.info(a); " + say("{a == b} {a != b}") + "; dut._log.info('')"),
    one("levels", 'dut._log.info("i"); dut._log.warning("w"); dut._log.error("e"); cocotb.log.info("c"); cocotb.log.error("d")'),
    one("log statements with arguments", 'x = 5; dut._log.info("x is %s", x); dut._log.warning("%s and %s and %s", x + 1, None, "t"); dut._log.info("%s", True)'),
    one("a log statement of a number, a truth value and None", "dut._log.info(5); dut._log.info(1 == 2); dut._log.info(None)"),
    one("a fault in an argument of a log statement", 'try: { dut._log.info("%s %s", 1, 1 // 0) } except ZeroDivisionError: { ' + say("not written") + " }"),
    one("the arguments of a log statement are evaluated from left to right", 'try: { dut._log.info("%s %s", 1 // 0, x) } except ZeroDivisionError: { ' + say("division")
        + ' }; try: { dut._log.info("%s %s", x, 1 // 0) } except UnboundLocalError: { ' + say("x") + " }; x = 1"),
    one("a fault as an argument", 'try: { raise ValueError("v w") } except ValueError as e: { dut._log.error("got %s", e) }'),
    one("division and remainder", say("{7 // 2} {-7 // 2} {7 // -2} {-7 // -2} {7 % 2} {-7 % 2} {7 % -2} {-7 % -2}")),
    one("bits", say("{12 & 10} {12 | 3} {12 ^ 5} {~12} {-1 & 255} {1 << 100} {-5 >> 1} {(1 << 100) >> 98}")),
    one("how operators bind", say("{1 + 2 * 3} {(1 + 2) * 3} {-2 * 3} {1 | 2 == 2} {not 1 == 2} {1 + 1 << 2} {7 - 2 - 1} {2 * 3 % 4}")),
    one("numbers in other bases", say("{0xff} {0o17} {0b101} {1_000}")),
    one("truth", 'for x in [0, 1, -1, "", "a", None, True, False]: { if x: { ' + say("{x} holds") + " } else: { " + say("{x} doesn't") + " } }"),
    one("int, str, bool", say("{int(True)} {str(5)} {bool(0)} {bool(3)} {str(None)} {int(-4)}") + '; x = str(12) == "12"; ' + say("{x}")),
]

WORK = function("w(dut, n)", 'for i in range(2): { await Timer(n, "step"); ' + say("{n} {i}") + " }; return n * 2")
TASKS = [
    one("tasks go on by themselves", 'cocotb.start_soon(w(dut, 2)); cocotb.start_soon(w(dut, 3)); await Timer(7, "step"); ' + say("end"), WORK),
    one("a started task has its turn behind the starter's", "cocotb.start_soon(f(dut)); " + say("t") + '; await Timer(1, "step")', function("f(dut)", say("f"))),
    one("await of a start has its turn first", "k = await cocotb.start(f(dut)); " + say("t") + '; await Timer(1, "step")', function("f(dut)", say("f"))),
    one("a join of a task gives its value", "k = cocotb.start_soon(w(dut, 2)); r = await k; s = await k; " + say("{r} {s}"), WORK),
    one("arguments of a task are evaluated where it starts", 'n = 1; cocotb.start_soon(f(dut, n + 1)); n = 9; await Timer(1, "step")', function("f(dut, n)", say("{n}"))),
    one("a fault of a started task ends the test", 'cocotb.start_soon(f(dut)); try: { await Timer(3, "step") } except: { ' + say("no") + " }",
        function("f(dut)", 'await Timer(1, "step"); raise ValueError("f")')),
]

COSTS = [
    one("the last question of a for costs", "for i in range(2): { pass }; " + say("end"), budget=5),
    one("the last question of a for, and one more", "for i in range(2): { pass }; " + say("end"), budget=6),
    one("each condition of a while costs", "n = 2; while n: { n -= 1 }; " + say("end"), budget=6),
    one("each condition of a while, and one more", "n = 2; while n: { n -= 1 }; " + say("end"), budget=7),
    one("each condition of an if and an elif that is evaluated costs", "if 0: { pass } elif 0: { pass } elif 1: { " + say("in") + " } elif 1: { pass }", budget=3),
    one("try and except cost nothing", "try: { raise ValueError } except TypeError: { pass } except ValueError: { " + say("in") + " }", budget=2),
    ("docstrings cost nothing", (test('"a docstring"; ' + say("a") + "; 'another'; " + say("b")),), 2),
    ("a docstring alone is a block", (function("f(dut)", '"nothing"'), test("await f(dut); if 1: { 'nothing' }; " + say("end"))), 3),
    one("a call costs what its statements do", "await f(dut); " + say("end"), function("f(dut)", "pass; return 1"), budget=3),
    one("a time that passes costs", 'await Timer(5, "step"); ' + say("end"), budget=2),
    one("a budget of one", say("a") + "; " + say("b"), budget=1),
    ("the time between two tests costs", (test(say("a"), "a"), test(say("b"), "b")), 2),
]

CONTROL = [*LOOPS, *BRANCHES, *FAULTS, *CALLS, *VALUES, *TASKS, *COSTS]
