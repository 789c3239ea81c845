"""Runs of several tests: each cell of the table of verdicts, skipped tests, deadlines, factories, many tests. Lines and counts by hand."""
from rows.row_texts import HEADER, MORE, Row, function, report, test

# how a test ends: its body, the time at which it does, and the reason if nothing is expected (None where it passes)
ENDS = {
    "a normal end": ("pass", 0, None),
    "AssertionError": ('assert False, "no"', 0, "AssertionError: no"),
    "another fault": ("x = 1 // 0", 0, "ZeroDivisionError"),
    "a raise of Exception": ("raise Exception", 0, "Exception"),
    "a deadline": ('await Timer(9, "step")', 4, "SimTimeoutError"),
    "a write in the read-only phase": ("await ReadOnly(); dut.a.value = 1", 0, "ReadOnlyWrite: top.a"),
    "nothing left to do": ("e = Event(); await e.wait()", 0, "Stalled"),
}
# options: the text, and whether a fault of each end passes
OPTIONS = {
    "no option": ("", None, set()),
    "expect_fail": ("expect_fail=True", "passed, but a failure was expected", {"AssertionError"}),
    "expect_error of AssertionError": ("expect_error=AssertionError", "passed, but AssertionError was expected", {"AssertionError"}),
    "expect_error of ZeroDivisionError": ("expect_error=ZeroDivisionError", "passed, but ZeroDivisionError was expected", {"another fault"}),
    "expect_error of SimTimeoutError": ("expect_error=SimTimeoutError", "passed, but SimTimeoutError was expected", {"a deadline"}),
    "expect_error of Exception": ("expect_error=Exception", "passed, but Exception was expected",
                                  {"AssertionError", "another fault", "a raise of Exception", "a deadline"}),
    "expect_fail and expect_error of ZeroDivisionError": ("expect_fail=True, expect_error=ZeroDivisionError", "passed, but a failure was expected",
                                                          {"AssertionError", "another fault"}),
}


def verdict(end, option):
    body, time, reason = ENDS[end]
    text, passed, passing = OPTIONS[option]
    reason = passed if end == "a normal end" else None if end in passing else reason
    text = ", ".join(filter(None, [text, "timeout_time=4" if end == "a deadline" else ""]))
    line = f"{time} FAIL t ({reason})" if reason else f"{time} PASS t"
    failed = int(bool(reason))
    return Row(f"{end}, with {option}", HEADER + test(body, options=text), ["0 TEST t", line, report(1, 1 - failed, failed, 0, time)])


CELLS = [verdict(end, option) for end in ENDS for option in OPTIONS]


def row(rule, tests, lines, counts=None, **more):
    return Row(rule, HEADER + MORE + tests, lines, counts, **more)


WAITS = 'await Timer(2, "step")'
SKIP = "skip=True"
LATER = """module top(input clk, input [7:0] a, output reg r, output reg [7:0] q);
  always @(posedge clk) begin
    r = 1;
    q <= a;
  end
endmodule
"""
SEVERAL = [
    row("a skipped test first", test("pass", "a", SKIP) + test(WAITS, "b"), ["0 SKIP a", "0 TEST b", "2 PASS b", report(2, 1, 0, 1, 2)], (1, 0, 1)),
    # no start is planned behind the last test that isn't skipped
    row("a skipped test last", test(WAITS, "a") + test("pass", "b", SKIP), ["0 TEST a", "2 PASS a", "2 SKIP b", report(2, 1, 0, 1, 2)], (1, 0, 1)),
    row("all tests skipped", test("pass", "a", SKIP) + test("pass", "b", SKIP), ["0 SKIP a", "0 SKIP b", report(2, 0, 0, 2, 0)], (0, 0, 0)),
    # At(2), At(3) of the start, At(5)
    row("skipped tests between two", test(WAITS, "a") + test("pass", "b", SKIP) + test("pass", "c", SKIP) + test(WAITS, "d"),
        ["0 TEST a", "2 PASS a", "2 SKIP b", "2 SKIP c", "3 TEST d", "5 PASS d", report(4, 2, 0, 2, 5)], (3, 0, 3)),
    row("skip=False", test("pass", "a", "skip=False"), ["0 TEST a", "0 PASS a", report(1, 1, 0, 0, 0)], (0, 0, 0)),
    row("a test behind one that failed", test("assert False", "a") + test("pass", "b"),
        ["0 TEST a", "0 FAIL a (AssertionError)", "1 TEST b", "1 PASS b", report(2, 1, 1, 0, 1)], (1, 0, 1)),
    # the deadline At(9) is removed with the end of a; At(1) is b's start
    row("a deadline ends with its test", test("pass", "a", "timeout_time=9") + test('await Timer(20, "step")', "b"),
        ["0 TEST a", "0 PASS a", "1 TEST b", "21 PASS b", report(2, 2, 0, 0, 21)], (3, 1, 2)),
    # one key for the deadline and the Timer; the deadline ends the test before its task has a turn
    row("a deadline at the time of a Timer", test('await Timer(4, "step"); dut._log.info("x")', "a", "timeout_time=4"),
        ["0 TEST a", "4 FAIL a (SimTimeoutError)", report(1, 0, 1, 0, 4)], (1, 0, 1)),
    row("a deadline in nanoseconds", test('await Timer(9, "step")', "a", 'timeout_time=4, timeout_unit="ns"'),
        ["0 TEST a", "4 FAIL a (SimTimeoutError)", report(1, 0, 1, 0, 4)], (2, 1, 1)),
    row("a refused time ends the test before its first statement", test('dut._log.info("x")', "a", "timeout_time=0"),
        ["0 TEST a", "0 FAIL a (ValueError)", report(1, 0, 1, 0, 0)], (0, 0, 0), cost=0),
    row("a refused time that is expected", test('dut._log.info("x")', "a", "timeout_time=0, expect_error=ValueError"),
        ["0 TEST a", "0 PASS a", report(1, 1, 0, 0, 0)], (0, 0, 0), cost=0),
    row("an unknown unit of a deadline", test("pass", "a", 'timeout_time=1, timeout_unit="min"'),
        ["0 TEST a", "0 FAIL a (ValueError)", report(1, 0, 1, 0, 0)], (0, 0, 0)),
    row("a time over 2^62 is refused", test("pass", "a", "timeout_time=4611686018427387905"),
        ["0 TEST a", "0 FAIL a (OverflowError)", report(1, 0, 1, 0, 0)], (0, 0, 0)),
    # at time 1 the deadline would be at 2^62 + 1
    row("a deadline over 2^62 is none", test("pass", "a") + test(WAITS, "b", "timeout_time=4611686018427387904"),
        ["0 TEST a", "0 PASS a", "1 TEST b", "3 PASS b", report(2, 2, 0, 0, 3)], (2, 0, 2)),
    # ReadWrite is registered by the write and removed with the end; At(1)
    row("a staged write is dropped with its test", test("dut.a.value = 1", "a") + test('dut._log.info(f"{dut.a.value}")', "b"),
        ["0 TEST a", "0 PASS a", "1 TEST b", "1 INFO zzzzzzzz", "1 PASS b", report(2, 2, 0, 0, 1)], (2, 1, 1)),
    row("signals stay between tests", test("dut.a.setimmediatevalue(1)", "a") + test('dut._log.info(f"{dut.a.value}")', "b"),
        ["0 TEST a", "0 PASS a", "1 TEST b", "1 INFO 00000001", "1 PASS b", report(2, 2, 0, 0, 1)], (1, 0, 1)),
    # the activation of the flip-flop runs at time 0, behind the end of a
    row("pending updates of the design stay between tests", test("dut.a.setimmediatevalue(5); dut.clk.setimmediatevalue(1)", "a") + test(
        'dut._log.info(f"{dut.q.value}")', "b"), ["0 TEST a", "0 PASS a", "1 TEST b", "1 INFO 00000101", "1 PASS b", report(2, 2, 0, 0, 1)], (1, 0, 1)),
    # the activation is over and its update of q is left for later, where r is told and a ends
    row("an update that is left for later stays between tests", test("dut.a.setimmediatevalue(5); dut.clk.setimmediatevalue(1); await Edge(dut.r)", "a") + test(
        'dut._log.info(f"{dut.q.value}")', "b"), ["0 TEST a", "0 SIG top.a 00000101", "0 SIG top.clk 1", "0 SIG top.r 1", "0 PASS a", "0 SIG top.q 00000101",
        "1 TEST b", "1 INFO 00000101", "1 PASS b", report(2, 2, 0, 0, 1)], (2, 0, 2), design=LATER, trace=True),
    row("tasks end with their test", function("f(dut)", 'await Timer(3, "step"); dut._log.info("late")') + test("cocotb.start_soon(f(dut))", "a") + test(
        'cocotb.start_soon(f(dut)); await Timer(9, "step")', "b"),
        ["0 TEST a", "0 PASS a", "1 TEST b", "4 INFO late", "10 PASS b", report(2, 2, 0, 0, 10)], (3, 0, 3)),
    row("numbers of tasks, events and locks begin anew", function("f(dut)", "pass") + "".join(
        test('k = cocotb.start_soon(f(dut)); e = Event(); l = Lock(); dut._log.info(f"{k} {e} {l}")', name) for name in "ab"),
        ["0 TEST a", "0 INFO <task 1> <event 0> <lock 0>", "0 PASS a", "1 TEST b", "1 INFO <task 1> <event 0> <lock 0>", "1 PASS b",
         report(2, 2, 0, 0, 1)]),
    row("a fault of a started task is the test's", function("f(dut)", 'raise ValueError("v")') + test(
        "cocotb.start_soon(f(dut)); " + WAITS, "a", "expect_error=ValueError"), ["0 TEST a", "0 PASS a", report(1, 1, 0, 0, 0)], (1, 1, 0)),
    row("three hundred tests", "".join(test("pass", f"t{at}") for at in range(300)),
        [line for at in range(300) for line in (f"{at} TEST t{at}", f"{at} PASS t{at}")] + [report(300, 300, 0, 0, 299)], (299, 0, 299), cost=599),
    row("the budget ends between two tests", test("pass", "a") + test("pass", "b"), ["0 TEST a", "0 PASS a", "BUDGET 1"], (1, 0, 0), cost=1, budget=1),
    row("the budget ends before the first statement of the second test", test("pass", "a") + test("pass", "b"),
        ["0 TEST a", "0 PASS a", "1 TEST b", "BUDGET 2"], (1, 0, 1), cost=2, budget=2),
]

FACTORY = HEADER + """from cocotb.regression import TestFactory

async def f(dut, x, y=3):
    dut._log.info(f"{x} {y}")

"""


def made(rule, lines, *calls):
    return Row(rule, FACTORY + "tf = TestFactory(f)\n" + "".join(f"tf.{call}\n" for call in calls), lines)


def cases(names, told):
    lines = [line for at, name in enumerate(names) for line in (f"{at} TEST {name}", f"{at} INFO {told[at]}", f"{at} PASS {name}")]
    return [*lines, report(len(names), len(names), 0, 0, len(names) - 1)]


FACTORIES = [
    made("a factory, the last option fastest", cases([f"f_{at:03d}" for at in (1, 2, 3, 4)], ["1 7", "1 8", "2 7", "2 8"]),
         'add_option("x", [1, 2])', 'add_option("y", [7, 8])', "generate_tests()"),
    # by their names, though y stands before x
    made("the values of a case go to the parameters of their names", cases([f"f_{at:03d}" for at in (1, 2, 3, 4)], ["1 7", "2 7", "1 8", "2 8"]),
         'add_option("y", [7, 8])', 'add_option("x", [1, 2])', "generate_tests()"),
    made("a factory leaves a default", cases(["f_001", "f_002"], ["0 3", "True 3"]), 'add_option("x", [0, True])', "generate_tests()"),
    made("names of a factory's cases", cases(["a_f_b_001"], ["None 3"]), 'add_option(name="x", optionlist=[None])', 'generate_tests(postfix="_b", prefix="a_")'),
    Row("two factories of one function", FACTORY + """tf = TestFactory(test_function=f)
g = TestFactory(f)
tf.add_option("x", [1])
g.add_option("x", [2])
g.generate_tests(prefix="g_")
tf.generate_tests()
""", cases(["g_f_001", "f_001"], ["2 3", "1 3"])),
    Row("a factory's function with options, and a test between", FACTORY.replace("async", "@cocotb.test(skip=True)\nasync") + """tf = TestFactory(f)
tf.add_option("x", [1, 2])
""" + test("pass", "a") + "\ntf.generate_tests()\n", ["0 TEST a", "0 PASS a", "0 SKIP f_001", "0 SKIP f_002", report(3, 1, 0, 2, 0)]),
]

VERDICTS = [*CELLS, *SEVERAL, *FACTORIES]
