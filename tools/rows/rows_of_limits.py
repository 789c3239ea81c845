"""Runs up to the limits of what a test makes, and one further. Lines by hand."""
from rows.row_texts import HEADER, SMALL, Row, failing, function, passing, test


def row(rule, body, lines, functions=""):
    return Row(rule, HEADER + functions + test(body), lines, design=SMALL)


def shown(text):
    return f'dut._log.info("{text}")'


REFUSED = "except RuntimeError: { " + shown("no more") + " }"
# sixteen bytes, which are doubled twelve times
LONGEST = 't = "0123456789abcdef"; for i in range(12): { t = f"{t}{t}" }; ' + shown("made") + "; "
LIMITS = [
    row("65,536 events", 'for i in range(65536): { e = Event() }; dut._log.info(f"{e}"); e = Event()', failing(0, "RuntimeError", "0 INFO <event 65535>")),
    row("65,536 locks", 'for i in range(65536): { l = Lock() }; dut._log.info(f"{l}"); l = Lock()', failing(0, "RuntimeError", "0 INFO <lock 65535>")),
    # the test's own task is one of them; those that have ended count no more
    row("65,536 live tasks", "for i in range(65535): { cocotb.start_soon(f(dut)) }; " + shown("all") + "; try: { cocotb.start_soon(f(dut)) } " + REFUSED
        + '; await Timer(1, "step"); k = cocotb.start_soon(f(dut)); dut._log.info(f"{k}")', passing(1, "0 INFO all", "0 INFO no more", "1 INFO <task 65536>"),
        function("f(dut)", "pass")),
    row("a text of 65,536 bytes, and one more", LONGEST + 'x = f"{t}a"', failing(0, "OverflowError", "0 INFO made")),
    row("the text of a log line is one too", LONGEST + 'dut._log.info("%s%s", t, "a")', failing(0, "OverflowError", "0 INFO made")),
    Row("a deadline at the latest time", HEADER + test("e = Event(); await e.wait()", options='timeout_time=4611686018427387904, timeout_unit="step"'),
        failing(4611686018427387904, "SimTimeoutError"), (1, 0, 1), design=SMALL),
    row("a thousand open calls in each of two tasks", "k = cocotb.start_soon(r(dut, 999)); await k; await r(dut, 998); " + shown("both"), passing(0, "0 INFO both"),
        function("r(dut, n)", "if n: { await r(dut, n - 1) }")),
]
