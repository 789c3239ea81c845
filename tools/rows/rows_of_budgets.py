"""Runs within each budget from 1 to what the whole run costs: their lines are a front of the whole run's, and then that of the budget."""
from rows.row_texts import HEADER, Row, model, test
from rows.rows_worked import WORKED

CUT = {
    "an oscillation": 20, "the exact budget": None, "tasks in their order": None, "a lock": None, "with_timeout of a call and of a task": None,
    "a kill inside a Combine": None, "options": None, "a clock and phases": None,
}

# beside a queue, a forced signal and an update that never comes
BUSY_DESIGN = "module top(input en, output y, output reg q);\n  assign y = en & ~y;\n  always @(posedge en) q <= #1 en;\nendmodule\n"
BUSY_TESTS = HEADER + "from cocotb.queue import Queue\nfrom cocotb.handle import Force\n" + test(
    'p = Queue(1); dut.en.value = 0; await Timer(1, "step"); p.put_nowait(1); dut.q.value = Force(0); dut.en.value = 1; x = await p.get(); '
    'await Timer(1, "step")')
BUSY = Row("an oscillation beside a queue, a forced signal and a delayed update", BUSY_TESTS, None, design=BUSY_DESIGN, trace=True)


def cut(row, most):
    whole = model(row.design, row.tests, most or row.budget, trace=True)
    for budget in range(1, (most or whole.spent) + 1):
        yield row._replace(rule=f"{row.rule}, within {budget}", lines=None, counts=None, cost=budget, budget=budget, trace=True), whole.lines


CUTS = [found for row in WORKED if row.rule in CUT for found in cut(row, CUT[row.rule])] + [*cut(BUSY, 30)]
BUDGETS = [row for row, _ in CUTS]


def is_front(row, lines, whole):
    """Are the lines of a run within its budget a front of the whole run's, and then that of the budget?"""
    return lines == whole or lines[:-1] == whole[: len(lines) - 1] and lines[-1] == f"BUDGET {row.budget}"
