"""The rows of designs with values of their signals: their form, and what Icarus Verilog makes of them.

A line of such a table that begins with `#` is no row. A row has these parts, with a tab between two of them:

    0 kind      what the row is of
    1 name      words with `_` between them
    2 top       the name of the module that is to be the top, `-` for none
    3 text      in which `\\0a` is a line feed, and so with each byte that isn't printed, and with `\\` itself
    4 signals   the paths of all signals by their numbers, with a space between two of them
    5 stimulus  steps, with `|` between two of them. A step is words, with a space between two of them. It may be empty
    6 values    for each step the values of all signals, with a space between two of them, and with `|` between two steps
    7 icarus    `agrees`, or why Icarus has other values

A word of a step is one of these, where 3 is the number of a signal and digits stand the highest first:

    3=1010      the signal gets these digits (a deposit)
    !3=1010     it is forced to these digits
    ~3          it is released
    @7          time moves on by 7 steps

The design runs until nothing is left to be done at this time. Then, for each step, its words are done one after the other, the design
runs until nothing is left at the time that it is then, and the values are those that its signals have.

In the scripts a signal stands by its path below the top. The bench that Icarus is given has a register behind each input of the top, z at
first, and prints all signals after each step. A deposit to an input sets that register, and the first step does so for each input; a later
deposit to a register of the design is an assignment to it. Which signals there are, and in which order, stands in the scripts, worked out by hand from the rules.
"""
import re
import subprocess
import sys
import tempfile
from collections import namedtuple
from pathlib import Path

# own: for each signal whose values differ from those of Icarus, its values in the steps. Where Icarus refuses the text, all signals are there
Row = namedtuple("Row", "kind name text signals steps differs own")

FEMTOSECONDS = {"s": 10**15, "ms": 10**12, "us": 10**9, "ns": 10**6, "ps": 1000, "fs": 1}

# Nothing is left at a time once so many rounds of updates came: no design of the tables takes as many. Behind each round stands one in which
# all processes that the updates woke are done.
REST = "  reg beat = 0;\n  task rest; repeat (40) begin beat <= ~beat; @(beat) #0 ; end endtask\n"

# does: `!`, `~` or `@`, nothing for a deposit; digits: of a wait its steps
Word = namedtuple("Word", "signal does digits")


def paths(names):
    """The paths of signals of the top."""
    return [f"top.{name}" for name in names]


def words(step):
    """The words of a step."""
    for word in step.split():
        does, said = (word[0], word[1:]) if word[0] in "!~@" else ("", word)
        signal, _, digits = said.partition("=")
        yield Word("", does, said) if does == "@" else Word(signal, does, digits)


# ---- Icarus


def inputs(row):
    """The widths of the top's inputs by their names: the first step sets each of them, and no register of the design."""
    return {word.signal: len(word.digits) for word in words(row.steps[0]) if not word.does}


def statement(word, registers):
    """A word of a step as a statement of the bench."""
    if word.does == "@":
        return f"#{word.digits};"
    if word.does == "~":
        return f"release top.{word.signal};"
    value = f"{len(word.digits)}'b{word.digits};"
    if word.does == "!":
        return f"force top.{word.signal} = {value}"
    return f"{word.signal if word.signal in registers else 'top.' + word.signal} = {value}"


def step_of(text):
    """The step of a text as a directive of the bench, which stands behind it: the least precision."""
    found = re.findall(r"`timescale\s+\w+\s*/\s*((\d+)(\w+))", text)
    if not found:
        return ""
    least = min(found, key=lambda precision: int(precision[1]) * FEMTOSECONDS[precision[2]])[0]
    return f"`timescale {least}/{least}\n"


def bench(row):
    """The bench of a row: a line is printed for each step."""
    behind = inputs(row)
    registers = "".join(f"  reg [{width - 1}:0] {name} = {width}'bz;\n" for name, width in behind.items())
    ports = ", ".join(f".{name}({name})" for name in behind)
    shown = ", ".join(["\"" + " ".join(["%b"] * len(row.signals)) + "\""] + row.signals)
    # a step of these rows lasts until no event is left, that of a delay among them; the longest of their delays are shorter
    wait = "rest; #1000000 " if row.kind == "hierarchy" else ""
    steps = "".join("".join(f"{statement(word, behind)} " for word in words(step)) + f"{wait}rest; $display({shown});\n" for step in row.steps)
    return f"{step_of(row.text)}module bench;\n{registers}{REST}  top top({ports});\n  initial begin rest;\n{steps}  $finish; end\nendmodule\n"


def simulated(row):
    """The values of all signals after each step, by Icarus; or what it says where it refuses the text."""
    with tempfile.TemporaryDirectory() as folder:
        source, program = Path(folder) / "text.v", Path(folder) / "program"
        source.write_text(row.text + "\n" + bench(row), encoding="ascii")
        made = subprocess.run(["iverilog", "-g2005", "-DCOCOTB_SIM", "-s", "bench", "-o", str(program), str(source)], capture_output=True, text=True)
        if made.returncode:
            return made.stderr
        lines = subprocess.run(["vvp", "-n", str(program)], check=True, capture_output=True, text=True).stdout.splitlines()
    values = [line.split() for line in lines if "$finish called" not in line]
    assert [len(one) for one in values] == [len(row.signals)] * len(row.steps), f"{row.name}: {lines}"
    return values


def answered(row, given):
    """The values that are expected: those of Icarus, but for the signals that the row has values of its own for."""
    if isinstance(given, str):
        given = [[""] * len(row.signals)] * len(row.steps)
    return [[row.own[signal][at] if signal in row.own else value for signal, value in zip(row.signals, one)] for at, one in enumerate(given)]


# ---- the table


def escaped(text):
    """A text as a part of a row."""
    return "".join(letter if " " <= letter <= "~" and letter != "\\" else f"\\{ord(letter):02x}" for letter in text)


def numbered(word, signals):
    """A word of a step, with the number of its signal."""
    if word.does == "@":
        return f"@{word.digits}"
    number = signals.index("top." + word.signal)
    return f"~{number}" if word.does == "~" else f"{word.does}{number}={word.digits}"


def line(row, values):
    """A row of the table."""
    stimulus = "|".join(" ".join(numbered(word, row.signals) for word in words(step)) for step in row.steps)
    shown = "|".join(" ".join(one) for one in values)
    return "\t".join([row.kind, row.name, "-", escaped(row.text), " ".join(row.signals), stimulus, shown, row.differs or "agrees"])


def complaints(row, given, values):
    """What is wrong with a row."""
    if isinstance(given, str) and row.differs is None:
        yield f"{row.name}: Icarus refuses it: {given}"
    elif (given == values) != (row.differs is None):
        yield f"{row.name}: it is to {'agree with' if row.differs is None else 'differ from'} Icarus, and doesn't: {given}"
    elif any(len(one) != len(other) for step, own in zip(given, values) for one, other in zip(step, own) if not isinstance(given, str)):
        yield f"{row.name}: a value hasn't the width of its signal"
    elif not all(re.fullmatch("[01xz]+", value) for step in values for value in step):
        yield f"{row.name}: a value isn't one of digits"


def missing(rows, least):
    """What is missing among the rows, of which there are at least so many of each kind."""
    for kind, count in least.items():
        found = [row for row in rows if row.kind == kind]
        print(f"{len(found)} rows of the kind {kind}, {sum(row.differs is not None for row in found)} of them not as Icarus has it")
        if len(found) < count:
            yield f"fewer than {count} rows of the kind {kind}"
    if len({row.name for row in rows}) < len(rows):
        yield "two rows have one name"


def put(rows, least, table, script):
    """Writes the table, or tells what is wrong with its rows and writes nothing. The answer is the script's status."""
    lines, wrong = [], []
    for row in rows:
        given = simulated(row)
        values = answered(row, given)
        wrong += complaints(row, given, values)
        lines.append(line(row, values))
    wrong += missing(rows, least)
    print("".join(one + "\n" for one in wrong), end="")
    if wrong:
        return 1
    table.write_text(f"# Written by tools/rows/{script}, which tells the form of a row.\n" + "".join(one + "\n" for one in lines), encoding="ascii")
    return 0
