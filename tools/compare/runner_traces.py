#!/usr/bin/env python3
"""Compares the rows of tools/data/trace_rows.txt with Icarus Verilog.

    tools/compare/runner_traces.py

Each row that stages writes and waits is run by `iverilog -g2005`: a bench whose registers, z at first, stand behind the top's inputs, sets them as the
test does and shows all ports where a wait ends. The answer of the row tells each change of a signal with its time; the values that the ports have by
these, where a change was told, are compared. A row whose values differ is printed, and the script then ends with the status 1. The gate needs neither
this script nor Icarus. `tools/rows/runner_rows.py` hands the rows on to crates/runner_tests.
"""
import re
import subprocess
import sys
import tempfile
from pathlib import Path

TABLE = Path(__file__).resolve().parents[1] / "data" / "trace_rows.txt"


def text_of(part):
    """The text that a part of a row stands for."""
    return re.sub(r"\\([0-9a-f]{2})", lambda found: chr(int(found[1], 16)), part)


def ports_of(design):
    """The ports of the top by name: the direction and the range."""
    header = re.search(r"module top\((.*?)\);", design, re.S)[1]
    found = re.findall(r"(input|output)(?: reg)? *(\[[0-9:]+\])? *(\w+)", header)
    return {name: (direction, declared) for direction, declared, name in found}


def stimulus(tests, ports):
    """What the bench does: the writes of the test, and the values of the ports where a wait ends."""
    shown = " ".join(["%0d", *["%b"] * len(ports)])
    for line in tests.splitlines():
        if write := re.fullmatch(r" *dut\.(\w)\.value = (\d+)", line):
            yield f"{write[1]} = {write[2]};"
        elif wait := re.match(r' *await Timer\((\d+), "step"\)', line):
            yield f'#{wait[1]} $display("{shown}", $time, {", ".join(ports)});'


def simulated(design, tests, ports):
    """The values of the ports where each wait ends, by Icarus: the time, and the values in the order of the ports."""
    declared = "".join(f"{'reg' if direction == 'input' else 'wire'} {range_} {name};\n" for name, (direction, range_) in ports.items())
    opening = "".join(f"{name} = {{128{{1'bz}}}};\n" for name, (direction, _) in ports.items() if direction == "input")
    connected = ", ".join(f".{name}({name})" for name in ports)
    bench = f"module bench;\n{declared}top top({connected});\ninitial begin\n{opening}" + "\n".join(stimulus(tests, ports)) + "\nend\nendmodule\n"
    with tempfile.TemporaryDirectory() as folder:
        source, program = Path(folder) / "text.v", Path(folder) / "program"
        source.write_text(bench + design, encoding="ascii")
        subprocess.run(["iverilog", "-g2005", "-s", "bench", "-o", str(program), str(source)], check=True)
        shown = subprocess.run(["vvp", "-n", str(program)], check=True, capture_output=True, text=True).stdout
    return [(int(time), values) for time, *values in (line.split() for line in shown.splitlines())]


def told(answer, time):
    """The last values that were told of the top's signals before this time."""
    changes = re.findall(r"(\d+) SIG top\.(\w+) ([01xz]+)", answer)
    return {name: value for at, name, value in changes if int(at) < time}


def main():
    rows, wrong = 0, 0
    for line in TABLE.read_text(encoding="ascii").splitlines():
        if line.startswith("#") or "await Timer" not in line:
            continue
        _, rule, _, design, tests, answer, *_ = line.split("\t")
        design, tests = map(text_of, (design, tests))
        ports = ports_of(design)
        rows += 1
        for time, values in simulated(design, tests, ports):
            ours = told(text_of(answer), time)
            for name, value in zip(ports, values):
                if ours.get(name, value) != value:
                    wrong += 1
                    print(f"{rule}: {name} is {value} at {time}, and not {ours[name]}")
    print(f"{rows} rows, {wrong} values differ")
    return 1 if wrong or not rows else 0


if __name__ == "__main__":
    sys.exit(main())
