#!/usr/bin/env python3
"""Reads VCD texts with other programs: GTKWave's converters `vcd2fst` and `fst2vcd`, and compares with Icarus Verilog's own VCD text.

    tools/compare/vcd_readers.py [PROGRAM]

The texts are those of `tools/models/vcd_text.py` for each example and its bug, and for 200 generated runs; with PROGRAM, a built `cocorun`,
also what that writes with `--vcd`, byte by byte. Of each text `vcd2fst` makes an FST file, which `fst2vcd` reads back: both have to tell the same
changes by time and signal, where changes that repeat a value don't count, since FST files don't keep these. The reader of the model has to tell
the changes of the trace, in order. Icarus dumps the flip-flop of cocotb's documentation while a bench makes the same writes; its changes of all
signals have to be the same. The status is 1 where one of these doesn't hold. What isn't installed is left out, and told.
"""
import re
import shutil
import subprocess
import sys
import tempfile
from pathlib import Path

ROOT = Path(__file__).resolve().parents[2]
sys.path.insert(0, str(ROOT / "tools"))

from models.made_texts import DESIGN, tests
from models.run_model import model
from models.vcd_text import Change, read, traced, vcd
from models.verilog_model import flat_of

BUDGET = 200_000


def simple_vcd(text):
    """The signals of any VCD text, and its changes from the first time on, by time and path."""
    paths, scopes, time, changes = {}, [], 0, []
    words = iter(text.split())
    for word in words:
        if word in ("$scope", "$var", "$upscope", "$date", "$version", "$comment", "$timescale", "$enddefinitions"):
            inner = []
            for other in words:
                if other == "$end":
                    break
                inner.append(other)
            if word == "$scope":
                scopes.append(inner[1])
            elif word == "$upscope":
                scopes.pop()
            elif word == "$var":
                paths.setdefault(inner[2], []).append((".".join([*scopes, inner[3].split("[")[0]]), int(inner[1])))
        elif word.startswith("#"):
            time = int(word[1:])
        elif word[0] in "01xzXZ":
            changes += [Change(time, path, word[0].lower()) for path, _ in paths[word[1:]]]
        elif word[0] in "bB":
            changes += [Change(time, path, filled(word[1:].lower(), width)) for path, width in paths[next(words)]]
    return changes


def filled(digits, width):
    """The digits of a value that may be spelled shorter (clause 18.2.1): zeros, x or z go before them."""
    return digits.rjust(width, digits[0] if digits[0] in "xz" else "0")


def effective(changes):
    """The changes by signal that don't repeat a value, one at each time: the last."""
    found = {}
    for time, path, digits in changes:
        found.setdefault(path, {})[time] = digits
    kept = {}
    for path, values in found.items():
        before = None
        for time, digits in sorted(values.items()):
            if digits != before:
                kept.setdefault(path, []).append((time, digits))
            before = digits
    return kept


def converted(text, folder):
    """What `fst2vcd` makes of what `vcd2fst` makes of a text."""
    paths = [folder / name for name in ("a.vcd", "a.fst", "b.vcd")]
    paths[0].write_text(text)
    subprocess.run(["vcd2fst", "-v", paths[0], "-f", paths[1]], check=True, capture_output=True)
    subprocess.run(["fst2vcd", "-f", paths[1], "-o", paths[2]], check=True, capture_output=True)
    return paths[2].read_text()


def texts():
    """The names, designs and tests of all runs."""
    for folder in sorted((ROOT / "examples").iterdir()):
        if (folder / "t.py").exists():
            for design in sorted(folder.glob("*.v")):
                yield f"{folder.name}/{design.name}", design.read_text(), (folder / "t.py").read_text()
    for number in range(200):
        yield f"made {number}", DESIGN, tests(number)


def told_changes(flat, lines):
    numbers = dict(traced(flat.top))
    found = [re.fullmatch(r"(\d+) SIG (\S+) ([01xz]+)", line) for line in lines]
    return [Change(int(one[1]), one[2], one[3]) for one in found if one and one[2] in numbers]


def look_at(name, design, tests, has_readers, folder, faults):
    flat, run = flat_of(design), model(design, tests, BUDGET, 0, True)
    text = vcd(flat, run.lines)
    if read(text) != told_changes(flat, run.lines):
        faults.append(f"{name}: the model's reader tells other changes than the trace")
    if has_readers and effective(simple_vcd(text)) != effective(simple_vcd(converted(text, folder))):
        faults.append(f"{name}: fst2vcd tells other changes")
    return text


def built(program, name, design, tests, text, folder, faults):
    """The same by a built program."""
    (folder / "d.v").write_text(design), (folder / "t.py").write_text(tests)
    done = subprocess.run([program, "--vcd", "--budget", str(BUDGET), "d.v", "t.py"], cwd=folder, capture_output=True, text=True)
    if done.stdout != text:
        faults.append(f"{name}: the program writes another text")


FLIP_FLOP = """module top(input clk, input d, output reg q);
always @(posedge clk) q <= d;
endmodule
"""

FLIP_FLOP_TESTS = """import cocotb
from cocotb.triggers import Timer

@cocotb.test()
async def t(dut):
    for i in range(8):
        dut.clk.value = 0
        dut.d.value = i & 1
        await Timer(5, "ns")
        dut.clk.value = 1
        await Timer(5, "ns")
"""

BENCH = """`timescale 1ns / 1ns
module bench; reg clk, d; wire q; integer i; top top(clk, d, q);
initial begin $dumpfile("icarus.vcd"); $dumpvars(0, top);
for (i = 0; i < 8; i = i + 1) begin clk = 0; d = i & 1; #5 clk = 1; #5; end $finish; end
endmodule
"""


def icarus(folder, faults):
    """The flip-flop: the changes of its signals behind the first values."""
    (folder / "d.v").write_text("`timescale 1ns / 1ns\n" + FLIP_FLOP), (folder / "bench.v").write_text(BENCH)
    subprocess.run(["iverilog", "-g2005", "-o", "bench", "d.v", "bench.v"], cwd=folder, check=True)
    subprocess.run(["vvp", "-n", "bench"], cwd=folder, check=True, capture_output=True)
    theirs = effective(simple_vcd((folder / "icarus.vcd").read_text()))
    design = "`timescale 1ns / 1ns\n" + FLIP_FLOP
    ours = effective(simple_vcd(vcd(flat_of(design), model(design, FLIP_FLOP_TESTS, BUDGET, 0, True).lines)))
    if {path.removeprefix("bench."): values for path, values in theirs.items()} != ours:
        faults.append(f"the flip-flop: Icarus has {theirs}, and not {ours}")


def main():
    program = sys.argv[1] if len(sys.argv) > 1 else None
    has_readers, faults, count = bool(shutil.which("vcd2fst") and shutil.which("fst2vcd")), [], 0
    if not has_readers:
        print("vcd2fst and fst2vcd aren't installed: left out")
    with tempfile.TemporaryDirectory() as name:
        folder = Path(name)
        for one in texts():
            text = look_at(*one, has_readers, folder, faults)
            if program:
                built(Path(program).resolve(), *one, text, folder, faults)
            count += 1
        if shutil.which("iverilog"):
            icarus(folder, faults)
        else:
            print("Icarus Verilog isn't installed: left out")
    for fault in faults:
        print(fault)
    print(f"{count} texts, {len(faults)} differences")
    return 1 if faults else 0


if __name__ == "__main__":
    sys.exit(main())
