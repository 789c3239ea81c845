"""Cases of the script `./cocorun`, with a stand-in for the program, which puts a line and ends with a status (`tools/suite.py` goes through them).

A case has the stand-in's status and line, the words, and what standard error must hold; standard output and the status must be the stand-in's.
The script must also find fault with exactly those words of the rows of words of `runner_tests` that have no reading there. Other cases change what lies
around the script: its sources, the release, a program of these sources, what builds one.
"""
import functools
import hashlib
import os
import pty
import re
import shutil
import subprocess
import tempfile
from collections import namedtuple
from pathlib import Path

TOP = Path(__file__).resolve().parent.parent
STAND_IN = '#!/bin/sh\nprintf %s "$STAND_IN_LINE"\nexit "$STAND_IN_STATUS"\n'
USAGE = "usage: cocorun [--top NAME] [--budget N] [--seed N] [--trace | --vcd] DESIGN TESTS\n"

# Files in the folder of each case.
FILES = {
    "d.v": b"module top(input a, output y);\n\tassign y = a;\r\n  assign y = a;\nendmodule",
    "t.py": b"import cocotb\n\tpass\n# caf\xc3\xa9 \x00 \x1b \xc3\xa9 end\n",
    "-d.v": b"module\n",
    "a at 9:9": b"one\ntwo\n",
    "A=1": b"\x01\n",
    "u.py": b"import cocotb\nX = {}\n'''\nY = {}\n'''\n# Z = {}\nZ = {}\n",
}

# Words and what is said of them, where they have no reading.
WORDS = [
    ("", "two files are wanted, the design and the tests, and 0 stand there"),
    ("d.v", "two files are wanted, the design and the tests, and 1 stand there"),
    ("d.v t.py u.py", "two files are wanted, the design and the tests, and 3 stand there"),
    ("--trace d.v --trace t.py", "--trace stands twice"),
    ("--top a d.v t.py --top=b", "--top stands twice"),
    ("--made 1 --made=1", "--made stands twice"),
    ("--budget 0 d.v t.py", "the value of --budget is no number from 1 to 1099511627776 with at most 20 digits: 0"),
    ("--budget=1099511627777 d.v t.py", "the value of --budget is no number from 1 to 1099511627776 with at most 20 digits: 1099511627777"),
    ("--seed 18446744073709551616 d.v t.py",
     "the value of --seed is no number from 0 to 18446744073709551615 with at most 20 digits: 18446744073709551616"),
    ("--seed 000000000000000000007 d.v t.py",
     "the value of --seed is no number from 0 to 18446744073709551615 with at most 20 digits: 000000000000000000007"),
    ("--seed=+7 d.v t.py", "the value of --seed is no number from 0 to 18446744073709551615 with at most 20 digits: +7"),
    ("--made 4294967296", "the value of --made is no number from 0 to 4294967295 with at most 20 digits: 4294967296"),
    ("--seed= d.v t.py", "the value of --seed is empty"),
    ("d.v t.py --top", "no value stands behind --top"),
    ("--top --trace d.v t.py", "no value stands behind --top"),
    ("--seed -7 d.v t.py", "no value stands behind --seed"),
    ("--trace=1 d.v t.py", "--trace has no value"),
    ("--vcd d.v t.py --vcd", "--vcd stands twice"),
    ("--vcd=1 d.v t.py", "--vcd has no value"),
    ("--vcd --trace d.v t.py", "--vcd stands without --trace"),
    ("--trace d.v t.py --vcd", "--vcd stands without --trace"),
    ("--vcd --made 0", "--vcd stands without --made"),
    ("--made 0 --vcd", "--vcd stands without --made"),
    ("-x d.v t.py", "there is no option -x"),
    ("--help", "there is no option --help"),
    ("--to top d.v t.py", "there is no option --to"),
    ("--made 0 d.v t.py", "--made stands without files"),
    ("--made 0 --top top", "--made stands without --top"),
    ("--top top --made 0", "--made stands without --top"),
]

ODD_WORDS = [
    (["", "t.py"], "the name of a file is empty"),
    (["--top", "", "d.v", "t.py"], "the value of --top is empty"),
    ([b"d\xc3.v", "t.py"], "this word is no UTF-8: d?.v"),
    (["d.v", "t.py", "--top", b"\xed\xa0\x80"], "this word is no UTF-8: ???"),
]

TWICE = "a digit of this net is driven twice, or an input is driven inside of its module"
ONCE = "hint: drive each digit in one place; a choice among several drivers is a `? :` or an `always @*`\n"
BAD_LINE = "no form of a line that may stand here is spelled like this"
NO_TABLES = "hint: there are no dictionaries and sets: write `ADD = 0` for each name, and a function with `if` and `elif` for a look-up"
NO_FORM = "this token fits no form of the grammar (docs/VERILOG.md)"
LISTED = "hint: docs/VERILOG.md lists the forms, and what is left out\n"
NO_BYTE = "a byte stands here that has no place: a control byte, a tab behind the first token, a letter outside of ASCII, a backslash, or a bracket too much"
TOO_LONG = "TooLong: the text is longer than 1,048,576 bytes\n"
SWAPPED_DESIGN = "hint: this is a tests file, and the design stands first: ./cocorun DESIGN TESTS\n"
SWAPPED_TESTS = "hint: this is a design, and the tests stand behind it: ./cocorun DESIGN TESTS\n"

# A refusal's status and line, the words, and what is shown.
REFUSALS = [
    (3, "error: d.v: TwoDrivers at 3:10", ["d.v", "t.py"], f"d.v:3:10: TwoDrivers: {TWICE}\n  assign y = a;\n         ^\n{ONCE}"),
    (3, "error: d.v: TwoDrivers at 2:9", ["--seed", "3", "d.v", "--top=top", "t.py"],
     f"d.v:2:9: TwoDrivers: {TWICE}\n\tassign y = a;\n\t       ^\n{ONCE}"),
    (3, "error: d.v: Syntax at 4:10", ["d.v", "t.py"], f"d.v:4:10: Syntax: {NO_FORM}\nendmodule\n         ^\n{LISTED}"),
    (3, "error: d.v: TooDeep at 1:1", ["d.v", "t.py"],
     "d.v:1:1: TooDeep: the expression or statement is higher than 64: give a part of it a name\nmodule top(input a, output y);\n^\n"),
    (3, "error: d.v: TooLong", ["d.v", "t.py"], f"d.v: {TOO_LONG}"),
    (3, "error: d.v: Unheard at 1:8", ["d.v", "t.py"], "d.v:1:8: Unheard\nmodule top(input a, output y);\n       ^\n"),
    (3, "error: -d.v: Syntax at 1:1", ["--", "-d.v", "t.py"], f"-d.v:1:1: Syntax: {NO_FORM}\nmodule\n^\n{LISTED}"),
    (3, "error: a at 9:9: Syntax at 2:3", ["a at 9:9", "t.py"], f"a at 9:9:2:3: Syntax: {NO_FORM}\ntwo\n  ^\n{LISTED}"),
    (3, "error: a at 9:9: TooLong", ["a at 9:9", "t.py"], f"a at 9:9: {TOO_LONG}"),
    (3, "error: a: BadByte at 1:1", ["a: BadByte at 1:1", "t.py"], ""),
    (3, "error: A=1: BadByte at 1:1", ["A=1", "t.py"], "A=1:1:1: BadByte: no token begins with this byte\n?\n^\n"),
    (3, "error: gone: Syntax at 1:1", ["gone", "t.py"], ""),
    (4, "error: t.py: Tab at line 2", ["--trace", "d.v", "t.py"], "t.py:2: Tab: a tab stands before the first token; indent by spaces\n\tpass\n"),
    (4, "error: t.py: BadByte at line 3", ["d.v", "t.py"], f"t.py:3: BadByte: {NO_BYTE}\n# caf\u00e9 ? ? \u00e9 end\n"),
    (4, "error: t.py: BadByte at line 3", ["--", "d.v", "t.py"], f"t.py:3: BadByte: {NO_BYTE}\n# caf\u00e9 ? ? \u00e9 end\n"),
    (4, "error: t.py: TooLong", ["d.v", "t.py"], f"t.py: {TOO_LONG}"),
    (4, "error: u.py: BadLine at line 2", ["d.v", "u.py"], f"u.py:2: BadLine: {BAD_LINE}\nX = {{}}\n{NO_TABLES} (also on lines: 7)\n"),
    (3, "error: t.py: Syntax at 1:1", ["t.py", "d.v"], f"t.py:1:1: Syntax: {NO_FORM}\nimport cocotb\n^\n{SWAPPED_DESIGN}"),
    (3, "error: t.py: BadByte at 3:16", ["t.py", "d.v"],
     f"t.py:3:16: BadByte: no token begins with this byte\n# caf\u00e9 ? ? \u00e9 end\n             ^\n{SWAPPED_DESIGN}"),
    (4, "error: d.v: BadLine at line 1", ["t.py", "d.v"],
     f"d.v:1: BadLine: no form of a line that may stand here is spelled like this\nmodule top(input a, output y);\n{SWAPPED_TESTS}"),
    (0, "** TESTS=0 PASS=0 FAIL=0 SKIP=0 TIME=0 **", ["d.v", "t.py"], ""),
    (1, "** TESTS=1 PASS=0 FAIL=1 SKIP=0 TIME=0 **", ["d.v", "t.py"], ""),
    (5, "error: cannot read d.v", ["d.v", "t.py"], ""),
    (8, "BUDGET 5", ["--budget", "5", "d.v", "t.py"], ""),
]

# What the script says after other statuses.
ENDS = [
    (6, "a line could not be written to standard output, so nothing was written after it"),
    (7, "there was not enough memory to go on, or the loops of the design unroll to more than 16,777,216 nodes"),
]

# said: what standard error must hold; for a row of words whether it must hold anything; for a case of `AROUND` its name
ScriptCase = namedtuple("ScriptCase", "name words status line said")


def row_words(parts):
    """The words of a row, in which `\\` and two digits stand for a byte."""
    return [re.sub(rb"\\(..)", lambda found: bytes([int(found[1], 16)]), part) for part in parts]


def cases(word_rows):
    """Each case of the script; of the rows of words with their answers those have a reading whose answer isn't `usage`."""
    for words, fault in WORDS:
        yield ScriptCase(f"script: {words}", words.split(), 2, USAGE, f"cocorun: {fault}\n")
    for words, fault in ODD_WORDS:
        yield ScriptCase(f"script: {words}", words, 2, USAGE, f"cocorun: {fault}\n")
    for status, line, words, shown in REFUSALS:
        yield ScriptCase(f"script: {line}", words, status, line + "\n", shown)
    for status, told in ENDS:
        yield ScriptCase(f"script: status {status}", ["d.v", "t.py"], status, "0 TEST t\n", f"cocorun: {told}\n")
    for (rule, _, *words), answer in word_rows:
        yield ScriptCase(f"script: words: {rule.decode('latin-1')}", row_words(words), 2, USAGE, answer.endswith(b": usage"))
    for call in AROUND:
        yield ScriptCase(f"script: {call.__doc__.splitlines()[0]}", [], None, None, call.__name__)


def program_in(folder, text, sources):
    """Puts a program into a folder, with a SOURCES that names it."""
    folder.mkdir(parents=True, exist_ok=True)
    (folder / "cocorun").write_text(text)
    (folder / "cocorun").chmod(0o755)
    (folder / "SOURCES").write_text(f"kit stand-in\nsources {sources}\nprogram {hashlib.sha256(text.encode()).hexdigest()}\n")


def sources_of(folder):
    return subprocess.run([folder / "tools" / "sources"], check=True, stdout=subprocess.PIPE, text=True).stdout.strip()


def laid_out(folder):
    """The script in a folder of its own, with sources, the stand-in as their release, and the files of the cases."""
    (folder / "tools").mkdir(parents=True)
    for name in ("cocorun", "tools/sources", "tools/hints.awk", "tools/hints.txt"):
        shutil.copy(TOP / name, folder / name)
    (folder / "crates.txt").write_text("below:\nbeside:\ncocorun: below anyhow\n")
    for name in ("below", "beside", "cocorun"):
        (folder / "crates" / name / "src").mkdir(parents=True)
        (folder / "crates" / name / "src" / "main.rt").write_text("// one\n")
    program_in(folder / "release", STAND_IN, sources_of(folder))
    for name, text in FILES.items():
        (folder / name).write_bytes(text)
    return folder


@functools.lru_cache(maxsize=None)
def folder_of(process):
    """The folder of the cases that change nothing."""
    return laid_out(Path(tempfile.mkdtemp()) / "a checkout")


def ran(folder, words=(), status=0, line="", script=None, **env):
    """The status of the script, its standard output and what it says on standard error."""
    here = {**os.environ, "STAND_IN_STATUS": str(status), "STAND_IN_LINE": line, "COCORUN_BUILD": "", "COCORUN_WHICH": "", **env}
    how = {"cwd": folder, "stdin": subprocess.DEVNULL, "stdout": subprocess.PIPE, "stderr": subprocess.PIPE}
    done = subprocess.run([script or folder / "cocorun", *words], env=here, **how)
    return done.returncode, done.stdout.decode(), done.stderr.decode()


def looked_at(case):
    """A case's name, what is wanted where something else was found, and that."""
    if case.status is None:
        with tempfile.TemporaryDirectory() as name:
            wanted, found = next(call for call in AROUND if call.__name__ == case.said)(laid_out(Path(name) / "checkout"))
    else:
        found = ran(folder_of(os.getpid()), case.words, case.status, case.line)
        if isinstance(case.said, bool):
            found = (*found[:2], found[2] != "")
        wanted = (case.status, case.line, case.said)
    return (case.name, None, None) if found == wanted else (case.name, wanted, found)


# ---- what lies around the script

CHANGED = "cocorun: the sources have changed since the release, which runs all the same; with COCORUN_BUILD=1 these are proved and built\n"
OTHER = '#!/bin/sh\necho other\n'


def change(folder, path="crates/below/src/main.rt", text="// two\n"):
    (folder / path).parent.mkdir(parents=True, exist_ok=True)
    (folder / path).write_text(text)


def runs_from_elsewhere(folder):
    """it runs from another folder, and by a link"""
    (folder / "link").symlink_to(folder / "cocorun")
    elsewhere = folder / "a folder"
    elsewhere.mkdir()
    found = [ran(elsewhere, script=script, line="x") for script in (folder / "cocorun", "../cocorun", folder / "link", "../link")]
    return [(0, "x", "")] * 4, found


def sums_once(folder):
    """the sources are summed once, and not again while they stay as they are"""
    first = ran(folder)
    (folder / "tools" / "sources").write_text("#!/bin/sh\nexit 1\n")
    return [(0, "", "")] * 2, [first, ran(folder)]


def tells_a_change(folder):
    """a changed comment is told each time, until it is taken back"""
    before = ran(folder)
    change(folder)
    found = [before, ran(folder, line="x", status=1), ran(folder)]
    change(folder, text="// one\n")
    return [(0, "", ""), (1, "x", CHANGED), (0, "", CHANGED), (0, "", "")], [*found, ran(folder)]


def tells_an_old_change(folder):
    """a change is told whose time is set back"""
    before = ran(folder)
    change(folder)
    os.utime(folder / "crates" / "below" / "src" / "main.rt", (0, 0))
    return [(0, "", ""), (0, "", CHANGED)], [before, ran(folder)]


def tells_new_and_lost_files(folder):
    """a file that is new or lost is told, and one that no build reads isn't"""
    found = [ran(folder)]
    change(folder, "crates/below/specs/out/Lib.antt", "")
    found.append(ran(folder))
    shutil.rmtree(folder / "crates" / "below" / "specs")
    found.append(ran(folder))
    (folder / "crates" / "below" / "src" / "main.rt").unlink()
    found.append(ran(folder))
    change(folder, text="// one\n")
    for path in ("crates/below/README.md", "crates/below/out/src/main.rt", "crates/beside/src/main.rt"):
        change(folder, path)
        found.append(ran(folder))
    return [(0, "", told) for told in ("", CHANGED, "", CHANGED, "", "", "")], found


def tells_proofs_and_the_list_of_crates(folder):
    """a proof that is new is told, and a changed list of crates"""
    change(folder, "crates/below/proofs/Lib.antt", "")
    found = [ran(folder)]
    shutil.rmtree(folder / "crates" / "below" / "proofs")
    found.append(ran(folder))
    change(folder, "crates.txt", (folder / "crates.txt").read_text() + "# a word\n")
    return [(0, "", told) for told in (CHANGED, "", CHANGED)], [*found, ran(folder)]


def tells_the_commit(folder):
    """the commit of the release is told"""
    if not shutil.which("git"):
        return 0, 0
    who = ["git", "-c", "user.name=cases", "-c", "user.email=cases@localhost"]
    subprocess.run([*who, "init", "-q"], cwd=folder, check=True)
    subprocess.run([*who, "add", "-A"], cwd=folder, check=True)
    subprocess.run([*who, "commit", "-q", "-m", "a release"], cwd=folder, check=True)
    commit = subprocess.run(["git", "rev-parse", "--short", "HEAD"], cwd=folder, check=True, stdout=subprocess.PIPE, text=True).stdout.strip()
    change(folder)
    return (0, "", CHANGED.replace("release,", f"release of commit {commit},")), ran(folder)


def refuses_a_spoiled_release(folder):
    """a release that isn't the one that is named isn't run, nor is one that isn't there"""
    before = ran(folder)
    (folder / "release" / "cocorun").write_text(OTHER)
    found = [before, ran(folder)]
    (folder / "release" / "cocorun").unlink()
    spoiled = "cocorun: release/cocorun is not the program that release/SOURCES names; git checkout -- release brings both back\n"
    lost = "cocorun: there is no release/cocorun; with COCORUN_BUILD=1 the program is proved and built\n"
    return [(0, "", ""), (70, "", spoiled), (70, "", lost)], [*found, ran(folder)]


def runs_what_was_built(folder):
    """a program that was built of these sources is run where the release isn't of them, and where it is asked for"""
    program_in(folder / "release" / "out", OTHER, sources_of(folder))
    found = [ran(folder, line="x"), ran(folder, COCORUN_BUILD="1")]
    change(folder)
    found.append(ran(folder))
    program_in(folder / "release" / "out", OTHER, sources_of(folder))
    return [(0, "x", ""), (0, "other\n", ""), (0, "", CHANGED), (0, "other\n", "")], [*found, ran(folder)]


def builds_when_asked(folder):
    """with COCORUN_BUILD=1 the program is built, once, or the script says why it can't"""
    (folder / "bin").mkdir()
    change(folder)
    path = "/usr/bin:/bin"
    found = [ran(folder, PATH=path, COCORUN_BUILD="1") if not shutil.which("rt", path=path) else None]
    for name, text in (("bin/rt", ""), ("tools/release", 'echo building >&2\ncp -R built/. "$1"\n')):
        (folder / name).write_text("#!/bin/sh\n" + text)
        (folder / name).chmod(0o755)
    failed = ran(folder, PATH=f"{folder}/bin:{path}", COCORUN_BUILD="1")
    program_in(folder / "built", OTHER, sources_of(folder))
    found += [(failed[0], failed[2].splitlines()[-1]), *[ran(folder, PATH=f"{folder}/bin:{path}", COCORUN_BUILD="1") for _ in range(2)]]
    lacks = "cocorun: the toolchain's command rt is not in the path; README.md says which toolchain this needs\n"
    fails = "cocorun: the program was not built, as release/out/build.log tells"
    return [found[0] and (70, "", lacks), (70, fails), (0, "other\n", "building\n"), (0, "other\n", "")], found


def runs_where_nothing_can_be_written(folder):
    """it runs where no stamp can be left"""
    (folder / "release" / "out").write_text("")
    return [(0, "", "")] * 2, [ran(folder), ran(folder)]


def runs_where_no_file_can_be_made(folder):
    """it runs where the folder of the stamp takes no file"""
    (folder / "release" / "out").symlink_to("/proc")
    return [(0, "", "")] * 2, [ran(folder), ran(folder)]


def refuses_without_hints(folder):
    """where the table of hints or what reads it isn't there, it shows the line alone"""
    (folder / "tools" / "hints.txt").unlink()
    found = [ran(folder, ["d.v", "t.py"], 3, "error: d.v: Syntax at 4:1\n")]
    (folder / "tools" / "hints.awk").unlink()
    found.append(ran(folder, ["d.v", "t.py"], 3, "error: d.v: Syntax at 4:1\n"))
    return [(3, "error: d.v: Syntax at 4:1\n", told + "endmodule\n^\n") for told in ("d.v:4:1: Syntax\n", "")], found


def runs_without_standard_error(folder):
    """standard error that takes nothing changes neither status nor output"""
    change(folder)
    found, statuses = [], (0, 2, 3, 6)
    for status in statuses:
        here = {**os.environ, "STAND_IN_STATUS": str(status), "STAND_IN_LINE": "x", "COCORUN_BUILD": "", "COCORUN_WHICH": ""}
        with open("/dev/full", "w") as full:
            done = subprocess.run([folder / "cocorun", "d.v", "t.py"], cwd=folder, env=here, stdout=subprocess.PIPE, stderr=full)
        found.append((done.returncode, done.stdout))
    return [(status, b"x") for status in statuses], found


SLOW = '#!/bin/sh\necho "5 PASS one"\n[ $# -eq 1 ] || sleep 4\necho "9 PASS two"\n'


def on_a_terminal(folder, out, words=("d.v", "t.py")):
    """Starts the script with standard error on a terminal; `terminal` as standard output is the same one. What is to be read of the terminal comes second."""
    reads, writes = pty.openpty()
    how = {"cwd": folder, "stdin": subprocess.DEVNULL, "stdout": writes if out == "terminal" else out, "stderr": writes}
    started = subprocess.Popen([folder / "cocorun", *words], **how)
    os.close(writes)
    return started, reads


def seen_on(reads):
    """What was written to a terminal, whose lines end with two bytes."""
    seen = b""
    try:
        while piece := os.read(reads, 4096):
            seen += piece
    except OSError:
        # nothing holds the terminal any more
        pass
    os.close(reads)
    return seen.decode().replace("\r\n", "\n")


def shows_progress(folder):
    """on a terminal it shows how long a run has taken, and the last verdict in a file; what is written to a file and a pipe stays as it is"""
    program_in(folder / "release", SLOW, sources_of(folder))
    lines = "5 PASS one\n9 PASS two\n"
    (folder / "out.txt").write_text("1 PASS before\n")
    with open(folder / "out.txt", "ab") as file:
        started = [on_a_terminal(folder, out) for out in (file, subprocess.PIPE, "terminal")]
    short = on_a_terminal(folder, subprocess.PIPE, ["d.v"])
    piped = started[1][0].communicate()[0].decode()
    statuses = [process.wait() for process, _ in started]
    seen = [seen_on(reads) for _, reads in started]
    # A time stands before a carriage return, and behind that comes another one or a line that is longer.
    fits = [re.fullmatch(pattern, text) is not None for pattern, text in zip((
        r"(\d+ s, 5 PASS one +\r)+(\d+ s, 9 PASS two +\r)* {79}\r", r"(\d+ s +\r)+ {7}\r", r"5 PASS one\n(\d+ s +\r)+9 PASS two\n(\d+ s +\r)* {7}\r"), seen)]
    # A quick run shows nothing, unless the machine is slow.
    quick = (short[0].communicate()[0].decode(), re.fullmatch(r"((\d+ s +\r)* {7}\r)?", seen_on(short[1])) is not None)
    wanted = [[0] * 3, "1 PASS before\n" + lines, lines, [True] * 3, (lines, True)]
    return wanted, [statuses, (folder / "out.txt").read_text(), piped, fits if all(fits) else seen, quick]


DUMPS = """#!/bin/sh
case " $* " in
*" --vcd "*) echo "#0" ;;
*) printf '%s\\n' "0 TEST a" "1 PASS a" "2 INFO 5 FAIL x" "3 FAIL b (AssertionError)" "$*" ;;
esac
exit 1
"""


def tells_failed_tests(folder):
    """where a VCD text is written it tells on a terminal how many tests have failed, and else nothing"""
    program_in(folder / "release", DUMPS, sources_of(folder))
    asked = [["--vcd", "--seed", "7", "d.v", "t.py"], ["d.v", "t.py"], ["d.v", "--", "--vcd"]]
    started = [on_a_terminal(folder, subprocess.PIPE, words) for words in asked]
    lines = [process.communicate()[0].decode().splitlines()[-1] for process, _ in started]
    seen = [re.sub(r"\d+ s +\r| +\r", "", seen_on(reads)) for _, reads in started]
    quiet = ran(folder, ["--vcd", "d.v", "t.py"])
    told = ["cocorun: status 1, 1 of 2 tests failed\n", "", ""]
    return (["#0", "d.v t.py", "#0"], told, (1, "#0\n", "")), (lines, seen, quiet)


def sums_up_a_regression(folder):
    """examples/regression runs twenty seeds, goes on after a failure, and prints what its page says"""
    if not shutil.which("make"):
        return 0, 0
    place = TOP / "examples" / "regression"
    page = re.sub("^    ", "", (place / "README.md").read_text(encoding="utf-8"), flags=re.MULTILINE)
    env = {name: value for name, value in os.environ.items() if not name.startswith(("MAKE", "MFLAGS"))}
    found = []
    for words in ([], ["NAMES=fifo", "DESIGN=bug.v"]):
        how = {"cwd": place, "env": env, "stdout": subprocess.PIPE, "stderr": subprocess.DEVNULL, "text": True}
        done = subprocess.run(["make", "-s", "-j2", f"OUT={folder}/out", *words], **how)
        lines = done.stdout.splitlines()
        found.append((done.returncode, len(lines), "\n".join(lines[:4]) in page, "\n".join(lines[-2:]) in page))
    return [(0, 1, True, True), (2, 82, True, True)], found


def tells_what_fails(folder):
    """./test counts a case that fails, and ends with 1"""
    done = subprocess.run([TOP / "test", "--program", "/bin/true", "words: a budget of 0 behind ="], stdout=subprocess.PIPE, stderr=subprocess.STDOUT)
    return (1, True), (done.returncode, b" 0 failed" not in done.stdout)


def names_the_program(folder):
    """with COCORUN_WHICH=1 it names the program, and runs nothing"""
    return (0, f"{folder}/release/cocorun\n", ""), ran(folder, COCORUN_WHICH="1", line="x")


def tells_another_machine(folder):
    """a program that can't be run here is told"""
    (folder / "release" / "cocorun").chmod(0o644)
    status, _, said = ran(folder)
    told = "does not run on this machine: it is for Linux on x86-64 with glibc 2.34 or later"
    return (126, told), (status, said.splitlines()[-1].partition("cocorun ")[2])


AROUND = [
    runs_from_elsewhere, sums_once, tells_a_change, tells_an_old_change, tells_new_and_lost_files, tells_proofs_and_the_list_of_crates, tells_the_commit,
    refuses_a_spoiled_release, runs_what_was_built, builds_when_asked, runs_where_nothing_can_be_written, runs_where_no_file_can_be_made, refuses_without_hints,
    runs_without_standard_error, shows_progress, tells_failed_tests, sums_up_a_regression, tells_what_fails, names_the_program,
    tells_another_machine,
]
