"""Rows on the words of the command: options in every order, values at their bounds and past them, and words that have no reading. All by hand, but for the
lines of the runs, whose draws are those of `random_rows`; what the words are read as stands beside them."""
from itertools import permutations

from models.made_texts import DESIGN, tests
from models.random_rows import Generator
from rows.command_rows import USAGE, command, model_lines
from rows.row_texts import HEADER, SMALL, passing, report, test
from rows.rows_worked import FLIP_FLOP, FLIP_FLOP_TESTS

# it shows a change, the top and a draw, and costs three steps
TELLING = "import cocotb\nimport random\n" + test("dut.a.setimmediatevalue(1); x = random.randint(0, 4294967295); dut._log.info(f\"{dut._path} {x}\")")
LEAST = HEADER + test("pass")


def draw(seed):
    return Generator.of_seed(seed).randint(0, 4294967295)


def told(seed=0, trace=False, budget=10_000_000):
    """The status and the lines of that run."""
    signal = ["0 SIG top.a 1"] if trace else []
    if budget < 3:
        return "Budget", ["0 TEST t", *signal, f"BUDGET {budget}"]
    return "Passed", passing(0, *signal, f"0 INFO top {draw(seed)}")


def runs(rule, words, **options):
    status, lines = told(**options)
    assert (status, lines) == model_lines(SMALL, TELLING, **options), rule
    return command(rule, words, SMALL, TELLING, status, lines)


def usage(rule, words):
    return command(rule, words, SMALL, TELLING, "Usage", [USAGE])


def made(rule, number, words, last=None, **options):
    """The generated texts of a number: the last line alone, which is given, or all lines where the changes of signals are told."""
    status, lines = model_lines(DESIGN, tests(number), **options)
    assert last is None or lines[-1] == last, rule
    return command(rule, words, SMALL, TELLING, status, lines if options.get("trace") else lines[-1:])


def flip_flop(seed):
    """The flip-flop passes whatever is drawn."""
    lines = ["0 TEST dff_simple_test", "115000 PASS dff_simple_test", report(1, 1, 0, 0, 115000)]
    assert ("Passed", lines) == model_lines(FLIP_FLOP, FLIP_FLOP_TESTS, seed=seed)
    return command(f"a flip-flop and random numbers of the seed {seed}", f"--seed {seed} d.v t.py", FLIP_FLOP, FLIP_FLOP_TESTS, "Passed", lines)


OPTIONS = ["--top top", "--budget 3", "--seed 7", "--trace"]
ORDERS = [
    runs("options in the order " + " ".join(option.split()[0][2:] for option in order), " ".join([*order, "d.v t.py"]), seed=7, trace=True, budget=3)
    for order in permutations(OPTIONS)
]
PLACES = [
    runs(f"{option.split()[0][2:]} {place}", words % option.replace(" ", sign), **given)
    for option, given in [("--top top", {}), ("--budget 2", {"budget": 2}), ("--seed 7", {"seed": 7}), ("--trace", {"trace": True})]
    for place, words, sign in [
        ("alone", "%s d.v t.py", " "), ("between the files", "d.v %s t.py", " "), ("behind the files", "d.v t.py %s", " "), ("behind =", "%s d.v t.py", "="),
    ]
    if option != "--trace" or sign == " "
]
READ = [
    runs("two files", "d.v t.py"),
    runs("all options between and behind the files", "--trace d.v --seed=7 t.py --budget 2 --top=top", seed=7, trace=True, budget=2),
    command("the least budget, and files behind --", "--budget=1 -- d.v t.py", SMALL, LEAST, "Passed", passing(0)),
    command("the files of no option behind --", "-- d.v t.py", SMALL, LEAST, "Passed", passing(0)),
    command("-- between the files", "d.v -- t.py", SMALL, LEAST, "Passed", passing(0)),
    command("-- behind the files", "d.v t.py --", SMALL, LEAST, "Passed", passing(0)),
    runs("the largest budget", "--budget 1099511627776 d.v t.py", budget=1099511627776),
    runs("a budget of 20 digits", "--budget 00000000000000000002 d.v t.py", budget=2),
    runs("the budget that the run costs", "--budget 3 d.v t.py", budget=3),
    runs("the least seed", "--seed 0 d.v t.py", seed=0),
    runs("another seed", "--seed 1 d.v t.py", seed=1),
    runs("the largest seed", "--seed 18446744073709551615 d.v t.py", seed=2**64 - 1),
    runs("a seed behind zeros", "--seed=0000000000000000001 d.v t.py", seed=1),
    command("a top named -", "--top - d.v t.py", SMALL, TELLING, "DesignRefused", ["error: d.v: NoTop at 1:1"]),
    command("a top that begins with -, behind =", "--top=--trace d.v t.py", SMALL, TELLING, "DesignRefused", ["error: d.v: NoTop at 1:1"]),
    command("a top that holds =", "--top=a=b d.v t.py", SMALL, TELLING, "DesignRefused", ["error: d.v: NoTop at 1:1"]),
    command("a file named -", "- t.py", SMALL, TELLING, "ReadFault", ["error: cannot read -"]),
    command("a tests file named -", "d.v -", SMALL, TELLING, "ReadFault", ["error: cannot read -"]),
    command("a file named as an option, behind --", "-- --trace t.py", SMALL, TELLING, "ReadFault", ["error: cannot read --trace"]),
    command("a tests file named --, behind --", "-- d.v --", SMALL, TELLING, "ReadFault", ["error: cannot read --"]),
    command("another file of the design", "e.v t.py", SMALL, TELLING, "ReadFault", ["error: cannot read e.v"]),
    command("a name in large letters is another one", "d.v T.py", SMALL, TELLING, "ReadFault", ["error: cannot read T.py"]),
    # the design is no tests file
    command("one file twice", "d.v d.v", SMALL, TELLING, "TestsRefused", ["error: d.v: BadLine at line 1"]),
    # the tests are no design: their first token begins no module
    command("the files in the other order", "t.py d.v", SMALL, TELLING, "DesignRefused", ["error: t.py: Syntax at 1:1"]),
]
REFUSED = [
    usage(*row) for row in [
        ("no word", ""), ("one word", "d.v"), ("three words", "d.v t.py u.py"), ("options alone", "--trace --budget 3"), ("-- alone", "--"),
        ("-- and one file", "-- d.v"), ("three files around --", "d.v -- t.py u.py"),
        ("a budget of 0", "--budget 0 d.v t.py"), ("a budget of 0 behind =", "--budget=0 d.v t.py"), ("a budget of 2^40 + 1", "--budget 1099511627777 d.v t.py"),
        ("a budget of 21 digits", "--budget 000000000000000000002 d.v t.py"), ("a budget with a letter", "--budget 2k d.v t.py"),
        ("a budget below 0", "--budget=-1 d.v t.py"), ("a budget with a sign", "--budget +1 d.v t.py"), ("a budget with a point", "--budget 1.0 d.v t.py"),
        ("a seed of 2^64", "--seed 18446744073709551616 d.v t.py"), ("a seed of 20 nines", "--seed 99999999999999999999 d.v t.py"),
        ("a seed below 0", "--seed -1 d.v t.py"), ("a seed that isn't decimal", "--seed 0x7 d.v t.py"), ("a seed with _", "--seed 1_0 d.v t.py"),
        ("a budget twice", "--budget 3 --budget 3 d.v t.py"), ("a budget twice, once behind =", "--budget=3 d.v --budget 3 t.py"),
        ("a seed twice", "--seed 1 --seed 2 d.v t.py"), ("a top twice", "--top top d.v t.py --top top"), ("a trace twice", "--trace --trace d.v t.py"),
        ("a VCD text twice", "--vcd --vcd d.v t.py"), ("a VCD text with a value", "--vcd=1 d.v t.py"), ("a VCD text with an empty value", "--vcd= d.v t.py"),
        ("a VCD text and a trace", "--vcd --trace d.v t.py"), ("a trace and a VCD text", "d.v --trace t.py --vcd"), ("a VCD text of one file", "--vcd d.v"),
        ("a trace with a value", "--trace=1 d.v t.py"), ("a trace with an empty value", "--trace= d.v t.py"),
        ("no budget", "d.v t.py --budget"), ("no seed", "d.v t.py --seed"), ("no top", "d.v t.py --top"),
        ("an empty budget", "--budget= d.v t.py"), ("an empty seed", "--seed= d.v t.py"), ("an empty top", "--top= d.v t.py"),
        ("an option in place of a value", "--top --trace d.v t.py"), ("-- in place of a value", "--top -- d.v t.py"), ("a value that begins with -", "--top -t d.v t.py"),
        ("an unknown option", "--tops top d.v t.py"), ("the front of an option", "--to top d.v t.py"), ("an option in large letters", "--Trace d.v t.py"),
        ("a short option", "-t d.v t.py"), ("a file that begins with -", "-d.v t.py"), ("help", "--help"), ("help by a letter", "-h d.v t.py"),
        ("a version", "--version d.v t.py"), ("-- with a value", "--=1 d.v t.py"),
    ]
]
# words that ask for generated tests: those without a reading, and runs of the texts that the rules give, the last line of each or all of them
MADE = [
    usage(*row) for row in [
        ("generated tests under a top", "--top top --made 0"), ("generated tests and a file", "--made 0 d.v"), ("generated tests and two files", "--made 0 d.v t.py"),
        ("generated tests twice", "--made 0 --made 0"), ("a VCD text of generated tests", "--vcd --made 0"),
        ("generated tests and a VCD text", "--made 0 --vcd"), ("a VCD text of generated tests and two files", "--vcd --made 0 d.v t.py"), ("no number of generated tests", "--made"), ("an empty number of generated tests", "--made="),
        ("a number of generated tests that is too large", "--made 4294967296"), ("a number of generated tests with a letter", "--made a"),
    ]
] + [
    made("generated tests", 0, "--made 0", report(1, 1, 0, 0, 3)),
    made("generated tests behind =", 17, "--made=17", report(4, 4, 0, 0, 65)),
    made("as many generated tests as there can be", 255, "--made 255", report(256, 256, 0, 0, 22773)),
    made("generated tests of a number beyond them", 256, "--made 256", report(1, 1, 0, 0, 3)),
    made("generated tests of another seed", 0, "--seed 5 --made 0", report(1, 1, 0, 0, 3), seed=5),
    made("generated tests that meet their budget", 17, "--made 17 --budget 20", "BUDGET 20", budget=20),
    made("all lines of generated tests", 0, "--made 0 --trace", trace=True),
    made("generated tests with options", 0, "--made 0 --budget 5 --seed 1 --trace", budget=5, seed=1, trace=True),
]
def long_run(rule, body, end):
    """A run whose words name no budget: of ten millions."""
    return command(rule, "d.v t.py", SMALL, "import cocotb\n" + test(body), *end)


# a `for` of n turns costs its n + 1 questions and the statements in it
TURNS = "for i in range(4999999): { pass }; pass"
DEFAULT = [
    long_run("no budget is one of ten millions", "while True: { pass }", ("Budget", ["0 TEST t", "BUDGET 10000000"])),
    long_run("a run of ten millions without a budget", TURNS, ("Passed", passing(0))),
    long_run("a run of ten millions and one without a budget", TURNS + "; pass", ("Budget", ["0 TEST t", "BUDGET 10000000"])),
]
SEEDS = [flip_flop(seed) for seed in (1, 7, 2**64 - 1)]
WORDS = [*READ, *SEEDS, *DEFAULT, *PLACES, *ORDERS, *REFUSED, *MADE]
