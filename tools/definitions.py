#!/usr/bin/env python3
"""Makes docs/DEFINITIONS.md: the definitions that the contract of the command reaches, in the order in which to read them.

    tools/definitions.py            writes the page
    tools/definitions.py --check    fails where the page is stale, and where a module's first line is wrong: it begins with
                                    `A means of proof:` in each module that isn't reached, and in no other
    tools/definitions.py --list     prints each module, its lines, and how many of its definitions are reached
    tools/definitions.py --why NAME prints for each reached definition of a module how the contract reaches it

The count goes by single definitions. It begins at the clauses of ROOTS, the call that `main` makes and the one under it. A clause or a definition
reaches each definition that it names, in its own module or by the `use` lines. A type or a trait of the code that it names is reached too: with the
types of its fields, with the value, the view and the invariant of its model, and a trait with the contracts of its methods. What the logic asks of a
model beside these (`size`, `inverse`, `coded` ..) is proof, and isn't counted. Of the store and the sink that the process hands to the call, HANDED,
it counts what a read and a put are. A module is reached where one of its definitions is.

The sentence of a module on the page is the first one of its head comment. Layers and what is said of them stand here, in LAYERS.
"""
import re
import sys
from collections import defaultdict
from pathlib import Path

ROOT = Path(__file__).resolve().parent.parent
PAGE = ROOT / "docs" / "DEFINITIONS.md"
ROOTS = [("command", "run_process"), ("command", "cocorun")]
# The store and the sink that the process hands to the call, and what their traits let them say.
HANDED = [("port_io", "DirStore"), ("port_io", "WriteSink")]
# A part that is handed to the call and that no clause of it names: what is promised holds of each that keeps its contract, so that nobody needs to read that.
UNSAID = {"FileRunner"}
PORT = ("files", "gives", "misses", "told", "takes", "breaks", "faults")
MODEL = ("Value", "view", "invariant")
MEANS = "A means of proof:"
# What these modules say, until their own head comments do: a word in one proves its crate anew, and all that stand on it.
HEADS = {
    "await_tree.specs.EndedTasks.Limits": "How many tasks may be started in a test.",
    "await_tree.specs.SyncObjects.Limits": "How many events and how many locks may be made in a test.",
    "gpi.specs.Forced": MEANS + " what a forced signal shows through any calls of a simulator (IEEE 1364-2005, clause 9.3.2), for two laws.",
    "port_io.specs.Reading": "What a reader gives, read after read, and what becomes of a read of a named file.",
    "port_io.specs.Written": "What a put does to a sink over a writer, write after write.",
    "rig_model.specs.Parts.Queue": MEANS + " what is ready, what waits and what the runner itself awaits, for the proofs of the runner.",
    "run_view.specs.View": "What a task sees of a queue.",
}
TOKEN = re.compile(r"[^\s(){};,\[\]\"]+")
HEAD = re.compile(r"^(\s*)((?:(?:abbrev|unfoldable|pub|record|data|mutual|private)\s+)+)([^\s:({]+)")

# The layers of the page: a title, what is said of it, and the crates of it, as a pattern of their names, or of a crate's folder: `crate/Folder`.
# The first layer that fits has it.
LAYERS = [
    ("Test programs", "What the rows of the test programs ask, and what is answered: no contract of the command reaches it.",
     r"(?!separate_)\w+_tests|table_rows|py_print|py_lex_lines|four_value_cases|cocorun(_failed)?"),
    ("The answer",
     "What the command promises: which lines and which status come for which words and files. It is read from the top; what a name means that isn't "
     "known yet stands further down, or in a later layer.",
     r"command|command_words|regression|made_texts|last_line|port_io"),
    ("Vectors and the simulator",
     "What a design does once it is flat: values of four digits, expressions and statements over signals, and the events of a simulator. "
     "The numbers are clauses of IEEE 1364-2005.",
     r"four_value|gpi|kernel_base|\w+_kernel|v_exec|event_queue|callback_book"),
    ("The text of a design",
     "Which bytes are a Verilog text: its parts and directives, its tokens, and the grammar of expressions, statements, items and modules.",
     r"v_lex|v_syntax|v_phrase|v_expression|v_statement|v_item|v_parse"),
    ("Elaboration", "Which flat design the modules of a text stand for, or which rule is broken first.", r"v_\w+"),
    ("The text of tests", "Which bytes are a file of the profile of Python: its logical lines, their tokens, and the forms of lines and expressions. "
     "The numbers are sections of Python's language reference.",
     r"py_(syntax|lex|phrase|expression|call|statement|module_line|parse)"),
    ("What a tests file stands for", "The rules that a tests file may break, and the functions and tests that an accepted one has.",
     r"name_table|(test|suite)_(?!tasks$)\w+"),
    ("Values of Python", "What expressions give: numbers, texts, vectors, triggers and times.", r"py_\w+"),
    ("Triggers and waiting tasks", "What a task waits for, when that has come, and which keys are registered for it.",
     r"await_tree|trigger_table|sync_objects|ended_tasks|wait_list|plain_waits|task_queue"),
    ("A task", "What one coroutine does, step by step: which statement is next, what it wants, and what that costs.",
     r"signal_port|run_view/SignalPort|task_(?!places$|queue$)\w+|rig_model/Task|plain_task|loop_span|statement_values|open_call|tree_flow"),
    ("A run", "How the tests of a file run on a design: turns, events, ends of tests, and the lines that are written.",
     r"run_\w+|rig_model|scheduler|vcd_text|random_stream|design_names|live_tasks|test_tasks|effect_laws|engine|task_places|"
     r"separate_tests|remainder_law"),
]
SHOWN = ["The answer", "Vectors and the simulator", "The text of a design", "Elaboration", "The text of tests", "What a tests file stands for",
         "Values of Python", "Triggers and waiting tasks", "A task", "A run", "Test programs"]
FROM_THE_TOP = {"The answer"}

INTRODUCTION = """\
# The definitions

What has to be read to know what `cocorun` promises, and nothing more. The contract of the call that `main` makes is proved; what it says is said by
these definitions. Who trusts the toolchain, and finds that they say what IEEE 1364-2005, Python's reference and cocotb's pages say, needs to read no
other code and no proof. Each other module of `specs/` carries proofs, laws, worked rows or test programs, and begins with `{means}`.

This page is made by `tools/definitions.py`, which counts by single definitions and says how; `tools/definitions.py --check` fails where the page is
stale. A line's sentence is the first of the module's head comment, so that it is changed there. "3 of 7" says that three of a module's seven
definitions are reached, and that the others carry proofs.

Today {reached} modules with {lines} lines are reached, and {types} types and traits of the code that they name. {others} modules with {more}
lines aren't.

**The order.** The answer comes first: it is short, it is what the rest is for, and who reads only it knows what is promised and of what. The layers
behind it go the way that the command goes: what a simulated design is, the text of a design and its elaboration, the text of the tests and what it
stands for, and then what runs: values, triggers, a task, the run of all tests. From the second layer on each module stands behind all that it names.
"""


# ---- texts

def without_comments(text):
    """The lines of a text of the logic without comments and quoted texts."""
    for line in text.split("\n"):
        line = re.sub(r'"(\\.|[^"\\])*"', '""', line)
        yield "" if line.lstrip().startswith("--") else re.sub(r"\s--\s.*$", "", line)


def imports_of(text, keyword):
    """The names that these lines bring in: the name here, and its path."""
    found = {}
    for line in re.findall(rf"^\s*{keyword} (Rattle\.[^\n;]*)", text, re.M):
        listed = re.match(r"(Rattle\.[^\s{]*)\.\{(.*)\}", line)
        renamed = re.match(r"(Rattle\.\S+) as (\S+)", line)
        if listed:
            for part in filter(None, (p.split() for p in listed.group(2).split(","))):
                found[part[-1]] = f"{listed.group(1)}.{part[0]}"
        elif renamed:
            found[renamed.group(2)] = renamed.group(1)
        else:
            found[line.strip().split(".")[-1]] = line.strip()
    return found


# ---- the definitions of specs/

class Module:
    """A module of specs/: the text of each definition, and the paths of the names that it brings in and hands on."""

    def __init__(self, path):
        self.file = path
        self.parts = path.relative_to(ROOT / "crates").with_suffix("").parts
        self.crate = self.parts[0]
        self.path = ".".join(("Rattle",) + self.parts)
        self.source = path.read_text()
        self.lines = self.source.count("\n")
        self.imports = imports_of(self.source, "(?:pub )?use")
        self.handed_on = imports_of(self.source, "pub use")
        self.texts, self.owner, self.around = {}, {}, ""
        self.cut()

    def cut(self):
        """Cuts the text into definitions. Fields and constructors belong to their type; a constructor is a name of it."""
        name, indent, kind = None, 0, ""
        for line in without_comments(self.source):
            here = len(line) - len(line.lstrip())
            if not line.strip() or re.match(r"\s*((pub )?use|pub mod) ", line):
                continue
            head = self.head_of(line)
            if re.match(r"\s*(module\s|mutual$)", line) or (head and head.group(3) == "mutual"):
                name, kind = None, ""
                self.around += line + "\n" if "module" in line else ""
            elif head and not (kind and here > indent):
                name, indent = head.group(3), here
                kind = next((k for k in ("record", "data") if k in head.group(2).split()), "")
                self.owner[name], self.texts[name] = name, line
            elif name is None:
                self.around += line + "\n"
            else:
                self.texts[name] += "\n" + line
                part = re.match(r"\s+(?:pub\s+)?([^\s:({]+)\s*:", line) if kind == "data" and here > indent else None
                if part:
                    self.owner.setdefault(part.group(1), name)

    @staticmethod
    def head_of(line):
        """The head of a definition, if the line is one; `record x { .. }` inside of a term is none."""
        head = HEAD.match(line)
        is_term = head and head.group(2).split() == ["record"] and "{" in line[head.end():head.end() + 2]
        return None if is_term else head

    def comment(self):
        """The head comment, as one line."""
        if told := HEADS.get(self.path.removeprefix("Rattle.")):
            return told
        lines = []
        for line in self.source.split("\n"):
            if not line.startswith("--"):
                break
            lines.append(line[2:].strip())
        return " ".join(lines)

    def sentence(self):
        """The first sentence of the head comment; where the next one tells the clauses, that too."""
        sentences = re.split(r"(?<=\.)\s+(?=[A-Z`]|n )", re.sub(r"M\. E\. O'", "M.E.O'", self.comment()))
        first = sentences[0] + (" " + sentences[1] if len(sentences) > 1 and sentences[1].startswith("Clauses") else "")
        return first.replace("M.E.O'", "M. E. O'")

    def is_index(self):
        """Whether it does nothing but name the modules below it."""
        return not re.sub(r"^\s*(--.*|(pub )?mod \w+)?$", "", self.source, flags=re.M).strip()

    def is_means(self):
        return self.comment().startswith(MEANS)


# ---- the items of the code

class Code:
    """A file of the code: its types and traits with their texts, and where the names in it come from."""

    def __init__(self, path):
        self.file = path
        parts = path.relative_to(ROOT / "crates").with_suffix("").parts
        self.crate, self.module = parts[0], list(parts[2:])
        self.source = re.sub(r"^\s*//.*$", "", path.read_text(), flags=re.M)
        joined = re.sub(r"\{\s*\n([^}]*)\}", lambda m: "{" + " ".join(m.group(1).split()) + "}", self.source)
        self.imports = imports_of(joined, "(?:pub )?ghost use")
        self.names = {}
        for use in re.findall(r"^\s*(?:pub(?:\([a-z]+\))? )?use ([^;]+);", re.sub(r"ghost use[^;]*;", "", self.source), re.M):
            self.add_use(" ".join(use.split()))
        heads = re.finditer(r"^(?:pub(?:\([a-z]+\))? )?(struct|enum|trait|type) ([A-Z]\w*)", self.source, re.M)
        self.items = {m.group(2): (m.group(1), self.block(m.start())) for m in heads}

    def add_use(self, path):
        """Keeps of each name of a `use` the crate that it comes from, its name there, and the modules on the way."""
        listed = re.match(r"((?:\w+::)*)\{(.*)\}$", path)
        if listed:
            for part in re.findall(r"[^,{}]+(?:\{[^{}]*\})?", listed.group(2)):
                self.add_use(listed.group(1) + part.strip())
            return
        whole, *renamed = path.split(" as ")
        crate, *way = whole.split("::")
        if way:
            self.names[(renamed or way)[-1]] = (self.crate if crate in ("crate", "super", "self") else crate, way[-1], way[:-1])

    def block(self, start):
        """The text of an item, up to the brace that closes it or its semicolon."""
        depth = 0
        for at in range(start, len(self.source)):
            depth += {"{": 1, "(": 1, "}": -1, ")": -1}.get(self.source[at], 0)
            if depth == 0 and self.source[at] in "};":
                return self.source[start:at + 1]
        return self.source[start:]

    def ghosts_of(self, name, kinds):
        """What the models of a type in this file say of it, and its traits."""
        for m in re.finditer(rf"^impl(?:<[^\n]*?>)? (?:[\w:]+)(?:<[^\n]*>)? for {name}\b", self.source, re.M):
            for ghost, text in re.findall(r"^\s*ghost (\w+) = \{(.*?)\};", self.block(m.start()), re.M | re.S):
                if ghost in kinds:
                    yield text

    def contract_of(self, function):
        """The head of a function of this file and its clauses, or None."""
        m = re.search(rf"^pub fn {function}\b", self.source, re.M)
        return re.split(r"\n\{\n", self.source[m.start():], maxsplit=1)[0] if m else None


# ---- what is reached

class Book:
    """All modules and files, and what the roots reach: of each definition and item the one that names it."""

    def __init__(self):
        modules = (Module(p) for p in sorted((ROOT / "crates").glob("*/specs/**/*.antt")))
        self.modules = {m.path: m for m in modules if not m.is_index()}
        self.codes = {str(p): Code(p) for p in sorted((ROOT / "crates").glob("*/src/**/*.rt"))}
        self.items = defaultdict(list)
        for code in self.codes.values():
            for name in code.items:
                self.items[code.crate, name].append(code)
        self.reached, self.work = {}, []
        self.walk()
        self.parts = defaultdict(set)
        for kind, path, name in self.reached:
            if kind == "definition":
                self.parts[path].add(name)
        self.names, self.kit = self.names_of_modules(), self.names_of_the_kit()

    def item(self, crate, name, folder=()):
        """A type or a trait of a crate; where several have the name, the one of that module or in that folder."""
        codes, folder = self.items.get((crate, name), []), list(folder)
        there = sorted(codes, key=lambda c: (c.module != folder, c.module[:len(folder)] != folder, c.module[-1:] != folder[-1:]))
        return ("item", str(there[0].file), name) if there else None

    def find(self, path):
        """The definition, the module or the item that a path of the logic names."""
        parts = path.split(".")
        if len(parts) > 3 and parts[2:4] == ["specs", "declared"]:
            names = [p for p in parts[4:] if p[:1].isupper()]
            return self.item(parts[1], names[0], [p for p in parts[4:] if p[:1].islower()]) if names else None
        for end in range(len(parts), 2, -1):
            module = self.modules.get(".".join(parts[:end]))
            if module and end == len(parts):
                return ("module", module.path, None)
            if module:
                name = parts[end]
                if name in module.owner:
                    return ("definition", module.path, module.owner[name])
                return self.find(module.handed_on[name]) if name in module.handed_on else None
        return None

    def named_by(self, token, imports, module):
        """What a name in a text means."""
        head, *rest = token.split(".")
        if head == "Rattle":
            yield self.find(token)
        if head in imports:
            target = self.find(imports[head])
            is_module = target and target[0] == "module"
            yield self.find(f"{imports[head]}.{rest[0]}") if is_module and rest else target
        if module and head in module.owner:
            yield ("definition", module.path, module.owner[head])

    def named_in(self, text, imports, module=None):
        """All that the names in a text mean; an operator is there where all its marks are."""
        tokens = set(TOKEN.findall(text))
        for token in tokens:
            yield from self.named_by(token, imports, module)
        words = {word for token in tokens for word in (token, *token.split("."))}
        for name in set(imports) | set(module.texts if module else ()):
            marks = [mark for mark in name.split("◌") if mark]
            if "◌" in name and marks and all(mark in words for mark in marks):
                yield from self.named_by(name, imports, module)

    def items_in(self, code, text):
        """The types and traits that a text of the code names."""
        for name in sorted(set(re.findall(r"\b[A-Z]\w*\b", text))):
            yield self.item(code.crate, name, code.module) if name in code.items else self.item(*code.names.get(name, ("", "", ())))

    def from_root(self, crate, function):
        code, text = next((c, c.contract_of(function)) for c in self.codes.values() if c.crate == crate and c.contract_of(function))
        yield from self.named_in(text, code.imports)
        yield from self.items_in(code, text)

    def from_item(self, code, name):
        kind, text = code.items[name]
        yield from self.items_in(code, re.sub(r"^\s*(?:requires|ensures)\b.*$", "", text, flags=re.M))
        if kind == "trait":
            yield from self.named_in(text, code.imports)
        for other in self.codes.values():
            if other.crate == code.crate:
                for ghost in other.ghosts_of(name, MODEL + (PORT if (code.crate, name) in HANDED else ())):
                    yield from self.named_in(ghost, other.imports)

    def from_definition(self, module, name):
        yield from self.named_in(module.texts[name] + "\n" + module.around, module.imports, module)

    def named_at(self, place):
        kind, path, name = place
        if kind == "call":
            return self.from_root(path, name)
        if kind == "item":
            return self.from_item(self.codes[path], name)
        return self.from_definition(self.modules[path], name)

    def walk(self):
        self.work = [("call", crate, function) for crate, function in ROOTS]
        for crate, name in HANDED:
            self.reached[self.item(crate, name)] = self.work[0]
            self.work.append(self.item(crate, name))
        while self.work:
            here = self.work.pop(0)
            for target in self.named_at(here):
                if target and target[0] != "module" and target not in self.reached and target[-1] not in UNSAID:
                    self.reached[target] = here
                    self.work.append(target)

    def names_of_modules(self):
        """Of each reached module the reached modules that its reached definitions name."""
        found = defaultdict(set)
        for kind, path, name in self.reached:
            if kind == "definition":
                targets = self.from_definition(self.modules[path], name)
                found[path] |= {t[1] for t in targets if t and t[0] == "definition" and t[1] != path}
        return found

    def names_of_the_kit(self):
        """The modules of the kit whose definitions the reached ones name."""
        crates, found = {m.crate for m in self.modules.values()}, set()
        for kind, path, name in self.reached:
            if kind == "definition":
                module = self.modules[path]
                words = set(re.findall(r"[^\s(){};,\[\]\".]+", module.texts[name]))
                paths = [p for n, p in module.imports.items() if words & ({n} | set(filter(None, n.split("◌"))))]
                found |= {p.rsplit(".", 1)[0] for p in paths if p.startswith("Rattle.") and p.split(".")[1] not in crates}
        return sorted(found)


# ---- the page

def layer_at(crate, folder):
    """The layer of a crate, or of one folder of it where a layer names that."""
    for place in (f"{crate}/{folder}", crate):
        for title, _, pattern in LAYERS:
            if re.fullmatch(pattern, place):
                return title
    sys.exit(f"no layer of tools/definitions.py has the crate {crate}")


def layer_of_module(module):
    return layer_at(module.crate, module.parts[2] if len(module.parts) > 3 else "")


def stands_at(module):
    return SHOWN.index(layer_of_module(module))


def layer_of_code(code):
    return layer_at(code.crate, code.module[0].title().replace("_", "") if code.module else "")


def crates_in_order():
    lines = (ROOT / "crates.txt").read_text().split("\n")
    return [line.split(":")[0] for line in lines if line and not line.startswith("#")]


def listed(folder, index):
    """The modules in a folder in the order of its index, which is Lib.antt, or the file of its own name beside it."""
    names = re.findall(r"^pub mod (\w+)", index.read_text(), re.M) if index.exists() else []
    for name in names:
        yield ".".join(("Rattle",) + (folder / name).relative_to(ROOT / "crates").parts)
        if (folder / name).is_dir():
            yield from listed(folder / name, folder / f"{name}.antt")


def modules_of(crate):
    specs = ROOT / "crates" / crate / "specs"
    return listed(specs, specs / "Lib.antt")


def in_order(book, title):
    """The reached modules of a layer: one behind those that it names, and else as they are listed."""
    here = [p for p in book.parts if layer_of_module(book.modules[p]) == title]
    place = {p: at for at, p in enumerate(p for crate in crates_in_order() for p in modules_of(crate))}
    rest, done = sorted(here, key=lambda p: (place.get(p, len(place)), p)), []
    while rest:
        done.append(next(p for p in rest if not book.names[p] & (set(rest) - {p})))
        rest.remove(done[-1])
    return done


def row(book, path):
    module = book.modules[path]
    count = "all" if len(book.parts[path]) == len(module.texts) else f"{len(book.parts[path])} of {len(module.texts)}"
    name = ".".join((module.crate,) + module.parts[2:])
    link = "../" + str(module.file.relative_to(ROOT))
    return f"| [`{name}`]({link}) | {module.lines} | {count} | {module.sentence()} |"


def types(book, title):
    """The types and traits of the code that are reached, crate by crate."""
    found = defaultdict(list)
    for kind, path, name in book.reached:
        if kind == "item" and layer_of_code(book.codes[path]) == title:
            found[book.codes[path].crate].append(name)
    for crate in filter(found.get, crates_in_order()):
        yield f"- `{crate}`: {', '.join(sorted(found[crate]))}."


def beside(book, title):
    """What carries proofs alone, crate by crate."""
    found = defaultdict(list)
    for path, module in book.modules.items():
        if path not in book.parts and layer_of_module(module) == title:
            found[module.crate].append(module)
    for crate in filter(found.get, crates_in_order()):
        names = ", ".join(".".join(m.parts[2:]) for m in found[crate])
        yield f"- `{crate}` ({sum(m.lines for m in found[crate]):,} lines): {names}."


def layer(book, title):
    text = next(said for name, said, _ in LAYERS if name == title)
    paths = in_order(book, title)
    paths = paths[::-1] if title in FROM_THE_TOP else paths
    yield f"## {title}\n"
    if paths:
        yield f"{text} {len(paths)} modules, {sum(book.modules[p].lines for p in paths):,} lines.\n"
        yield "| Module | Lines | Reached | What it says |\n|---|---|---|---|\n" + "\n".join(row(book, path) for path in paths) + "\n"
    named, others = list(types(book, title)), list(beside(book, title))
    if named:
        yield "Types and traits of the code that are named, in `src/` of the crate:\n\n" + "\n".join(named) + "\n"
    if others:
        yield ("Beside them stand, for proofs and laws alone:" if paths else text) + "\n\n" + "\n".join(others) + "\n"


def page(book):
    reached = [book.modules[p] for p in book.parts]
    others = [m for p, m in book.modules.items() if p not in book.parts]
    unlisted = sorted({m.crate for m in book.modules.values()} - set(crates_in_order()))
    if unlisted:
        sys.exit(f"crates.txt doesn't name {', '.join(unlisted)}")
    parts = [INTRODUCTION.format(
        means=MEANS, reached=len(reached), lines=f"{sum(m.lines for m in reached):,}", others=len(others),
        more=f"{sum(m.lines for m in others):,}", types=sum(1 for kind, _, _ in book.reached if kind == "item"))]
    for title in SHOWN:
        parts.extend(layer(book, title))
    parts.append("## From the kit\n\nThe definitions name others of the toolchain's own libraries, in these modules:\n")
    parts.append("\n".join(f"- `{path}`" for path in book.kit) + "\n")
    return "\n".join(parts)


def faults(book):
    """What is wrong with the first lines, with the order of the layers, and with the page."""
    for path, module in book.modules.items():
        where = module.file.relative_to(ROOT)
        if path in book.parts and module.is_means():
            yield f"{where}: the contract of the command reaches it, so it is no means of proof"
        if path not in book.parts and not module.is_means():
            yield f"{where}: the contract of the command doesn't reach it, so its first line begins with `{MEANS}`"
        late = [n for n in book.names[path] if stands_at(book.modules[n]) > stands_at(module)] if path in book.parts else []
        if late and layer_of_module(module) not in FROM_THE_TOP:
            yield f"{where}: it names {', '.join(n[7:] for n in sorted(late))}, which stands in a later layer of tools/definitions.py"
    if not PAGE.exists() or PAGE.read_text() != page(book):
        yield f"{PAGE.relative_to(ROOT)}: stale, tools/definitions.py makes it"


def show_list(book):
    for path, module in book.modules.items():
        print(f"{len(book.parts.get(path, ())):4} of {len(module.texts):4} {module.lines:5} {path[7:]}: {module.sentence()}")


def show_ways(book, name):
    for target in [t for t in book.reached if t[0] == "definition" and t[1].endswith(name)]:
        way = [target]
        while way[-1] in book.reached:
            way.append(book.reached[way[-1]])
        print(" <- ".join(f"{path.split('/crates/')[-1].removeprefix('Rattle.')}:{name}" for _, path, name in way))


def main():
    book, arguments = Book(), sys.argv[1:]
    if arguments == ["--check"]:
        found = list(faults(book))
        print("\n".join(found) or "definitions: the page and the first lines are right")
        sys.exit(1 if found else 0)
    elif arguments == ["--list"]:
        show_list(book)
    elif arguments[:1] == ["--why"] and len(arguments) == 2:
        show_ways(book, arguments[1])
    elif not arguments:
        PAGE.write_text(page(book))
    else:
        sys.exit(__doc__)


if __name__ == "__main__":
    main()
