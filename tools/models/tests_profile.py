"""Is a text of tests in the profile of docs/PYTHON.md? `breaks(text)` tells what speaks against it, by a second reading over CPython's `ast`.

It is narrower than the profile in places that the tables of this folder have no use for: no backslash, bytes of ASCII everywhere, no name that is
assigned in a function and known as a form, no constant as an option. Rules of factories, heights and numbers of cases aren't asked. It is used to keep texts out of the tables that a reader of the profile would refuse.
"""
import ast
import io
import re
import tokenize

from models.run_model import FUNCTIONS, KINDS, Forms, is_call

LISTED = {
    "cocotb": set(), "random": set(),
    "cocotb.triggers": set("Timer Edge RisingEdge FallingEdge ReadWrite ReadOnly NextTimeStep Event Lock Join First Combine ClockCycles "
                           "TriggerException with_timeout".split()),
    "cocotb.clock": {"Clock"}, "cocotb.regression": {"TestFactory"}, "cocotb.result": {"SimTimeoutError"}, "cocotb.utils": {"get_sim_time"},
    "cocotb.queue": {"Queue", "QueueEmpty", "QueueFull"}, "cocotb.handle": {"Force", "Freeze", "Release"},
}
BUILT_IN = {"int", "str", "bool", "len", "range", *KINDS} - {"SimTimeoutError", "TriggerException", "QueueEmpty", "QueueFull"}
OPTIONS = {"timeout_time": int, "timeout_unit": str, "expect_fail": bool, "expect_error": str, "skip": bool}


def lines_broken(text):
    if not re.fullmatch(r"[ -~\n]*", text):
        yield "a byte that is neither printable ASCII nor a line feed"
    if "\\" in text:
        yield "a backslash"
    for token in tokenize.generate_tokens(io.StringIO(text).readline):
        if token.type == tokenize.STRING:
            yield from text_broken(token)


def text_broken(token):
    if not re.match(r"f?(\"|')", token.string):
        yield f"the text {token.string}"
    if token.string.startswith(("'''", 'f"""', "f'''")):
        yield f"the text {token.string}"
    if token.string.startswith("f"):
        for part in re.findall(r"\{\{|\}\}|\{([^{}]*)\}", token.string[2:-1]):
            if re.search(r"[\"'#]", part):
                yield f"quotes in {token.string}"


def constant(node, constants):
    if isinstance(node, ast.UnaryOp) and isinstance(node.op, ast.USub):
        return isinstance(node.operand, ast.Constant) and type(node.operand.value) is int
    if isinstance(node, ast.Name):
        return node.id in constants
    return isinstance(node, ast.Constant) and not isinstance(node.value, (float, bytes, complex, type(...)))


class Reading:
    def __init__(self, text):
        self.found, self.text = [], text
        self.tree = ast.parse(text)
        self.functions = {node.name: node for node in self.tree.body if isinstance(node, ast.AsyncFunctionDef)}
        self.imported, self.defined, self.constants, self.factories = set(), [], set(), {}

    def wants(self, holds, what, node):
        if not holds:
            self.found.append(f"{what} at line {node.lineno}")

    def module(self):
        for node in self.tree.body:
            for each in ast.walk(node):
                if isinstance(each, ast.ImportFrom):
                    self.imported.update(name.name for name in each.names)
                if isinstance(each, ast.Import):
                    self.imported.add(each.names[0].name)
        factories = {node.value.args[0].id for node in self.tree.body if isinstance(node, ast.Assign) and is_call(node.value, "TestFactory") and node.value.args}
        self.tests = 0
        for node in self.tree.body:
            self.line(node, factories)
        self.wants(self.tests, "no test", self.tree.body[-1])
        self.wants(len(set(self.defined)) == len(self.defined), "a name that is defined twice", self.tree.body[-1])

    def line(self, node, factories):
        match node:
            case ast.Import(names=[ast.alias(asname=None) as name]):
                self.wants(name.name in ("cocotb", "random"), "an import", node)
                self.defined.append(name.name)
            case ast.ImportFrom():
                for name in node.names:
                    self.wants(name.name in LISTED.get(node.module, ()) and not name.asname, f"the import of {name.name}", node)
                    self.defined.append(name.name)
            case ast.Assign(targets=[ast.Name(name)], value=ast.Call()):
                self.wants(is_call(node.value, "TestFactory"), "a call", node)
                self.defined.append(name)
            case ast.Assign(targets=[ast.Name(name)]):
                self.wants(constant(node.value, self.constants), "a constant", node)
                self.defined.append(name)
                self.constants.add(name)
            case ast.AsyncFunctionDef():
                self.defined.append(node.name)
                self.function(node, node.name in factories)
            case ast.Expr(value=ast.Call(func=ast.Attribute(attr="add_option" | "generate_tests"))):
                self.tests += node.value.func.attr == "generate_tests"
            case ast.Expr(value=ast.Constant()):
                pass
            case _:
                self.wants(False, "a line", node)

    def function(self, node, is_made):
        for decorator in node.decorator_list:
            self.wants(is_call(decorator, "cocotb.test") and not decorator.args, "a decorator", node)
            self.wants("cocotb" in self.imported, "cocotb without its import", node)
            given = {option.arg: option.value for option in decorator.keywords}
            self.wants(all(self.option(name, value) for name, value in given.items()), "an option", node)
            self.wants("timeout_time" in given or "timeout_unit" not in given, "a unit without a time", node)
            self.tests += not is_made
            further = len(node.args.args) - 1 - len(node.args.defaults)
            self.wants(is_made or further <= 0, "a parameter of a test", node)
            self.wants(node.args.args, "a test without a parameter", node)
        names = {each.arg for each in node.args.args}
        for each in ast.walk(node):
            if isinstance(each, ast.Name) and isinstance(each.ctx, ast.Store):
                names.add(each.id)
            if isinstance(each, ast.ExceptHandler) and each.name:
                names.add(each.name)
        self.wants(not names & (FUNCTIONS | BUILT_IN), "a name of a form", node)
        for each in node.body:
            self.names(each, names)

    def option(self, name, value):
        if name == "expect_error":
            return isinstance(value, ast.Name) and value.id in KINDS and value.id in BUILT_IN | self.imported
        return name in OPTIONS and isinstance(value, ast.Constant) and type(value.value) is OPTIONS[name]

    def names(self, node, names):
        """Each name that is read is known, and each call of a function of the file fits."""
        heads = set()
        for each in ast.walk(node):
            if isinstance(each, ast.Call):
                head = each.func
                while isinstance(head, ast.Attribute):
                    head = head.value
                if isinstance(each.func, ast.Name) or ast.unparse(each.func).startswith(("cocotb.", "random.")):
                    heads.add(head)
                if isinstance(each.func, ast.Name) and each.func.id in self.functions:
                    self.fits(each, self.functions[each.func.id])
                self.log(each)
            if isinstance(each, ast.ExceptHandler) and each.type:
                heads.update(each.type.elts if isinstance(each.type, ast.Tuple) else [each.type])
            if isinstance(each, ast.Raise):
                heads.add(each.exc)
            if isinstance(each, ast.For) and isinstance(each.iter, ast.List):
                self.wants(all(constant(element, self.constants) for element in each.iter.elts), "an element of a list", each)
        for each in ast.walk(node):
            if isinstance(each, ast.Name) and isinstance(each.ctx, ast.Load):
                known = names | self.constants if each not in heads else names | self.imported | BUILT_IN | set(self.functions)
                self.wants(each.id in known, f"the name {each.id}", each)

    def fits(self, call, function):
        parameters = [each.arg for each in function.args.args]
        given = parameters[: len(call.args)] + [each.arg for each in call.keywords]
        needed = parameters[: len(parameters) - len(function.args.defaults)]
        fits = len(call.args) <= len(parameters) and len(set(given)) == len(given) and set(needed) <= set(given) <= set(parameters)
        self.wants(fits, f"the arguments of {function.name}", call)

    def log(self, call):
        if isinstance(call.func, ast.Attribute) and call.func.attr in ("info", "warning", "error") and len(call.args) != 1:
            text = call.args[0].value if call.args and isinstance(call.args[0], ast.Constant) else ""
            fits = isinstance(text, str) and text.count("%s") == text.count("%") == len(call.args) - 1
            self.wants(fits and len(call.args) > 1, "a log statement", call)


def breaks(text):
    """What speaks against the text, as a list of texts."""
    found = list(lines_broken(text))
    reading = Reading(text)
    reading.module()
    try:
        compile(Forms(set(reading.functions)).module(ast.parse(text)), "t.py", "exec")
    except (NotImplementedError, SyntaxError, KeyError, AttributeError) as fault:
        found.append(f"{type(fault).__name__} {fault}")
    return found + reading.found
