#!/usr/bin/env python3
"""random_runs.py PROGRAM SEED COUNT: compares random scripts with CPython.

Makes COUNT scripts from SEED, runs each in CPython and in PROGRAM, which is `now` as the gate or the launcher builds it, or `run_cases`, and compares
how it ended and what it printed. The scripts are made for CPython 3.11: what differs in another version is counted, but is no failure. Where the language of this repository differs from Python by design, CPython is made to do the same: `%` of a text,
unpacking and sorting raise TypeError where the profile says so, `*=` makes a new list, `upper` and `lower` know ASCII alone, a range has no
slice. A script counts up to the first line at which PROGRAM raises what is outside the profile (NotImplementedError, OverflowError)."""
import ast
import contextlib
import io
import os
import random
import re
import signal
import subprocess
import sys
import tempfile
import warnings

CAUGHT = """ZeroDivisionError IndexError KeyError UnboundLocalError NameError TypeError ValueError AttributeError RecursionError
OverflowError NotImplementedError RuntimeError AssertionError EOFError OSError""".split()
NAMES = ["a", "b", "c", "d", "e"]
NUMBERS = [0, 1, 2, 3, -1, -2, 7, 10, 5]
TEXTS = ["", "a", "ab", "abc", "b", "x y", " pad ", "1", "12", "A", "é", "it's", "-3"]
DISPLAYS = ["[]", "{}", "()", "[1, 2, 3]", "(1, 2)", "{'a': 1}", "['b', 'a']", "[[1], [2]]", "{1: 2, 3: 4}", "(1,)", "range(3)", "range(5, 0, -2)"]
CALLS = "len str repr int abs bool sorted list tuple sum max min ord chr".split()
NO_ARGUMENT = "upper lower strip lstrip rstrip isdigit reverse sort pop split".split()
ONE_ARGUMENT = "join find startswith endswith ljust rjust index append extend get pop split".split()
TWO_ARGUMENTS = "replace insert get".split()


class Maker:
    """Makes the text of one script."""

    def __init__(self, seed):
        self.of = random.Random(seed)

    def one(self, choices):
        return self.of.choice(choices)

    def atom(self):
        kind = self.of.random()
        if kind < 0.45:
            return self.one(NAMES)
        if kind < 0.65:
            return str(self.one(NUMBERS) if self.of.random() < 0.9 else self.of.randint(-100, 100))
        if kind < 0.82:
            return repr(self.one(TEXTS))
        return self.one(["True", "False", "None"]) if kind < 0.90 else self.one(DISPLAYS)

    def listed(self, depth, most):
        return [self.expression(depth) for _ in range(self.of.randint(0, most))]

    def expression(self, depth):
        if depth <= 0:
            return self.atom()
        part, kind = lambda: self.expression(depth - 1), self.of.random()
        if kind < 0.20:
            return f"({part()} {self.one('+ - // % *'.split())} {part()})"
        if kind < 0.35:
            return f"({part()} {self.one(['==', '!=', '<', '<=', '>', '>=', 'in', 'not in', 'is', 'and', 'or'])} {part()})"
        if kind < 0.40:
            return self.one([f"(not {part()})", f"(-{part()})", f"({part()} if {part()} else {part()})"])
        if kind < 0.52:
            return f"({part()})[{part()}]" if self.of.random() < 0.6 else f"({part()})[{self.one(['', part()])}:{self.one(['', part()])}]"
        if kind < 0.62:
            items = ", ".join(self.listed(depth - 1, 3))
            return self.one([f"[{items}]", f"({items + ',' if items else ''})", "{%s}" % ", ".join(f"{it}: {part()}" for it in self.listed(depth - 1, 2))])
        return self.call(part) if kind < 0.82 else self.method(part)

    def call(self, part):
        kind = self.of.random()
        if kind < 0.60:
            return f"{self.one(CALLS)}({part()})"
        return self.one([f"list(zip({part()}, {part()}))", f"list(enumerate({part()}))", f"list(range({part()}, {part()}))", f"max({part()}, {part()})",
                         f"isinstance({part()}, {self.one(['int', 'str', 'list', '(int, str)', 'C'])})", f"f({part()}, {part()})", f"C({part()})"])

    def method(self, part):
        kind, of = self.of.random(), f"({part()})"
        if kind < 0.35:
            return f"{of}.{self.one(NO_ARGUMENT)}()"
        if kind < 0.65:
            return f"{of}.{self.one(ONE_ARGUMENT)}({part()})"
        if kind < 0.75:
            return f"{of}.{self.one(TWO_ARGUMENTS)}({part()}, {part()})"
        return self.one([f"list({of}.{self.one(['keys', 'values', 'items'])}())", f"{of}.v", f"{of}.m({part()})"])

    def statement(self, indent, depth):
        kind, name, before = self.of.random(), self.one(NAMES), "    " * indent
        some = lambda: self.expression(self.of.randint(0, 3))
        if kind < 0.30:
            return [f"{before}{name} = {some()}"]
        if kind < 0.40:
            return [f"{before}{name} {self.one(['+=', '-=', '*=', '//=', '%='])} {some()}"]
        if kind < 0.52:
            return [before + self.one([f"({name})[{some()}] = {some()}", f"del {name}[{some()}]", f"{name}, {self.one(NAMES)} = {some()}", f"{name}.v = {some()}"])]
        if kind < 0.70 or depth <= 0:
            return [f"{before}print({', '.join(some() for _ in range(self.of.randint(1, 2)))})"]
        return self.compound(indent, depth, some, name, before)

    def compound(self, indent, depth, some, name, before):
        kind, suite = self.of.random(), lambda: self.suite(indent + 1, depth - 1)
        if kind < 0.35:
            return [f"{before}if {some()}:"] + suite() + ([f"{before}else:"] + suite() if self.of.random() < 0.5 else [])
        if kind < 0.60:
            leave = [f"{before}    if {some()}:", f"{before}        {self.one(['break', 'continue'])}"] if self.of.random() < 0.4 else []
            return [f"{before}for {name} in {some()}:"] + suite() + leave
        if kind < 0.75:
            return [f"{before}n = {self.of.randint(0, 4)}", f"{before}while n > 0:", f"{before}    n -= 1"] + suite()
        if kind < 0.90:
            return [f"{before}try:"] + suite() + [f"{before}except {self.one(CAUGHT[:8])} as x:", f"{before}    print('caught', isinstance(x, E))"] + suite()
        return [f"{before}raise {self.one(['ValueError', 'KeyError', 'E'])}({some()})"] if self.of.random() < 0.3 else [f"{before}assert {some()}"]

    def suite(self, indent, depth):
        return [line for _ in range(self.of.randint(1, 3)) for line in self.statement(indent, depth)]

    def script(self):
        lines = ["a = 1", "b = 3", "c = [1, 2, 3]", "d = {'k': 1, 2: 'v'}", "e = 'text'", "class E(ValueError):", "    pass"]
        lines += ["class C:", "    def __init__(self, v):", "        self.v = v", "    def m(self, a):"] + self.suite(2, 1) + [f"        return {self.expression(2)}"]
        lines += ["def f(a, b):"] + self.suite(1, 1) + [f"    return {self.expression(2)}"]
        for number in range(self.of.randint(4, 10)):
            lines += [f"print('#{number}')", "try:"] + self.suite(1, 2)
            lines += [line for it in CAUGHT for line in (f"except {it}:", f"    print('{it}')")]
        return "\n".join(lines + ["print(a, b, c, d, e)"]) + "\n"


class Profile(ast.NodeTransformer):
    """Has CPython do what this repository's language does differently."""

    def call(self, name, arguments, at):
        return ast.copy_location(ast.Call(ast.Name(name, ast.Load()), arguments, []), at)

    def visit_Assign(self, node):
        self.generic_visit(node)
        if isinstance(node.targets[0], ast.Tuple):
            node.value = self.call("_unpacked", [node.value], node.value)
        return node

    def visit_BinOp(self, node):
        self.generic_visit(node)
        return self.call("_mod", [node.left, node.right], node) if isinstance(node.op, ast.Mod) else node

    def visit_AugAssign(self, node):
        self.generic_visit(node)
        if not isinstance(node.op, (ast.Mod, ast.Mult)):
            return node
        there = ast.Name(node.target.id, ast.Load())
        value = self.call("_mod", [there, node.value], node) if isinstance(node.op, ast.Mod) else ast.BinOp(there, node.op, node.value)
        return ast.copy_location(ast.Assign([node.target], value), node)

    def visit_Subscript(self, node):
        self.generic_visit(node)
        if isinstance(node.slice, ast.Slice):
            node.value = self.call("_sliced", [node.value], node.value)
        return node

    def visit_Call(self, node):
        self.generic_visit(node)
        if isinstance(node.func, ast.Attribute) and node.func.attr in ("upper", "lower", "sort", "isdigit"):
            return self.call("_" + node.func.attr, [node.func.value, *node.args], node)
        if isinstance(node.func, ast.Name) and node.func.id in ("sorted", "ord"):
            node.func.id = "_" + node.func.id
        return node


def wrong():
    raise TypeError("wrong kind of value")


def alike(items):
    """Whether items can be sorted: all numbers, all texts, or all tuples of one length whose items at each place are so again."""
    if all(isinstance(it, tuple) for it in items):
        return len({len(it) for it in items}) <= 1 and all(alike(column) for column in zip(*items))
    return all(isinstance(it, int) for it in items) or all(isinstance(it, str) for it in items)


def method(name, ascii_way):
    def call(of, *arguments):
        found = getattr(of, name)
        return ascii_way(of) if isinstance(of, str) and not arguments else found(*arguments)

    return call


def sort_in_place(of, *arguments):
    found = getattr(of, "sort")
    if isinstance(of, list) and not alike(of):
        wrong()
    return found(*arguments)


def sort_anew(*given):
    items = sorted(*given) if len(given) != 1 else list(given[0])
    return sorted(items) if alike(items) else wrong()


def code_of(*given):
    if len(given) == 1 and isinstance(given[0], str) and len(given[0]) != 1:
        raise ValueError("not a character")
    return ord(*given)


WORLD = {
    "__name__": "__main__",
    "_unpacked": lambda of: of if type(of) in (list, tuple) else wrong(),
    "_mod": lambda left, right: wrong() if isinstance(left, str) else left % right,
    "_sliced": lambda of: wrong() if isinstance(of, range) else of,
    "_sorted": sort_anew,
    "_ord": code_of,
    "_sort": sort_in_place,
    "_upper": method("upper", lambda of: re.sub("[a-z]", lambda it: it[0].upper(), of)),
    "_lower": method("lower", lambda of: re.sub("[A-Z]", lambda it: it[0].lower(), of)),
    "_isdigit": method("isdigit", lambda of: bool(re.fullmatch("[0-9]+", of))),
}


class Late(Exception):
    pass


def late(*_):
    raise Late


def in_python(text):
    """Returns the end of a script and the lines that it printed, or None where it takes long or prints an address."""
    printed, end = io.StringIO(), "finished"
    code = compile(ast.fix_missing_locations(Profile().visit(ast.parse(text))), "s.py", "exec")
    signal.setitimer(signal.ITIMER_REAL, 0.5)
    try:
        with contextlib.redirect_stdout(printed):
            exec(code, dict(WORLD))
    except (Late, MemoryError):
        return None
    except Exception as error:
        end = f"uncaught {type(error).__name__}"
    finally:
        signal.setitimer(signal.ITIMER_REAL, 0)
    shown = printed.getvalue()
    return None if len(shown) > 4000 or re.search(r"\d{17}|0x[0-9a-f]+>", shown) else [end, *shown.split("\n")]


def in_now(program, scripts):
    """Returns for each script its end and the lines that it printed, as `now run` has them."""
    answers = []
    with tempfile.TemporaryDirectory() as folder:
        for text in scripts:
            with open(f"{folder}/s.py", "w", encoding="utf-8") as it:
                it.write(text)
            words = [os.path.abspath(program), "run", "--bare", "--steps", "200000", "s.py"]
            ran = subprocess.run(words, cwd=folder, stdin=subprocess.DEVNULL, stdout=subprocess.PIPE)
            said = ran.stdout.decode()
            shown, last = said, f"status {ran.returncode}"
            if ran.returncode in (0, 1):
                at = ("\n" + said).rfind("\nnow: uncaught ") if ran.returncode else len(said)
                shown, last = said[:at], re.sub(r"(?s)^now: | at line .*", "", said[at:]) or "finished"
            answers.append([last, *shown.split("\n")])
    return answers


def in_cases(program, scripts):
    """Returns for each script its end and the lines that it printed, as `run_cases` has them."""
    rows = "".join(f"case {at}\nsteps 200000\n" + "".join(f"|{line}\n" for line in text.split("\n")[:-1]) + "show\n" for at, text in enumerate(scripts))
    said = subprocess.run([program], input=rows.encode(), stdout=subprocess.PIPE, check=True).stdout.decode()
    answers = []
    for part in ("\n" + said).split("\n== ")[1:]:
        lines = part.split("\n")[1:-1] if part.endswith("\n") else part.split("\n")[1:]
        last = [it[1:] for it in lines if it.startswith("/")] or [""]
        answers.append([re.sub(r" at line .*", "", lines[0]), *[it[1:] for it in lines if it.startswith("|")], *last])
    return answers


def main(program, seed, count):
    signal.signal(signal.SIGALRM, late)
    warnings.simplefilter("ignore")
    scripts, wanted, number = [], [], 0
    while len(scripts) < count:
        number += 1
        text = Maker(f"{seed}.{number}").script()
        with contextlib.suppress(SyntaxError):
            want = in_python(text)
            if want:
                scripts.append(text)
                wanted.append(want)
    same = part = lines = different = 0
    in_program = in_cases if os.path.basename(program) == "run_cases" else in_now
    version = "{}.{}".format(*sys.version_info)
    for text, want, got in zip(scripts, wanted, in_program(program, scripts)):
        at = next((at for at, (one, other) in enumerate(zip(want[1:] + [None], got[1:] + [None])) if one != other), None)
        lines += len(want) - 1 if at is None else at
        met = "" if at is None else " ".join(str((it[1:] + [""])[min(at, len(it) - 1)]) for it in (want, got)) + got[0]
        if want == got:
            same += 1
        elif re.search("NotImplementedError|OverflowError", met + got[0]):
            part += 1
        else:
            different += 1
            print(f"differs behind output line {at}: CPython {want[0]} {want[1:][at:at + 1] if at is not None else ''}, the program {got[0]} {got[1:][at:at + 1] if at is not None else ''}\n{text}")
    print(f"{same} alike, {part} alike up to what is outside the profile, {different} different from CPython {version}; {lines} lines of output compared")
    if different and version != "3.11":
        print("these scripts are made for CPython 3.11, so this is no failure")
    return different > 0 and version == "3.11"


if __name__ == "__main__":
    sys.exit(main(sys.argv[1], sys.argv[2], int(sys.argv[3])))
