#!/usr/bin/env python3
"""random_slices.py NOW SEED COUNT: compares slices, values and replays of random scripts, with each other and with CPython.

Makes COUNT scripts from SEED, as `random_runs.py` does, keeps each by `NOW run`, and asks for up to twenty random evaluations of names and constants. For each, `replay` must write the
first line of `value` and no more steps. The slice is then run in CPython, in which the expression at that place tells its value when it is evaluated for the K-th time; where that value
consists of what Python has alike, its graph text must be the same. Scripts with other characters than ASCII are left out."""
import ast
import contextlib
import io
import os
import random
import signal
import subprocess
import sys
import tempfile
import warnings

import random_runs

MOST = 20


class Told(BaseException):
    """The value that was asked for, as a graph text, or None where it has another form here."""


def form(value):
    """What two values have alike exactly where they are the same text, tuple or object."""
    if type(value) is tuple:
        return ("tuple", *map(form, value))
    return ("object", id(value)) if type(value) in (list, dict) else (type(value), repr(value))


def graph_text(value):
    """The graph text of a value of plain kinds, or None."""
    numbers, is_plain = {}, True

    def part(it):
        nonlocal is_plain
        if it is None or type(it) in (bool, int, range) or type(it) is str and len(it) <= 64:
            return repr(it)
        if type(it) not in (str, list, tuple, dict):
            is_plain = False
            return "?"
        key = form(it)
        if key in numbers:
            return f"#{numbers[key]}"
        numbers[key] = len(numbers) + 1
        head = f"#{numbers[key]}="
        if type(it) is str:
            return head + repr(it)
        if type(it) is dict:
            return head + "{" + ", ".join(f"{part(one)}: {part(of)}" for one, of in it.items()) + "}"
        inside = ", ".join(part(one) for one in it)
        return head + (f"[{inside}]" if type(it) is list else f"({inside},)" if len(it) == 1 else f"({inside})")

    try:
        text = part(value)
    except RecursionError:
        return None
    return text if is_plain else None


class Probe(ast.NodeTransformer):
    """Has the expression at a place tell its value when it is evaluated for the k-th time."""

    def __init__(self, line, column, kind):
        self.line, self.column, self.kind = line, column, kind

    def visit(self, node):
        node = self.generic_visit(node)
        if type(node) is self.kind and getattr(node, "at", None) == (self.line, self.column):
            return ast.copy_location(ast.Call(func=ast.Name(id="_probe", ctx=ast.Load()), args=[node], keywords=[]), node)
        return node


def places(tree):
    """The evaluations of names and constants of a script: their lines and columns, in code points from 1."""
    called = {id(node.func) for node in ast.walk(tree) if type(node) is ast.Call}
    for node in ast.walk(tree):
        if id(node) in called:
            continue
        if type(node) is ast.Name and type(node.ctx) is ast.Load or type(node) is ast.Constant:
            node.at = (node.lineno, node.col_offset + 1)
            yield type(node), *node.at


def in_python(text, kind, line, column, k):
    """Returns the graph text of the k-th value at a place, or None where CPython does not come to it or it has another form."""
    tree = ast.parse(text)
    list(places(tree))
    tree = random_runs.Profile().visit(Probe(line, column, kind).visit(tree))
    left = k

    def probe(value):
        nonlocal left
        left -= 1
        if left == 0:
            raise Told(graph_text(value))
        return value

    code = compile(ast.fix_missing_locations(tree), "s.py", "exec")
    signal.setitimer(signal.ITIMER_REAL, 0.5)
    try:
        with contextlib.redirect_stdout(io.StringIO()):
            exec(code, {**random_runs.WORLD, "_probe": probe})
    except Told as told:
        return told.args[0]
    except (random_runs.Late, MemoryError, Exception):
        return None
    finally:
        signal.setitimer(signal.ITIMER_REAL, 0)
    return None


def ask(now, word, place):
    return subprocess.run([now, word, "1", *map(str, place)], stdin=subprocess.DEVNULL, stdout=subprocess.PIPE)


def main(now, seed, count):
    signal.signal(signal.SIGALRM, random_runs.late)
    warnings.simplefilter("ignore")
    now = os.path.abspath(now)
    here = os.getcwd()
    scripts = asked = compared = wrong = 0
    number = 0
    while scripts < count:
        number += 1
        text = random_runs.Maker(f"{seed}.{number}").script()
        of = random.Random(f"{seed}.{number}.places")
        try:
            found = sorted(set(places(ast.parse(text))), key=str)
        except SyntaxError:
            continue
        if not text.isascii():
            continue
        with tempfile.TemporaryDirectory() as folder:
            os.chdir(folder)
            with open("s.py", "w", encoding="utf-8") as it:
                it.write(text)
            ran = subprocess.run([now, "run", "--steps", "200000", "s.py"], stdin=subprocess.DEVNULL, stdout=subprocess.PIPE)
            if ran.returncode not in (0, 1, 9):
                os.chdir(here)
                continue
            scripts += 1
            for kind, line, column in of.sample(found, min(len(found), MOST)):
                place = line, column, of.choice([1, 1, 1, 2, 3])
                value = ask(now, "value", place)
                if value.returncode == 4:
                    continue
                asked += 1
                replay, cut = ask(now, "replay", place), ask(now, "slice", place)
                want, got = value.stdout.decode().split("\n"), replay.stdout.decode().split("\n")
                if (value.returncode, replay.returncode, cut.returncode) != (0, 0, 0) or want[0] != got[0] or int(got[1].split()[1]) > int(want[1].split()[1]):
                    wrong += 1
                    print(f"{seed}.{number} at {place}: value {value.returncode} {want}, replay {replay.returncode} {got}\n{text}")
                    continue
                told = in_python(cut.stdout.decode(), kind, *place)
                if told is None:
                    continue
                compared += 1
                if told != want[0]:
                    wrong += 1
                    print(f"{seed}.{number} at {place}: {want[0]}, and CPython {told} in the slice\n{cut.stdout.decode()}")
            os.chdir(here)
    print(f"{scripts} scripts, {asked} evaluations whose replay gives their value in no more steps, {compared} of them compared with CPython's run of the slice; {wrong} different")
    return wrong > 0


if __name__ == "__main__":
    sys.exit(main(sys.argv[1], sys.argv[2], int(sys.argv[3])))
