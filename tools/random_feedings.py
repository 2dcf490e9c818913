#!/usr/bin/env python3
"""random_feedings.py NOW SEED COUNT: compares sources, effects and slices of random scripts with each other.

Makes COUNT scripts from SEED, as `random_runs.py` does, keeps each by `NOW run`, and asks for the sources and the effects of some random evaluations. Each source stands in the slice of the value, has
the evaluation among its effects, and each effect has it among its sources. Scripts with other characters than ASCII are left out."""
import ast
import os
import random
import subprocess
import sys
import tempfile
import warnings

import random_runs
from random_slices import ask, places

MOST, SOME = 6, 3


def sites(answer):
    """The evaluations that an answer has, line by line."""
    return [tuple(map(int, line.replace(":", " ").split())) for line in answer.stdout.decode().split("\n") if line]


def wrong_at(now, of, text, place):
    """What is wrong with an evaluation, and how many pairs were compared; None where there is no such evaluation."""
    found = ask(now, "sources", place)
    if found.returncode == 4:
        return None
    sources, effects, pairs = sites(found), sites(ask(now, "effects", place)), 0
    lines, cut = text.split("\n"), ask(now, "slice", place).stdout.decode().split("\n")
    for line, column, k in sources:
        if cut[line - 1][column - 1 : column] != lines[line - 1][column - 1 : column]:
            return f"the source {line}:{column} {k} is not in the slice", pairs
    for word, others in (("effects", sources), ("sources", effects)):
        for other in of.sample(others, min(len(others), SOME)):
            pairs += 1
            if place not in sites(ask(now, word, other)):
                return f"it is not among the {word} of {other}", pairs
    return "", pairs


def main(now, seed, count):
    warnings.simplefilter("ignore")
    now, here = os.path.abspath(now), os.getcwd()
    scripts = asked = compared = wrong = number = 0
    while scripts < count:
        number += 1
        text = random_runs.Maker(f"{seed}.{number}").script()
        of = random.Random(f"{seed}.{number}.feedings")
        try:
            found = sorted(set(places(ast.parse(text))), key=str)
        except SyntaxError:
            continue
        if not text.isascii():
            continue
        with tempfile.TemporaryDirectory() as folder:
            os.chdir(folder)
            with open("s.py", "w", encoding="utf-8") as it:
                it.write(text)
            ran = subprocess.run([now, "run", "--steps", "200000", "s.py"], stdin=subprocess.DEVNULL, stdout=subprocess.PIPE)
            if ran.returncode in (0, 1, 9):
                scripts += 1
                for _, line, column in of.sample(found, min(len(found), MOST)):
                    place = line, column, of.choice([1, 1, 2])
                    told = wrong_at(now, of, text, place)
                    if told is None:
                        continue
                    asked, compared = asked + 1, compared + told[1]
                    if told[0]:
                        wrong += 1
                        print(f"{seed}.{number} at {place}: {told[0]}\n{text}")
            os.chdir(here)
    print(f"{scripts} scripts, {asked} evaluations whose sources stand in their slices, {compared} pairs of a source and an effect; {wrong} wrong")
    return wrong > 0


if __name__ == "__main__":
    sys.exit(main(sys.argv[1], sys.argv[2], int(sys.argv[3])))
