#!/usr/bin/env python3
"""slice_speed.py NOW [TIMES]: what `slice`, `value` and `replay` cost over the trials of scripts that were made for it, beside their recorded runs.

NOW is the built program. Prints for each script the steps of its run, the processor seconds of user and system time of the run that keeps it and of each question, the
least of TIMES (3), with the start of the program, and the most memory that the question took."""
import os
import resource
import subprocess
import sys
import tempfile


def turns(count):
    return f"xs = []\nn = 0\nfor i in range({count}):\n    n = n * 3 % 1000003 + i\n    if i % 10 == 0:\n        xs.append(n)\nprint(n, len(xs))\n", (7, 7, 1)


def keys():
    lines = ["d = {}"] + [f"d[{number}] = {number}" for number in range(2500)]
    return "\n".join(lines + ["n = 0", "for i in range(40):", "    for k in d:", "        n = k", "print(n)", ""]), (2506, 7, 1)


def late_names():
    body = [f"    try:\n        y = a{number}\n    except UnboundLocalError:\n        y = {number}" for number in range(1000)]
    bound = [f"    a{number} = 1" for number in range(1000)]
    return "\n".join(["def f():"] + body + bound + ["    return y"] + [f"z{number} = 1" for number in range(14000)] + ["print(f())", ""]), (19003, 8, 1)


def falling():
    # Each function calls the one behind it, so what is needed stands in falling order.
    count = 900
    lines = []
    for number in range(count):
        lines += [f"def f{number}():", f"    return f{number + 1}()"]
    return "\n".join(lines + [f"def f{count}():", "    return 1", "print(f0())", ""]), (2 * count + 3, 9, 1)


def chain():
    # Fourteen thousand statements, of which each needs the one before.
    count = 14000
    return "\n".join(["x0 = 1"] + [f"x{number} = x{number - 1}" for number in range(1, count)] + [f"print(x{count - 1})", ""]), (count + 1, 7, 1)


def long_value():
    return "xs = list(range(100000))\nprint(len(xs))\ny = xs\n", (3, 5, 1)


def many_keys():
    return "d = {}\nfor i in range(50000):\n    d[i] = i\ny = d\n", (4, 5, 1)


def nest():
    return "x = []\nfor i in range(10000):\n    x = [[[[[[[[[[x]]]]]]]]]]\ny = x\n", (4, 5, 1)


def shared():
    return "t = [0]\nxs = []\nfor i in range(50000):\n    xs.append(t)\ny = xs\n", (5, 5, 1)


def few_of_many():
    # A value that needs four of the statements of a long run.
    return "a = 1\nb = a + 1\nn = 0\nfor i in range(30000):\n    n = n * 3 % 1000003 + i\nprint(n)\nprint(b)\n", (7, 7, 1)


CASES = {
    "30,000 turns of a loop": turns(30000),
    "15,000 turns of it": turns(15000),
    "2,500 lines `d[k] = ..`, and 100,000 reads of the order of `d`": keys(),
    "1,000 names that are bound later, in a script of 19,000 statements": late_names(),
    "a chain of 14,000 statements": chain(),
    "900 calls inside one another": falling(),
    "a list of 100,000 items as the value": long_value(),
    "a dictionary of 50,000 keys as the value": many_keys(),
    "a list nested 100,000 deep as the value": nest(),
    "a list that holds one list 50,000 times": shared(),
    "a value that needs three statements of a loop of 30,000 turns": few_of_many(),
}


def spent(words, folder):
    """Status, processor seconds, and the most memory in megabytes."""
    ran = subprocess.Popen(words, cwd=folder, stdin=subprocess.DEVNULL, stdout=subprocess.DEVNULL)
    _, status, used = os.wait4(ran.pid, 0)
    ran.returncode = os.waitstatus_to_exitcode(status)
    return ran.returncode, used.ru_utime + used.ru_stime, used.ru_maxrss / 1024


def main(now, times):
    for name, (script, place) in CASES.items():
        with tempfile.TemporaryDirectory() as folder:
            with open(os.path.join(folder, "s.py"), "w", encoding="utf-8") as file:
                file.write(script)
            bare = min(spent([now, "run", "--bare", "s.py"], folder)[1] for _ in range(times))
            kept = spent([now, "run", "s.py"], folder)
            listed = subprocess.run([now, "list"], cwd=folder, stdout=subprocess.PIPE, check=True).stdout.split()
            asked = []
            for word in ("slice", "value", "replay"):
                status, seconds, memory = min((spent([now, word, "1", *map(str, place)], folder) for _ in range(times)), key=lambda it: it[1])
                asked.append(f"{word} status {status}, {seconds:.2f} s, {memory:.0f} MB")
        print(f"| {name} | status {kept[0]}, {listed[2].decode()} steps | bare {bare:.2f} s | kept {kept[1]:.2f} s, {kept[2]:.0f} MB | {' | '.join(asked)} |", flush=True)


if __name__ == "__main__":
    main(os.path.abspath(sys.argv[1]), int(sys.argv[2]) if len(sys.argv) > 2 else 3)
