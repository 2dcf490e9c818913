#!/usr/bin/env python3
"""run_speed.py PROGRAM [TIMES]: how long four scripts take in PROGRAM, which is `run_cases` as the gate builds it, and in CPython.

Prints for each script the processor seconds of user and system time, the least of TIMES runs (7), with the start of the program."""
import os
import resource
import subprocess
import sys
import tempfile

WORDS = b" ".join(b"w%d" % (number * 7919 % 500) for number in range(20000))
LINES = b"".join(b"name%d,%d,x\n" % (number, number) for number in range(5000))
CASES = {
    "30,000 turns of arithmetic with an `append` each tenth": ("""xs = []
n = 0
for i in range(30000):
    n = n * 3 % 1000003 + i
    if i % 10 == 0:
        xs.append(n)
print(n, len(xs))
""", {}),
    "a dictionary count of 20,000 words": ("""counts = {}
with open('words.txt') as f:
    for word in f.read().split():
        counts[word] = counts.get(word, 0) + 1
print(len(counts), counts['w7'])
""", {"words.txt": WORDS}),
    "20,000 method calls": ("""class C:
    def __init__(self):
        self.n = 0
    def up(self, k):
        self.n += k
        return self.n
c = C()
for i in range(20000):
    c.up(i)
print(c.n)
""", {}),
    "5,000 lines read and split": ("""n = 0
with open('lines.txt') as f:
    for line in f:
        parts = line.strip().split(',')
        n += int(parts[1])
print(n)
""", {"lines.txt": LINES}),
}


def seconds(words, given, folder):
    """Returns the processor seconds of one run, and what it printed."""
    before = resource.getrusage(resource.RUSAGE_CHILDREN)
    ran = subprocess.run(words, input=given, cwd=folder, stdout=subprocess.PIPE, check=True)
    after = resource.getrusage(resource.RUSAGE_CHILDREN)
    return after.ru_utime + after.ru_stime - before.ru_utime - before.ru_stime, ran.stdout.decode()


def main(program, times):
    for name, (script, files) in CASES.items():
        rows = "case speed\n" + "".join(f"file {path} {content.hex()}\n" for path, content in files.items())
        rows += "".join(f"|{line}\n" for line in script.split("\n")[:-1]) + "show\n"
        with tempfile.TemporaryDirectory() as folder:
            for path, content in {**files, "s.py": script.encode()}.items():
                with open(os.path.join(folder, path), "wb") as file:
                    file.write(content)
            ours = [seconds([program], rows.encode(), folder) for _ in range(times)]
            theirs = [seconds([sys.executable, "-S", "s.py"], b"", folder) for _ in range(times)]
        printed = theirs[0][1].split("\n")[0]
        assert f"|{printed}\n" in ours[0][1], f"{name}: CPython printed {printed}, the program {ours[0][1]}"
        one, other = min(ours)[0], min(theirs)[0]
        print(f"| {name} | {one:.3f} s | {other:.3f} s | {one / other:.1f} |")


if __name__ == "__main__":
    main(os.path.abspath(sys.argv[1]), int(sys.argv[2]) if len(sys.argv) > 2 else 7)
