#!/usr/bin/env python3
"""build_now.py HOME WORDS..: proves and builds the program of the checkout HOME, tells on standard error how far it is, and becomes the program with
these words. `now` starts it where the program was not built from the present sources.

The gate, `rt ci`, proves a copy of the crates that the program is made of, without the edits that must fail. It keeps each crate that it proved on this
machine, so a build that was interrupted goes on where it was. A second process, the keeper, starts the gate apart from the terminal and ends
it with all that it started once this process is gone, however that came."""
import contextlib
import fcntl
import heapq
import os
import re
import select
import shutil
import signal
import subprocess
import sys
import tempfile
import time

NOT_PROVED, INTERRUPTED = 70, 130
# A check takes up to so much memory.
CHECK_BYTES = 3_000_000_000
UNKNOWN_COST = 50
# For so many seconds it is taken for granted that this machine has the speed of the table of costs.
PRIOR = 60
# A line at least after so many seconds, and where there is news after so few.
EACH, NEWS = 20, 5
ENDINGS = (signal.SIGINT, signal.SIGTERM, signal.SIGHUP)


class Interrupted(Exception):
    pass


def say(text):
    with contextlib.suppress(OSError):
        print(f"now: {text}", file=sys.stderr, flush=True)


def in_shell(home, words):
    """Runs words of tools/sources.sh over a checkout, and returns what they print, or None where they fail."""
    tool = os.path.join(os.path.dirname(os.path.abspath(__file__)), "sources.sh")
    ran = subprocess.run(["sh", "-c", f'home=$1; . "$2"; {words}', "sh", home, tool], stdin=subprocess.DEVNULL, stdout=subprocess.PIPE, text=True)
    return None if ran.returncode else ran.stdout


class Plan:
    """The crates to be proved, each behind those that it stands on, and what each is likely to cost in processor seconds."""

    def __init__(self, home, lines):
        halves = [line.partition(":") for line in lines]
        self.lines, self.names = lines, [name.split()[0] for name, _, _ in halves]
        self.below = {name: [it for it in low.split() if it in self.names] for name, (_, _, low) in zip(self.names, halves)}
        known = {}
        with contextlib.suppress(OSError), open(f"{home}/tools/costs", encoding="utf-8") as it:
            known = dict(line.split() for line in it if re.fullmatch(r"\w+ [\d.]+\n", line))
        self.costs = {name: float(known.get(name, UNKNOWN_COST)) for name in self.names}

    def ends(self, kept, lanes):
        """When each crate would end at the table's speed, if so many are proved side by side, those with the longest chains above them first."""
        costs = {name: 0 if name in kept else self.costs[name] for name in self.names}
        behind = dict(costs)
        for name in reversed(self.names):
            for low in self.below[name]:
                behind[low] = max(behind[low], costs[low] + behind[name])
        left, running, ends, at = sorted(self.names, key=lambda it: -behind[it]), [], {}, 0
        while left or running:
            ready = [it for it in left if all(low in ends for low in self.below[it])]
            for name in ready[: lanes - len(running)]:
                left.remove(name)
                heapq.heappush(running, (at + costs[name], name))
            at, name = heapq.heappop(running)
            ends[name] = at
        return ends


class Progress:
    """What the gate's log tells of the crates, and how long the rest is likely to take."""

    def __init__(self, plan, lanes):
        self.plan, self.lanes, self.began, self.line = plan, lanes, time.monotonic(), ""
        self.proved, self.kept, self.failed, self.said, self.news, self.first = set(), set(), None, None, 0, None

    def gone(self):
        return time.monotonic() - self.began

    def done(self):
        return self.proved | self.kept

    def take(self, text):
        """Takes what came to the log."""
        *lines, self.line = (self.line + text).split("\n")
        for line in lines:
            found = re.match(r"rt: (\w+) (proved$|is kept: |NOT PROVED)", line)
            if not found or found[1] not in self.plan.names:
                continue
            if found[2] == "NOT PROVED":
                self.failed = self.failed or found[1]
            else:
                (self.proved if found[2] == "proved" else self.kept).add(found[1])
                self.news = self.gone()
            if self.proved and self.first is None:
                # (the gate reads all crates and takes what is kept before the first proof begins)
                self.first = max(self.news - self.plan.ends(self.kept, self.lanes)[found[1]], 0)

    def seconds_left(self):
        """What is left of the plan, at the speed that the proofs had up to now."""
        ends = self.plan.ends(self.kept, self.lanes)
        last, cost, at = max(ends.values()), sum(self.plan.costs[it] for it in self.proved), 0
        for name in sorted(ends, key=ends.get):
            if cost <= 0:
                break
            at, cost = ends[name], cost - self.plan.costs[name] * (name not in self.kept)
        speed = (self.news - self.first + PRIOR) / (at + PRIOR) if self.proved else 1
        return max(speed * (last - at) - (self.gone() - self.news), 0)

    def tell(self):
        """Writes a line, where one is due."""
        gone = self.gone()
        has_news = self.said is not None and self.news > self.said
        if self.said is not None and gone - self.said < (NEWS if has_news else EACH):
            return
        self.said = gone
        left = max(round(self.seconds_left() / 60), 1)
        say(f"{len(self.done())} of {len(self.plan.names)} crates proved, {gone // 60:.0f} min gone, about {left} min left")


def number_in(file, pattern):
    with contextlib.suppress(OSError), open(file, encoding="utf-8") as it:
        found = re.search(pattern, it.read())
        return int(found[1]) if found else None
    return None


def lanes_here():
    """As many checks as RT_JOBS says, or as there are processors and as memory holds."""
    if os.environ.get("RT_JOBS", "").isdigit():
        return max(int(os.environ["RT_JOBS"]), 1)
    lanes = len(os.sched_getaffinity(0))
    with contextlib.suppress(OSError, ValueError), open("/sys/fs/cgroup/cpu.max", encoding="utf-8") as it:
        quota, period = it.read().split()
        lanes = min(lanes, max(int(quota) // int(period), 1))
    free = [1024 * (number_in("/proc/meminfo", r"MemAvailable:\s+(\d+)") or CHECK_BYTES)]
    most, held = number_in("/sys/fs/cgroup/memory.max", r"^(\d+)"), number_in("/sys/fs/cgroup/memory.current", r"^(\d+)")
    if most and held:
        free.append(most - held)
    return max(min(lanes, min(free) // CHECK_BYTES), 1)


def keeps():
    """Whether the gate keeps what it proved: beside the kit, if this kit does so at all, where that can be written and its disk has 5 GB left."""
    bin = os.path.dirname(os.path.realpath(shutil.which("rt")))
    does = False
    for name in ("rt", "rtlib.py"):
        with contextlib.suppress(OSError), open(f"{bin}/{name}", encoding="utf-8") as it:
            does = does or "-kept" in it.read()
    if not does:
        return False
    store = os.path.dirname(os.path.dirname(bin)) + "/rattle-kept"
    at = store if os.path.isdir(store) else os.path.dirname(store)
    return os.access(at, os.W_OK) and shutil.disk_usage(at).free >= 5 << 30


def room_of(home):
    """The folder to build in. It lies where neither rt nor git looks for sources: in git's own folder, if there is one."""
    git = f"{home}/.git"
    if os.path.isfile(git):
        with open(git, encoding="utf-8") as it:
            git = os.path.join(home, it.read().strip().removeprefix("gitdir: "))
    return f"{git}/now-building" if os.path.isdir(git) else f"{home}/crates/now/out/building"


def copy_sources(home, plan, to):
    """Copies the crates of the plan, without what was built of them and without the edits that must fail."""
    os.makedirs(f"{to}/.git")
    for name in plan.below:
        leave = lambda at, names: {"out", "must-fail"} & {*names} if at == f"{home}/crates/{name}" else ()
        shutil.copytree(f"{home}/crates/{name}", f"{to}/crates/{name}", symlinks=True, ignore=leave)
    with open(f"{to}/crates.txt", "w", encoding="utf-8") as it:
        it.write("".join(f"{line}\n" for line in plan.lines))
    if os.path.isfile(f"{home}/HANDLES"):
        shutil.copyfile(f"{home}/HANDLES", f"{to}/HANDLES")


def processes_of(leader):
    """The processes with this leader (as setsid makes it) and those that descend from one of them, without itself."""
    parents, found = {}, {leader}
    for name in filter(str.isdigit, os.listdir("/proc")):
        with contextlib.suppress(OSError), open(f"/proc/{name}/stat", encoding="utf-8", errors="replace") as it:
            state, parent, _, own = it.read().rpartition(")")[2].split()[:4]
            if state != "Z":
                parents[int(name)] = int(parent), int(own)
    while True:
        more = {it for it, (parent, own) in parents.items() if it not in found and (own == leader or parent in found)}
        if not more:
            return found - {leader}
        found |= more


def end_all(leader):
    """Ends these processes."""
    for _ in range(100):
        found = processes_of(leader)
        for it in found:
            with contextlib.suppress(OSError):
                os.kill(it, signal.SIGKILL)
        if not found:
            return
        time.sleep(0.05)


def keep(room, lanes, held, told):
    """The keeper: runs the gate over the copy, tells its status, and ends all and removes the copy once nothing holds the other end of `held`."""
    os.setsid()
    number, ran = 0, None
    try:
        with open(f"{room}/log", "wb") as log, open(os.devnull, "rb") as nothing:
            for file, to in ((nothing, 0), (log, 1), (log, 2)):
                os.dup2(file.fileno(), to)
        if not select.select([held], [], [], 0)[0]:
            ran = subprocess.Popen(["rt", "ci"], cwd=f"{room}/repo", env={**os.environ, "RT_JOBS": str(lanes)})
            number = ran.pid
            while not select.select([held], [], [], 0.2)[0]:
                if ran.poll() is not None:
                    os.write(told, f"{ran.returncode}\n".encode())
                    break
            select.select([held], [], [])
    except OSError as error:
        os.write(2, f"{error}\n".encode())
    finally:
        end_all(os.getpid())
        if ran:
            ran.wait()
        # What is not removed in this time, the launcher removes once it has built, or the next start.
        signal.alarm(4)
        clear(room, number)


def clear(room, number):
    """Removes what an rt of this number left among the temporary files, and the copy."""
    at = tempfile.gettempdir()
    for name in os.listdir(at):
        if re.match(rf"rt-\w+-{number}-", name):
            shutil.rmtree(f"{at}/{name}", ignore_errors=True)
    shutil.rmtree(f"{room}/repo", ignore_errors=True)


class Build:
    """The gate's run over the copy, and the keeper that ends it with this process."""

    def __init__(self, room, lanes):
        self.room, self.status, self.log = room, None, None
        held, self.holds = os.pipe()
        self.hears, told = os.pipe()
        self.keeper = os.fork()
        if not self.keeper:
            try:
                for it in ENDINGS:
                    signal.signal(it, signal.SIG_DFL)
                os.close(self.holds)
                os.close(self.hears)
                keep(room, lanes, held, told)
            finally:
                os._exit(0)
        os.close(held)
        os.close(told)

    def wait(self, seconds):
        """Waits so long, or less where the gate ends, and returns what came to its log."""
        if self.status is None and select.select([self.hears], [], [], seconds)[0]:
            said = os.read(self.hears, 20)
            self.status = int(said) if said else NOT_PROVED
        if not self.log and os.path.isfile(f"{self.room}/log"):
            self.log = open(f"{self.room}/log", encoding="utf-8", errors="replace")
        return self.log.read() if self.log else ""

    def __enter__(self):
        return self

    def __exit__(self, *_):
        """Ends all that is under way, in ten seconds at most."""
        for it in ENDINGS:
            signal.signal(it, signal.SIG_IGN)
        os.close(self.holds)
        for _ in range(70):
            if os.waitpid(self.keeper, os.WNOHANG)[0]:
                break
            time.sleep(0.1)
        else:
            os.kill(self.keeper, signal.SIGKILL)
            os.waitpid(self.keeper, 0)
        # (where the keeper was killed)
        end_all(self.keeper)


def is_built(build, progress, program):
    """Whether the gate left a proved program. Where it could not run the program, nothing speaks against it."""
    if "now" not in progress.done() or not os.access(program, os.X_OK):
        return False
    with open(f"{build.room}/log", encoding="utf-8", errors="replace") as it:
        log = it.read()
    not_run = re.search(r"(?m)^rt: FAILED:( \w+ \((run|tests)\))+$", log) and "rt: now was not run: " in log
    refuted = re.search(r"(?m)^rt: \w+.*: (the program |what the program |its tests FAILED)", log)
    return build.status == 0 or bool(not_run and not refuted)


def install(home, made):
    """Moves the program to where the launcher finds it."""
    to = f"{home}/crates/now/out/now"
    os.makedirs(os.path.dirname(to), exist_ok=True)
    with contextlib.suppress(FileNotFoundError):
        os.remove(f"{to}.stamp")
    try:
        os.replace(made, to)
    except OSError:
        # (on another disk)
        shutil.copy2(made, f"{to}.new")
        os.replace(f"{to}.new", to)


def fail(why, log):
    """Says what went wrong, with the end of the log or what it has of the crate that was not proved."""
    with contextlib.suppress(OSError), open(log, encoding="utf-8", errors="replace") as it:
        lines = it.read().rstrip("\n").split("\n")
        end = next((at for at, line in enumerate(lines, 1) if re.match(r"rt: \w+ NOT PROVED", line)), len(lines))
        say(f"{why}; the end of {log}:\n" + "\n".join(lines[max(end - 20, 0) : end]))
    raise SystemExit(NOT_PROVED)


def prove(home, room, plan, lanes):
    """Proves the copy, and gives the checkout the program."""
    progress, log, made = Progress(plan, lanes), f"{room}/log", f"{room}/repo/crates/now/out/now"
    with Build(room, lanes) as build:
        try:
            while build.status is None and not progress.failed:
                progress.tell()
                progress.take(build.wait(1))
            progress.take(build.wait(0))
            if progress.failed:
                fail(f"{progress.failed} was not proved", log)
            if not is_built(build, progress, made):
                fail("the program was not built", log)
            install(home, made)
        except Interrupted:
            rest = "are not proved again" if keeps() else "have to be proved again"
            say(f"interrupted; {len(progress.done())} of {len(plan.names)} crates were proved, and {rest}")
            raise SystemExit(INTERRUPTED) from None
    shutil.rmtree(f"{room}/repo", ignore_errors=True)
    say(f"built in {progress.gone() / 60:.0f} min")


def build(home, room):
    """Builds the program of the present sources, once no other start does so here."""
    os.makedirs(room, exist_ok=True)
    # (held by the keeper too, until all is ended and removed)
    lock = open(f"{room}/lock", "w")
    try:
        fcntl.flock(lock, fcntl.LOCK_EX | fcntl.LOCK_NB)
    except BlockingIOError:
        say("another start of now builds the program here; waiting for it")
        fcntl.flock(lock, fcntl.LOCK_EX)
        if in_shell(home, "is_current") is not None:
            return
    lines = (in_shell(home, "lines_below") or "").splitlines()
    if not lines:
        say("crates.txt lists no crate now")
        raise SystemExit(NOT_PROVED)
    plan, lanes = Plan(home, lines), lanes_here()
    shutil.rmtree(f"{room}/repo", ignore_errors=True)
    with contextlib.suppress(FileNotFoundError):
        os.remove(f"{room}/log")
    copy_sources(home, plan, f"{room}/repo")
    sum = in_shell(f"{room}/repo", "sources_sum").strip()
    loses = "Ctrl-C loses no crate that was proved" if keeps() else "nothing is kept beside this kit, so Ctrl-C loses what was proved"
    say(f"proving and building the program: {len(lines)} crates, {lanes} side by side; {loses}")
    prove(home, room, plan, lanes)
    in_shell(home, f"write_stamp '{sum}'")


def interrupt(*_):
    raise Interrupted


def main(home, *words):
    heard = [it for it in ENDINGS if signal.getsignal(it) != signal.SIG_IGN]
    for it in heard:
        signal.signal(it, interrupt)
    room = room_of(home)
    try:
        build(home, room)
    except Interrupted:
        say("interrupted; nothing was under way")
        return INTERRUPTED
    except OSError as error:
        say(f"the program was not built: {error}")
        return NOT_PROVED
    program = f"{home}/crates/now/out/now"
    # (Python ignores the last two, and the program would too)
    for it in (*heard, signal.SIGPIPE, signal.SIGXFSZ):
        signal.signal(it, signal.SIG_DFL)
    os.execv(program, [program, *words])


if __name__ == "__main__":
    sys.exit(main(*sys.argv[1:]))
