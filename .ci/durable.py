#!/usr/bin/env python3
"""Kills the program `example_durable_sessions` at each of its writes, and compares what the next process has.

    .ci/durable.py PROGRAM
    .ci/durable.py --try

PROGRAM is `example_durable_sessions`, as `rt ci` leaves it in its crate's out/. A list of commands is given to it on a
new file, and it is killed with SIGKILL before, in the middle of or after each call that makes, writes, cuts or syncs a
file, or writes a reply. The start after that is killed too, each time at another of its own calls. The next process
must have the sessions after the commands that were replied to, or after one more: never one less, and no half of one.
It must also be able to write the file. And before each reply each file that was written must have been synced.

Then it is killed after each reply, and some time after the next command, at delays that are drawn from a fixed seed.
And where the file may not grow it must end with status 1, with nothing lost.

Where the system doesn't let a process trace another, only the second and the third are done, and the output says so.

At the end, or with `--try` alone, small programs are run that are wrong in one way each, like one that replies before
it writes: each must fail. One that is right passes.
"""

import ctypes
import inspect
import multiprocessing
import os
import random
import resource
import signal
import subprocess
import sys
import tempfile
import time
from collections import Counter
from dataclasses import dataclass
from functools import partial

# After how many seconds a run is ended, which is a failure.
RUN = 60
# At which of its calls the start after a kill is killed, in turn.
STARTS = 40
FILE, OUT = "sessions.db", 1
SEED, DELAYS, LONGEST = 1, 3, 0.004
COMMANDS = ["login 7 100", "put 7 1 3", "login 8 101", "put 8 1 5", "put 7 2 4294967295", "touch 8 200", "put 7 1 9",
            "logout 7", "login 7 300", "put 7 2 6", "get 7 1", "logout 9"]
# What the program is killed at: it never removes or renames a file.
KINDS = ["create before", "create after", "write before", "write half", "write after", "sync before", "sync after",
         "reply before", "reply half", "reply after"]
# So many bytes a file may have, and commands after which it has more.
SMALL, MANY = 280_000, ["login 7 0", *(f"touch 7 {time}" for time in range(200))]


class Failure(Exception):
    """What was seen isn't what is wanted."""


def wanted(ok, what):
    if not ok:
        raise Failure(what)


class Sessions:
    """What the commands mean."""

    def __init__(self):
        self.used, self.kept = {}, {}

    def reply(self, line):
        name, *numbers = line.split()
        return getattr(self, name)(*map(int, numbers))

    def login(self, session, time):
        if session in self.used:
            return "no"
        self.used[session], self.kept[session] = time, {}
        return "ok"

    def put(self, session, key, value):
        if key in self.kept.get(session, {key: 0}):
            return "no"
        self.kept[session][key] = value
        return "ok"

    def get(self, session, key):
        return str(self.kept.get(session, {}).get(key, "none"))

    def touch(self, session, time):
        if session not in self.used:
            return "no"
        self.used[session] = time
        return "ok"

    def logout(self, session):
        self.kept.pop(session, None)
        return "no" if self.used.pop(session, None) is None else "ok"

    def list(self):
        lines = []
        for session, time in sorted(self.used.items()):
            lines += [f"{session} used at {time}", *(f"  {key} {value}" for key, value in self.kept[session].items())]
        return "\n".join([*lines, f"{len(self.used)} sessions"])


# ---- a traced process, on x86-64

LIBC = ctypes.CDLL(None, use_errno=True)
LIBC.ptrace.argtypes, LIBC.ptrace.restype = [ctypes.c_long, ctypes.c_long, ctypes.c_void_p, ctypes.c_void_p], ctypes.c_long
TRACE_ME, GET, SET, TO_CALL, OPTIONS = 0, 12, 13, 24, 0x4200
AT_CALL, UNTRACED = signal.SIGTRAP | 0x80, 126
# The numbers of calls, with what they do and whether the third argument is a length. The first is a file's number.
CALLS = {1: ("write", True), 18: ("write", True), 20: ("write", False), 296: ("write", False), 74: ("sync", False),
         75: ("sync", False), 277: ("sync", False), 77: ("cut", False), 285: ("cut", False)}
PATHS = {76: "cut", 82: "rename", 264: "rename", 316: "rename", 87: "unlink", 263: "unlink", 85: "create"}
OPENS = {2: "rsi", 257: "rdx"}


class Registers(ctypes.Structure):
    _fields_ = [(name, ctypes.c_ulong) for name in (
        "r15 r14 r13 r12 rbp rbx r11 r10 r9 r8 rax rcx rdx rsi rdi call rip cs flags rsp ss fs_base gs_base ds es fs gs".split())]


@dataclass
class Stop:
    kind: str
    file: int
    when: str

    def __str__(self):
        return f"{'reply' if (self.kind, self.file) == ('write', OUT) else self.kind} {self.when}"


def call_of(at):
    """What a call does, the number of its file, and whether it has a length; None if it changes nothing."""
    if at.call in CALLS:
        kind, has_length = CALLS[at.call]
        return kind, at.rdi, has_length
    if at.call in PATHS:
        return PATHS[at.call], -1, False
    if at.call in OPENS and getattr(at, OPENS[at.call]) & os.O_CREAT:
        return "create", -1, False
    return None


def trace(request, process, argument=None):
    wanted(LIBC.ptrace(request, process, None, argument) >= 0, f"ptrace: {os.strerror(ctypes.get_errno())}")


class Traced:
    """A program that is killed at one of its stops, by its number from 1."""

    def __init__(self, words, room, last):
        self.last, self.stops, self.status = last, [], None
        self.process = os.fork()
        if self.process == 0:
            self.become(words, room)
        self.wait()
        if self.status is None:
            trace(OPTIONS, self.process, 0x100001)
            self.watch()

    def become(self, words, room):
        """The child: the program, with its streams."""
        try:
            os.chdir(room)
            for number, (name, how) in enumerate([("given", os.O_RDONLY), ("replies", os.O_WRONLY), ("faults", os.O_WRONLY)]):
                os.dup2(os.open(name, how | os.O_CREAT), number)
            signal.alarm(RUN)
            if LIBC.ptrace(TRACE_ME, 0, None, None) < 0:
                os._exit(UNTRACED)
            os.execv(words[0], words)
        finally:
            os._exit(127)

    def wait(self):
        """Waits for the next stop, or for the end."""
        _, status = os.waitpid(self.process, 0)
        if not os.WIFSTOPPED(status):
            self.status = os.waitstatus_to_exitcode(status)
        return status

    def resume(self):
        """Runs up to the next entry into a call or return from one. Whether it is there."""
        sent = 0
        while True:
            trace(TO_CALL, self.process, sent)
            status = self.wait()
            if self.status is not None or os.WSTOPSIG(status) == AT_CALL:
                return self.status is None
            sent = os.WSTOPSIG(status)

    def is_last(self, kind, file, when):
        self.stops.append(Stop(kind, file, when))
        return len(self.stops) == self.last

    def kill(self):
        os.kill(self.process, signal.SIGKILL)
        while self.status is None:
            self.wait()

    def set(self, at):
        trace(SET, self.process, ctypes.byref(at))

    def watch(self):
        at = Registers()
        while self.resume():
            trace(GET, self.process, ctypes.byref(at))
            found = call_of(at)
            if (self.meet(at, *found) if found else not self.resume()):
                return

    def meet(self, at, kind, file, has_length):
        """Goes past a call, or kills the program there. Whether it has ended."""
        if self.is_last(kind, file, "before"):
            at.call = ctypes.c_ulong(-1).value
            self.set(at)
            self.kill()
            return True
        is_half = has_length and at.rdx > 1 and self.is_last(kind, file, "half")
        if is_half:
            at.rdx //= 2
            self.set(at)
        if self.resume() and (is_half or self.is_last(kind, file, "after")):
            self.kill()
        return self.status is not None


# ---- the program


@dataclass
class Run:
    status: int
    replies: str
    faults: str
    stops: list


def read(room, name):
    with open(os.path.join(room, name), "rb") as file:
        return file.read().decode()


def whole_lines(text):
    return text.split("\n")[:-1]


class Program:
    """A program with its commands, the replies to them, and the list after each number of them."""

    def __init__(self, words, commands):
        self.words, self.commands = [*words, FILE], commands
        sessions, self.replies, self.lists = Sessions(), [], [Sessions().list()]
        for line in commands:
            self.replies.append(sessions.reply(line))
            self.lists.append(sessions.list())

    def run(self, room, commands, last):
        for name in ("given", "replies", "faults"):
            with open(os.path.join(room, name), "w", encoding="utf-8") as file:
                file.write("".join(line + "\n" for line in commands) if name == "given" else "")
        traced = Traced(self.words, room, last)
        return Run(traced.status, read(room, "replies"), read(room, "faults"), traced.stops)

    def run_freely(self, room, commands, **how):
        given = "".join(line + "\n" for line in commands).encode()
        ended = subprocess.run(self.words, input=given, cwd=room, capture_output=True, timeout=RUN, check=False, **how)
        return Run(ended.returncode, ended.stdout.decode(), ended.stderr.decode(), [])

    def check_found(self, room, seen, why):
        """The next process has the commands that were replied to, or one more, and can go on."""
        wanted(seen == self.replies[:len(seen)], f"{why}: the replies {seen}")
        found = self.run_freely(room, ["list", "login 4294967295 1"])
        wanted((found.status, found.faults) == (0, ""), f"{why}: the next process: {found}")
        allowed = [it + "\nok\n" for it in self.lists[len(seen):len(seen) + 2]]
        wanted(found.replies in allowed, f"{why}, after {len(seen)} replies: {found.replies!r}, and none of {allowed}")

    def undisturbed(self):
        """A run that isn't killed: its stops."""
        with tempfile.TemporaryDirectory() as room:
            run = self.run(room, self.commands, 0)
            wanted((run.status, run.faults) == (0, ""), f"undisturbed: {run}")
            self.check_found(room, whole_lines(run.replies), "undisturbed")
            wanted(whole_lines(run.replies) == self.replies, f"undisturbed: {run.replies!r}")
            return run.stops

    def kill_at(self, last):
        """Kills a run at a stop, and the next start at one of its own. The first, and whether the second is met."""
        with tempfile.TemporaryDirectory() as room:
            run = self.run(room, self.commands, last)
            why = f"killed at stop {last}, {run.stops[-1]}"
            wanted(run.status == -signal.SIGKILL, f"{why}: {run}")
            again = self.run(room, [], 1 + last % STARTS)
            wanted(again.status in (0, -signal.SIGKILL), f"{why}: the next start: {again}")
            self.check_found(room, whole_lines(run.replies), why)
            return str(run.stops[-1]), again.status != 0

    def kill_after(self, count, delay):
        """Kills a run some time after it was given one more command than it has replied to."""
        with tempfile.TemporaryDirectory() as room:
            started = subprocess.Popen(self.words, cwd=room, stdin=subprocess.PIPE, stdout=subprocess.PIPE, bufsize=0,
                                       preexec_fn=partial(signal.alarm, RUN))
            seen = b""
            for line in self.commands[:count]:
                started.stdin.write(line.encode() + b"\n")
                seen += started.stdout.readline()
            started.stdin.write("".join(line + "\n" for line in self.commands[count:count + 1]).encode())
            time.sleep(delay)
            started.kill()
            more, _ = started.communicate(timeout=RUN)
            seen = whole_lines((seen + more).decode())
            wanted(len(seen) >= count, f"{count} commands have the replies {seen}")
            self.check_found(room, seen, f"killed {delay:.4f} seconds after {count} replies")


def are_synced(stops):
    """Before each reply each file that was written is synced."""
    written = set()
    for stop in stops:
        if str(stop) == "reply before":
            wanted(not written, f"a reply comes before the files {written} are synced")
        elif stop.when == "after" and stop.kind == "sync":
            written.discard(stop.file)
        elif stop.when == "after" and stop.kind in ("write", "cut") and stop.file != OUT:
            written.add(stop.file)


def kill_at_each(program, kinds, spread):
    """How many kills there were of each kind, and how many at the next start."""
    stops = program.undisturbed()
    are_synced(stops)
    met = [*spread(program.kill_at, range(1, len(stops) + 1))]
    counts = Counter(stop for stop, _ in met)
    wanted(set(kinds) <= set(counts), f"killed at {counts}, and never at one of {kinds}")
    return counts, sum(again for _, again in met)


def kill_after_each(program):
    """Kills at delays that are drawn, and how many."""
    drawn = random.Random(SEED)
    for count in range(len(program.commands) + 1):
        for delay in (0, *(drawn.uniform(0, LONGEST) for _ in range(DELAYS))):
            program.kill_after(count, delay)
    return (len(program.commands) + 1) * (DELAYS + 1)


def limit_files():
    signal.signal(signal.SIGXFSZ, signal.SIG_IGN)
    resource.setrlimit(resource.RLIMIT_FSIZE, (SMALL, SMALL))


def fill(words):
    """Where the file may not grow, the program ends, and has the commands that were replied to."""
    program = Program(words, MANY)
    with tempfile.TemporaryDirectory() as room:
        run = program.run_freely(room, MANY, preexec_fn=limit_files)
        seen = whole_lines(run.replies)
        wanted(run.status == 1 and run.faults and 0 < len(seen) < len(MANY), f"a full disk: {run}")
        program.check_found(room, seen, "a full disk")
        return len(seen)


# ---- wrong programs

# A small program with the same commands, which keeps the lines in a file. It is right as it is; a change makes it wrong.
RIGHT = inspect.getsource(Sessions) + """
import os, sys
sessions, name = Sessions(), sys.argv[1]
def lines():
    if not os.path.exists(name): return []
    with open(name) as kept: return kept.read().splitlines()
for line in lines(): sessions.reply(line)
def keep(line):
    with open(name + ".new", "w") as kept:
        kept.write("".join(it + "\\n" for it in [*lines(), line]))
        kept.flush()
        os.fsync(kept.fileno())
    if os.path.exists(name + ".new"): os.rename(name + ".new", name)
def say(reply):
    sys.stdout.write(reply + "\\n")
    sys.stdout.flush()
for line in sys.stdin:
    line = line.rstrip("\\n")
    reply = sessions.reply(line)
    if reply == "ok": keep(line)
    say(reply)
"""
KEEP, RENAME = '    if reply == "ok": keep(line)', '    if os.path.exists(name + ".new"): os.rename(name + ".new", name)'
# What makes it wrong: the text that is replaced, and what by.
WRONG = {
    "replies before it writes": (f"{KEEP}\n    say(reply)", f"    say(reply)\n{KEEP}"),
    "writes in place": (RENAME, '    with open(name, "w") as kept: kept.write("".join(open(name + ".new")))'),
    "puts in two steps": (KEEP, '    if reply == "ok" and line[0] == "p": keep(line.rsplit(" ", 1)[0] + " 0"); keep(line)\n    elif reply == "ok": keep(line)'),
    "doesn't sync": ("        os.fsync(kept.fileno())\n", ""),
    "keeps no time of use": (KEEP, KEEP.replace('"ok"', '"ok" and line[:5] != "touch"')),
    "keeps values after a logout": ("        self.kept.pop(session, None)\n", "", "self.kept[session] = time, {}", "kept = time, self.kept.setdefault(session, {})"),
}
TINY = ["login 7 100", "put 7 1 3", "touch 7 200", "logout 7", "login 7 5"]
SMALL_KINDS = ["create before", "write before", "write half", "sync after", "rename before", "rename after", "reply after"]


def small(*changes):
    text = RIGHT
    for old, new in zip(changes[::2], changes[1::2]):
        wanted(old in text, f"the small program has no {old!r}")
        text = text.replace(old, new, 1)
    return Program([sys.executable, "-I", "-S", "-c", text], TINY)


def find_out(what, act):
    try:
        act()
    except Failure:
        return
    raise Failure(f"{what} passed")


def find_out_wrong(spread, can_trace):
    kill_after_each(small())
    for what, change in WRONG.items():
        if can_trace:
            find_out(f"a program that {what}", partial(kill_at_each, small(*change), [], map))
    if can_trace:
        kill_at_each(small(), SMALL_KINDS, spread)
        find_out("a kind at which nothing was killed", partial(kill_at_each, small(), ["unlink before"], spread))


def may_trace():
    with tempfile.TemporaryDirectory() as room:
        return small().run(room, [], 0).status != UNTRACED


def kill(program, spread, can_trace):
    delayed = kill_after_each(program)
    replies = fill(program.words[:-1])
    if not can_trace:
        print("durable: this system lets no process trace another: no kill at a write")
    else:
        counts, again = kill_at_each(program, KINDS, spread)
        of_each = ", ".join(f"{count} {kind}" for kind, count in sorted(counts.items()))
        print(f"durable: {sum(counts.values())} kills ({of_each}), and {again} at the start after one")
    print(f"durable: {delayed} kills at drawn delays, and a full disk after {replies} replies")


def drive(word):
    can_trace = may_trace()
    with multiprocessing.get_context("fork").Pool() as pool:
        if word != "--try":
            kill(Program([os.path.abspath(word)], COMMANDS), pool.map, can_trace)
        find_out_wrong(pool.map, can_trace)
    if can_trace:
        print(f"durable: {len(WRONG)} wrong programs fail")


def main():
    if len(sys.argv) != 2:
        sys.exit("durable: .ci/durable.py PROGRAM, or --try")
    try:
        drive(sys.argv[1])
    except (Failure, subprocess.TimeoutExpired) as failure:
        sys.exit(f"durable: {failure}")


if __name__ == "__main__":
    main()
