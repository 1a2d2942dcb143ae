#!/usr/bin/env python3
"""Runs the program `boxes` with long scripts: many readers, tickets, owners, slots and places.

    .ci/long_scripts.py PROGRAM TESTS

PROGRAM is `boxes`, and TESTS are those of `test_libraries`, as `rt ci` leaves them in their crates' out/.
Each script is made with its replies, all of which are compared. Each has so much processor time, which is
more than three times what it takes, and far less than it would take if a call went over all that there is:
the readers of a cell, the records of owners, the slots, what a session holds at its end. So have those of
the tests that add many things to the libraries. At the end a slower program, and one whose last reply is
another, are found out.
"""
import os
import resource
import subprocess
import sys
import tempfile

READ = "error: Failed to borrow mutably because the value was already borrowed immutably.borrowed_at:"


class Failure(Exception):
    """What was seen isn't what is wanted."""


def wanted(ok, what):
    if not ok:
        raise Failure(what)


class Script:
    """Commands with their replies. A command is named by its line."""

    def __init__(self):
        self.commands, self.replies = [], []

    def call(self, command, reply):
        self.commands.append(command)
        self.replies.append(reply)
        return len(self.commands)

    def refused_by(self, box, readers):
        """A write that the readers of these lines refuse."""
        self.call(f"try_write {box}", READ + "".join(f"\tscript:{it}:1" for it in readers))

    def stats(self, slots, free, peak):
        self.call("stats", f"slots {slots} free {free} retired 0 peak {peak}")


def readers_beside_each_other():
    """129 readers, in the order in which they began; of which the one in the middle ends, then the ends."""
    script = Script()
    box = script.call("leak a", "box 0@1")
    readers = [script.call(f"try_read {box}", "reader") for _ in range(129)]
    script.refused_by(box, readers)
    for at in (64, 0, -1):
        script.call(f"release {readers.pop(at)}", "ok")
        script.refused_by(box, readers)
    return script


def tickets():
    """After 10,000 tickets a reader beside another is told from it."""
    script = Script()
    box = script.call("leak a", "box 0@1")
    for _ in range(10_000):
        script.call(f"release {script.call(f'try_read {box}', 'reader')}", "ok")
    first, second = (script.call(f"try_read {box}", "reader") for _ in range(2))
    script.call(f"release {first}", "ok")
    script.refused_by(box, [second])
    script.call(f"show {second}", "value a")
    script.call(f"show {first}", "no such")
    return script


def from_the_middle(items):
    """The items, the one in the middle first, and then to both sides by turns."""
    half = len(items) // 2
    above, below = items[half:], items[:half][::-1]
    return [it for pair in zip(above, below) for it in pair] + above[len(below):]


def many_readers(order):
    """100,000 readers of one cell, released in this order."""
    script = Script()
    box = script.call("leak a", "box 0@1")
    readers = [script.call(f"try_read {box}", "reader") for _ in range(100_000)]
    for reader in order(readers):
        script.call(f"release {reader}", "ok")
    script.call(f"can_write {box}", "true")
    return script


def readers_from_the_last():
    """Each is found without a look at the others."""
    return many_readers(reversed)


def shown_readers():
    """So is each where its value is shown, also beside one that stands apart."""
    script = Script()
    box = script.call("leak a", "box 0@1")
    readers = [script.call(f"try_read {box}", "reader") for _ in range(50_000)]
    for reader in reversed(readers):
        script.call(f"show {reader}", "value a")
    return script


def readers_from_the_middle():
    """Each moves none of the others, until more have ended than stand."""
    return many_readers(from_the_middle)


def owners():
    """100,000 owners with a box each, all released from the middle: each box ends with its own owner."""
    script, count = Script(), 100_000
    made = [script.call("owner", "owner") for _ in range(count)]
    boxes = [script.call(f"insert {it} a", f"box {slot}@1") for slot, it in enumerate(made)]
    script.stats(count, 0, count)
    for owner in from_the_middle(made):
        script.call(f"release {owner}", "ok")
    script.stats(count, count, count)
    for box in boxes[:: count // 10]:
        script.call(f"can_read {box}", "false")
    last = from_the_middle(list(range(count)))[-1]
    script.call("leak b", f"box {last}@2")
    return script


def clones_of_owners():
    """50,000 owners are cloned, and each clone makes a box: it knows the place of its owner's record."""
    script, count = Script(), 50_000
    made = [script.call("owner", "owner") for _ in range(count)]
    clones = [script.call(f"clone {it}", "owner") for it in made]
    for slot, clone in enumerate(clones):
        script.call(f"insert {clone} a", f"box {slot}@1")
    for clone in clones:
        script.call(f"release {clone}", "ok")
    for owner in made:
        script.call(f"release {owner}", "ok")
    script.stats(count, count, count)
    return script


def slots():
    """160,000 slots, of which every third is free and is taken again, the last one that was freed first."""
    script, count = Script(), 160_000
    boxes = [script.call("leak a", f"box {slot}@1") for slot in range(count)]
    freed = range(0, count, 3)
    for slot in freed:
        script.call(f"end {boxes[slot]}", "ok")
    script.stats(count, len(freed), count)
    for slot in reversed(freed):
        script.call("leak b", f"box {slot}@2")
    script.call("leak c", f"box {count}@1")
    script.stats(count + 1, 0, count + 1)
    return script


def held_at_the_end():
    """A session that ends with 50,000 readers of one cell, and 50,000 writers: each is released without a look at the
    others."""
    script, count = Script(), 50_000
    box = script.call("leak a", "box 0@1")
    for _ in range(count):
        script.call(f"try_read {box}", "reader")
    for slot in range(1, count + 1):
        script.call(f"try_write {script.call('leak b', f'box {slot}@1')}", "writer")
    script.call(f"can_write {box}", "false")
    return script


# The scripts, with the seconds of processor time that each has.
SCRIPTS = [
    (readers_beside_each_other, 2),
    (tickets, 2),
    (readers_from_the_last, 2),
    (shown_readers, 2),
    (readers_from_the_middle, 2),
    (owners, 2),
    (clones_of_owners, 2),
    (slots, 2),
    (held_at_the_end, 2),
]
# Tests of the libraries, with the same.
TESTS = [
    ("growth::entities", 1),
    ("growth::logins", 1),
    ("growth::entries", 1),
    ("growth::children", 1),
    ("growth::parts", 1),
    ("growth::watchers", 1),
]


def measured(program, given, limit):
    """How a program ended that had so many seconds of processor time, and how many it took."""

    def set_limit():
        resource.setrlimit(resource.RLIMIT_CPU, (limit, limit))

    before = resource.getrusage(resource.RUSAGE_CHILDREN)
    ended = subprocess.run(program, stdin=given, capture_output=True, preexec_fn=set_limit, check=False)
    after = resource.getrusage(resource.RUSAGE_CHILDREN)
    return ended, after.ru_utime - before.ru_utime + after.ru_stime - before.ru_stime


def run_test(tests, name, limit):
    ended, seconds = measured([tests, name], subprocess.DEVNULL, limit)
    wanted(ended.returncode == 0, f"{name}: status {ended.returncode}: {ended.stderr.decode()}")
    print(f"{name}: {seconds:.1f} seconds")


def run(program, script, limit):
    """Compares all replies, and answers how many seconds of processor time they took."""
    with tempfile.TemporaryFile() as given:
        given.write("".join(command + "\n" for command in script.commands).encode())
        given.seek(0)
        ended, seconds = measured(program, given, limit)
    replies = ended.stdout.decode().splitlines()
    for line, (reply, want) in enumerate(zip(replies, script.replies), start=1):
        wanted(reply == want, f"line {line}: {script.commands[line - 1]}: {reply[:200]!r} in place of {want[:200]!r}")
    wanted((ended.returncode, len(replies)) == (0, len(script.replies)), f"status {ended.returncode}, {len(replies)} replies")
    return seconds


def find_out(what, program, script):
    try:
        run(program, script, 1)
    except Failure:
        return
    raise Failure(f"{what} passed")


def main(path, tests):
    program = [os.path.abspath(path)]
    for make, limit in SCRIPTS:
        script = make()
        try:
            seconds = run(program, script, limit)
        except Failure as failure:
            raise Failure(f"{make.__name__}: {failure}") from failure
        print(f"{make.__name__}: {len(script.commands)} lines, {seconds:.1f} seconds")
    for name, limit in TESTS:
        run_test(os.path.abspath(tests), name, limit)
    wrong = tickets()
    wrong.replies[-1] = "value a"
    find_out("another reply", program, wrong)
    find_out("a program that never ends", ["sh", "-c", f"while :; do :; done; exec {program[0]}"], tickets())


if __name__ == "__main__":
    try:
        main(*sys.argv[1:])
    except Failure as found:
        sys.exit(f"long_scripts: {found}")
