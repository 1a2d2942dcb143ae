#!/usr/bin/env python3
"""Shows that a shared store with checkpoints runs in bounded memory, that its audit agrees at the end, that a later
checkpoint goes into the memory of those before it, that without checkpoints a step takes few bytes, and that one at many
places takes little more time than at one.

    .ci/checkpoints.py PROGRAM

PROGRAM is `bench_shared`, as `rt ci` leaves it in its crate's out/. It takes 10 million steps of each list of
calls, with a checkpoint after every 100,000, and may have twice the memory that it has at most in the first 200,000.
The audit at the end answers the steps since the last checkpoint, and no others. Of twelve checkpoints at 100,000
values those after the first two may touch so many pages for the first time: no clause says that they make no room.
Without checkpoints and an audit each step after the first four million may take so many bytes: no clause says that a
step is kept in its short form. Two million steps that read a box at many places in turn may take so many times the
processor time that they take at one place: also at places that came after all numbers for them were given, and where a
checkpoint forgot those. At the end a run without checkpoints is found out, a limit of bytes that is too low, the pages
of the first two, steps at places that have no number, and a limit of time that is too low.
"""
import os
import statistics
import subprocess
import sys

# The steps of a round.
LISTS = {"reads": 7, "writes": 12}
STEPS, BETWEEN, FIRST = 10_000_000, 100_000, 200_000
# How many bytes a step may take, and after how many steps that is measured.
BYTES, HALF = {"reads": 10, "writes": 15}, 4_000_000
# How many values there are where checkpoints are counted, and how many pages one of these may touch first.
VALUES, PAGES = 100_000, 20
# Lists of reads at so many places, and how many times the time at one place their steps may take; how often that is
# measured; how many reads these are; and how many bytes a step may take where places have numbers.
PLACES = (("places", 500, 1.5), ("places", 70_000, 3), ("forgotten", 70_000, 3))
TURNS, READS, PLACED = 9, 1_000_000, 10


class Failure(Exception):
    """What was seen isn't what is wanted."""


def run(*words):
    """What a run printed, word by word, and what the system says of it."""
    with subprocess.Popen(words, stdout=subprocess.PIPE) as process:
        line = process.stdout.read().split()
        _, status, used = os.wait4(process.pid, 0)
        process.returncode = os.waitstatus_to_exitcode(status)
    if process.returncode != 0:
        raise Failure(f"{' '.join(words[1:])}: status {process.returncode}")
    return line, used


def steps_of(program, steps, name, between, store="shared"):
    """The most memory of a run of so many steps, in KB, and how many the audit answered."""
    line, used = run(program, store, name, "1", *(str(it // LISTS[name]) for it in (steps, between)))
    return used.ru_maxrss, int(line[3])


def compare(program, name, steps, between):
    first, _ = steps_of(program, FIRST, name, BETWEEN)
    most, audited = steps_of(program, steps, name, between)
    rounds, since = steps // LISTS[name], BETWEEN // LISTS[name]
    # The last checkpoint comes before the round that is one too many.
    left = (rounds - 1) % since + 1
    if most > 2 * first:
        raise Failure(f"{name}: {most} KB, and {first} KB in the first {FIRST} steps")
    if audited != left * LISTS[name]:
        raise Failure(f"{name}: {audited} steps are audited, and not {left * LISTS[name]}")
    return f"{name}: {steps} steps in {most} KB, the first {FIRST} in {first} KB"


def is_short(program, name, limit):
    half, whole = (steps_of(program, steps, name, 0, "unaudited")[0] for steps in (HALF, 2 * HALF))
    took = (whole - half) * 1024 / HALF
    if took > limit:
        raise Failure(f"{name}: a step takes {took:.1f} bytes, and not {limit}")
    return f"{name}: a step takes {took:.1f} bytes, of {limit}"


def touches_few(program, after, before):
    """The pages that a checkpoint touches first, of those after so many and before so many."""
    first, last = (pages(program, it) for it in (after, before))
    touched = (last - first) / (before - after)
    if touched > PAGES:
        raise Failure(f"a checkpoint touches {touched:.0f} pages, and not {PAGES}")
    return f"a later checkpoint touches {touched:.1f} pages, of {PAGES}"


def pages(program, checkpoints):
    """How many pages a run touches first that makes VALUES boxes, and then so many checkpoints."""
    _, used = run(program, "unaudited", "keeps", "1", str(VALUES), str(checkpoints))
    return used.ru_minflt


def reads(program, name, places, count):
    """What the system says of a run that reads at each of so many places, and then so many times at the last ones."""
    return run(program, "unaudited", name, "1", str(places + count), str(places))[1]


def seconds(program, name, places):
    """The processor seconds of READS reads, after each of so many places has come."""
    before, after = (reads(program, name, places, it) for it in (0, READS))
    return after.ru_utime + after.ru_stime - before.ru_utime - before.ru_stime


def finds_places(program, name, places, limit):
    taken = [(seconds(program, name, places), seconds(program, "places", 1)) for _ in range(TURNS)]
    many, one = (statistics.median(it) for it in zip(*taken))
    times = many / one
    if times > limit:
        raise Failure(f"{name}: reads at {places} places take {times:.2f} times those at one, and not {limit}")
    return f"{name}: reads at {places} places take {times:.2f} times those at one, of {limit}"


def numbers_places(program, name, places):
    """How many bytes a step takes after each of so many places has come."""
    before, after = (reads(program, name, places, it * READS).ru_maxrss for it in (2, 3))
    took = (after - before) * 1024 / (2 * READS)
    if took > PLACED:
        raise Failure(f"{name}: a step at {places} places takes {took:.1f} bytes, and not {PLACED}")
    return f"{name}: a step at {places} places takes {took:.1f} bytes, of {PLACED}"


def find_out(what, tried, *words):
    try:
        tried(*words)
    except Failure:
        return
    raise Failure(f"{what} passed")


def main(path):
    program = os.path.abspath(path)
    for name in LISTS:
        print(compare(program, name, STEPS, BETWEEN))
        print(is_short(program, name, BYTES[name]))
    print(touches_few(program, 2, 12))
    for name, places, limit in PLACES:
        print(finds_places(program, name, places, limit))
    print(numbers_places(program, "places", 1000))
    print(numbers_places(program, "forgotten", 70_000))
    find_out("steps at places without numbers", numbers_places, program, "places", 70_000)
    find_out("a third of the time", finds_places, program, "places", 500, 0.3)
    find_out("memory for the first two", touches_few, program, 0, 2)
    find_out("a run without checkpoints", compare, program, "reads", STEPS // 10, 0)
    find_out("a limit of 8 bytes", is_short, program, "reads", 8)


if __name__ == "__main__":
    try:
        main(*sys.argv[1:])
    except Failure as failure:
        sys.exit(f"checkpoints: {failure}")
