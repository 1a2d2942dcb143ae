#!/usr/bin/env python3
"""Times the shared store's workload: nanoseconds a call by the wall and of processor time, and bytes a step.

    bench/shared.py PROGRAM [--beside NAME=PROGRAM].. [--rounds N] [--calls N] [--lists WORD..] [--live N..]

PROGRAM is what `rt run` makes of crates/bench_shared. A program that stands beside it takes the same
words, whichever store it has, and prints the same line. Each round runs each store with each list and 1,
2 and 4 workers, one after another, so that what else runs on the machine reaches all of them alike. What
is printed is the median of the rounds, and that of the rounds' ratios to the floor, by the wall. Calls are
those of all workers together. Processor time is that of the process, user and system, with all of its
threads, and with what it lets go at its end; in `shared` with the audit too. `trimmed` is `unaudited` where
each worker makes a checkpoint after every 100,000 steps of its own. Bytes a step are what the process has more at
its most than with half as many rounds, over the steps of the other half: those of `unaudited` are the history's,
and those of `shared` have the list that the audit answers as well. They aren't told where the half takes no more
than this script itself, whose own memory the system counts as that of what it starts.

For each number of live values there is told by the wall how long a first checkpoint takes, a second one, and one of
the ten after these, each after a box more. The first two touch their memory first. Each packs all slots ahead, with
other calls in between: what the others are stopped for at once is less.

The first line and the last tell the load, and how many processors others than these runs kept busy meanwhile.
"""
import argparse
import math
import os
import resource
import statistics
import subprocess
import sys
import time

STORES = ("shared", "unaudited", "trimmed", "floor")
# The calls of a round, and how many of them are steps.
LISTS = {"reads": (9, 7), "together": (9, 7), "writes": (12, 12)}
WORKERS = (1, 2, 4)
# The steps from one checkpoint to the next.
BETWEEN = 100_000


def run(words):
    """Seconds by the wall and of processor time, calls, and the most memory in bytes of one run."""
    began = time.monotonic()
    with subprocess.Popen([str(it) for it in words], stdout=subprocess.PIPE) as process:
        line = process.stdout.read().split()
        _, status, used = os.wait4(process.pid, 0)
        process.returncode = os.waitstatus_to_exitcode(status)
    seconds = time.monotonic() - began
    if process.returncode != 0:
        sys.exit(f"{' '.join(map(str, words))}: status {process.returncode}")
    return seconds, used.ru_utime + used.ru_stime, int(line[1]), used.ru_maxrss * 1024


def measure(program, store, calls, workers, wanted):
    """Nanoseconds a call by the wall and of processor time, and bytes a step, of one run of about so many calls."""
    in_a_round, steps = LISTS[calls]
    between = []
    if store == "trimmed":
        # each worker makes checkpoints after so many rounds of its own
        store, between = "unaudited", [BETWEEN // steps]
    words, rounds = [program, store, calls, workers], wanted // (in_a_round * workers)
    base_wall, base_used, _, _ = run([*words, 0])
    wall, used, made, most = run([*words, rounds, *between])
    _, _, half_made, half_most = run([*words, rounds // 2, *between])
    own = resource.getrusage(resource.RUSAGE_SELF).ru_maxrss * 1024
    more_steps = (made - half_made) * steps / in_a_round
    bytes_a_step = (most - half_most) / more_steps if half_most > own else math.nan
    return (wall - base_wall) / made * 1e9, (used - base_used) / made * 1e9, bytes_a_step


def checkpoints(program, live):
    """Milliseconds by the wall of the checkpoints at so many live values, of a worker that is alone."""
    none, one, two, twelve = (run([program, "unaudited", "keeps", 1, live, it])[0] for it in (0, 1, 2, 12))
    return (one - none) * 1000, (two - one) * 1000, (twelve - two) * 100


class Busy:
    """How busy others kept the processors."""

    def __init__(self):
        self.began, self.all, self.own = time.monotonic(), self.seconds(), self.children()

    @staticmethod
    def seconds():
        with open("/proc/stat", encoding="ascii") as stat:
            user, nice, system, _, _, irq, soft, stolen = map(int, stat.readline().split()[1:9])
        return (user + nice + system + irq + soft + stolen) / os.sysconf("SC_CLK_TCK")

    @staticmethod
    def children():
        used = os.times()
        return used.user + used.system + used.children_user + used.children_system

    def told(self):
        others = self.seconds() - self.all - (self.children() - self.own)
        busy = others / (time.monotonic() - self.began)
        return f"load {os.getloadavg()[0]:.1f}, others kept {busy:.2f} processors busy"


def main():
    parser = argparse.ArgumentParser(description=__doc__.splitlines()[0])
    parser.add_argument("program")
    parser.add_argument("--beside", action="append", default=[], metavar="NAME=PROGRAM")
    parser.add_argument("--rounds", type=int, default=5)
    parser.add_argument("--calls", type=int, default=4_000_000)
    parser.add_argument("--lists", nargs="+", choices=LISTS, default=list(LISTS))
    parser.add_argument("--live", nargs="*", type=int, default=[1000, 100_000, 1_000_000])
    chosen = parser.parse_args()
    quiet = Busy()
    time.sleep(2)
    print(f"before: {quiet.told()}", flush=True)
    subjects = [(store, chosen.program, store) for store in STORES]
    subjects += [(*word.split("=", 1), "beside") for word in chosen.beside]
    busy, seen, stops = Busy(), {}, {}
    for _ in range(chosen.rounds):
        for calls in chosen.lists:
            for workers in WORKERS:
                for name, path, store in subjects:
                    found = measure(path, store, calls, workers, chosen.calls)
                    seen.setdefault((calls, workers, name), []).append(found)
        for live in chosen.live:
            stops.setdefault(live, []).append(checkpoints(chosen.program, live))
    for (calls, workers, name), found in seen.items():
        wall, used, most = (statistics.median(it) for it in zip(*found))
        floor = seen[calls, workers, "floor"]
        ratio = statistics.median(own[0] / other[0] for own, other in zip(found, floor))
        print(f"{calls:8} {workers} workers {name:10} {wall:7.1f} ns a call by the wall, {ratio:5.2f} of the floor, "
              f"{used:7.1f} of processor time, {most:6.1f} bytes a step")
    for live, found in stops.items():
        first, second, later = (statistics.median(it) for it in zip(*found))
        print(f"checkpoints at {live} values: the first {first:.1f} ms, the second {second:.1f}, a later one {later:.1f}")
    print(f"meanwhile: {busy.told()}")


if __name__ == "__main__":
    main()
