#!/usr/bin/env python3
"""Compares the libraries above the boxes with what a user would pick instead: a table for PERFORMANCE.md.

    bench/compare.py PROGRAM CRATES BUILD [--things N,N..] [--rounds N] [--lists LIST,LIST..]

PROGRAM is what `rt run` makes of crates/bench_libraries. CRATES is a folder of crates' sources with
slotmap, as Debian's librust-slotmap-dev and librust-version-check-dev unpack them
(usr/share/cargo/registry). BUILD is a folder for what is built: the peers, and a library that lets clocks
tell processor time.

All subjects of a list make the same operations in turn, a round after the other, and must see the same.
A row has the instructions of a call with 20,000 things, of this repository and of the peers (valgrind's
callgrind); and for each number of things the nanoseconds of a call in the peer that is faster there (the
median of the rounds), and this repository's ratio to it (the median of the rounds' ratios).
"""
import argparse
import os
import pathlib
import re
import shutil
import statistics
import subprocess
import sys

HERE = pathlib.Path(__file__).resolve().parent
COUNTED = 20_000
# The works of the table of memos, each a list of its own. A round is a call of each node.
WORKS = ["chain", "unrelated", "fan", "watched", "ladder", "unchanged", "last", "first", "sums"]
ROUNDS = 10
# How many calls each operation makes of n things, where it isn't one for each.
CALLS = {
    ("entities", "get"): 10, ("entities", "iter"): 10, ("entities", "update"): 10, ("entities", "replace"): 5,
    ("entities", "part"): 10, ("entities", "parts_iter"): 10, ("entities", "join"): 10,
    ("trees", "get"): 10, ("trees", "children"): 5, ("trees", "outline"): 10,
    ("sessions", "login"): 0.1, ("sessions", "get"): 10, ("sessions", "entry"): 5, ("sessions", "entries"): 5,
    ("sessions", "touch"): 0.1, ("sessions", "expire"): 0.001, ("sessions", "logout"): 0.1,
    ("documents", "add"): 0.1, ("documents", "repeat"): 0.9, ("documents", "get"): 10,
}
CALLS |= {(f"memo-{work}", "rounds"): ROUNDS for work in WORKS}
# The tables: a list, and its peers by the name of each in the table. Where there are two, the ratio is to
# the faster one.
TABLES = [
    ("entities", {"slotmap": "entities", "its dense map": "entities-dense"}),
    ("trees", {"an arena": "trees"}),
    ("sessions", {"maps of maps": "sessions"}),
    ("documents", {"two slotmaps": "documents-slots"}),
    ("documents", {"`Rc`": "documents"}),
    ("files", {"a plain loop": "files"}),
]


def build(crates, folder):
    """The peers, and the environment in which programs are timed."""
    shutil.copytree(HERE / "peers", folder / "source", dirs_exist_ok=True)
    source = ["--config", 'source.crates-io.replace-with="here"', "--config", f'source.here.directory="{crates}"']
    words = ["cargo", "build", "--quiet", "--release", "--offline", "--target-dir", str(folder / "peers"), *source]
    subprocess.run(words, cwd=folder / "source", check=True)
    clock = folder / "cputime.so"
    subprocess.run(["cc", "-O2", "-shared", "-fPIC", "-o", str(clock), str(HERE / "cputime.c")], check=True)
    return folder / "peers/release/peers", {**os.environ, "LD_PRELOAD": str(clock)}


def timed(words, things, environment):
    """What a run saw, and the nanoseconds of each operation with so many things."""
    repetitions = max(1, 100_000 // things)
    ran = subprocess.run([*words, str(things), str(repetitions)], capture_output=True, text=True, check=True,
                         env=environment)
    first, *lines = ran.stdout.splitlines()
    pairs = (line.split() for line in lines)
    return first, {name: int(nanos) / repetitions for name, nanos in pairs}


def counted(words, list_name, folder):
    """The instructions of a call of each operation: those of the function of its name."""
    file = folder / "callgrind.out"
    words = ["valgrind", "--tool=callgrind", f"--callgrind-out-file={file}", *words, str(COUNTED), "1"]
    ran = subprocess.run(words, capture_output=True, text=True, check=True)
    costs = inclusive(file.read_text(encoding="utf-8", errors="replace"))
    found = {}
    for operation in (line.split()[0] for line in ran.stdout.splitlines()[1:]):
        own = re.compile(rf"(bench_libraries|peers)::.*\b{operation}(::<.*)?$")
        cost = max((cost for function, cost in costs.items() if own.match(function)), default=None)
        found[operation] = cost and cost / COUNTED / CALLS.get((list_name, operation), 1)
    return found


def inclusive(text):
    """The instructions of each function, with those of what it calls, from callgrind's file."""
    names, costs, function = {}, {}, None
    for line in text.splitlines():
        if line.startswith("cfn="):
            named(line[4:], names)
        elif line.startswith("fn="):
            function = named(line[3:], names)
        elif function is not None and line[:1] in "+-*0123456789" and line:
            costs[function] = costs.get(function, 0) + int(line.split()[1])
    return costs


def named(word, names):
    """The name that callgrind's file gives in full once, and by its number from then on."""
    number, _, name = word.partition(" ")
    if name:
        names[number] = name
    return names[number]


def rounds_of(subjects, things, rounds, environment):
    """For each subject and operation the nanoseconds of each round."""
    times = {}
    for _ in range(rounds):
        seen = set()
        for name, words in subjects.items():
            saw, laps = timed(words, things, environment)
            seen.add(saw)
            for operation, nanos in laps.items():
                times.setdefault(operation, {}).setdefault(name, []).append(nanos)
        if len(seen) != 1:
            sys.exit(f"{list(subjects)} see different things: {seen}")
    return times


def cell(list_name, operation, things, times):
    """The nanoseconds of a call in the faster peer, and this repository's ratio to it."""
    ours = times.pop("")
    peer = min(times.values(), key=statistics.median)
    ratio = statistics.median(own / other for own, other in zip(ours, peer))
    nanos = statistics.median(peer) / things / CALLS.get((list_name, operation), 1)
    return f"{ratio:.1f} ({nanos:.1f})"


def subjects_of(list_name, peers, program, arguments):
    """The words that run each subject of a list."""
    subjects = {"": [arguments.program, list_name]}
    return subjects | {name: [str(program), word] for name, word in peers.items()}


def heading(name, peers, arguments):
    heads = ["this", *peers, *(f"{n:,}" for n in arguments.things)]
    print(f"\n| {name} | " + " | ".join(heads) + " |\n|" + "---|" * (len(heads) + 1))


def table(list_name, peers, program, arguments, environment):
    """Prints the table of a list beside its peers."""
    subjects = subjects_of(list_name, peers, program, arguments)
    counts = {name: counted(words, list_name, arguments.build) for name, words in subjects.items()}
    times = {n: rounds_of(subjects, n, arguments.rounds, environment) for n in arguments.things}
    heading(list_name, peers, arguments)
    for operation in counts[""]:
        cells = ["" if it[operation] is None else f"{it[operation]:.0f}" for it in counts.values()]
        cells += [cell(list_name, operation, n, times[n][operation]) for n in arguments.things]
        print(f"| `{operation}` | " + " | ".join(cells) + " |", flush=True)


def memo_table(program, arguments, environment):
    """Prints the table of memos: a row for each work, of which the rounds are timed."""
    heading("memos", ["pull", "marks"], arguments)
    for work in WORKS:
        name = f"memo-{work}"
        peers = {graph: f"{graph}:{name}" for graph in ("pull", "marks")}
        subjects = subjects_of(name, peers, program, arguments)
        counts = [counted(words, name, arguments.build)["rounds"] for words in subjects.values()]
        times = {n: rounds_of(subjects, n, arguments.rounds, environment)["rounds"] for n in arguments.things}
        cells = [f"{count:.1f}" for count in counts] + [cell(name, "rounds", n, times[n]) for n in arguments.things]
        print(f"| `{work}` | " + " | ".join(cells) + " |", flush=True)


def numbers_in(text):
    return [int(it) for it in text.split(",")]


def main():
    parser = argparse.ArgumentParser(description=__doc__.splitlines()[0])
    parser.add_argument("program")
    parser.add_argument("crates", type=pathlib.Path)
    parser.add_argument("build", type=pathlib.Path)
    parser.add_argument("--things", type=numbers_in, default=[1_000, 100_000, 1_000_000])
    parser.add_argument("--rounds", type=int, default=5)
    parser.add_argument("--lists", default=",".join([*dict.fromkeys(list_name for list_name, _ in TABLES), "memos"]))
    arguments = parser.parse_args()
    program, environment = build(arguments.crates.resolve(), arguments.build.resolve())
    for list_name, peers in TABLES:
        if list_name in arguments.lists.split(","):
            table(list_name, peers, program, arguments, environment)
    if "memos" in arguments.lists.split(","):
        memo_table(program, arguments, environment)


if __name__ == "__main__":
    main()
