#!/usr/bin/env python3
"""Runs a check and prints how many seconds of processor time each function took, the dearest first.

    .ci/functions.py [--most N] [--keep] [WORD..]     in a crate's folder; the words are those of `rt check`

The check is done from nothing: what is kept of the crate is set aside meanwhile. With --keep it isn't,
and only what changed is told. A function's time is what the checking processes took between the line
that tells the one before it and its own. So the first one's has all that is loaded, and what comes
after the last one is told as the rest. Since `rt check` keeps its work in out/, the prover starts a
process anew for each level of callers: a function with a star has what such a process loads. `rt ci`
keeps nothing there, and with one job it starts none. `rt check` begins with what a checkout of the
same text kept on this machine, if there is one: then change a comment first.
"""
import argparse
import contextlib
import os
import pathlib
import re
import shutil
import subprocess
import sys
import tempfile
import threading

TICKS = os.sysconf("SC_CLK_TCK")
PAUSE = 0.05
# What the system calls a checking process, and one that it has forked.
KERNEL = "(antt-kernel"
CHECKING = ("(rattle", KERNEL)
TOLD = re.compile(r"checked (\S+), \d+ of \d+")


class Watch:
    """The seconds of the checking processes of a session, those that ended too."""

    def __init__(self, session):
        self.session, self.seen, self.looking = session, {}, threading.Lock()
        # the forked ones
        self.kernels = set()

    def seconds(self):
        with self.looking:
            for pid in filter(str.isdigit, os.listdir("/proc")):
                with contextlib.suppress(OSError, ValueError):
                    self.look_at(pid)
            return sum(self.seen.values())

    def look_at(self, pid):
        name, fields = pathlib.Path(f"/proc/{pid}/stat").read_text(errors="replace").rsplit(")", 1)
        fields = fields.split()
        if name.endswith(CHECKING) and int(fields[3]) == self.session:
            key = pid, fields[19]
            seconds = (int(fields[11]) + int(fields[12])) / TICKS
            self.seen[key] = max(seconds, self.seen.get(key, 0))
            if name.endswith(KERNEL):
                self.kernels.add(key)


@contextlib.contextmanager
def set_aside(kept):
    """Keeps what earlier checks kept from this one."""
    if not kept.is_dir():
        yield
        return
    with tempfile.TemporaryDirectory(dir=".") as room:
        shutil.move(kept, room)
        # with an empty folder here the check doesn't begin with another checkout's work
        kept.mkdir()
        try:
            yield
        finally:
            shutil.rmtree(kept, ignore_errors=True)
            shutil.move(f"{room}/{kept.name}", kept)


def run(words):
    """Runs the check; returns its status, the seconds of each function, and of all."""
    command = ["rt", "check", "--progress", "--jobs", "1", *words]
    running = subprocess.Popen(
        command, start_new_session=True, stdout=subprocess.PIPE, stderr=subprocess.STDOUT, text=True
    )
    watch, is_over = Watch(running.pid), threading.Event()

    def look():
        while not is_over.wait(PAUSE):
            watch.seconds()

    looking = threading.Thread(target=look, daemon=True)
    looking.start()
    told, before, started, last = [], 0.0, 0, ""
    for line in running.stdout:
        found = TOLD.match(line)
        if found:
            now = watch.seconds()
            is_first = len(watch.kernels) > started
            told.append((now - before, found[1] + " *" * is_first))
            before, started = now, len(watch.kernels)
        elif line.strip():
            last = line
    status = running.wait()
    is_over.set()
    looking.join()
    print(last, end="")
    return status, told, watch.seconds()


def report(told, whole, most):
    """Prints the dearest functions, and the sums of the others and of all."""
    dearest = sorted(told, reverse=True)
    for seconds, name in dearest[:most]:
        print(f"{seconds:8.1f}  {name}")
    others = [seconds for seconds, _ in dearest[most:]]
    print(f"{sum(others):8.1f}  {len(others)} others")
    print(f"{whole - sum(seconds for seconds, _ in told):8.1f}  the rest")
    first = f"; the first was {told[0][1]}, with {told[0][0]:.1f}" if told else ""
    starts = [seconds for seconds, name in told if name.endswith(" *")]
    print(f"{sum(starts):8.1f}  of them {len(starts)} with the start of a process")
    print(f"{whole:8.1f}  in all, {len(told)} functions{first}")


def main(words):
    parser = argparse.ArgumentParser(description=__doc__.split("\n", maxsplit=1)[0])
    parser.add_argument("--most", type=int, default=25, help="how many functions are told")
    parser.add_argument("--keep", action="store_true", help="check what changed alone")
    given, words = parser.parse_known_args(words)
    with contextlib.nullcontext() if given.keep else set_aside(pathlib.Path("out/incremental")):
        status, told, whole = run(words)
    report(told, whole, given.most)
    return status


if __name__ == "__main__":
    sys.exit(main(sys.argv[1:]))
