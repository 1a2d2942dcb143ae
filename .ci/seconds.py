#!/usr/bin/env python3
"""Runs the gate and prints how many seconds of processor time each part of it took.

    python3 .ci/seconds.py                        runs `rt ci`
    python3 .ci/seconds.py rt must-fail boxes     runs another command of rt, or .ci/wrong

Parts are a crate's proofs, its tests and each of its edits; and, where it has several, its own
check once more, before the first edit and after the last. The dearest twenty stand first, then the
sums of the crates. Times are read from /proc five times a second, so a part may lack a fifth
of a second for each of its processes. What the linker and the tests themselves take isn't counted.
What the command prints comes as it prints it. Its last line is repeated below the report, and the
exit status is that of the command, whatever becomes of the report.
"""
import contextlib
import os
import signal
import subprocess
import sys
import threading
import time
import traceback

TICKS = os.sysconf("SC_CLK_TCK")
PAUSE = 0.2
# What the system calls a checking process, and one that it has forked to check a part.
CHECKING = ("(rattle", "(antt-kernel")
DEAREST = 20
# For how many seconds output is awaited when the command has ended.
TAIL = 10


def read_process(pid, session):
    """Returns a checking process's key, its seconds, its words and its folder; None if it isn't
    one of the session's."""
    try:
        with open(f"/proc/{pid}/stat", encoding="utf-8", errors="replace") as file:
            name, fields = file.read().rsplit(")", 1)
        fields = fields.split()
        if not name.endswith(CHECKING) or int(fields[3]) != session:
            return None
        with open(f"/proc/{pid}/cmdline", encoding="utf-8", errors="replace") as file:
            words = file.read().split("\0")
        folder = os.readlink(f"/proc/{pid}/cwd")
    except (OSError, ValueError):
        return None
    seconds = (int(fields[11]) + int(fields[12])) / TICKS
    return (int(fields[19]), pid), seconds, words, folder


def read_text(path):
    with open(path, encoding="utf-8", errors="replace") as file:
        return file.read()


def edit_names(crate):
    """The crate's edits."""
    folder = f"crates/{crate}/must-fail"
    if not os.path.isdir(folder):
        return []
    return sorted(name for name in os.listdir(folder) if name.endswith(".edit"))


def edited(crate, name):
    """The files that an edit changes, with the texts that it gives them."""
    texts, path, old = {}, "", ""
    for line in read_text(f"crates/{crate}/must-fail/{name}").split("\n"):
        word, _, text = line.partition(":")
        text = text.removeprefix(" ")
        if word == "file":
            path = text.strip()
            texts.setdefault(path, read_text(f"crates/{crate}/{path}"))
        elif word == "old":
            old = text
        elif word == "new":
            texts[path] = texts[path].replace(old, text)
    return texts


def edit_in(folder, crate):
    """Which of the crate's edits was made in a copy of it: none in the copy that is checked before
    the first and after the last."""
    for name in edit_names(crate):
        with contextlib.suppress(OSError, KeyError):
            texts = edited(crate, name)
            if all(read_text(f"{folder}/{path}") == text for path, text in texts.items()):
                return f"edit {name}"
    return "edits: the crate again"


def watch(session, seen, rooms, is_over):
    """Keeps the greatest time of each process of a session until the command is over, and of each
    copy of a crate which edit was made there. A process that ends has no words any more: those that
    it had are kept."""
    while not is_over.wait(PAUSE):
        for pid in filter(str.isdigit, os.listdir("/proc")):
            found = read_process(pid, session)
            if found:
                key, seconds, words, folder = found
                before = seen.get(key, (0, words, folder))
                if "--crate-name" not in words:
                    words, folder = before[1:]
                seen[key] = (max(seconds, before[0]), words, folder)
                if "/rt-edit-" in folder and folder not in rooms and "--crate-name" in words:
                    rooms[folder] = edit_in(folder, words[words.index("--crate-name") + 1])


def part_of(words, folder, rooms):
    """Which part of the gate a process belongs to: its crate, and what of the crate."""
    crate = words[words.index("--crate-name") + 1]
    if "/rt-edit-" in folder:
        return crate, rooms.get(folder, "edits: the crate again")
    if "/wrong-" in folder:
        return crate, "edits of wrong/"
    return crate, "tests" if "--test" in words else "proofs"


def parts_in(seen, rooms):
    """The seconds of each part."""
    parts = {}
    for _, (seconds, words, folder) in sorted(seen.items()):
        if "--crate-name" in words:
            part = part_of(words, folder, rooms)
            parts[part] = parts.get(part, 0) + seconds
    return parts


def report(parts, clock):
    """Prints the dearest parts, and the sums of the crates."""
    dearest = sorted(parts.items(), key=lambda item: -item[1])
    print(f"\nprocessor seconds, the dearest {DEAREST} parts first")
    for (crate, part), seconds in dearest[:DEAREST]:
        print(f"{seconds:9.1f}  {crate}: {part}")
    print(f"\n{'crate':24}{'proofs':>9}{'tests':>9}{'edits':>9}{'in all':>9}")
    for crate in sorted({crate for crate, _ in parts}):
        sums = [0.0, 0.0, 0.0]
        for (name, part), seconds in parts.items():
            if name == crate:
                sums[0 if part == "proofs" else 1 if part == "tests" else 2] += seconds
        print(f"{crate:24}" + "".join(f"{it:9.1f}" for it in [*sums, sum(sums)]))
    whole = sum(parts.values())
    print(f"\n{whole:.0f} seconds, {whole / 60:.1f} minutes; {clock / 60:.1f} minutes by the clock")


class Output(threading.Thread):
    """Prints what comes from a command as it comes, and keeps its last line that isn't empty."""

    def __init__(self, source):
        super().__init__(daemon=True)
        self.source, self.line, self.ended = source, b"", b""

    def run(self):
        with self.source:
            while chunk := os.read(self.source.fileno(), 65536):
                sys.stdout.buffer.write(chunk)
                sys.stdout.buffer.flush()
                *ended, self.line = (self.line + chunk).split(b"\n")
                self.ended = next((it for it in reversed(ended) if it.strip()), self.ended)

    def last(self):
        return self.line if self.line.strip() else self.ended


def pass_signals_on(group):
    """Has a signal to end sent to all that the command started."""

    def send(number, _):
        with contextlib.suppress(ProcessLookupError):
            os.killpg(group, number)

    for number in (signal.SIGINT, signal.SIGTERM, signal.SIGHUP):
        signal.signal(number, send)


def run(command, seen, rooms):
    """Runs the command while its processes are watched; returns its status and its last line."""
    is_over, variables = threading.Event(), {**os.environ, "PYTHONUNBUFFERED": "1"}
    running = subprocess.Popen(
        command, start_new_session=True, stdout=subprocess.PIPE, env=variables
    )
    pass_signals_on(running.pid)
    output = Output(running.stdout)
    watcher = threading.Thread(target=watch, args=(running.pid, seen, rooms, is_over), daemon=True)
    output.start()
    watcher.start()
    status = running.wait()
    is_over.set()
    watcher.join()
    # what the command left behind may hold the pipe open
    output.join(TAIL)
    return status if status >= 0 else 128 - status, output.last()


def main(command):
    seen, rooms, began = {}, {}, time.time()
    status, last = run(command, seen, rooms)
    try:
        report(parts_in(seen, rooms), time.time() - began)
    except Exception:  # the status and the last line come all the same
        traceback.print_exc()
    sys.stdout.flush()
    sys.stdout.buffer.write(b"\n" + last + b"\n" if last else b"")
    sys.stdout.buffer.flush()
    return status


if __name__ == "__main__":
    sys.exit(main(sys.argv[1:] or ["rt", "ci"]))
