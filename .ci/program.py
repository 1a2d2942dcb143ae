#!/usr/bin/env python3
"""Runs the program `boxes` with words, with streams that fail, and with a caller who waits.

    .ci/program.py PROGRAM

PROGRAM is `boxes`, as `rt ci` leaves it in its crate's out/.

- With each list of words it ends with the status, the output and the text that a table has. Some
  words are none that it knows, and some are no UTF-8. A list of 100,000 calls is drawn, and one more is refused.
- With little memory a list ends with status 3.
- Where standard input can't be read, or standard output not be written, it ends with status 1 and the text; where
  standard error is closed, with the same status.
- A caller gives a line only when the reply to the last one was seen, for each row of refuse/rows/. A reply is awaited
  for some seconds; then the program is ended, and that is a failure.

At the end programs that are wrong in one way each, as one that keeps its replies back, are tried: all are found out.

Status 4 isn't among these: the two stores of the program answer each list alike. Tests hand in others.
"""

import os
import resource
import select
import subprocess
import sys
import time

HERE = os.path.dirname(os.path.abspath(__file__))
sys.path.insert(0, os.path.join(HERE, "refuse"))
from refuse import Failure, rows, wanted  # noqa: E402

USAGE = "boxes: usage: boxes or boxes fuzz SEED COUNT\n"
LINES = 1_000_000
# Words, with the status and the output that they have.
LISTS = [
    ("fuzz 1 200", 0, "same\n"),
    *((f"fuzz {seed} 20000", 0, "same\n") for seed in range(1, 9)),
    ("fuzz 0 1", 0, "same\n"),
    ("fuzz 2 0", 0, "same\n"),
    ("fuzz 18446744073709551615 1000", 0, "same\n"),
    ("fuzz 1 100000", 0, "same\n"),
    ("fuzz 1 100001", 2, ""),
    ("fuzz 18446744073709551616 1", 2, ""),
    ("fuzz 1 18446744073709551617", 2, ""),
    ("fuzz 01 1", 2, ""),
    ("fuzz 1 00", 2, ""),
    ("fuzz -1 1", 2, ""),
    ("fuzz 1 +1", 2, ""),
    ("fuzz 1 1x", 2, ""),
    ("fuzz 1 ", 2, ""),
    ("fuzz  1", 2, ""),
    ("fuzz 1", 2, ""),
    ("fuzz", 2, ""),
    ("fuzz 1 1 1", 2, ""),
    ("Fuzz 1 1", 2, ""),
    ("fuz 1 1", 2, ""),
    ("1 1 fuzz", 2, ""),
    ("script", 2, ""),
    ("--help", 2, ""),
    ("", 2, ""),
]
# Words that are no UTF-8.
BYTES = [[b"\xff"], [b"fuzz", b"\xff", b"1"], [b"fuzz", b"1", b"1\xc3"], [b"fuzz\x80", b"1", b"1"]]
# What the shell makes of the streams, the words, and the status and the text that they have.
STREAMS = [
    ("</", "", 1, "boxes: input failed\n"),
    ("<&-", "", 1, "boxes: input failed\n"),
    (">/dev/full", "", 1, "boxes: output failed\n"),
    (">&-", "", 1, "boxes: output failed\n"),
    (">/dev/full", "fuzz 1 1", 1, "boxes: output failed\n"),
    (">/dev/full", "fuzz 1 x", 2, USAGE),
    ("</", "fuzz 1 1", 0, ""),
    ("2>&-", "fuzz 1 x", 2, ""),
    ("2>&- </", "", 1, ""),
]
# What a list of 100,000 calls doesn't find, and what the program has besides, in bytes of addresses.
LITTLE = 40_000_000
# For how many seconds a run, and a reply, is awaited.
RUN = 120
REPLY = 20


class Waiter:
    """Gives the program lines, and awaits its replies."""

    def __init__(self, program, seconds):
        self.seconds, self.seen = seconds, b""
        self.started = subprocess.Popen(program, stdin=subprocess.PIPE, stdout=subprocess.PIPE, bufsize=0)

    def give(self, text):
        try:
            self.started.stdin.write(text.encode())
        except BrokenPipeError as error:
            raise Failure(f"it reads no more, after {self.seen!r}") from error

    def take(self, until):
        """What the program writes, up to a line's end; or up to its own end."""
        end = time.monotonic() + self.seconds
        while not (until and self.seen.endswith(until)):
            ready, _, _ = select.select([self.started.stdout], [], [], max(0, end - time.monotonic()))
            wanted(ready, f"no reply in {self.seconds} seconds, after {self.seen!r}")
            read = os.read(self.started.stdout.fileno(), 4096)
            if not read:
                break
            self.seen += read
        seen, self.seen = self.seen.decode(), b""
        return seen

    def __enter__(self):
        return self

    def __exit__(self, *_):
        """The program is ended where it hasn't ended itself."""
        self.started.kill()
        self.started.stdin.close()
        self.started.stdout.close()
        self.started.wait()


def run(program, words, given=b"", **how):
    ended = subprocess.run([*program, *words], input=given, capture_output=True, timeout=RUN, check=False, **how)
    return ended.returncode, ended.stdout.decode(), ended.stderr.decode()


def try_words(program):
    """Whatever the words are, a script that is given isn't read."""
    for words, status, output in LISTS:
        found = run(program, words.split(" "), b"leak a\n")
        faults = USAGE if status else ""
        wanted(found == (status, output, faults), f"{words!r}: {found}")
    for words in BYTES:
        found = run(program, words)
        wanted(found == (2, "", USAGE), f"{words}: {found}")
    return len(LISTS) + len(BYTES)


def with_little_memory():
    resource.setrlimit(resource.RLIMIT_AS, (LITTLE, LITTLE))


def try_little_memory(program):
    status, output, faults = run(program, ["fuzz", "1", "100000"], preexec_fn=with_little_memory)
    wanted((status, faults) == (3, "boxes: out of memory\n"), f"with little memory: {status}, {faults!r}")
    wanted(output == "" or output.startswith("refused at "), f"with little memory: {output!r}")


def try_streams(program):
    for streams, words, status, faults in STREAMS:
        shell = ["sh", "-c", f'exec "$@" {streams}', "sh", *program]
        found = run(shell, words.split(), b"leak a\n")
        wanted(found[::2] == (status, faults), f"{words} {streams}: {found}")
    return len(STREAMS)


def try_limit(program):
    """The lines up to the limit are answered, and the next is a fault."""
    wanted(run(program, [], b"\n" * LINES) == (0, "bad line\n" * LINES, ""), f"{LINES} lines")
    too_many = run(program, [], b"\n" * (LINES + 1))
    wanted(too_many == (2, "bad line\n" * LINES, "boxes: too many lines\n"), f"{LINES} lines and one more")


def converse(program, row, seconds=REPLY):
    """Gives a row's commands, each when the reply to the last one was seen."""
    with Waiter(program, seconds) as waiter:
        for line in row:
            waiter.give(line.command + "\n")
            reply = waiter.take(b"\n")
            wanted(reply == line.reply + "\n", f"{line.command}: {reply!r}")
        waiter.give(row[0].command)
        waiter.started.stdin.close()
        wanted(waiter.take(None).count("\n") == 1, "a last line without an end")
        wanted(waiter.started.wait(seconds) == 0, "the status at the input's end")


def try_conversations(program):
    for name, row in rows():
        try:
            converse(program, row)
        except Failure as failure:
            raise Failure(f"{name}: {failure}") from failure
    return len(rows())


def try_all(program):
    met = try_words(program), try_streams(program), try_conversations(program)
    try_little_memory(program)
    try_limit(program)
    return met


def shell_around(script, program):
    return ["sh", "-c", script, *program]


# Programs that are wrong, and what finds each out.
WRONG = [
    ('"$0" "$@"; exit 0', try_words),
    ('"$0" "$@"; exit 0', try_streams),
    ('"$0" "$@"; exit 0', try_little_memory),
    ('"$0" "$@" 2>&1', try_words),
    ('"$0" "$@" 2>/dev/null', try_words),
    ('"$0" "$@" 2>/dev/null', try_streams),
    ('"$0" "$@" | tail -n 1', lambda program: converse(program, rows()[0][1], 2)),
    ('if [ $# = 3 ]; then "$0" "$1" "$2" 100; else "$0" "$@"; fi', try_words),
    ('if [ $# = 3 ]; then echo same; else "$0" "$@"; fi', try_words),
    ('head -n 1000000 | "$0" "$@"', try_limit),
]


def find_out_wrong(program):
    for script, act in WRONG:
        try:
            act(shell_around(script, program))
        except Failure:
            continue
        raise Failure(f"{script} passed")


def main(path):
    program = [os.path.abspath(path)]
    try:
        words, streams, conversations = try_all(program)
        find_out_wrong(program)
    except (Failure, subprocess.TimeoutExpired) as failure:
        sys.exit(f"program: {failure}")
    print(f"boxes: {words} lists of words, {streams} pairs of streams, {conversations} conversations, {LINES} lines")


if __name__ == "__main__":
    main(*sys.argv[1:])
