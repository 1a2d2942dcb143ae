#!/usr/bin/env python3
"""Refuses the program `boxes` each allocation, each read and each write in turn.

    .ci/refuse/refuse.py PROGRAM TESTS..

PROGRAM is `boxes`, and TESTS are those of `test_boxes`, `test_shared` and other crates, as `rt ci` leaves them in
the crates' out/.

A row is a script with its replies, in rows/: lines of a mark, a command, a bar and the reply. The
mark is `!` where the reply has memory of its own to ask for, so that one run or another is refused
there, and a space where none is. For each N the row is run with the N-th allocation refused, and
again with what is asked for next refused too, as long as it is less each time:

- A command that is refused says so, and only a marked one may. The lines after it are answered as
  where it is no command: those that name it find no such thing. Asked again in the next line it
  gives the row's reply, and so does every other line: the refusal left nothing behind.
- Where a line finds no memory before it is a command, the run ends with status 3 and its text,
  after the replies to all lines before.
- Each marked command was refused in some run. How often each row is, the file `counts` says.
- Where what is less is given, only readers beside others are refused, and refusals with a list: who
  is refused a step of room takes a smaller one.

Then all that is asked for from the N-th allocation on is refused, for each N, and what is more than
so many bytes at once, from as many as the row takes down to too few for a reply. More than one line
may be refused so, and the others are answered as where all those are no commands. Some rows have
replies that are wanted of one of these runs.

Then each read and each write fails in turn: status 1, its text, and the replies to all lines before
a read that failed; what was written is a beginning of the replies.

Drawn lists are run so as `fuzz SEED 200`, for the seeds 1 to 4: they say `refused at N`, or nothing
where it wasn't a call that lacked memory, and `same` where none did. As no replies are printed, tests
in `drawn_memory` run the same lists, and compare all replies before the refusal with those of a run
that is refused nothing.

The tests in modules named `memory`, or with a name that ends so, like `entity_memory`, are run so.
They ask again what lacked memory, and pass. Those in `steps` ask once: where one allocation is refused a smaller step
follows, and every call is carried out.

Whatever is refused, at its end a run has given back all memory. So has each of the tests where nothing is refused, but
for what the C library keeps of each thread for the next one. Those that show how something grows, one that
reserves room, and a short one, have such limits too. One passes with just what it needs, where it asks for more first.

A script of 100,000 leaks is run with less memory than it takes, from 3 to 40 megabytes. It ends
with status 0 or 3, and makes nearly as many values as fit.

Long scripts of one kind of line ask for memory a limited number of times, and have so many bytes at once
at most. Either limit is three times what they take: room grows by leaps, and by few at first.

At the end a few wrong rows are made of one of these, and a program that is refused nothing, one to
which a refused line gave something, and one that keeps a byte, and more values are wanted than fit,
and lower limits: all are found out.
"""

import os
import subprocess
import sys
import tempfile
from dataclasses import dataclass
from functools import cached_property
from itertools import count, takewhile

HERE = os.path.dirname(os.path.abspath(__file__))
COUNTS = os.path.join(HERE, "counts")
REFUSED = "refused: out of memory"
ERRORS = {
    "dropped: ": "error: Failed to borrow because the value was dropped.created_at: ",
    "written: ": "error: Failed to borrow because the value was already borrowed mutably.borrowed_mut_at: ",
    "read: ": "error: Failed to borrow mutably because the value was already borrowed immutably.borrowed_at:",
}
# How many words after a command are numbers of lines.
ONE = ("leak_reference insert insert_rc clone leak_owner try_read try_write show replace release set end "
       "can_read can_write id created_at")
NAMES = dict.fromkeys(ONE.split(), 1) | dict.fromkeys(["insert_reference", "point_to", "ptr_eq"], 2)
SEEDS = range(1, 5)
COUNT = 200
LEAKS = 100_000
MEGABYTES = range(3, 41)
# What the program has besides, and what a leak takes there, in bytes: its slot 40, the slot's details 32, a list of
# borrows 40 with its index 4, a link 4, the place of its call 64, that of its line 24 and its text 24.
BESIDES = 30_000
LEAK = 232
# While a buffer grows there are the old one and the new one. So the largest, that of the places, counts twice.
MOVED = 64
# Scripts with how often they may ask for memory, and how many bytes they have at once.
FRUGAL = {
    "leaks": ("leak \n" * 20_000, 220, 22_000_000),
    "owners": ("owner\n" * 20_000, 180, 13_800_000),
    "boxes of one owner": ("owner\n" + "insert 1 \n" * 20_000, 270, 23_600_000),
    "readers of one box": ("leak \n" + "try_read 1\n" * 20_000, 160, 11_800_000),
    "questions": ("leak \n" + "can_read 1\n" * 20_000, 120, 8_700_000),
    "one box": ("leak \n", 40, 50_000),
    "owners of a box": ("".join(f"owner\ninsert {2 * i + 1} \n" for i in range(1000)), 3_200, 1_400_000),
    "boxes of two readers": ("".join("leak \n" + f"try_read {3 * i + 1}\n" * 2 for i in range(1000)), 6_200, 1_900_000),
}
# Tests with the same. Some of `growth` read a file each time they look.
FRUGAL_TESTS = {
    "growth::slots": (3_200, 46_000_000),
    "growth::references": (3_200, 46_000_000),
    "growth::an_owners_list": (3_200, 52_000_000),
    "growth::places": (3_200, 22_000_000),
    "growth::a_scopes_signals": (200, 48_000_000),
    "growth::entities": (220, 15_500_000),
    # Each session has a list of its own.
    "growth::logins": (1_200_000, 250_000_000),
    "growth::entries": (410, 70_000_000),
    "growth::children": (220, 18_700_000),
    "growth::parts": (270, 22_500_000),
    "box_memory::makings_in_reserved_room": (60, 50_000),
    "beside::a_crowd_of_workers": (4_200, 9_300_000),
    "unshared::calls_without_threads": (33, 8_000),
    "chunks::again::chunks_serve_again": (540, 1_215_000),
}
# Tests that ask for room beyond what they need, and how many bytes that is: they pass with so many less than they have
# at once, and not with more than these less.
TIGHT_TESTS = {"chunks::tight::room_for_what_is_needed": 3_000 * 8}
LITTLE_MORE = 64
MEMORY = "memory"
STEPS = "steps"
WRONG = "every_command.row"
# A line that is no command, and in what steps a row has less and less memory, in bytes.
BAD_LINE = "leek"
STEP = 32
# What a row is answered in some run with all memory refused from one allocation on: a reader beside another lacks it,
# and none that is a value's only one.
WITH_NONE = {
    "first_readers.row": ["box 0@1", *["reader", "ok"] * 3, "reader", "false", REFUSED, "ok", "no such", "reader", "ok",
                          "reader", "value a"],
}
# What a row is answered in some run with less memory than it takes: the second value finds no slot.
WITH_LITTLE = {"two_values.row": ["box 0@1", REFUSED, "reader", "no such"]}
# The C library keeps a thread's stack for the next one, with the vector of its own variables; and how many threads.
OF_A_THREAD, THREADS = 296, 8


class Failure(Exception):
    """What was seen isn't what is wanted."""


@dataclass
class Line:
    may_lack: bool
    command: str
    reply: str


@dataclass
class Run:
    status: int
    output: list
    faults: str
    refused: bool
    asked: int
    peak: int


class Program:
    """The program under the library that refuses. With threads it may keep so many bytes of each."""

    def __init__(self, path, library, room, of_a_thread=0):
        self.path, self.library, self.report = path, library, os.path.join(room, "report")
        self.of_a_thread = of_a_thread

    def may_keep(self, left):
        threads, rest = divmod(left, self.of_a_thread or left + 1)
        return rest == 0 and threads < THREADS

    def run(self, words=(), script="", **refusals):
        environment = {f"REFUSE_{what.upper()}": str(at) for what, at in refusals.items()}
        environment |= {"LD_PRELOAD": self.library, "REFUSE_REPORT": self.report}
        with open(self.report, "w", encoding="utf-8") as report:
            report.write("0 0 0 1 0 0\n")  # what a program leaves that is ended by a signal
        ended = subprocess.run([self.path, *words], input=script.encode(), capture_output=True,
                               env=environment, timeout=60, check=False)
        with open(self.report, encoding="utf-8") as report:
            asked, _, _, refused, left, peak = report.read().split()
        wanted(self.may_keep(int(left)), f"{left} bytes aren't given back: {[*words]}, {refusals}, {script!r}")
        return Run(ended.returncode, ended.stdout.decode().splitlines(), ended.stderr.decode(), refused == "1",
                   int(asked), int(peak))


def wanted(ok, what):
    if not ok:
        raise Failure(what)


def whole(reply):
    """The reply with the whole text of an error."""
    for word, text in ERRORS.items():
        if reply.startswith(word):
            places = reply[len(word):]
            return text + (places if word != "read: " else "".join("\t" + it for it in places.split()))
    return reply


def row_at(path):
    with open(path, encoding="utf-8") as row:
        halves = [line.rstrip("\n").rsplit(" | ", 1) for line in row]
    return [Line(it[0][0] == "!", it[0][2:].rstrip(), whole(it[1])) for it in halves]


def script_of(lines):
    return "".join(line.command + "\n" for line in lines)


def named(words):
    """Where among the words of a command the numbers of lines stand."""
    return range(1, 1 + NAMES.get(words[0], 0))


def moved(line, at):
    """The line where those from the at-th on, counted from 1, stand two lines lower."""
    words, parts = line.command.split(" "), line.reply.split("script:")
    for i in named(words):
        words[i] = str(int(words[i]) + 2 * (int(words[i]) >= at))
    for i in range(1, len(parts)):
        number, rest = parts[i].split(":", 1)
        parts[i] = f"{int(number) + 2 * (int(number) >= at)}:{rest}"
    return Line(line.may_lack, " ".join(words), "script:".join(parts))


def names_one_of(line, numbers):
    words = line.command.split(" ")
    return any(int(words[i]) in numbers for i in named(words))


class Expected:
    """The replies to a row's lines, by the numbers of those that are refused, from 1. A refused line gives nothing.
    So the others are answered as where a line that is no command stands in its place, and there is no such thing as
    it names."""

    def __init__(self, program, row):
        self.program, self.row = program, row
        self.known = {frozenset(): [it.reply for it in row]}

    def replies(self, refused):
        if refused not in self.known:
            lines = [Line(False, BAD_LINE, "") if i in refused else it for i, it in enumerate(self.row, start=1)]
            output = self.program.run(script=script_of(lines)).output
            self.known[refused] = [REFUSED if i in refused else it for i, it in enumerate(output, start=1)]
        return self.known[refused]

    def refused_by(self, run):
        """The lines that were refused in a run, which may have ended for lack of memory. Its replies are as expected."""
        wanted((run.status, run.faults) in [(0, ""), (3, "boxes: out of memory\n")], f"its end: {run}")
        wanted(run.status == 3 or len(run.output) == len(self.row), f"the number of replies: {run}")
        refused = [i for i, it in enumerate(run.output, start=1) if it == REFUSED]
        replies = self.replies(frozenset(refused))
        wanted(run.output == replies[:len(run.output)], f"where lines {refused} are refused: {run}, and not {replies}")
        for line, reply in zip(self.row, run.output):
            wanted(reply in (REFUSED, "no such") or not names_one_of(line, refused), f"{line.command}: {run}")
        return refused

    def run(self, **refusals):
        return self.program.run(script=script_of(self.row), **refusals)

    @cached_property
    def rest(self):
        """The runs with all memory refused from one allocation on."""
        runs = (self.run(allocation=n, all=1) for n in count(1))
        return [*takewhile(lambda run: run.refused, runs)]


def ask_again(program, row, at, refusal):
    """After a command was refused the store counts what it did; asked again, the command gives the
    row's reply, and so do all others."""
    before = program.run(script=script_of(row[:at - 1]) + "stats\n").output[-1]
    refused, counted = Line(True, row[at - 1].command, REFUSED), Line(False, "stats", before)
    lines = row[:at - 1] + [refused, counted] + [moved(it, at) for it in row[at - 1:]]
    run = program.run(script=script_of(lines), **refusal)
    wanted((run.status, run.output) == (0, [it.reply for it in lines]), f"asked again after line {at}: {run}")


def refuse_in_row(expected, **refusal):
    """Which line the refusal refused: 0 where it refused none, and None where there is no such allocation."""
    program, row = expected.program, expected.row
    run = expected.run(**refusal)
    if not run.refused:
        undisturbed = run.status, run.output, run.faults
        wanted(undisturbed == (0, [it.reply for it in row], ""), f"undisturbed: {run}")
        return None
    lost = expected.refused_by(run)
    if not lost:
        return 0
    at = lost[0]
    wanted((run.status, lost) == (0, [at]), f"more than line {at} is refused: {run}")
    wanted(row[at - 1].may_lack, f"line {at} asks for no memory, and was refused: {row[at - 1].command}")
    ask_again(program, row, at, refusal)
    return at


def refused_lines(expected, **how):
    """The lines that were refused, one for each run where one was."""
    found = []
    for n in count(1):
        at = refuse_in_row(expected, allocation=n, **how)
        if at is None:
            return found
        found += [at] * (at > 0)


def refuse_memory(expected):
    """How many runs met a refusal: of one allocation, of what is less too, and of all from one on."""
    row, once, less = expected.row, refused_lines(expected), refused_lines(expected, less=1)
    rest = [lost[0] for lost in map(expected.refused_by, expected.rest) if lost]
    never = [i + 1 for i, it in enumerate(row) if it.may_lack and i + 1 not in less + rest]
    wanted(not never, f"marked, and never refused: lines {never}")
    others = [at for at in rest if not row[at - 1].may_lack]
    wanted(not others, f"the first that is refused, and not marked: lines {others}")
    stiff = [at for at in once if not row[at - 1].reply.startswith(("reader", ERRORS["read: "]))]
    wanted(not stiff, f"refused, though there was memory for less: lines {stiff}")
    return len(once), len(less), len(rest)


def refuse_by_size(expected):
    """The runs with less and less memory, to where there is no reply."""
    for size in range(expected.run().peak, 0, -STEP):
        run = expected.run(beyond=size)
        yield run
        if not run.output:
            return


def refuse_several(expected, name):
    """How many runs refused lines, and answered all, where all memory is refused or there is little."""
    several = 0
    for runs, replies in (expected.rest, WITH_NONE.get(name)), ([*refuse_by_size(expected)], WITH_LITTLE.get(name)):
        found = [run.output for run in runs if expected.refused_by(run) and run.status == 0]
        wanted(replies is None or replies in found, f"{name}: never answered by {replies}")
        several += len(found)
    return several


def fail_each(program, row, what, times):
    """How many reads, or writes, failed in turn. Before the n-th one the replies to n - 1 lines were written."""
    replies, text = [it.reply for it in row], {"read": "input", "write": "output"}[what]
    for n in range(1, times + 1):
        run = program.run(script=script_of(row), **{what: n})
        wanted(run.refused and run.status == 1, f"{what} {n}: {run}")
        wanted(run.faults == f"boxes: {text} failed\n", f"{what} {n}: {run.faults}")
        wanted(run.output == replies[:n - 1], f"the replies before {what} {n}: {run.output}")
    return times


def refuse_in_drawn_list(program, seed, **how):
    """How many runs of the list met a refusal of a call."""
    words, met = ("fuzz", str(seed), str(COUNT)), 0
    for n in count(1):
        run = program.run(words, allocation=n, **how)
        if not run.refused:
            wanted((run.status, run.output) == (0, ["same"]), f"fuzz {seed}: {run}")
            return met
        if run.status == 0:
            wanted(run.output == ["same"], f"fuzz {seed}, {n}: {run}")
            continue
        wanted((run.status, run.faults) == (3, "boxes: out of memory\n"), f"fuzz {seed}, {n}: {run}")
        if run.output:
            words_out = run.output[0].rsplit(" ", 1)
            wanted(len(run.output) == 1 and words_out[0] == "refused at", f"fuzz {seed}, {n}: {run}")
            wanted(int(words_out[1]) < COUNT, f"fuzz {seed}, {n}: {run}")
            met += 1


def refuse_in_test(tests, name, **how):
    """How many allocations of a test were refused in turn."""
    for n in count(1):
        run = tests.run([name], allocation=n, **how)
        wanted(run.status == 0, f"{name}, {n}: {run}")
        if not run.refused:
            return n - 1


def names_of(tests):
    return [line.removesuffix(": test") for line in tests.run(["--list"]).output if line.endswith(": test")]


def of_a_thread(tests):
    return OF_A_THREAD if os.path.basename(tests).startswith("test_shared") else 0


def kind_of(name):
    """What the module of a test is about: `memory` for entity_memory::a_test."""
    return name.rpartition("::")[0].split("::")[-1].split("_")[-1]


def refuse_in_tests(tests):
    found = [(it, name) for it in tests for name in names_of(it) if kind_of(name) == MEMORY]
    wanted(found, "no test of lack of memory is listed")
    for it, name in found:
        met = refuse_in_test(it, name), refuse_in_test(it, name, less=1)
        wanted(min(met) > 0, f"{name}: nothing was refused")
        print(f"{name}: {met[0]} allocations refused, {met[1]} with what is less")


def refuse_steps_in(tests):
    found = [(it, name) for it in tests for name in names_of(it) if kind_of(name) == STEPS]
    wanted(found, f"no test is listed in {STEPS}")
    for it, name in found:
        met = refuse_in_test(it, name)
        wanted(met > 0, f"{name}: nothing was refused")
        print(f"{name}: {met} allocations refused, each followed by a smaller one")


def refuse_nothing_in(tests):
    """The runs of the tests, which give back all memory, as `run` wants."""
    names = names_of(tests)
    wanted(names, f"{tests.path} lists no test")
    runs = {name: tests.run([name]) for name in names}
    for name, run in runs.items():
        wanted(run.status == 0, name)
    print(f"{os.path.basename(tests.path)}: {len(names)} tests give back all memory")
    return runs


def are_frugal_tests(runs, share=1):
    for name, (times, size) in FRUGAL_TESTS.items():
        wanted(name in runs, f"no test is listed as {name}")
        print(is_frugal(name, runs[name], times, size, share))


def needs_no_more(tests, name, beside):
    """A test passes where there are so many bytes less than it has at once, and not where there are a few less than these."""
    peak = tests.run([name]).peak
    wanted(tests.run([name], beyond=peak - beside).status == 0, f"{name}: refused, though what it needs was there")
    wanted(tests.run([name], beyond=peak - beside - LITTLE_MORE).status != 0, f"{name}: it needs less")
    return f"{name}: {peak - beside} bytes are enough, of {peak} that it has where there are more"


def refuse_in_tight_tests(tests):
    listed = {name: it for it in tests for name in names_of(it)}
    for name, beside in TIGHT_TESTS.items():
        wanted(name in listed, f"no test is listed as {name}")
        print(needs_no_more(listed[name], name, beside))
        find_out(f"{name} with less than it needs", needs_no_more, listed[name], name, beside + LITTLE_MORE)
        find_out(f"{name} with more than it needs", needs_no_more, listed[name], name, beside - LITTLE_MORE)


def refuse_beyond(program, size):
    """Runs the leaks with less memory than they take, where size is what one takes."""
    script = "leak a\n" * LEAKS
    for megabytes in MEGABYTES:
        run = program.run(script=script, beyond=megabytes * 1_000_000)
        made = sum(reply.startswith("box ") for reply in run.output)
        wanted(run.status == 0 and len(run.output) == LEAKS or run.status == 3, f"{megabytes} megabytes: {run.status}")
        wanted(made + run.output.count(REFUSED) == len(run.output), f"{megabytes} megabytes: other replies")
        fit = min(LEAKS, (megabytes * 1_000_000 - BESIDES) // size)
        wanted(made >= 0.8 * fit, f"{megabytes} megabytes: {made} values, where {fit} fit")


def is_frugal(what, run, times, size, share=1):
    """Whether a run asked for memory so often at most, and had so many bytes at once; or a share of both."""
    wanted(run.asked <= times // share, f"{what}: memory was asked for {run.asked} times")
    wanted(run.peak <= size // share, f"{what}: there were {run.peak} bytes at once")
    return f"{what}: memory was asked for {run.asked} times, with {run.peak} bytes at once"


def is_frugal_script(program, name, share=1):
    script, times, size = FRUGAL[name]
    return is_frugal(name, program.run(script=script), times, size, share)


def wrong_rows(row):
    """The row with another mark at one line, or another reply."""
    for i, line in enumerate(row):
        for other in (Line(not line.may_lack, line.command, line.reply), Line(line.may_lack, line.command, "else")):
            yield i + 1, row[:i] + [other] + row[i + 1:]


def find_out(what, act, *given):
    try:
        act(*given)
    except Failure:
        return
    raise Failure(f"{what} passed")


class Forgetful(Program):
    """The program, which carries out what is asked of a line that was refused."""

    def run(self, words=(), script="", **refusals):
        run = super().run(words, script, **refusals)
        if REFUSED in run.output:
            run.output = ["reader" if it == "no such" else it for it in run.output]
        return run


class Generous(Program):
    """The program, refused nothing."""

    def run(self, words=(), script="", **refusals):
        return super().run(words, script)


def find_out_wrong_rows(program):
    row, others = dict(rows())[WRONG], (program.path, program.library, os.path.dirname(program.report))
    for at, wrong in wrong_rows(row):
        find_out(f"a row that is wrong at line {at}", refuse_memory, Expected(program, wrong))
    generous, forgetful = Generous(*others), Forgetful(*others)
    find_out("a program that is refused nothing", refuse_memory, Expected(generous, row))
    for name in WITH_NONE | WITH_LITTLE:
        row = dict(rows())[name]
        find_out(f"{name}: memory for all", refuse_several, Expected(generous, row), name)
        find_out(f"{name}: a refused line that gave something", refuse_several, Expected(forgetful, row), "")
    find_out("a refused line that gave something", refuse_memory, Expected(forgetful, row))


def made_library(room):
    library = os.path.join(room, "refuse.so")
    subprocess.run(["cc", "-O1", "-shared", "-fPIC", "-o", library, os.path.join(HERE, "refuse.c")], check=True)
    return library


def made_hoarder(room):
    """A program that keeps a byte."""
    hoarder = os.path.join(room, "hoarder")
    source = b"#include <stdlib.h>\nchar *kept; int main(void) { kept = malloc(1); return !kept; }"
    subprocess.run(["cc", "-O0", "-x", "c", "-o", hoarder, "-"], input=source, check=True)
    return hoarder


def rows():
    folder = os.path.join(HERE, "rows")
    return [(name, row_at(os.path.join(folder, name))) for name in sorted(os.listdir(folder))]


def counts_of_rows():
    """How often each row's calls are refused: alone, with what is less, and with all from there on."""
    with open(COUNTS, encoding="utf-8") as lines:
        words = [line.split() for line in lines if not line.startswith("#")]
    return {f"{name}.row": (int(alone), int(less), int(rest)) for alone, less, rest, name in words}


def refuse_in_rows(program):
    counts = counts_of_rows()
    wanted(sorted(counts) == [name for name, _ in rows()], "there are other rows than counts")
    for name, row in rows():
        expected = Expected(program, row)
        met = refuse_memory(expected)
        wanted(met == counts[name], f"{name}: {met} allocations of calls were refused, and not {counts[name]}")
        several = refuse_several(expected, name)
        # A read for each line and one at the end, and a write for each line.
        reads = fail_each(program, row, "read", len(row) + 1)
        writes = fail_each(program, row, "write", len(row))
        print(f"{name}: {met[0]} allocations of calls, {met[1]} with what is less, {met[2]} with all from there on, "
              f"{several} runs with little memory, {reads} reads, {writes} writes refused")


def refuse_in_drawn_lists(program):
    for seed in SEEDS:
        met = refuse_in_drawn_list(program, seed), refuse_in_drawn_list(program, seed, less=1)
        wanted(met[1] > 0, f"fuzz {seed}: nothing was refused")
        print(f"fuzz {seed} {COUNT}: {met[0]} allocations of calls, {met[1]} with what is less refused")


def drive(path, *tests):
    with tempfile.TemporaryDirectory() as room:
        library = made_library(room)
        program = Program(os.path.abspath(path), library, room)
        refuse_in_rows(program)
        refuse_in_drawn_lists(program)
        tests = [Program(os.path.abspath(it), library, room, of_a_thread(it)) for it in tests]
        refuse_in_tests(tests)
        refuse_steps_in(tests)
        runs = {}
        for it in tests:
            runs |= refuse_nothing_in(it)
        are_frugal_tests(runs)
        refuse_in_tight_tests(tests)
        refuse_beyond(program, LEAK + MOVED)
        print(f"{LEAKS} leaks: nearly as many values as fit into {MEGABYTES[0]} to {MEGABYTES[-1]} megabytes")
        for name in FRUGAL:
            print(is_frugal_script(program, name))
        find_out_wrong_rows(program)
        find_out("a program that keeps a byte", Program(made_hoarder(room), library, room).run)
        find_out("a size at which more fit", refuse_beyond, program, LEAK // 2)
        find_out("tests within lower limits", are_frugal_tests, runs, 4)
        for name in FRUGAL:
            find_out(f"{name} within lower limits", is_frugal_script, program, name, 4)


def main():
    try:
        drive(*sys.argv[1:])
    except Failure as failure:
        sys.exit(f"refuse: {failure}")


if __name__ == "__main__":
    main()
