#!/usr/bin/env python3
"""Replays histories of a shared store in a second machine, which is written after docs/machine.md and docs/history.md.

    .ci/replay.py PROGRAM                                      short lists, and then planted differences
    .ci/replay.py PROGRAM SEED WORKERS ROUNDS [BETWEEN]        one list, as `bench_shared` takes its words

PROGRAM is `bench_shared`, as `rt ci` leaves it in its crate's out/. It prints audits: a base, and each step since,
a line each. The machine takes the steps one after another, and a step whose reply isn't its own is the end. So is a
base that isn't where the steps before it led: in its rows, its next ticket, its peak, or its counts of each kind. The
first base is a new store's, unless checkpoints were made while the workers drew their calls: then it need only be
sound. In the short lists each call, each reply and each row has to come, and a base with fewer live cells than its peak,
with a shared cell that is read or written and wasn't two bases before, and with an owner that stood there then; and
locations that differ in their files alone. Then each planted difference must be found: a reply, a box, an owner, a
location or a base changed, steps left out, exchanged, or there twice. Which worker took a step isn't tried: no reply
depends on it.
"""
import os
import random
import re
import subprocess
import sys

# The number that is never given as a ticket, and a slot's last generation.
LAST = 2**64 - 1

LOCATION = r"Location \{[^{}]*\}"
BASE = re.compile(
    r"Base \{ number: (\d+), next: (\d+), peak: (\d+), trimmed: TrimmedSteps \{ made: (\d+), lent: (\d+), "
    r"changed: (\d+), refused: (\d+) \}, rows: \[(.*)\] \}$"
)
ROW = re.compile(r"(\w+)\(([^()]*)\)")
PLACE = re.compile(r'Location \{ file: "([^"]*)", (line: \d+, column: \d+) \}')
STEP = re.compile(r"(\d+) (\w+)(?:\(([^()]*)\))? (\w+)(?:\(([^()]*)\))? \[(.*)\]$")
OWNER = re.compile(r"OwnerId \{ store: (\d+), key: (\d+) \}(?:, (.*))?$")
ORIGIN = re.compile(rf"None|Some\(\((\d+), ({LOCATION})\)\)")
KINDS = {
    "Made": "made", "MadeShared": "made", "Owner": "made", "Reader": "lent", "Writer": "lent",
    "Done": "changed", "Dropped": "refused", "Store": "refused",
}
SEEN = {
    "calls": "Leak LeakRc LeakReference Owner CloneOwner Insert InsertRc InsertReference Read Write Set ManuallyDrop"
    " PointTo ReleaseRead ReleaseWrite ReleaseOwner",
    "replies": "Made MadeShared Owner Reader Writer Done Dropped Store",
    "rows": "Slot Value Shared Ref Reader Writer Owner Owned",
    "bases": "below_peak kept_shared_read kept_shared_written kept_value_read kept_value_written kept_owner",
    "files": "drawn.rs board.rs",
}


class Differs(Exception):
    """What was recorded isn't what the machine does."""


class Failure(Exception):
    """What was seen isn't what is wanted."""


class Cell:
    """A live cell: a Value, a Shared cell or a Ref. A Ref has a target, the others a content."""

    __slots__ = ("kind", "at", "target", "readers", "writer", "refs")

    def __init__(self, kind, at, target=None):
        self.kind, self.at, self.target = kind, at, target
        # the readers' locations by their tickets, in the order in which they began; the writer's ticket and location
        self.readers, self.writer = {}, None
        # how many live Refs name it
        self.refs = 0

    def is_borrowed(self):
        return self.writer is not None or bool(self.readers)


class Box:
    """A store's number, a name, and the location at which the cell was made."""

    __slots__ = ("store", "name", "at")

    def __init__(self, name, origin):
        self.name, (store, self.at) = name, origin
        self.store = int(store)


class Machine:
    """The machine without values. A name is its text, as 3@2."""

    def __init__(self, number):
        self.number = number
        self.cells, self.owners = {}, {}
        # of each slot the generation of its last name: all from 1 to it were given
        self.last, self.retired = [], 0
        # the name of the cell that each ticket's borrow is of
        self.borrows = {}
        self.next, self.peak = 0, 0
        self.counts = dict.fromkeys(("made", "lent", "changed", "refused"), 0)

    # Names and boxes

    def give(self, name, cell):
        """A new name, which must fit, gets a cell."""
        slot, generation = map(int, name.split("@"))
        if slot == len(self.last):
            if len(self.last) - len(self.cells) - self.retired != 0:
                raise Differs(f"{name} is a new slot where one is free")
            if generation != 1:
                raise Differs(f"{name} isn't a new slot's first generation")
            self.last.append(generation)
        else:
            if slot > len(self.last) or generation != self.last[slot] + 1 or f"{slot}@{self.last[slot]}" in self.cells:
                raise Differs(f"{name} doesn't fit")
            self.last[slot] = generation
        self.cells[name] = cell

    def end(self, name):
        """A cell ends. Its slot is free, or retired after the last generation."""
        cell = self.cells.pop(name)
        if name.endswith(f"@{LAST}"):
            self.retired += 1
        return cell

    def cell_of(self, box):
        """The box's own cell, if it is live and of this store."""
        cell = self.cells.get(box.name) if box.store == self.number else None
        if cell is not None and cell.at != box.at:
            raise Differs(f"the box {box.name} is of {box.at}, and its cell of {cell.at}")
        return cell

    def reach(self, box):
        """The name of what the box reaches, and that cell; or None twice."""
        cell = self.cell_of(box)
        if cell is not None and cell.kind == "Ref":
            return cell.target, self.cells[cell.target]
        return (None, None) if cell is None else (box.name, cell)

    def to_read(self, box):
        """What is reached for a read, or the refusal."""
        name, cell = self.reach(box)
        if cell is None:
            return None, None, ("Dropped", box.at)
        if cell.writer is not None:
            raise Differs("a writer is in the call's way")
        return name, cell, None

    def to_write(self, box):
        """What is reached for a write, or the refusal."""
        name, cell, refusal = self.to_read(box)
        if cell is not None and cell.readers:
            raise Differs("a reader is in the call's way")
        return name, cell, refusal

    def ticket(self):
        """The next ticket, which is used up, or None where no number is left."""
        if self.next == LAST:
            return None
        self.next += 1
        return self.next - 1

    def record(self, owner):
        """The record of an owner, by its text; and what follows it there."""
        store, key, rest = OWNER.match(owner).groups()
        return self.owners.get(int(key)) if int(store) == self.number else None, rest

    # Ending

    def close(self, names):
        """Closes a list of names, in the way of which no borrow may be."""
        live = [name for name in dict.fromkeys(names) if name in self.cells and self.cells[name].kind != "Shared"]
        leaving = {}
        for name in live:
            target = self.cells[name].target
            if target is not None:
                leaving[target] = leaving.get(target, 0) + 1
        doomed = [name for name in live if self.cells[name].kind == "Value"]
        doomed += [name for name, refs in leaving.items() if self.cells[name].refs == refs]
        if any(self.cells[name].is_borrowed() for name in doomed):
            raise Differs("a borrow is in the call's way")
        for name in live:
            cell = self.end(name)
            if cell.target is not None:
                self.cells[cell.target].refs -= 1
        for name in doomed:
            if name in self.cells:
                self.end(name)

    # Calls: each has its arguments as they are printed, its boxes, and the names that the reply gives,
    # and answers what the reply must be.

    def make(self, at, names):
        if len(names) != 1:
            return ("Made",)
        self.give(names[0], Cell("Value", at))
        return "Made", names[0], self.number, at

    def make_shared(self, at, names):
        if len(names) != 2:
            return ("MadeShared",)
        shared, first = names
        cell = Cell("Shared", at)
        cell.refs = 1
        self.give(shared, cell)
        self.give(first, Cell("Ref", at, shared))
        return "MadeShared", f"{shared}, {first}", self.number, at

    def refer(self, box, names):
        target, cell, refusal = self.to_read(box)
        if refusal is not None:
            return refusal
        if cell.kind == "Value":
            return "Dropped", box.at
        if len(names) != 1:
            return ("Made",)
        self.give(names[0], Cell("Ref", cell.at, target))
        cell.refs += 1
        return "Made", names[0], self.number, cell.at

    def leak(self, args, boxes, names):
        return self.make(args, names)

    def leak_rc(self, args, boxes, names):
        return self.make_shared(args, names)

    def leak_reference(self, args, boxes, names):
        return self.refer(boxes[0], names)

    def inserted(self, args, names, make):
        record, rest = self.record(args)
        if record is None:
            return "Store", "UnknownOwner"
        answer = make(rest, names)
        if answer[0] != "Dropped" and names:
            record[1].append(names[-1])
        return answer

    def insert(self, args, boxes, names):
        return self.inserted(args, names, self.make)

    def insert_rc(self, args, boxes, names):
        return self.inserted(args, names, self.make_shared)

    def insert_reference(self, args, boxes, names):
        return self.inserted(args, names, lambda _, names: self.refer(boxes[0], names))

    def owner(self, args, boxes, names):
        key = self.ticket()
        if key is None:
            return "Store", "NumbersExhausted"
        self.owners[key] = [1, []]
        return "Owner", f"OwnerId {{ store: {self.number}, key: {key} }}"

    def clone_owner(self, args, boxes, names):
        record, _ = self.record(args)
        if record is None:
            return "Store", "UnknownOwner"
        if self.ticket() is None:
            return "Store", "NumbersExhausted"
        record[0] += 1
        return "Owner", args

    def release_owner(self, args, boxes, names):
        record, _ = self.record(args)
        if record is None:
            return "Store", "UnknownOwner"
        if record[0] == 1:
            self.close(record[1])
            del self.owners[int(OWNER.match(args)[2])]
        record[0] -= 1
        return ("Done",)

    def read(self, args, boxes, names):
        name, cell, refusal = self.to_read(boxes[0])
        if refusal is not None:
            return refusal
        ticket = self.ticket()
        if ticket is None:
            return "Store", "NumbersExhausted"
        cell.readers[ticket] = args.partition(", ")[2]
        self.borrows[ticket] = name
        return "Reader", str(ticket)

    def write(self, args, boxes, names):
        name, cell, refusal = self.to_write(boxes[0])
        if refusal is not None:
            return refusal
        ticket = self.ticket()
        if ticket is None:
            return "Store", "NumbersExhausted"
        cell.writer = ticket, args.partition(", ")[2]
        self.borrows[ticket] = name
        return "Writer", str(ticket)

    def release_read(self, args, boxes, names):
        cell = self.cells.get(self.borrows.pop(int(args), None))
        if cell is None or cell.readers.pop(int(args), None) is None:
            raise Differs("no reader has this ticket")
        return ("Done",)

    def release_write(self, args, boxes, names):
        cell = self.cells.get(self.borrows.pop(int(args), None))
        if cell is None or cell.writer is None or cell.writer[0] != int(args):
            raise Differs("no writer has this ticket")
        cell.writer = None
        return ("Done",)

    def set(self, args, boxes, names):
        return self.to_write(boxes[0])[2] or ("Done",)

    def manually_drop(self, args, boxes, names):
        if self.cell_of(boxes[0]) is not None:
            self.close([boxes[0].name])
        return ("Done",)

    def point_to(self, args, boxes, names):
        asked, other = boxes
        if (asked.store, asked.name) == (other.store, other.name):
            return ("Done",)
        target, cell, refusal = self.to_read(other)
        if refusal is not None:
            return refusal
        own = self.cell_of(asked)
        if own is None:
            return "Dropped", asked.at
        if own.kind != "Ref" or cell.kind != "Shared":
            return "Dropped", cell.at
        if own.target != target:
            before = self.cells[own.target]
            if before.refs == 1 and before.is_borrowed():
                raise Differs("a borrow is in the call's way")
            before.refs -= 1
            if before.refs == 0:
                self.end(own.target)
            cell.refs += 1
            own.target = target
        return ("Done",)

    # Steps

    def take(self, call, args, reply, told, origins):
        """Takes a step. Its reply must be the machine's."""
        act = ACTS.get(call)
        if act is None:
            raise Differs(f"there is no call {call}")
        asked = [Box(name, origin) for name, origin in zip(re.findall(r"\d+@\d+", args or ""), origins)]
        names = told.split(", ") if reply in ("Made", "MadeShared") else ()
        answer = act(self, args, asked, names)
        recorded = (reply,) if told is None else (reply, told)
        if names:
            store, at = origins[2]
            recorded += int(store), at
        if answer != recorded:
            raise Differs(f"the machine answers {answer}")
        self.peak = max(self.peak, len(self.cells))
        self.counts[KINDS[reply]] += 1

    # Rows

    def rows(self):
        """What there is, without values, in rows."""
        rows = []
        for slot, generation in enumerate(self.last):
            rows.append(f"Slot({slot}, {generation})")
            name = f"{slot}@{generation}"
            cell = self.cells.get(name)
            if cell is None:
                continue
            target = "" if cell.target is None else f"{cell.target}, "
            rows.append(f"{cell.kind}({name}, {target}{cell.at})")
            rows += [f"Reader({name}, {ticket}, {at})" for ticket, at in cell.readers.items()]
            if cell.writer is not None:
                rows.append("Writer({}, {}, {})".format(name, *cell.writer))
        for key, (values, names) in sorted(self.owners.items()):
            rows.append(f"Owner({key}, {values})")
            rows += [f"Owned({key}, {name})" for name in names]
        return rows

    def read_row(self, word, parts):
        """What a row tells is so."""
        if word == "Slot":
            if int(parts[0]) != len(self.last):
                raise Differs(f"the slot {parts[0]} isn't the next one")
            self.last.append(int(parts[1]))
        elif word in ("Value", "Shared"):
            self.cells[parts[0]] = Cell(word, parts[1])
        elif word == "Ref":
            self.cells[parts[0]] = Cell(word, parts[2], parts[1])
        elif word == "Reader":
            self.cells[parts[0]].readers[int(parts[1])] = parts[2]
            self.borrows[int(parts[1])] = parts[0]
        elif word == "Writer":
            self.cells[parts[0]].writer = int(parts[1]), parts[2]
            self.borrows[int(parts[1])] = parts[0]
        elif word == "Owner":
            self.owners[int(parts[0])] = [int(parts[1]), []]
        elif word == "Owned":
            self.owners[int(parts[0])][1].append(parts[1])
        else:
            raise Differs(f"there is no row {word}")

    def settle(self):
        """Counts what rows don't tell, once all are read. The state must be sound."""
        for cell in self.cells.values():
            if cell.target is not None:
                target = self.cells.get(cell.target)
                if target is None or target.kind != "Shared":
                    raise Differs(f"{cell.target}, which a Ref names, is no live Shared cell")
                target.refs += 1
        for name, cell in self.cells.items():
            slot, generation = map(int, name.split("@"))
            if slot >= len(self.last) or self.last[slot] != generation:
                raise Differs(f"{name} is live, and isn't its slot's last")
            if cell.kind == "Shared" and cell.refs == 0:
                raise Differs(f"no Ref names {name}")
        borrows = sum(len(cell.readers) + (cell.writer is not None) for cell in self.cells.values())
        if borrows != len(self.borrows) or any(it >= self.next for it in [*self.borrows, *self.owners]):
            raise Differs("two borrows have one ticket, or one isn't below the next")
        for name in (name for _, names in self.owners.values() for name in names):
            slot, generation = map(int, name.split("@"))
            if slot >= len(self.last) or generation > self.last[slot]:
                raise Differs(f"{name} is an owner's, and was never given")
            if name in self.cells and self.cells[name].kind == "Shared":
                raise Differs(f"{name} is an owner's, and a Shared cell's")
        # only a retired slot could have this generation without a live cell
        self.retired = sum(it == LAST and f"{slot}@{it}" not in self.cells for slot, it in enumerate(self.last))


ACTS = {
    "Leak": Machine.leak, "LeakRc": Machine.leak_rc, "LeakReference": Machine.leak_reference,
    "Owner": Machine.owner, "CloneOwner": Machine.clone_owner, "ReleaseOwner": Machine.release_owner,
    "Insert": Machine.insert, "InsertRc": Machine.insert_rc, "InsertReference": Machine.insert_reference,
    "Read": Machine.read, "Write": Machine.write, "Set": Machine.set, "ManuallyDrop": Machine.manually_drop,
    "PointTo": Machine.point_to, "ReleaseRead": Machine.release_read, "ReleaseWrite": Machine.release_write,
}


class Replay:
    """What was replayed of a program's lines."""

    def __init__(self, fresh):
        # whether the first base must be a new store's
        self.fresh = fresh
        self.machine = None
        self.steps = self.bases = 0
        self.seen = {what: set() for what in SEEN}
        # the lines and columns of places, by their files
        self.places = {}
        # of each base the rows without borrows of its values, and the keys of its owners
        self.quiet, self.owners = [], []

    def line(self, line):
        """Takes a line: a base, a step, or the last one, which tells how many steps there were."""
        if line.startswith("Base "):
            self.base(line)
        elif line.startswith("calls "):
            if int(line.split()[3]) != self.steps:
                raise Differs(f"the program printed {line.split()[3]} steps")
        else:
            self.step(line)

    def step(self, line):
        found = STEP.match(line)
        if found is None:
            raise Differs("this isn't a step")
        _, call, args, reply, told, origins = found.groups()
        self.machine.take(call, args, reply, told, [it.groups() for it in ORIGIN.finditer(origins)])
        self.steps += 1
        self.seen["calls"].add(call)
        self.seen["replies"].add(reply)
        for file, place in PLACE.findall(line):
            self.places.setdefault(file, set()).add(place)
            if any(place in others for other, others in self.places.items() if other != file):
                self.seen["files"].add(file)

    def base(self, line):
        """A base is what the machine has. The first one is what it begins with."""
        found = BASE.match(line)
        if found is None:
            raise Differs("this isn't a base")
        *numbers, rows = found.groups()
        number, following, peak, *counts = map(int, numbers)
        rows = [it.group() for it in ROW.finditer(rows)]
        if self.machine is None:
            self.machine = Machine(number)
            if not self.fresh:
                self.begin(following, peak, counts, rows)
        machine = self.machine
        told = {"number": number, "next": following, "peak": peak, **dict(zip(machine.counts, counts))}
        has = {"number": machine.number, "next": machine.next, "peak": machine.peak, **machine.counts}
        for what, value in has.items():
            if told[what] != value:
                raise Differs(f"the base tells {told[what]} for `{what}`, and the machine has {value}")
        own = machine.rows()
        for at, (row, wanted) in enumerate(zip(rows + [None], own + [None])):
            if row != wanted:
                raise Differs(f"row {at} of the base is {row}, and the machine has {wanted}")
        self.bases += 1
        self.seen["rows"].update(row.partition("(")[0] for row in rows)
        self.look_at_base()

    def look_at_base(self):
        """Notes what a base has that the one two before it can tell wrongly, into whose rows it is packed."""
        cells, owners = self.machine.cells, self.machine.owners
        if len(cells) < self.machine.peak:
            self.seen["bases"].add("below_peak")
        if len(self.quiet) > 1:
            for name in self.quiet[-2].intersection(cells):
                kind = cells[name].kind.lower()
                if cells[name].readers:
                    self.seen["bases"].add(f"kept_{kind}_read")
                if cells[name].writer is not None:
                    self.seen["bases"].add(f"kept_{kind}_written")
            if self.owners[-2].intersection(owners):
                self.seen["bases"].add("kept_owner")
        self.quiet.append({name for name, cell in cells.items() if cell.kind != "Ref" and not cell.is_borrowed()})
        self.owners.append(set(owners))

    def begin(self, following, peak, counts, rows):
        """The machine begins with a base."""
        machine = self.machine
        machine.next, machine.peak = following, peak
        machine.counts.update(zip(machine.counts, counts))
        for row in rows:
            word, parts = ROW.match(row).groups()
            most = {"Slot": 1, "Value": 1, "Shared": 1, "Owner": 1, "Owned": 1}.get(word, 2)
            machine.read_row(word, parts.split(", ", most))
        machine.settle()
        if peak < len(machine.cells):
            raise Differs("more cells are live than ever were")


def replayed(lines, fresh):
    """Replays lines. What differs first is told with the number of its step."""
    replay = Replay(fresh)
    for line in lines:
        try:
            replay.line(line)
        except (Differs, KeyError, ValueError, IndexError, TypeError, AttributeError) as error:
            raise Differs(f"after {replay.steps} steps: {line.strip()[:300]}: {error!r}") from error
    if replay.bases == 0:
        raise Differs("no base was printed")
    return replay


def printed(program, words):
    """The lines that the program prints, one after another."""
    with subprocess.Popen([program, "shared", *map(str, words)], stdout=subprocess.PIPE, text=True) as process:
        yield from process.stdout
    if process.returncode != 0:
        raise Failure(f"status {process.returncode}")


def run(program, words):
    """Replays what the program prints for these words."""
    between = int(words[3]) if len(words) == 4 else 0
    replay = replayed(printed(program, words), between == 0)
    print(f"{' '.join(map(str, words))}: {replay.steps} steps replayed, {replay.bases} bases, 0 differ", flush=True)
    return replay


def next_number(text, which=0):
    """The text with one of its numbers changed."""
    found = list(re.finditer(r"\d+", text))[which]
    return text[: found.start()] + str(int(found.group()) + 1) + text[found.end() :]


def other_file(text, place):
    """The text with another file in the first location after a place."""
    found = PLACE.search(text, place)
    other = "board.rs" if found[1] == "drawn.rs" else "drawn.rs"
    return text[: found.start(1)] + other + text[found.end(1) :]


class Planting:
    """Copies of a list of lines, each with one difference, and what it is."""

    def __init__(self, lines):
        self.lines, self.draw = lines, random.Random(1)
        self.steps = [at for at, line in enumerate(lines) if line[0].isdigit()]
        self.bases = [at for at, line in enumerate(lines) if line.startswith("Base ") and "Slot" in line]

    def all(self):
        yield from self.replies()
        yield from self.steps_lost()
        yield from self.boxes_and_owners()
        yield from self.locations()
        yield from self.exchanges()
        yield from self.rows()
        for which in range(7):
            yield "a number of the base changed", self.changed(self.draw.choice(self.bases), 0, which)

    def with_line(self, at, *new):
        """The list with other lines in the place of one."""
        return [*self.lines[:at], *new, *self.lines[at + 1 :]]

    def changed(self, at, place, which=0):
        """The list with one of the numbers changed that stand after a place of a line."""
        line = self.lines[at]
        return self.with_line(at, line[:place] + next_number(line[place:], which))

    def step_with(self, word, part):
        """A step with this call (part 2) or this reply (part 4)."""
        return self.draw.choice([at for at in self.steps if STEP.match(self.lines[at])[part] == word])

    def replies(self):
        for reply in SEEN["replies"].split():
            at = self.step_with(reply, 4)
            line = self.lines[at]
            found = STEP.match(line)
            head, tail = line[: found.start(4)], line[line.index(" [") :]
            other = {"Done": 'Dropped(Location { file: "drawn.rs", line: 1, column: 1 })', "Dropped": "Done"}.get(reply)
            if reply == "Store":
                other = "Store(NumbersExhausted)"
            if other is None:
                other = f"{reply}({next_number(found[5], -1)})"
            yield f"the reply {reply} changed", self.with_line(at, head + other + tail)

    def steps_lost(self):
        for part, words in ((2, SEEN["calls"]), (4, SEEN["replies"])):
            for word in words.split():
                at = self.step_with(word, part)
                yield f"a step with {word} left out", self.with_line(at)
                at = self.step_with(word, part)
                yield f"a step with {word} there twice", self.with_line(at, self.lines[at], self.lines[at])

    def boxes_and_owners(self):
        at = self.step_with("Reader", 4)
        origin = self.lines[at].index("Some((")
        yield "the store of a box changed", self.changed(at, origin)
        yield "the box of a read changed", self.changed(at, self.lines[at].index("("))
        at = self.step_with("CloneOwner", 2)
        yield "the store of an owner changed", self.changed(at, 2)
        yield "the key of an owner changed", self.changed(at, 2, 1)

    def locations(self):
        at = self.step_with("Reader", 4)
        yield "the location of a box changed", self.changed(at, self.lines[at].index("Some(("), 1)
        for call in ("Leak", "LeakRc", "Insert", "InsertRc"):
            at = self.step_with(call, 2)
            yield f"the location of {call} changed", self.changed(at, self.lines[at].index("line: "))
        for what, at in (("Leak", self.step_with("Leak", 2)), ("a box", self.step_with("Reader", 4))):
            place = self.lines[at].index("Some((") if what == "a box" else 0
            yield f"the file of the location of {what} changed", self.with_line(at, other_file(self.lines[at], place))
        at = self.step_with("Dropped", 4)
        reply = STEP.match(self.lines[at]).start(4)
        yield "the location in Dropped changed", self.changed(at, self.lines[at].index("line: ", reply))
        for reply in ("Made", "MadeShared"):
            at = self.step_with(reply, 4)
            yield f"the location in {reply} changed", self.changed(at, self.lines[at].rindex("column: "))

    def exchanges(self):
        for reply in ("Made", "MadeShared", "Owner", "Reader", "Writer"):
            used = [(at, first_use(self.lines, at)) for at in self.steps if STEP.match(self.lines[at])[4] == reply]
            at, after = self.draw.choice([pair for pair in used if pair[1] is not None])
            yield f"a step with the reply {reply} and the first use of what it gave exchanged", [
                *self.lines[:at], self.lines[after], *self.lines[at + 1 : after], self.lines[at], *self.lines[after + 1 :]]

    def rows(self):
        for word in SEEN["rows"].split():
            rows = [(at, row) for at in self.bases for row in ROW.finditer(self.lines[at]) if row[1] == word]
            at, row = self.draw.choice(rows)
            line, text = self.lines[at], row.group()
            head, tail = line[: row.start()], line[row.end() :]
            for which in range(len(re.findall(r"\d+", text))):
                yield f"the row {word} changed", self.changed(at, row.start(), which)
            yield f"the row {word} left out", self.with_line(at, head + tail.removeprefix(", "))
            yield f"the row {word} there twice", self.with_line(at, f"{head}{text}, {text}{tail}")


def first_use(lines, at):
    """Where what a step gave is named first, if that is before the next base."""
    _, _, _, reply, told, _ = STEP.match(lines[at]).groups()
    uses = {"Reader": f" ReleaseRead({told})", "Writer": f" ReleaseWrite({told})", "Owner": f"({told}"}
    use = uses.get(reply, f"({told.split(', ')[-1]}")
    for after in range(at + 1, len(lines)):
        if not lines[after][0].isdigit():
            return None
        if use in lines[after][: lines[after].index(" [")]:
            return after
    return None


def main(path, *words):
    program = os.path.abspath(path)
    if words:
        run(program, words)
        return
    seen = [run(program, words).seen for words in SHORT]
    for what, wanted in SEEN.items():
        lacks = set(wanted.split()).difference(*(it[what] for it in seen))
        if lacks:
            raise Failure(f"of {what} the lists have no {' '.join(sorted(lacks))}")
    lines = list(printed(program, PLANTED))
    replayed(lines, True)
    found = 0
    for what, changed in Planting(lines).all():
        try:
            replayed(changed, True)
        except Differs:
            found += 1
            continue
        raise Failure(f"not found: {what}")
    print(f"{found} planted differences found")


# The words of the short lists, and those of the list in which differences are planted: a seed, workers, rounds and
# rounds from one checkpoint to the next.
SHORT = ((1, 4, 1800), (2, 4, 1800, 1000), (3, 1, 1000))
PLANTED = (4, 1, 300)


if __name__ == "__main__":
    try:
        main(*sys.argv[1:])
    except (Differs, Failure) as failure:
        sys.exit(f"replay: {failure}")
