#!/usr/bin/env python3
"""Draws docs/instructions.svg and docs/shared.svg from tables of docs/PERFORMANCE.md.

    bench/bars.py          writes the pictures
    bench/bars.py --try    compares them with the tables
"""
import dataclasses
import os
import sys

DOCS = os.path.join(os.path.dirname(os.path.abspath(__file__)), "..", "docs")
OWN, UPSTREAM, LOCATIONS, LEAST = "#2f6fb0", "#c9c9c9", "#8f8f8f", "#e3c77a"
WIDTH, LEFT, TOP, BAR, GAP = 920, 235, 62, 13, 18


@dataclasses.dataclass(frozen=True)
class Picture:
    """A picture of a table: the section that it stands in, what its rows begin with, and its first columns."""

    file: str
    section: str
    head: str
    title: str
    desc: str
    # the subjects, in the order of the columns after a row's name, and the decimals of their numbers
    subjects: tuple
    decimals: int
    most: float

    def rows(self, page):
        """Each row's name with its numbers, in the order of the subjects."""
        table = page.split(f"## {self.section}\n")[1].split("\n\n")
        lines = next(part for part in table if part.startswith(self.head)).splitlines()[2:]
        before = ""
        for line in lines:
            cells = [cell.strip(" *`") for cell in line.strip("|").split("|")]
            names, numbers = cells[: self.names()], cells[self.names() :][: len(self.subjects)]
            before = names[0] or before
            yield ", ".join([before, *names[1:]]), [span(number) for number in numbers]

    def names(self):
        """How many columns name a row."""
        return self.head.count("|") - 1

    def draw(self, rows):
        height = TOP + len(rows) * (len(self.subjects) * BAR + GAP)
        scale = (WIDTH - LEFT - 70) / self.most
        lines = [f'<svg xmlns="http://www.w3.org/2000/svg" viewBox="0 0 {WIDTH} {height}" width="{WIDTH}" '
                 f'height="{height}" font-family="sans-serif" font-size="14">',
                 f"  <title>{self.title}</title>",
                 f"  <desc>{self.desc}</desc>",
                 f'  <rect x="0" y="0" width="{WIDTH}" height="{height}" fill="#ffffff"/>',
                 f'  <text x="{LEFT}" y="22">{self.title}</text>',
                 *self.legend()]
        y = TOP
        for name, numbers in rows:
            lines.append(f'  <text x="{LEFT - 10}" y="{y + 2 * BAR + 4}" text-anchor="end" font-size="13">{name}</text>')
            for (_, color), (least, most) in zip(self.subjects, numbers):
                said = " to ".join(f"{it:.{self.decimals}f}" for it in dict.fromkeys([least, most]))
                lines += bar(LEFT, y, least * scale, most * scale, color, said)
                y += BAR
            y += GAP
        return "\n".join(lines + ["</svg>", ""])

    def legend(self):
        x = LEFT
        for name, color in self.subjects:
            yield f'  <rect x="{x}" y="34" width="12" height="12" fill="{color}"/>'
            yield f'  <text x="{x + 17}" y="45" font-size="12">{name}</text>'
            x += 40 + 8 * len(name)


PICTURES = (
    Picture("instructions.svg", "Instructions a call", "| workload, `u64` |",
            "Instructions a call (u64, N = 1000, with the workload's own instructions)",
            "Bars of the first table of this page, for values u64 and N = 1000.",
            (("upstream", UPSTREAM), ("upstream with locations", LOCATIONS), ("slotmap", LEAST), ("this crate", OWN)),
            1, 400),
    Picture("shared.svg", "The shared store", "| list | workers |",
            "Nanoseconds a call of the shared store, by the wall, for 1, 2 and 4 workers",
            "Bars of the table of the shared store; from the least to the most of a range they are pale.",
            (("shared store", OWN), ("trimmed", "#8fb4dc"), ("floor", LEAST), ("upstream with locations", LOCATIONS)),
            0, 300),
)


def span(cell):
    """The least and the most of a cell: `32`, or `32 to 51`."""
    numbers = [float(it) for it in cell.split(" to ")]
    return numbers[0], numbers[-1]


def bar(x, y, least, most, color, text):
    """A bar, which is pale from the least on, and the numbers behind it."""
    pale = [f'  <rect x="{x + least:.1f}" y="{y:g}" width="{most - least:.1f}" height="{BAR - 2}" fill="{color}" '
            f'fill-opacity="0.4"/>'] if most > least else []
    return [f'  <rect x="{x:g}" y="{y:g}" width="{least:.1f}" height="{BAR - 2}" fill="{color}"/>',
            *pale,
            f'  <text x="{x + most + 5:.1f}" y="{y + BAR - 4:g}" font-size="11">{text}</text>']


def read(file):
    with open(os.path.join(DOCS, file), encoding="utf-8") as text:
        return text.read()


def main(words):
    page = read("PERFORMANCE.md")
    for picture in PICTURES:
        rows = list(picture.rows(page))
        assert rows, f"{picture.file}: the page has no such table"
        drawn = picture.draw(rows)
        if words != ["--try"]:
            with open(os.path.join(DOCS, picture.file), "w", encoding="utf-8") as out:
                out.write(drawn)
        elif read(picture.file) != drawn:
            sys.exit(f"bars: docs/{picture.file} isn't the table's: run bench/bars.py")


if __name__ == "__main__":
    main(sys.argv[1:])
