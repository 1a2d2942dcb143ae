#!/usr/bin/env python3
"""Compares the code on the pages with the code that the gate proves and runs.

    .ci/page.py           compares
    .ci/page.py --try     compares, and then shows that each block is refused with a line changed

Each page of the guide and of a library begins with a `main`. Each block of Rattle on a page must stand
in one file of the crates of callers or of tests, and each proof in one of callers: its pieces, which
blank lines part, line for line and in order.
Each public function of a block must be called in a crate that the gate runs. An example in
the comment of a public item must stand in one of those files too, whatever its indent. Each link to a
file or a heading must lead there, on the pages of docs/api too, a line of `crates.txt` on a page must
be that of the file, and what a page says that its program prints must be what the guide's programs
print. The commands and the replies of docs/script.md must be those that the gate runs, and so must what a
page pipes into `rt try`, and what that prints (script_page.py). Neither a page nor a doc comment has a
word that plain_words.py lists. What is wrong is printed, and the exit status is 1 then.
"""
import pathlib
import re
import sys

import plain_words
import script_page

ROOT = pathlib.Path(__file__).resolve().parent.parent
# Those of docs/api are written from the sources (`.ci/api.py`), and only their links are looked at.
WRITTEN = sorted((ROOT / "docs/api").glob("*.md"))
PAGES = [ROOT / "README.md", ROOT / ".ci/planted.md"]
PAGES += [it for it in sorted((ROOT / "docs").rglob("*.md")) if it.parent.name != "api"]
# Each page of the guide, but for the questions, and each of a library begins with a program.
WITH_MAIN = [it for it in (ROOT / "docs/guide").glob("*.md") if it.name != "faq.md"]
WITH_MAIN += [ROOT / f"docs/{it}.md" for it in ("signals", "reactive", "entities", "sessions", "scenes", "documents")]
USES = ["example_callers", "example_files", "example_libraries", "example_signals", "example_guide", "example_workers", "example_pictures"]
# What the gate runs, the last one with those programs among the callers whose `main` it calls too.
RUN = ["test_boxes", "test_libraries", "test_shared", "test_shared_workers", "bench_shared",
       "example_workers", "example_guide"]
PROGRAMS = set(re.findall(r"(\w+)::main\(", (ROOT / "crates/example_guide/src/main.rt").read_text(encoding="utf-8")))
SOURCES = [
    path
    for crate in dict.fromkeys(USES + RUN)
    for path in sorted((ROOT / f"crates/{crate}/src").glob("*.rt"))
] + [path for crate in USES for path in sorted((ROOT / f"crates/{crate}/proofs").rglob("*.antt"))]


# The crates whose calls have examples.
CALLS = ["generational_errors", "generational_core", "generational_box", "generational_laws", "generational_sessions", "generational_sync",
         "shared_state", "signals", "reactive"]


def lines_of(path):
    return [line.rstrip() for line in path.read_text(encoding="utf-8").splitlines()]


def blocks_in(lines):
    """The blocks of Rattle, and of proofs, of a page."""
    blocks, block = [], None
    for line in lines:
        if block is None and line in ("```rust", "```antt"):
            block = []
        elif block is not None and line == "```":
            blocks.append(block)
            block = None
        elif block is not None:
            block.append(line)
    if block is not None:
        raise ValueError("a block isn't closed")
    return blocks


def pieces_of(block):
    """The runs of lines between blank ones."""
    pieces = [[]]
    for line in block:
        if line:
            pieces[-1].append(line)
        elif pieces[-1]:
            pieces.append([])
    return [piece for piece in pieces if piece]


def missing_piece(block, source):
    """The first piece that doesn't stand in the source after the earlier ones, if any."""
    at = 0
    for piece in pieces_of(block):
        places = range(at, len(source) - len(piece) + 1)
        found = next((i for i in places if source[i : i + len(piece)] == piece), None)
        if found is None:
            return piece
        at = found + len(piece)
    return None


def is_run(path):
    """Whether the gate runs what this source has."""
    crate = path.parts[-3]
    return crate in RUN or crate == "example_libraries" and path.stem in PROGRAMS


def fault_of(block, sources):
    """What is wrong with a block, or None."""
    if not pieces_of(block):
        return "an empty block"
    missing = [missing_piece(block, lines) for lines in sources.values()]
    if all(missing):
        furthest = max(missing, key=lambda piece: block.index(piece[0]))
        return f"no file has the block from {block[0]!r} on, with its piece {furthest[0]!r}"
    run = "\n".join(line for path, lines in sources.items() if is_run(path) for line in lines)
    for name in re.findall(r"^pub fn (\w+)", "\n".join(block), re.M):
        if not re.search(rf"(?<!fn )\b{name}\b", run):
            return f"nothing that is run calls {name}"
    return None


def examples_in(path):
    """The blocks of Rattle in a source's comments on its items."""
    comments = [line.strip() for line in lines_of(path)]
    comments = [line[3:].removeprefix(" ") if line.startswith("///") else "" for line in comments]
    return blocks_in(comments)


def unindented(lines):
    return [line.strip() for line in lines]


def example_faults(sources):
    """What is wrong with the examples of the calls; and how many there are."""
    bare = [unindented(lines) for lines in sources.values()]
    faults, count = [], 0
    for path in (path for crate in CALLS for path in sorted((ROOT / f"crates/{crate}/src").glob("*.rt"))):
        for block in examples_in(path):
            count += 1
            if all(missing_piece(unindented(block), lines) for lines in bare):
                faults.append(f"{path.relative_to(ROOT)}: no file has the example {block[0]!r}")
    return faults, count


def headings_of(page):
    """The names by which links lead to a page's headings."""
    titles = [line.lstrip("#").strip().lower() for line in lines_of(page) if line.startswith("#")]
    return {re.sub(r"[^\w\- ]", "", title).replace(" ", "-") for title in titles}


def link_faults(page, text):
    """The links of a page's text that lead nowhere."""
    faults = []
    for target in re.findall(r"\]\(([^)\s]+)\)", text):
        path, _, heading = target.partition("#")
        file = page.parent / path if path else page
        if "://" in target:
            continue
        if not file.exists() or heading and heading not in headings_of(file):
            faults.append(f"the link {target!r} leads nowhere")
    return faults


def written_faults():
    """The links of the pages of docs/api that lead nowhere."""
    return [f"{page}: {fault}" for page in WRITTEN for fault in link_faults(page, "\n".join(lines_of(page)))]


def crate_faults(text):
    """The lines of `crates.txt` in a text that aren't those of the file. What the program `boxes` tells of
    a fault looks like one."""
    lines = lines_of(ROOT / "crates.txt")
    faults = {said for said, _ in script_page.faults().values()}
    known = {line.split(":")[0].split()[0]: line for line in lines if line and line[0] != "#"}
    told = re.findall(r"(?:^    |`)([a-z_]+:(?: [a-z_]+)*)(?:$|`)", text, re.M)
    return [
        f"{line!r} isn't the line of crates.txt"
        for line in told
        if line.split(":")[0] in known and line not in {known[line.split(":")[0]], *faults}
    ]


def print_faults(text):
    """What a page says that its program prints, and the guide's programs don't: `It prints` comes
    before the lines, or before one in the same sentence."""
    printed = [line for it in ("guide", "workers") for line in lines_of(ROOT / f"crates/example_{it}/stdout")]
    faults = script_page.run_faults(text)
    for one, block in re.findall(r"^It prints(?: `([^`]+)`|\n\n((?:    .*\n)+))", script_page.RUN.sub("", text), re.M):
        said = [line.strip() for line in (one or block).splitlines()]
        if missing_piece(said, printed):
            faults.append(f"no program of the guide prints {said[0]!r} and what follows")
    return faults


def told_faults(page):
    text = "\n".join(lines_of(page))
    return link_faults(page, text) + crate_faults(text) + print_faults(text)


def are_wrong_tellings_found():
    """Whether a wrong link, a wrong heading, a wrong line of crates.txt and a wrong print are found
    out."""
    page = ROOT / "README.md"
    wrong = [link_faults(page, text) for text in ("[a](docs/none.md)", "[a](docs/maintaining/map.md#none)")]
    wrong += [print_faults(text) for text in ("It prints `none`.\n", "It prints\n\n    none\n")]
    run = next(script_page.RUN.finditer("\n".join(lines_of(page))))[0]
    wrong += [print_faults(run.replace(old, new)) for old, new in (("end 1", "end 2"), ("    reader\n", ""))]
    return all(wrong) and bool(crate_faults("    signals: generational_core"))


def begins_with_main(page, blocks):
    """Whether a page begins with a program, where it should; README.md has code at least."""
    if page not in WITH_MAIN:
        return bool(blocks) or page.name != "README.md"
    return bool(blocks) and any(line.startswith("pub fn main") for line in blocks[0])


def faults_in(blocks, sources):
    return [fault for fault in (fault_of(block, sources) for block in blocks) if fault]


def changed_copies(block):
    """Copies of a block, each with one line changed or added."""
    filled = [i for i, line in enumerate(block) if line]
    for i in (filled[0], filled[len(filled) // 2], filled[-1]):
        yield block[:i] + [block[i] + " // changed"] + block[i + 1 :]
    middle = filled[len(filled) // 2]
    yield block[:middle] + ["    let added = 0;"] + block[middle:]


def main(words):
    sources = {path: lines_of(path) for path in SOURCES}
    status = 0
    for page in PAGES:
        blocks = blocks_in(lines_of(page))
        if not begins_with_main(page, blocks):
            print(f"{page}: the page doesn't begin with a program", file=sys.stderr)
            status = 1
        for fault in faults_in(blocks, sources) + told_faults(page):
            print(f"{page}: {fault}", file=sys.stderr)
            status = 1
        if words == ["--try"] and status == 0:
            for block in blocks:
                for copy in changed_copies(block):
                    if fault_of(copy, sources) is None:
                        print(f"{page}: a changed copy isn't refused: {block[0]}", file=sys.stderr)
                        status = 1
    faults, count = example_faults(sources)
    faults = faults or ["the calls have no examples"] * (count == 0)
    for fault in written_faults() + script_page.page_faults(words == ["--try"]) + faults + plain_words.faults(ROOT, PAGES):
        print(fault, file=sys.stderr)
        status = 1
    if words == ["--try"] and not plain_words.faults_in(ROOT / "docs/a.md", ["The call answers a box."]):
        print("a word that has a plainer one isn't found", file=sys.stderr)
        status = 1
    if words == ["--try"] and not example_faults({path: [] for path in sources})[0]:
        print("examples that stand nowhere aren't refused", file=sys.stderr)
        status = 1
    if words == ["--try"] and any(begins_with_main(page, blocks) for page in WITH_MAIN for blocks in ([], [["x"]])):
        print("a page without a program isn't refused", file=sys.stderr)
        status = 1
    if words == ["--try"] and not are_wrong_tellings_found():
        print("a wrong link or line of crates.txt isn't refused", file=sys.stderr)
        status = 1
    if status == 0:
        print(f"the pages' code, links and lines of crates.txt, and {count} examples, are true, and the words are plain")
    return status


if __name__ == "__main__":
    sys.exit(main(sys.argv[1:]))
