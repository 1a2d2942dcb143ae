#!/usr/bin/env python3
"""Compares docs/maintaining/map.md with the sources, and shows what its lists leave out.

    .ci/map.py                   compares, and fails where the pages and the sources differ
    .ci/map.py --try             does so, and shows that pages with a wrong line are refused
    .ci/map.py --homonyms        prints each name that stands in two crates or more, with where it does
    .ci/map.py --files CRATE..   prints each file of these crates with its first line; of a source what it
                                 uses, and of a file of lemmas the headings of its sections

The page has the crates of crates.txt in lists, one for each kind; a crate's name tells its kind. What
users take, and what stores are made of, stands there with its sources, in the order in which they are
read. Each source, definition and file of lemmas says in its first line what it is, also one with a folder
of its name. A clause reaches each definition of specs/, by its name, or by that of one that it reaches:
what proofs alone cite stands with them. A name of a definition or of a public type says one thing: at most
25 of them stand in two crates or more. And each function in which .ci/planted.md has a bug is there, and
each test that it names as what refuses one. The files and functions of docs/maintaining/walks.md are there,
with its counts of files and questions, and so are the files that CONTRIBUTING.md lists for a new call.
"""
import functools
import os
import re
import sys

ROOT = os.path.join(os.path.dirname(os.path.abspath(__file__)), "..")
PAGE = os.path.join(ROOT, "docs", "maintaining", "map.md")
PLANTED = os.path.join(ROOT, ".ci", "planted.md")
WALKS = os.path.join(ROOT, "docs", "maintaining", "walks.md")
NEW_CALL = os.path.join(ROOT, "docs", "maintaining", "CONTRIBUTING.md")
# The kinds of crates, each by the heading of its list and what its names are.
KINDS = {
    "### What users take": r"generational_\w+|saved_\w+|signals|reactive(?:_values)?|\w+_table|\w+_tree",
    "### What stores are made of": r"(store|shared)_\w+|location_list|live_cells|dirty_slots|stamped_values|handles",
    "### Programs": r"boxes(_\w+)?|example_(?:programs|sheet|durable_sessions)|todo_list",
    "### Proved callers": r"example_(?!programs$|sheet$|durable_sessions$)\w+",
    "### Tests": r"test_\w+",
    "### What is measured": r"bench_\w+",
}
# The kinds whose lists have the sources too, in the order of reading.
ORDERED = ("### What users take", "### What stores are made of")
TESTS = "test_"
# A definition, by its name, and the words of a text. Operators are left out.
DEFINITION = re.compile(r"\s*(?:abbrev pub|unfoldable pub|pub record|pub data) (?!use\b)([\w'-]+)")
WORD = re.compile(r"[\w'-]+")
# A heading of a section in a file of lemmas: the larger ones have ====.
HEADING = re.compile(r" *-- (====|----) (.+)")
# The functions in which a bug is planted: the names right behind the crate's.
PLANT = re.compile(r"`(\w+)`:((?:(?: |, | or |, then )`[\w:]+`)+)")
# The heading of a walk, and one of its files with the functions.
WALK = re.compile(r"(?m)^## (.+): (\d+) files, (\d+) questions$")
WALK_FILE = re.compile(r"(?m)^- `([\w/]+\.rt)`: (.+)$")
# A public definition at the top of a file or of a module in it: the keyword of a record or a data, and the
# name. What stands deeper is a field.
PUBLIC = re.compile(r"(?:unfoldable )?(?:abbrev pub|pub (record|data)|pub(?! (?:use|mod|open|import)\b)) ([A-Za-z][\w'-]*)")
BLOCK = re.compile(r"(?:pub )?(?:record|data)\b")
# A public type or trait.
TYPE = re.compile(r"(?m)^pub (?:struct|enum|trait|type) (\w+)")
# How many names may stand in two crates or more.
MOST_HOMONYMS = 25
# The kinds of crates whose types are named for themselves alone.
OUTER = ("example_", "test_", "bench_")
# What only imports names.
IMPORT = re.compile(r"\s*(ghost |pub )?use ")
# Files that only name others, or answer the goals of one function.
PLAIN = re.compile(r"(/|^)(Lib|Answers|Invariants)\.antt$")


class Failure(Exception):
    """The page or a file isn't as it is wanted."""


def all_crates():
    """The names of the crates, in the order of crates.txt."""
    with open(os.path.join(ROOT, "crates.txt"), encoding="utf-8") as lines:
        lines = [line.split("#")[0].strip() for line in lines]
    return [line.split(":")[0].split()[0] for line in lines if line]


def files_of(crate, *folders):
    """The files of these folders of a crate, from the crate's folder."""
    top = os.path.join(ROOT, "crates", crate)
    for folder in folders:
        for where, _, names in sorted(os.walk(os.path.join(top, folder))):
            yield from sorted(os.path.relpath(os.path.join(where, name), top) for name in names)


def sources_of(crate):
    """The modules of a crate, but its root: `state/making` for src/state/making.rt."""
    files = [it.removeprefix("src/") for it in files_of(crate, "src")]
    return [it.removesuffix(".rt") for it in files if it.endswith(".rt") and it != "lib.rt"]


def read(crate, file):
    with open(os.path.join(ROOT, "crates", crate, file), encoding="utf-8") as text:
        return text.read()


def text_of(path):
    with open(path, encoding="utf-8") as text:
        return text.read()


def first_line(crate, file, text):
    """What a file says that it is. The first sentence may go over several lines."""
    mark = "//!" if file.endswith(".rt") else "--"
    lines = []
    for line in text.splitlines():
        if not line.startswith(mark) or HEADING.match(line):
            break
        lines.append(line.removeprefix(mark).strip())
    said = " ".join(lines)
    wanted(said, f"crates/{crate}/{file} doesn't say in its first line what it is")
    return re.split(r"(?<=[.])\s", said)[0].rstrip(".:")


def headings(text):
    """The headings of a file of lemmas, each with what it is under. One may go over several lines, as
    far as a comment goes."""
    lines = text.splitlines()
    for at, line in enumerate(lines):
        found = HEADING.match(line)
        if found:
            said, mark = [found[2]], line.partition("--")[0] + "-- "
            for more in lines[at + 1 :]:
                if not more.startswith(mark) or HEADING.match(more):
                    break
                said.append(more.removeprefix(mark))
            yield found[1], " ".join(said)


def uses_of(crate, file):
    """The crate's own modules and the other crates that a source names in its imports."""
    code = re.sub(r"//.*", "", read(crate, file))
    code = re.sub(r"ghost use [^;]*;", "", code)
    roots = re.findall(r"\buse ((?:crate::)?[a-z_]+)", code)
    own = sorted({it.removeprefix("crate::") for it in roots if it.startswith("crate::")})
    return own + sorted(set(roots) - {"std", "core", "super", "crate"} - {f"crate::{it}" for it in own})


def section(page, title):
    if f"\n{title}\n" not in page:
        raise Failure(f"the page has no section {title}")
    return re.split(r"\n###? ", page.split(f"\n{title}\n")[1])[0]


def entries(text):
    """The entries of a list of crates, each as its crate and the sources in brackets."""
    found = re.findall(r"(?m)^- `(\w+)`: [^(\n]*(?:\(([^)\n]*)\))?$", text)
    return [(crate, names(listed)) for crate, listed in found]


def rows(text):
    """The rows of a table, each as its cells."""
    lines = [it for it in text.splitlines() if it.startswith("|")]
    return [[cell.strip() for cell in it.strip("|").split("|")] for it in lines[2:]]


def names(cell):
    return re.findall(r"`([^`]+)`", cell)


def wanted(ok, what):
    if not ok:
        raise Failure(what)


def kind_of(crate):
    """The heading under which a crate stands, as its name tells."""
    found = [title for title, words in KINDS.items() if re.fullmatch(words, crate)]
    wanted(len(found) == 1, f"the name of {crate} tells no kind of crate")
    return found[0]


def compare_kinds(page):
    """The crates of the page, each of which stands under its kind."""
    crates = []
    for title in KINDS:
        for crate, _ in entries(section(page, title)):
            wanted(kind_of(crate) == title, f"{crate} stands under {title}")
            crates.append(crate)
    return crates


def compare(page):
    crates = compare_kinds(page)
    wanted(sorted(crates) == sorted(all_crates()), f"the crates are {all_crates()}, and on the page {crates}")
    for crate, listed in (entry for title in ORDERED for entry in entries(section(page, title))):
        on_page, there = sorted(listed), sorted(sources_of(crate))
        wanted(on_page == there, f"{crate} has the sources {there}, and on the page {on_page}")


def told_files(crate):
    """The files of a crate that say what they are."""
    files = files_of(crate, "src", "specs", "proofs")
    return [it for it in files if it.endswith((".rt", ".antt")) and not PLAIN.search(it)]


def compare_files(text_in):
    """The files, each of which says what it is; `text_in` gives a file's text."""
    for crate in all_crates():
        for file in told_files(crate):
            first_line(crate, file, text_in(crate, file))


def words_of(line, comment):
    """The words of a line, but for a comment and imports."""
    return set() if IMPORT.match(line) else set(WORD.findall(line.partition(comment)[0]))


def texts_of(folder, ending):
    """The texts of the files in a folder of each crate."""
    for crate in all_crates():
        for file in (it for it in files_of(crate, folder) if it.endswith(ending)):
            yield read(crate, file)


def definitions():
    """The words of each definition of specs/, by its name."""
    found = {}
    for text in texts_of("specs", ".antt"):
        name = None
        for line in text.splitlines():
            opening = DEFINITION.match(line)
            name = opening[1] if opening else name
            found.setdefault(name, set()).update(words_of(line, "--"))
    found.pop(None, None)
    return found


def words_of_sources():
    lines = (line for text in texts_of("src", ".rt") for line in text.splitlines())
    return set().union(*(words_of(line, "//") for line in lines))


def compare_definitions(defined):
    """The definitions, each of which a clause names, or one that a clause reaches."""
    left = set(defined)
    reached = left & words_of_sources()
    while reached:
        left -= reached
        reached = left & set().union(*(defined[name] for name in reached))
    wanted(not left, f"no clause reaches {' '.join(sorted(left))}")


def public_names(text):
    """The definitions of a file of specs/ that others may import, without the fields of records."""
    block = None
    for line in text.splitlines():
        said = line.lstrip()
        depth = len(line) - len(said)
        if not said or said.startswith("--") or (block is not None and depth > block):
            continue
        block = depth if BLOCK.match(said) else None
        found = PUBLIC.match(said)
        if found:
            yield found[2]


def homonyms():
    """Each name of a definition or of a public type that two crates or more have, with these crates."""
    crates = {}
    for crate in all_crates():
        specs = [it for it in files_of(crate, "specs") if it.endswith(".antt")]
        found = {name for file in specs for name in public_names(read(crate, file))}
        if not crate.startswith(OUTER):
            sources = [it for it in files_of(crate, "src") if it.endswith(".rt")]
            found |= {name for file in sources for name in TYPE.findall(read(crate, file))}
        for name in found:
            crates.setdefault(name, []).append(crate)
    return {name: there for name, there in sorted(crates.items()) if len(there) > 1}


def compare_homonyms(found):
    """The names that stand in two crates or more: few enough."""
    said = ", ".join(found)
    wanted(len(found) <= MOST_HOMONYMS, f"{len(found)} names stand in two crates or more: {said}")


def tests_there():
    """Each function of the crates of tests, as `module::function`."""
    found = set()
    for crate in (it for it in all_crates() if it.startswith(TESTS)):
        for module in sources_of(crate):
            name = module.rpartition("/")[2]
            found |= {f"{name}::{it}" for it in re.findall(r"\bfn (\w+)", read(crate, f"src/{module}.rt"))}
    return found


@functools.cache
def declared(crate):
    """What a crate's sources declare: functions, and types, traits and modules."""
    modules = [f"{it}.rt" for it in [*sources_of(crate), "lib", "main"]]
    files = [it for it in files_of(crate, "src") if it.removeprefix("src/") in modules]
    texts = [read(crate, it) for it in files]
    functions = {name for text in texts for name in re.findall(r"\bfn (\w+)", text)}
    types = {name for text in texts for name in re.findall(r"\b(?:struct|enum|trait|mod) (\w+)", text)}
    return functions, types | {it.removesuffix(".rt").rpartition("/")[2] for it in modules}


def is_declared(crate, name):
    """Whether a crate has `function`, `Type`, or `Type::function` (`module::function`)."""
    functions, types = declared(crate)
    owner, _, last = name.rpartition("::")
    return last in functions and (not owner or owner in types) or not owner and last in types


def compare_planted(page):
    """The functions in which bugs are planted, and the tests that refuse them: each must be there."""
    bugs = rows(page)
    wanted(bugs and all(len(it) == 3 for it in bugs), "a planted bug has a row of three cells")
    for bug in bugs:
        place = PLANT.match(bug[1])
        wanted(place and place[1] in all_crates(), f"planted.md doesn't say where this bug is: {bug[1]}")
        gone = [it for it in names(place[2]) if not is_declared(place[1], it)]
        wanted(not gone, f"planted.md has a bug in {', '.join(gone)}, which {place[1]} hasn't")
    named = {name for bug in bugs for name in re.findall(r"`(\w+::\w+)`", bug[2])}
    gone = sorted(named - tests_there())
    wanted(not gone, f"planted.md names tests that aren't there: {' '.join(gone)}")


def compare_walks(page):
    """The walks: each file is there and has each function, and their counts are true."""
    _, *walks = re.split(r"(?m)^(?=## )", page)
    wanted(walks, "walks.md has no walk")
    for walk in walks:
        heading, files = WALK.match(walk), WALK_FILE.findall(walk)
        wanted(heading, f"walks.md has a heading without its counts: {walk.splitlines()[0]}")
        counts = f"{len(files)} files, {walk.count('?')} questions"
        wanted(heading[0].endswith(f": {counts}"), f"{heading[1]} of walks.md has {counts}")
        for file, said in files:
            path = os.path.join(ROOT, "crates", file)
            there = set(re.findall(r"\bfn (\w+)", text_of(path))) if os.path.isfile(path) else set()
            gone = [it for it in names(said) if it not in there]
            wanted(not gone, f"{heading[1]} of walks.md names {', '.join(gone)}, which {file} hasn't")


def compare_new_call(page):
    """The files that a new call changes, in a numbered list: each is there, in the crate named before it."""
    steps = re.findall(r"(?m)^\d+\. (.+)$", section(page, "## To add a call"))
    wanted(steps, "CONTRIBUTING.md has no list of files for a new call")
    for step in steps:
        crate = None
        for name in names(step):
            crate = name if name in all_crates() else crate
            path = os.path.join(ROOT, "crates", crate or "", name)
            wanted("/" not in name or crate and os.path.exists(path), f"CONTRIBUTING.md: {crate} has no {name}")


def print_files(crate):
    for file in told_files(crate):
        text = read(crate, file)
        uses = f" [{', '.join(uses_of(crate, file)) or 'nothing'}]" if file.endswith(".rt") else ""
        print(f"{crate}/{file}: {first_line(crate, file, text)}{uses}")
        for mark, heading in headings(text) if file.startswith("proofs/") else ():
            print(f"{'  - ' if mark == '====' else '    - '}{heading}")


def wrong_pages(page):
    """Pages of which a line is wrong: a crate less, one twice, one under another kind, a source less, one
    twice, one that isn't there."""
    yield re.sub(r"(\n- `boxes`:[^\n]*)(.*\n- `example_callers`:[^\n]*)", r"\2\1", page, count=1, flags=re.S)
    yield re.sub(r"(\n- `example_callers`:[^\n]*)", r"\1\1", page, count=1)
    yield re.sub(r"\n- `example_files`:[^\n]*", "", page, count=1)
    yield page.replace("`borrow`, ", "", 1)
    yield page.replace("`borrow`, ", "`borrow`, `borrow`, ", 1)
    yield page.replace("`borrow`, ", "`borrow`, `lent`, ", 1)


def refuse(compared, page, wrong):
    wanted(wrong != page, "a change changes nothing")
    try:
        compared(wrong)
    except Failure:
        return
    raise Failure("a wrong page isn't refused")


def without_first_line(crate, file):
    """A file's text, but for the first line of one file of lemmas, which has a folder of its name."""
    text = read(crate, file)
    return text.partition("\n")[2] if (crate, file) == ("store_slots", "proofs/states.antt") else text


# A file of lemmas, and its headings.
SAMPLE = """-- What is said.
-- ==== one, and
-- two

  -- ---- three
  -- of a lemma
lemma : A

  -- what a lemma says
"""
SAMPLE_HEADINGS = [("====", "one, and two"), ("----", "three of a lemma")]


# A file of specs/, and the names that it defines.
SAMPLE_SPECS = """-- What is said.
use Rattle.one.specs.Two.{three}
pub record Four : Type 0 where
  pub field : A

module _ (p : A) where
  -- pub record Left : Type 0
  pub data Five : Type 0 where
    One : A

  abbrev pub six : A
  six = field

unfoldable pub seven : A
private : A
pub use Rattle.one.specs.Two.{eight}
"""
SAMPLE_NAMES = ["Four", "Five", "six", "seven"]


def main():
    words = sys.argv[1:]
    if words == ["--homonyms"]:
        for name, crates in homonyms().items():
            print(f"{name}: {', '.join(crates)}")
        return
    if words[:1] == ["--files"]:
        for crate in words[1:]:
            print_files(crate)
        return
    page, planted, defined = text_of(PAGE), text_of(PLANTED), definitions()
    walks, new_call = text_of(WALKS), text_of(NEW_CALL)
    compare(page)
    compare_files(read)
    compare_definitions(defined)
    compare_planted(planted)
    compare_walks(walks)
    compare_new_call(new_call)
    if words == ["--try"]:
        for wrong in wrong_pages(page):
            refuse(compare, page, wrong)
        refuse(compare_files, read, without_first_line)
        wanted(list(headings(SAMPLE)) == SAMPLE_HEADINGS, "a sample has other headings")
        refuse(compare_planted, planted, planted.replace("`pairs::", "`peers::"))
        refuse(compare_planted, planted, planted.replace("`Queue::push`", "`Queue::shove`"))
        refuse(compare_planted, planted, planted.replace("`Queue::push`", "`Row::push`"))
        refuse(compare_planted, planted, planted.replace("| `store_parts`: `Queue::push`", "| `Queue::push`"))
        for right, wrong in ("`own`", "`foreign`"), (" Ticket?", ""), ("6 files", "7 files"), ("/boxes.rt", "/box.rt"):
            refuse(compare_walks, walks, walks.replace(right, wrong, 1))
        refuse(compare_new_call, new_call, new_call.replace("`specs/Machine.antt`", "`specs/Machines.antt`"))
        wanted(list(public_names(SAMPLE_SPECS)) == SAMPLE_NAMES, "a sample has other definitions")
        compare_homonyms(homonyms())
        refuse(compare_homonyms, {}, {f"name_{it}": ["one", "two"] for it in range(MOST_HOMONYMS + 1)})
        refuse(compare_definitions, defined, {**defined, "named_by_itself": {"named_by_itself"}})
        refuse(compare_planted, planted, planted.replace("::words_that_are_no_list`", "::words_that_are_none`"))
    print("the pages of docs/maintaining and .ci/planted.md are what the sources say; clauses reach each definition")


if __name__ == "__main__":
    try:
        main()
    except Failure as failure:
        sys.exit(f"map: {failure}")
