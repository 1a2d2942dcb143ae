#!/usr/bin/env python3
"""Writes the pages on what users call, docs/api/CRATE.md, from the sources.

    .ci/api.py          writes all pages anew
    .ci/api.py --try    compares them, and shows that a source that says otherwise is found

A page has each public item of its crate, also one that it re-exports: its signature, its comment
without the example, the names of all its clauses, and a link to its source. A clause without a name is
printed itself. Sources are in rt fmt's layout.
"""
import pathlib
import re
import sys

ROOT = pathlib.Path(__file__).resolve().parent.parent
FOLDER = ROOT / "docs" / "api"
CRATES = ["generational_box", "generational_sync", "generational_workers", "saved_bytes", "saved_json", "signals", "reactive",
          "entity_table", "session_table", "scene_tree", "document_tree", "generational_dot"]
# Crates that users take through generational_box or reactive.
HANDED_ON = {"generational_errors", "generational_core", "generational_laws", "generational_sessions", "reactive_values"}
TAKEN = "# What users take."
ITEM = re.compile(r"pub (?:const |unsafe )?(fn|struct|enum|trait|type|const) (\w+)")
METHOD = re.compile(r"    (?:pub )?(?:final |const )*fn (\w+)")
CLAUSE = re.compile(r"(requires|ensures)\*? ?(\w+)? ?\{")
# How much of a clause without a name a page shows.
LONGEST = 200
# What every type of a kind has, and no user asks for.
PLAIN_TRAITS = {"Model", "Drop"}
# A line of a comment that isn't joined to the line before it: of a list or of a table.
OWN_LINE = re.compile(r"[-*|]|\d+\. ")


class Failure(Exception):
    """A page isn't what the sources say, or a source can't be read."""


class Sources:
    """The sources of the crates, some of which may be read otherwise than they stand."""

    def __init__(self, others=None):
        self.others, self.known = others or {}, {}

    def lines(self, crate, module):
        key = f"{crate}/src/{module}.rt"
        if key not in self.known:
            text = (ROOT / "crates" / key).read_text(encoding="utf-8")
            self.known[key] = self.others.get(key, lambda it: it)(text).splitlines()
        return self.known[key]

    def modules(self, crate):
        """The modules of a crate: `state/making` for src/state/making.rt."""
        src = ROOT / "crates" / crate / "src"
        return [it.relative_to(src).with_suffix("").as_posix() for it in sorted(src.rglob("*.rt"))]


def exports(sources, crate):
    """What a crate's root makes public, in its order: each name with the crate and the module of its
    own, and the name of a public module with None."""
    text = "\n".join(line for line in sources.lines(crate, "lib") if not line.startswith("//"))
    found = []
    for module, used in re.findall(r"^pub (?:mod (\w+);|use ([^;]+);)", text, re.M):
        if module:
            found.append((module, crate, None))
            continue
        path, _, names = used.partition("::{") if "::{" in used else used.rpartition("::")
        for name in re.findall(r"\w+", names):
            found.append(home(sources, crate, path.split("::"), name))
    return found


def home(sources, crate, path, name):
    """Where a name is defined that a crate's root takes from a path."""
    if path[0] == "crate":
        return name, crate, "/".join(path[1:])
    if len(path) > 1:
        return name, path[0], "/".join(path[1:])
    return next(it for it in exports(sources, path[0]) if it[0] == name)


def comment_above(lines, at):
    """An item's comment, without its examples: its paragraphs."""
    while at > 0 and re.match(r" *(#\[|//(?!/))", lines[at - 1]):
        at -= 1
    end = at
    while at > 0 and lines[at - 1].lstrip().startswith("///"):
        at -= 1
    return paragraphs([line.strip().removeprefix("///").strip() for line in lines[at:end]])


def paragraphs(said):
    """The paragraphs of a comment's lines, each a line, without code blocks. A list or a table keeps its
    lines, and a heading is set in bold, since a page has headings for items only."""
    found, is_code, is_new = [], False, True
    for line in said:
        is_code ^= line.startswith("```")
        if is_code or not line or line.startswith("```"):
            is_new = True
        elif line.startswith("#"):
            found.append(f"**{line.lstrip('#').strip()}**")
            is_new = True
        elif is_new:
            found.append(line)
            is_new = False
        else:
            found[-1] += ("\n" if OWN_LINE.match(line) else " ") + line
    return found


def parted(said):
    """Paragraphs as lines of a page, each with a blank line after it."""
    return [line for paragraph in said for line in (paragraph, "")]


def derived_above(lines, at):
    """The traits that an item derives."""
    found = []
    while at > 0 and lines[at - 1].startswith(("#[", "//")):
        at -= 1
        inside = re.match(r"#\[derive\((.*)\)\]", lines[at])
        found += re.split(r",\s*", inside[1]) if inside else []
    return found


def head_at(lines, at):
    """The lines of a function's head, with its clauses and without its body and comments. A function
    without a body ends with the `;` that is in no bracket: one in a clause's `record {..;}` ends nothing."""
    indent = len(lines[at]) - len(lines[at].lstrip())
    head, depth = [], 0
    for line in lines[at:]:
        if line == " " * indent + "{":
            return head
        if line.lstrip().startswith("//"):
            continue
        head.append(line[indent:])
        if line.endswith((" {", "{}")) and len(line) - len(line.lstrip()) == indent:
            head[-1] = head[-1].removesuffix("{}").removesuffix("{").rstrip()
            return head
        depth += sum(line.count(it) for it in "([{") - sum(line.count(it) for it in ")]}")
        if line.endswith(";") and depth == 0:
            head[-1] = head[-1].removesuffix(";")
            return head
    raise Failure(f"the head of {lines[at].strip()!r} has no end")


def split_head(head):
    """A function's signature, and its clauses: each a kind, a name or None, and its text."""
    first = next((i for i, line in enumerate(head) if CLAUSE.match(line.strip())), len(head))
    clauses = []
    for line in head[first:]:
        begun = CLAUSE.match(line.strip())
        if begun:
            clauses.append([begun[1], begun[2], line.strip()[begun.end():].strip()])
        else:
            clauses[-1][2] += " " + line.strip()
    return head[:first], [(kind, name, text.strip().removesuffix("}").strip()) for kind, name, text in clauses]


def shortened(text):
    """The text of a clause without a name, of which a long one is cut."""
    return text if len(text) <= LONGEST else text[:LONGEST].rsplit(" ", 1)[0] + " .."


def clause_lines(clauses):
    for kind, word in (("requires", "Requires"), ("ensures", "Ensures")):
        said = [f"`{name or shortened(text)}`" for each, name, text in clauses if each == kind]
        if said:
            yield f"{word}: {', '.join(said)}."


def function_lines(lines, at, title):
    """What a page says of a function."""
    signature, clauses = split_head(head_at(lines, at))
    yield from ["", title, "", "```rust", *signature, "```", ""]
    yield from parted(comment_above(lines, at))
    yield from (" ".join(clause_lines(clauses)) or "No clause beyond safety.",)


def body_at(lines, at):
    """The lines of a braced item that begins here, with its closing one."""
    end = next(i for i in range(at, len(lines)) if lines[i] == "}" or i == at and lines[i].endswith((";", "}")))
    return lines[at : end + 1]


def declaration(kind, lines, at):
    """A type as a page shows it: without attributes, private fields and a trait's own functions."""
    body = body_at(lines, at)
    if kind in ("const", "type"):
        end = next(i for i in range(at, len(lines)) if lines[i].endswith(";"))
        return lines[at : end + 1]
    if kind == "trait":
        ghosts = [line for line in body if re.match(r"    ghost (?!use)", line)]
        return [body[0], *ghosts, "    ..", "}"]
    head = next(i for i, line in enumerate(body) if line.endswith(("{", ";", "}")))
    if kind == "enum" or head == len(body) - 1:
        return [line for line in body if not line.lstrip().startswith("#[")]
    public = [line for line in body[head + 1 : -1] if re.match(r"    (pub \w+:|///)", line)]
    while public and public[-1].lstrip().startswith("///"):
        public.pop()
    hidden = any(re.match(r"    (?!pub \w+:)(?:pub\(\w+\) )?(?:ghost )?\w+:|    ghost ", it) for it in body[head + 1 : -1])
    shown = [line for i, line in enumerate(public) if is_of_public(public, i)]
    return [*body[: head + 1], *shown, *(["    .."] if hidden else []), "}"]


def is_of_public(lines, at):
    """Whether a line is a field, or the comment of the one that follows it."""
    return not lines[at].lstrip().startswith("///") or any(it.lstrip().startswith("pub ") for it in lines[at + 1 :])


def blocks_of(sources, crate, name):
    """The impl blocks of a type: each its trait or None, its module, and where it begins and ends."""
    for module in sources.modules(crate):
        lines = sources.lines(crate, module)
        for at, line in enumerate(lines):
            if not re.match(r"impl\b", line):
                continue
            head = " ".join(it.strip() for it in lines[at : at + 9]).split(" {")[0]
            head = without_arguments(re.sub(r"^impl", "", head))
            of, _, subject = head.rpartition(" for ")
            subject = re.sub(r"^(?:[&']\w* ?|dyn )*", "", subject.strip()).split(" where")[0]
            if subject.split("::")[-1].strip() == name:
                end = next(i for i in range(at, len(lines)) if lines[i] == "}" or i == at and lines[i].endswith("{}"))
                yield of.strip().split("::")[-1] or None, module, at, end


def without_arguments(text):
    """A text without what stands in angle brackets."""
    kept, depth = [], 0
    for i, char in enumerate(text):
        depth += char == "<"
        if not depth:
            kept.append(char)
        depth -= char == ">" and text[i - 1] != "-"
    return "".join(kept)


def link(crate, module):
    return f"[source](../../crates/{crate}/src/{module}.rt)"


def linked_to(crate, module, said):
    """The paragraphs of a comment as lines, the first with a link to the source."""
    first = f"{said[0]} ({link(crate, module)})" if said else link(crate, module)
    return parted([first, *said[1:]])[:-1]


def type_lines(sources, kind, name, crate, module, at):
    """What a page says of a type or a trait."""
    lines = sources.lines(crate, module)
    yield from ["", f"## {name}", "", "```rust", *declaration(kind, lines, at), "```", ""]
    yield from linked_to(crate, module, comment_above(lines, at))
    blocks = list(blocks_of(sources, crate, name))
    traits = {*derived_above(lines, at), *(of for of, *_ in blocks if of)} - PLAIN_TRAITS
    if traits:
        yield from ["", f"It implements {', '.join(f'`{it}`' for it in sorted(traits))}."]
    if kind == "trait":
        yield from functions_between(lines, at, at + len(body_at(lines, at)), name)
    for of, where, begin, end in blocks:
        if of is None:
            yield from functions_between(sources.lines(crate, where), begin, end, name)


def functions_between(lines, begin, end, owner):
    is_trait = lines[begin].startswith("pub trait")
    for at in range(begin + 1, end):
        found = METHOD.match(lines[at])
        if found and (is_trait or lines[at].startswith("    pub fn") or lines[at].startswith("    pub const fn")):
            yield from function_lines(lines, at, f"### {owner}::{found[1]}")


def module_lines(sources, module, crate):
    """What a page says of a public module of functions."""
    lines = sources.lines(crate, module)
    yield from ["", f"## The module {module}", "", *linked_to(crate, module, root_comment(lines))]
    handed_on = re.findall(r"(?m)^pub use (\w+)::(\w+)::\{([^}]*)\};", "\n".join(lines))
    for where, its, listed in handed_on:
        for name in re.findall(r"\w+", listed):
            yield from item_lines(sources, name, where, its, f"### {module}::")
    for at, line in enumerate(lines):
        used = re.match(r"pub use crate::([\w:]+)::(\w+);", line)
        if used:
            yield from item_lines(sources, used[2], crate, used[1].replace("::", "/"), f"### {module}::")
        found = ITEM.match(line)
        if found and found[1] == "fn":
            yield from function_lines(lines, at, f"### {module}::{found[2]}")


def item_lines(sources, name, crate, module, mark="## "):
    """What a page says of an item; a function's heading begins with the mark."""
    lines = sources.lines(crate, module)
    for at, line in enumerate(lines):
        found = ITEM.match(line)
        if not found or found[2] != name:
            continue
        if found[1] == "fn":
            yield from function_lines(lines, at, f"{mark}{name}")
            yield from ["", link(crate, module)]
        else:
            yield from type_lines(sources, found[1], name, crate, module, at)
        return
    raise Failure(f"crates/{crate}/src/{module}.rt has no public item {name}")


def root_comment(lines):
    """The paragraphs of a module's comment on itself."""
    return paragraphs([line.removeprefix("//!").strip() for line in lines if line.startswith("//!")])


def page_of(sources, crate):
    """The page of a crate."""
    about = parted(root_comment(sources.lines(crate, "lib")))
    text = [f"# {crate}", "", *about, "Written by `.ci/api.py` from the sources."]
    found = exports(sources, crate)
    for name, where, module in found:
        if module is not None and not is_module(sources, where, module, name):
            text += item_lines(sources, name, where, module)
    for name, where, module in found:
        if module is None or is_module(sources, where, module, name):
            text += module_lines(sources, name, where)
    return linked("\n".join(text) + "\n")


def linked(text):
    """A page's text in which rustdoc's links lead to the items' headings, if the page has them."""
    titles = set(re.findall(r"(?m)^##+ ([\w:]+)$", text))
    anchor = lambda name: f"(#{name.replace(':', '').lower()})"
    text = re.sub(r"\]\(crate::([\w:]+)\)", lambda it: f"]{anchor(it[1])}", text)
    text = re.sub(r"\]\((\w+::\w+)\)", lambda it: f"]{anchor(it[1])}" if it[1] in titles else it[0], text)
    return re.sub(r"\[(`([\w:]+)`)\](?!\()", lambda it: f"[{it[1]}]{anchor(it[2])}" if it[2] in titles else it[1], text)


def is_module(sources, crate, module, name):
    return module == "" or name in sources.modules(crate) and not name[0].isupper() and module == name


def index_of(sources):
    """The page that leads to the others."""
    text = ["# What users call", "", "One page for each crate, written by `.ci/api.py` from the sources.", ""]
    for crate in CRATES:
        first = re.split(r"(?<=[.])\s", root_comment(sources.lines(crate, "lib"))[0])[0]
        count = page_of(sources, crate).count("\n```rust\n")
        text.append(f"- [{crate}]({crate}.md), {count} items: {first}")
    return "\n".join(text) + "\n"


def taken():
    """The crates that users take, of which crates.txt has a part of its own."""
    part = (ROOT / "crates.txt").read_text(encoding="utf-8").split(TAKEN)[1].split("\n\n")[0]
    return {line.split(":")[0].split()[0] for line in part.splitlines() if line}


def pages(sources):
    left = sorted(taken() - set(CRATES) - HANDED_ON)
    if left:
        raise Failure(f"these crates have no page: {' '.join(left)}")
    return {"README.md": index_of(sources), **{f"{it}.md": page_of(sources, it) for it in CRATES}}


def stored():
    return {it.name: it.read_text(encoding="utf-8") for it in sorted(FOLDER.glob("*"))}


def change(old, new):
    def changed(text):
        if old not in text:
            raise Failure(f"--try: no source has {old!r}")
        return text.replace(old, new, 1)
    return changed


# A source with what is easily missed, and what a page says of its functions: a clause with a `;` inside,
# those after it, a comment with a list, an example and a paragraph after them, and a trait's functions, of
# which one is final.
SAMPLE = """
    /// Adds a node, and
    /// returns it.
    ///
    /// # Errors
    /// 1. `Stale`;
    /// 2. `Full`, if
    ///    no slot is free.
    ///
    /// ```rust
    /// let node = tree.add(1)?;
    /// ```
    /// Amortised O(1).
    pub fn add(&mut self, value: u64) -> Node
        requires { value < 9 }
        // What stands where.
        ensures family { f self.new ≡ record {
          parent = None;
          children = [];
        } }
        ensures { g self.new
            ≡ 1 }
        ensures* others { h self.old self.new }
    {
        add(value);
    }

    /// How many there are.
    fn len(&self) -> usize
        ensures count { result ≡ k (record { n = 1; }) }
        ensures { result < 9 };

    fn clear(&mut self);

    /// Adds a node by a closure. No type may write this one anew.
    final fn add_by<F: FnOnce() -> u64>(&mut self, f: F) -> Node
    where
        Self: Sized,
        requires { F.IsAlwaysCallable f }
    {
        self.add(f())
    }
"""
SAMPLE_PAGE = """
add

```rust
pub fn add(&mut self, value: u64) -> Node
```

Adds a node, and returns it.

**Errors**

1. `Stale`;
2. `Full`, if no slot is free.

Amortised O(1).

Requires: `value < 9`. Ensures: `family`, `g self.new ≡ 1`, `others`.

len

```rust
fn len(&self) -> usize
```

How many there are.

Ensures: `count`, `result < 9`.

clear

```rust
fn clear(&mut self)
```

No clause beyond safety.

add_by

```rust
final fn add_by<F: FnOnce() -> u64>(&mut self, f: F) -> Node
where
    Self: Sized,
```

Adds a node by a closure. No type may write this one anew.

Requires: `F.IsAlwaysCallable f`."""
# Sources that say otherwise than the pages: a signature, a clause's name, a clause without one, a
# comment, a function that is private, and a name that isn't re-exported any more.
CHANGES = [
    ("session_table/src/table.rt", change("pub fn login(&mut self, id: I, now: u64", "pub fn login(&mut self, id: I, now: u32")),
    ("session_table/src/table.rt", change("ensures opened {", "ensures began {")),
    ("entity_table/src/table.rt", change("ensures { result ≡ length self.now.rows }", "ensures { result ≡ 0 }")),
    ("scene_tree/src/tree.rt", change("    /// Whether", "    /// Whether or not")),
    ("generational_core/src/boxes.rt", change("    pub fn ptr_eq", "    fn ptr_eq")),
    ("generational_box/src/lib.rt", change("OwnerId, ", "")),
]


def try_itself(written):
    lines = SAMPLE.splitlines()
    heads = [at for at, line in enumerate(lines) if METHOD.match(line)]
    page = "\n".join(it for at in heads for it in function_lines(lines, at, METHOD.match(lines[at])[1]))
    if page != SAMPLE_PAGE:
        raise Failure(f"--try: of a sample a page says {page}")
    for path, edit in CHANGES:
        if pages(Sources({path: edit})) == written:
            raise Failure(f"--try: a changed crates/{path} leaves the pages")


def main(words):
    written = pages(Sources())
    if words == ["--try"]:
        there = stored()
        wrong = sorted(it for it in {*written, *there} if written.get(it) != there.get(it))
        if wrong:
            raise Failure(f"docs/api isn't what the sources say, run .ci/api.py: {' '.join(wrong)}")
        try_itself(written)
        print(f"docs/api is what the sources say, {len(written)} pages")
        return
    FOLDER.mkdir(exist_ok=True)
    for name in stored().keys() - written.keys():
        (FOLDER / name).unlink()
    for name, text in written.items():
        (FOLDER / name).write_text(text, encoding="utf-8")


if __name__ == "__main__":
    try:
        main(sys.argv[1:])
    except Failure as failure:
        sys.exit(f"api: {failure}")
