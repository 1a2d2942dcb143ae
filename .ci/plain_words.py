"""Words that pages and doc comments don't use: a Rust programmer has others. `.ci/page.py` prints each use."""
import re

# What isn't written, each with what to write.
WORDS = {
    r"answer(s|ed|ing)?": "returns, the result, the reply",
    r"refus(e|es|ed|als?|ing)": "fails with, an error",
    r"tak(e|es|ing) (no |any )?memory|lacks? memory|lack of memory": "allocates, fails to allocate",
    r"but for|whatever the answer": "except for; in each case",
    r"lets? (\w+ ){0,4}go(?! out)|letting (\w+ ){0,3}go": "drops",
    r"hand(s|ed)? (\w+ ){0,4}(back|in|over)": "returns, passes in",
    r"st(and|ands|ood) (in|at|there|here|behind|beside|for|apart)": "is in, comes after, represents",
    r"(is|are|was|were) (told|spent|lent)|must be spent|tells? (of|that|where)": "says; is consumed, borrowed",
    r"in the place of|in its place|in place of (a|an|the|that|what)": "replaces, instead of; in place",
    r"(a|one) (?!few|little|bit|lot)\w+ more": "another",
    r"(?<!worked out )by hand|for good|whoever|wherever|above the boxes": "manually; forever; built on boxes",
    r"(exactly|also|none|false|only) where|where (no|nothing|none|nobody)": "if, when, even if",
    r"(was|were) (never |ever )?given|given before|looked at in passing": "issued; read without a guard",
}
# What is meant otherwise in these files.
MEANT = {
    "machine.md": r"answers?|is lent",  # the machine's own words
    "history.md|laws.rt|caller_laws.rt|example_histories/src/lib.rt": r"answers?",  # the machine's answer
    "map.md|gate.md|README.md": r"answers?",  # a proof file's, and to a reader's question
    "tally.rt|recorded.rt|recorder.rt": r"refused",  # a kind of steps
}
# The crates and the pages that aren't written so yet.
LATER = set()


def prose(path, lines):
    """The lines of a page, or of a source's doc comments, each with its number, without code."""
    is_code = False
    for number, line in enumerate(lines, 1):
        if path.suffix == ".rt":
            comment = re.match(r"\s*//[/!] ?(.*)", line)
            is_code, line = is_code and comment is not None, comment[1] if comment else ""
        if line.startswith("```"):
            is_code = not is_code
        elif not is_code and not line.startswith("    "):
            yield number, re.sub(r"`[^`]*`|\]\([^)]*\)", "_", line)


def faults_in(path, lines):
    """The uses of these words in the lines of a page or a source, with what to write."""
    meant = [it for names, it in MEANT.items() if any(str(path).endswith(name) for name in names.split("|"))]
    return [f"{path}:{number}: {found[0]!r}: rather {other}"
            for number, line in prose(path, lines) for word, other in WORDS.items()
            for found in re.finditer(rf"\b(?:{word})\b", line, re.I)
            if not any(re.fullmatch(it, found[0], re.I) for it in meant)]


def faults(root, pages):
    """The uses of these words on these pages, and in the doc comments of the crates."""
    sources = [it for it in sorted(root.glob("crates/*/src/**/*.rt")) if it.relative_to(root).parts[1] not in LATER]
    paths = [it for it in pages if it.name not in LATER] + sources
    return [it for path in paths for it in faults_in(path, path.read_text(encoding="utf-8").splitlines())]
