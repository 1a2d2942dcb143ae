"""Compares docs/script.md, and each block that runs `boxes`, with what the gate runs.

The gate's lines are those of .ci/refuse/rows and of test_scripts, each with its reply. Each of them must be
a command of the page with one of its replies, each command of the page one of them with each of its replies,
and what the gate knows to be a bad line no command. Statuses are those of the program's faults and verdicts.
A block that pipes lines into `rt try` gives what is stored as the crate's stdin, and prints what is stored as
its stdout. (`.ci/page.py` calls this.)
"""
import pathlib
import re
import sys

ROOT = pathlib.Path(__file__).resolve().parent.parent
sys.path.insert(0, str(ROOT / ".ci/refuse"))
from refuse import REFUSED, rows, whole  # noqa: E402

PAGE = ROOT / "docs/script.md"
PROGRAM = ROOT / "crates/boxes_script/src"
SCRIPTS = ROOT / "crates/test_scripts/src/scripts.rt"
# What the words in capitals on the page stand for.
NUMBER, PLACE = r"\d+", r"script:\d+:1"
WORDS = {
    **dict.fromkeys("BGON", r"(?:[1-9]\d{0,5}|1000000)"),
    **dict.fromkeys(["SLOT", "GENERATION", "S", "F", "R", "P"], NUMBER),
    **{"VALUE": r".*", "LOCATION": PLACE, " LOCATION ..": rf"(?:\t{PLACE})+"},
}
WORD = re.compile(r" LOCATION \.\.|\b(?:" + "|".join(it for it in WORDS if it.isalpha()) + r")\b")
# A block that runs a program, and what it prints.
RUN = re.compile(r"^    cd crates/(\w+)\n    printf '([^']*)' \| rt try\n\nIt prints\n\n((?:    .*\n)+)", re.M)


class Failure(Exception):
    """The page isn't what the gate runs."""


def wanted(ok, what):
    if not ok:
        raise Failure(what)


def section(page, title):
    wanted(f"\n## {title}\n" in page, f"no section {title}")
    return re.split(r"\n## ", page.partition(f"\n## {title}\n")[2])[0]


def table(text):
    """The rows of a section's table, each as its cells."""
    lines = [line for line in text.splitlines() if line.startswith("|")]
    return [[cell.strip() for cell in line.strip("|").split("|")] for line in lines[2:]]


def codes(cell):
    return re.findall(r"`([^`]+)`", cell)


def pattern(form):
    """What a command or a reply of the page stands for."""
    at, parts = 0, []
    for word in WORD.finditer(form):
        parts += [re.escape(form[at : word.start()]), WORDS[word[0]]]
        at = word.end()
    return re.compile("".join(parts) + re.escape(form[at:]))


def gate_lines():
    """Each command that the gate runs, with its reply."""
    for _, row in rows():
        yield from ((line.command, line.reply) for line in row)
    for line in re.findall(r'^ +"(.*)",$', SCRIPTS.read_text(encoding="utf-8"), re.M):
        command, arrow, reply = line.partition(" -> ")
        if arrow:
            yield command, whole(reply.replace(r"read:\t", "read: ").replace(r"\t", " "))


def compare_commands(page):
    commands = {row[0]: codes(row[2]) for row in table(section(page, "Commands"))}
    others = {code for row in table(section(page, "Other replies")) for code in codes(row[0])}
    forms = {it: pattern(codes(it)[0]) for it in commands}
    met = {REFUSED}
    for command, reply in gate_lines():
        found = [it for it, form in forms.items() if form.fullmatch(command)]
        wanted(len(found) == (reply != "bad line"), f"{command!r}, of which the reply is {reply!r}, is {found}")
        replies = others | {it for form in found for it in commands[form]}
        fit = [it for it in replies if pattern(it).fullmatch(reply)]
        fit = [it for it in fit if it in others] or fit
        wanted(fit, f"{command!r} has the reply {reply!r}")
        met |= {it if it in others else (form, it) for form in found or [None] for it in fit}
        met |= {(form, "VALUE") for form in found if not pattern(form.replace("VALUE", "N")).fullmatch(f"`{command}`")}
    left = [it for it in others if it not in met]
    left += [(form, it) for form in commands for it in commands[form] if (form, it) not in met]
    # A value may be any text: each is met with one that is no number.
    left += [form for form in commands if "VALUE" in form and (form, "VALUE") not in met]
    wanted(not left, f"the gate never has {left}")


def faults():
    """The program's faults, each its text with its status, by its name."""
    text = (PROGRAM / "fault.rt").read_text(encoding="utf-8")
    texts = {name: said for said, name in re.findall(r'#\[error\("([^"]+)"\)\]\n    (\w+),', text)}
    arms = re.findall(r"^ +((?:ScriptFault::\w+(?: \| )?)+) => (\d+),", text, re.M)
    return {name: (texts[name], status) for names, status in arms for name in re.findall(r"::(\w+)", names)}


def verdicts():
    """The lines of a comparison, each with the status."""
    text = (ROOT / "crates/boxes_script/src/verdict.rt").read_text(encoding="utf-8")
    lines = dict(re.findall(r'Verdict::(\w+)(?:\(\w+\))? => write!\(f, "([^"]+)"\)', text))
    text, known = (PROGRAM / "run.rt").read_text(encoding="utf-8"), faults()
    ends = re.findall(r"Verdict::(\w+)(?:\(_\))? => (?:Ok\((\d+)\)|Err\(ScriptFault::(\w+)\))", text)
    return {(lines[name].replace("{place}", "N"), status or known[fault][1]) for name, status, fault in ends}


def compare_ends(page):
    ends = {(*(codes(row[2]) or [None]), row[0]) for row in table(section(page, "How a run ends"))}
    wanted(ends == {(None, "0"), *faults().values()}, f"the statuses are {sorted(faults().values())}")
    compared = {(*codes(row[0]), row[2]) for row in table(section(page, "Comparing two stores"))}
    wanted(compared == verdicts(), f"the verdicts are {sorted(verdicts())}")


def run_faults(page):
    """The blocks that run a program on other lines than the gate does, or say that it prints others."""
    faults = []
    for crate, given, printed in RUN.findall(page):
        stored = [(ROOT / "crates" / crate / name).read_text(encoding="utf-8") for name in ("stdin", "stdout")]
        printed = "".join(it[4:] + "\n" for it in printed.splitlines())
        if [given.replace(r"\n", "\n"), printed] != stored:
            faults.append(f"the gate runs {crate} on other lines than {given!r}, or it prints others")
    return faults


def compare(page):
    for part in (compare_commands, compare_ends):
        part(page)


def wrong_pages(page):
    """Pages that are wrong in one thing each: a command that isn't there, one that is missing, a reply that
    is missing, one too many, a status, and a verdict."""
    for old, new in [
        ("| `leak VALUE` |", "| `leap VALUE` |"),
        ("| `stats` |", "| `stat` |"),
        ("| `id B` |", "| `id VALUE` |"),
        ("| `ok` or `unready` |", "| `ok` |"),
        ("| `reader` |", "| `reader` or `writer` |"),
        ("| `no such` |", "| `none such` |"),
        ("immutably.borrowed_at: LOCATION ..`", "immutably.borrowed_at: LOCATION`"),
        ("| 3 | an", "| 1 | an"),
        ("alike, ids and numbers of slots aside | 0 |", "alike | 1 |"),
    ]:
        wanted(old in page, f"the page hasn't {old!r}")
        yield page.replace(old, new, 1)


def page_faults(is_trial):
    """What is wrong with the page; in a trial also which wrong page isn't refused."""
    page = PAGE.read_text(encoding="utf-8")
    try:
        compare(page)
        wrong = list(wrong_pages(page)) if is_trial else []
    except Failure as failure:
        return [f"{PAGE}: {failure}"]
    return [f"{PAGE}: a wrong page isn't refused, the {i}-th" for i, it in enumerate(wrong) if is_true(it)]


def is_true(page):
    try:
        compare(page)
    except Failure:
        return False
    return True
