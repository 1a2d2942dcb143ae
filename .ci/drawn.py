#!/usr/bin/env python3
"""Draws the pictures of docs/drawn/ from what example_pictures prints.

    .ci/drawn.py          writes NAME.dot, and draws it as NAME.svg by the command `dot` of Graphviz
    .ci/drawn.py --try    compares: needs no `dot`, and fails where a text or a picture is another's

The program prints one graph after the other. A picture is its text's if it
has the same nodes and edges.
"""
import html
import pathlib
import re
import subprocess
import sys

ROOT = pathlib.Path(__file__).resolve().parent.parent
PRINTED = ROOT / "crates/example_pictures/stdout"
FOLDER = ROOT / "docs/drawn"
# In the order in which the program prints them.
NAMES = ["store", "tree", "document", "entities", "graph", "sessions"]
GRAPH = re.compile(r"(?ms)^digraph \{\n.*?^\}\n")
# A node's name, or those of an edge's ends; and what Graphviz writes of one.
LINE = re.compile(r'(?m)^    ("[^"]*"(?: -> "[^"]*")?)(?: \[|;)')
TITLE = re.compile(r'class="(?:node|edge)">\s*<title>([^<]*)</title>')


def graphs():
    """The texts of the graphs, by their names."""
    found = GRAPH.findall(PRINTED.read_text(encoding="utf-8"))
    if len(found) != len(NAMES):
        sys.exit(f"drawn: {len(found)} graphs are printed, and {len(NAMES)} have names")
    return dict(zip(NAMES, found))


def drawn_of(text):
    """What a text's picture has: its nodes and edges, sorted. A node may have edges only."""
    lines = [re.findall(r'"([^"]*)"', line) for line in LINE.findall(text)]
    nodes = {name for line in lines for name in line}
    return sorted([*nodes, *("->".join(line) for line in lines if len(line) > 1)])


def drawn_in(picture):
    """The nodes and edges of a picture, sorted."""
    return sorted(html.unescape(title) for title in TITLE.findall(picture))


def draw(name, text):
    (FOLDER / f"{name}.dot").write_text(text, encoding="utf-8")
    subprocess.run(["dot", "-Tsvg", f"-o{FOLDER / name}.svg", f"{FOLDER / name}.dot"], check=True)


def fault_of(name, text):
    """What is wrong with what is stored of a graph, or None."""
    if (FOLDER / f"{name}.dot").read_text(encoding="utf-8") != text:
        return f"docs/drawn/{name}.dot isn't what example_pictures prints"
    if drawn_in((FOLDER / f"{name}.svg").read_text(encoding="utf-8")) != drawn_of(text):
        return f"docs/drawn/{name}.svg isn't the picture of {name}.dot"
    return None


def main(words):
    texts = graphs()
    if words != ["--try"]:
        FOLDER.mkdir(exist_ok=True)
        for name, text in texts.items():
            draw(name, text)
    faults = [fault for fault in (fault_of(*it) for it in texts.items()) if fault]
    if faults:
        sys.exit("\n".join(f"drawn: {it}: run .ci/drawn.py" for it in faults))
    others = {name: fault_of(name, text.replace("0@1", "9@9").replace("price", "cost")) for name, text in texts.items()}
    if not all(others.values()):
        sys.exit("drawn: another text has the same picture")


if __name__ == "__main__":
    main(sys.argv[1:])
