#!/usr/bin/env python3
"""Respells this repository's own names after port.py of the kit: once, at the top of the repository.

usage: python3 tools/respell.py [FOLDER]

tools/respelled.tsv has a line for each name: the older spelling (as it was, or as port.py left it), a tab, the new one. Definitions, lemmas
and fields are in snake case; types and modules keep their capitals. A lemma that would have the name of a definition, or of a function of
src/, ends in _lem. In .antt and .rt files a name is turned where it stands as a word by itself; in comments and in documents only between
backticks. In must-fail edits also what port.py turns elsewhere: a projection is written tight, paths have dots, words of the library.
In the folder of a function's proof, proofs/F/, only definitions and lemmas of other files are turned.
"""
import os
import re
import sys

HERE = os.path.dirname(os.path.realpath(__file__))
DOCUMENTS = ["README.md", "docs/PROOFS.md", "docs/SPECIFICATION.md", "docs/CHANGING.md", "docs/FORMAT.md", "docs/USERS.md", "docs/SOURCES.md", "docs/SPEED.md"]
WORD = re.compile(r"[^\s(){},;.\"\[\]|`·⌜⌝]+")
TICKS = re.compile(r"`[^`\n]*`")

# what port.py turns in .antt and .rt files and leaves in edits
LIBRARY = [
    (re.compile(r"Rattle·(\w+)·(?:specs|proofs)\.(specs|proofs)\."), r"Rattle.\1.\2."),
    (re.compile(r"Rattle·(\w+)\."), r"Rattle.\1."),
    (re.compile(r"\bthe-variants\b"), "TheVariants"),
    (re.compile(r"ensures \{ λ a\. ⌜ a ≡ (.*) ⌝ \}"), r"ensures { result ≡ \1 }"),
]
TIGHT = re.compile(r"(?<=[\w')]) \.(?=[a-z0-9])")


def table():
    with open(os.path.join(HERE, "respelled.tsv"), encoding="utf-8") as f:
        return dict(line.rstrip("\n").split("\t") for line in f if "\t" in line)


def words(text, names):
    return WORD.sub(lambda m: names.get(m.group(0), m.group(0)), text)


def ticked(text, names):
    return TICKS.sub(lambda m: words(m.group(0), names), text)


def source(text, names, comment):
    out = []
    for line in text.split("\n"):
        at = line.find(comment)
        if at >= 0 and (at == 0 or line[at - 1] in " \t"):
            line = words(line[:at], names) + ticked(line[at:], names)
        else:
            line = words(line, names)
        out.append(line)
    return "\n".join(out)


def tight(text):
    """`f x .y` is `(f x).y` and not `f x.y`: only a projection of one word, or of a bracketed term, is written tight."""
    return TIGHT.sub(".", re.sub(r"\(([\w']+) \.(\w+)\)", r"\1.\2", text))


def edit(text, names):
    out = []
    for line in text.split("\n"):
        m = re.match(r"(old|new):", line)
        if m:
            for pattern, by in LIBRARY:
                line = pattern.sub(by, line)
            line = words(tight(line), names)
        out.append(line)
    return "\n".join(out)


def turn(path, how, *more):
    with open(path, encoding="utf-8") as f:
        before = f.read()
    after = how(before, *more)
    if after != before:
        with open(path, "w", encoding="utf-8") as f:
            f.write(after)
    return after != before


def main(root):
    names = table()
    changed = 0
    for folder, inner, files in os.walk(os.path.join(root, "crates")):
        inner[:] = sorted(d for d in inner if d != "out")
        for name in sorted(files):
            path = os.path.join(folder, name)
            if name.endswith(".antt"):
                changed += turn(path, source, names, "--")
            elif name.endswith(".rt"):
                changed += turn(path, source, names, "//")
            elif name.endswith(".edit"):
                changed += turn(path, edit, names)
    for name in DOCUMENTS:
        path = os.path.join(root, name)
        if os.path.exists(path):
            changed += turn(path, ticked, names)
    print(f"respell: {changed} files changed")


if __name__ == "__main__":
    main(sys.argv[1] if len(sys.argv) > 1 else ".")
