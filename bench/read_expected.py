#!/usr/bin/env python3
"""Writes the expected lines of the crate read_cases, from its data alone.

    bench/read_expected.py crates/read_cases/data > crates/read_cases/stdout

A text that is shown holds what the text of its name holds that stands in the printed layout, so that text is what is
printed. A line that is counted says its number itself. Of a file's prefixes each holds the items whose last byte it has;
behind them it is whole where only white space follows.
"""
import os
import re
import sys

FOLDER = sys.argv[1]


def content(name):
    with open(os.path.join(FOLDER, name), encoding="utf-8", newline="") as file:
        return file.read()


def shown():
    blocks = {}
    for part in re.split(r"^-- ", content("accepted.txt"), flags=re.M)[1:]:
        name, text = part.split("\n", 1)
        blocks[name] = text
    for name in blocks:
        yield f"-- {name}\n" + blocks[name.split(", ")[0]]


def counted():
    for line in content("refused.txt").split("\n"):
        if line == "" or line.startswith("#"):
            continue
        number, name, _ = line.split("|", 2)
        if name.startswith("whole: "):
            yield f"{name}: {number} items\n"
        else:
            yield f"{name}: refused after {number}\n"


def ends(text):
    """Where the items of a printed file end: at the last byte of a preprocessor line, at a `;` outside braces, and at a `}`
    that closes a body, which begins a line and has no `;` behind it."""
    at = 0
    depth = 0
    found = []
    while at < len(text):
        if text[at] == "#":
            at = text.index("\n", at)
            found.append(at)
            continue
        if text[at] == '"':
            at = text.index('"', at + 1) + 1
            continue
        if text[at] == "{":
            depth += 1
        if text[at] == "}":
            depth -= 1
            if depth == 0 and text[at + 1] == "\n":
                found.append(at + 1)
        if text[at] == ";" and depth == 0:
            found.append(at + 1)
        at += 1
    return found


def prefixes(text):
    items = ends(text)
    runs = []
    for to in range(len(text) + 1):
        passed = [end for end in items if end <= to]
        rest = text[passed[-1] if passed else 0:to]
        word = "items" if rest.strip(" \t\n") == "" else "refused"
        answer = (len(passed), word)
        if runs and runs[-1][2] == answer:
            runs[-1][1] = to
        else:
            runs.append([to, to, answer])
    for first, last, (number, word) in runs:
        told = f"{number} items" if word == "items" else f"refused after {number}"
        yield f"bytes {first} to {last}: {told}\n"


def many():
    text = content("m.c")
    copies = 2000
    items = len(ends(text)) * copies
    yield f"{len(text) * copies} bytes\n{items} items read\n{items} items read again\n"


for lines in (shown(), counted(), prefixes(content("m.c")), many()):
    sys.stdout.write("".join(lines))
