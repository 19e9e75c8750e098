#!/usr/bin/env python3
"""Brings the repository's own definitions and lemmas to today's spelling: words in snake case.

usage: tools/spell.py          once, at the top of the repository, after the kit's port.py

tools/spelling.tsv has a row for each name: the old spelling, the new one, and 'field' where a record has it. A lemma that would
have its definition's name ends in _lem. Names are changed in specs/ and proofs/, in the clauses and the ghost items of src/, in
the texts of must-fail edits, and, between backticks, in comments and documents. Functions, fields and parameters of src/,
strings, exported names, inputs and outputs are as they were.
"""
import glob
import os
import re

TOKEN = re.compile(r"--[^\n]*|\"(?:[^\"\\]|\\.)*\"|«[^»]*»|[^\s(){}.;,@\"«»\[\]\\]+|.", re.S)
HERE = os.path.dirname(os.path.realpath(__file__))
rows = [line.rstrip("\n").split("\t") for line in open(os.path.join(HERE, "spelling.tsv"), encoding="utf-8")]
NEW = {row[0]: row[1] for row in rows}
FIELDS = {row[0] for row in rows if row[2:] == ["field"]}
LIBRARY = {"or-false", "or-true"}


def in_ticks(text):
    """Changes names between backticks."""

    def inside(match):
        return TOKEN.sub(lambda it: NEW.get(it.group(), it.group()), match.group())

    return re.sub(r"`[^`\n]+`", inside, text)


def spelled(text):
    """Changes the names of a text of antt."""
    out, before = [], ["", ""]
    for match in TOKEN.finditer(text):
        token = match.group()
        if token.startswith("--"):
            out.append(in_ticks(token))
        elif token not in NEW or token in LIBRARY:
            out.append(token)
        elif before[1] == "." and token not in FIELDS and not before[0][:1].isupper():
            # the name of a step or a goal, which is Rattle's
            out.append(token)
        elif before[1] == "." and before[0] in ("ListN", "Seq", "tie"):
            out.append(token)
        else:
            out.append(NEW[token])
        before = [before[1], token]
    return "".join(out)


def closing(text, at):
    """The place behind the brace that closes the one at this place."""
    depth = 0
    for i in range(at, len(text)):
        depth += {"{": 1, "}": -1}.get(text[i], 0)
        if depth == 0:
            return i + 1
    return len(text)


HEAD = re.compile(r"(?m)^(?:pub )?ghost use |\b(?:requires|ensures|ghost|invariant)\*?(?: \w+)?:? \{|//[^\n]*")


def clauses_spelled(text):
    """Changes the names in the clauses and ghost items of a text of Rattle."""
    out, at = [], 0
    while match := HEAD.search(text, at):
        out.append(text[at : match.start()])
        if match.group().startswith("//"):
            end = match.end()
            out.append(in_ticks(match.group()))
        else:
            end = text.index(";", match.end()) + 1 if "ghost use" in match.group() else closing(text, match.end() - 1)
            out.append(spelled(text[match.start() : end]))
        at = end
    return "".join(out) + text[at:]


def edit_spelled(text):
    out, name = [], ""
    for line in text.splitlines(keepends=True):
        if line.startswith("file: "):
            name = line
        if line[:5] in ("old: ", "new: "):
            line = line[:5] + (spelled(line[5:]) if ".antt" in name else clauses_spelled(line[5:]))
        elif line.startswith("#"):
            line = in_ticks(line)
        out.append(line)
    return "".join(out)


def turn(pattern, change):
    for path in sorted(glob.glob(pattern, recursive=True)):
        if "/out/" in path:
            continue
        with open(path, encoding="utf-8") as file:
            text = file.read()
        new = change(text)
        if new != text:
            with open(path, "w", encoding="utf-8") as file:
                file.write(new)
            print(path)


for folder in ("specs", "proofs"):
    turn(f"crates/*/{folder}/**/*.antt", spelled)
turn("crates/*/src/**/*.rt", clauses_spelled)
turn("crates/*/must-fail/**/*.edit", edit_spelled)
turn("*.md", in_ticks)
turn("docs/**/*.md", in_ticks)
