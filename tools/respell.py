#!/usr/bin/env python3
"""Brings the definitions and lemmas of this repository to today's spelling of names.

usage: python3 tools/respell.py        at the top of the repository, once, after the kit's own port script

Every name that a file of specs/ or proofs/ declares, or that an import gives, and that still has a dash or a prime in the older style,
is respelled in all .rt and .antt files and in the must-fail edits: a type or a fact (it begins with a capital) in camel case, every
other name in snake case, a prime as an apostrophe. Names that Rattle makes of the code (goals, steps, branches) are not declared here
and stay, as do functions of src/, comments, strings, inputs and outputs. Two names that would be one are said and left; a name that
meets a function, a module or a field of its new spelling is said.
"""

import os
import re
import sys

SIGNATURE = re.compile(r"^(?:(?:pub|abbrev|unfoldable)\s+)*([^\s(){}\[\].,;:]+(?:\s+[^\s(){}\[\].,;:]+)*)\s+:(?:\s|$)")
HEAD = re.compile(r"^\s*(?:pub\s+)?(?:data|record)\s+([^\s(){}\[\].,;:=]+)\s+[:({]")
MEMBER = re.compile(r"^\s+(?:(?:pub|abbrev|unfoldable)\s+)*([^\s(){}\[\].,;:]+)\s*:\s")
ALIAS = re.compile(r"\bas ([A-Za-z]+(?:-[A-Za-z0-9]+)+)[,}]")
MADE = re.compile(r":\s*(?:goal|goals|need|needs)\.")
WORD = re.compile(r"[^\s(){}\[\].,;«»⌜⌝&*]+")
WORDS_THAT_DECLARE = {"pub", "abbrev", "unfoldable", "data", "record", "use", "mod", "ruleset", "unfolding"}


def files(endings):
    for folder, folders, names in os.walk("crates"):
        folders[:] = sorted(f for f in folders if f != "out")
        for name in sorted(names):
            if name.endswith(endings):
                yield os.path.join(folder, name)


def text_of(path):
    with open(path, encoding="utf-8") as f:
        return f.read()


def declared(text):
    """The names that a file of definitions or proofs declares, but for answers to goals."""
    for line in text.split("\n"):
        head = HEAD.match(line)
        if head:
            yield head.group(1)
        elif line[:1].isspace():
            member = MEMBER.match(line)
            if member:
                yield member.group(1)
        elif line.strip():
            signature = SIGNATURE.match(line)
            if signature and not MADE.search(line) and not line.startswith("--"):
                yield from (w for w in signature.group(1).split() if w not in WORDS_THAT_DECLARE)


def respelled(name):
    name = name.replace("′", "'")
    if not re.fullmatch(r"[A-Za-z][A-Za-z0-9_'-]*", name):
        return name
    parts = [p for p in re.split(r"[-_]" if name[0].isupper() else "-", name) if p]
    if len(parts) < 2:
        return name
    if name[0].isupper():
        return "".join(p[0].upper() + p[1:] for p in parts)
    return "_".join(parts)


def pieces(line, comment):
    """The line in pieces: (text, whether it is code)."""
    out, at, start = [], 0, 0
    while at < len(line):
        if line.startswith(comment, at):
            out += [(line[start:at], True), (line[at:], False)]
            return out
        if line[at] == '"':
            end = at + 1
            while end < len(line) and line[end] != '"':
                end += 2 if line[end] == "\\" else 1
            out += [(line[start:at], True), (line[at:end + 1], False)]
            at = start = end + 1
        else:
            at += 1
    out.append((line[start:], True))
    return out


def turned(text, comment, names):
    def word(m):
        return names.get(m.group(0), m.group(0))

    lines = text.split("\n")
    return "\n".join("".join(WORD.sub(word, t) if code else t for t, code in pieces(line, comment)) for line in lines)


def words_in(text, comment):
    return {m.group(0) for line in text.split("\n") for t, code in pieces(line, comment) if code for m in WORD.finditer(t)}


def comment_of(path):
    return "--" if path.endswith(".antt") else "//"


def main():
    names = {}
    for path in files((".antt", ".rt")):
        text = text_of(path)
        for name in [*(declared(text) if path.endswith(".antt") else []), *ALIAS.findall(text)]:
            new = respelled(name)
            if new != name:
                names[name] = new
    # two names that would share a spelling stay; a definition may have the name of a function, a module or a field beside it
    taken = {}
    for old, new in names.items():
        taken.setdefault(new, []).append(old)
    for new, olds in taken.items():
        if len(olds) > 1:
            print(f"left: {' and '.join(olds)} would both be {new}")
            for old in olds:
                del names[old]
    for path in files((".antt", ".rt")):
        here = words_in(text_of(path), comment_of(path))
        for old, new in names.items():
            if old in here and new in here:
                print(f"look: {path}: {old} meets {new}")
    changed = 0
    for path in files((".antt", ".rt", ".edit")):
        old = text_of(path)
        new = turned(old, comment_of(path), names)
        if new != old:
            changed += 1
            with open(path, "w", encoding="utf-8") as f:
                f.write(new)
    print(f"{len(names)} names respelled, {changed} files changed")
    return 0


if __name__ == "__main__":
    sys.exit(main())
