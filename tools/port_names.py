#!/usr/bin/env python3
"""Respells the names of this repository's own definitions and lemmas: words in snake case, types in upper camel case.

usage: python3 tools/port_names.py [TOP]      TOP is a checkout on which the kit's port.py has run; this one by default

A name is respelled where a file of specs/ or proofs/ declares it. Functions of src/, strings, inputs and outputs keep theirs.
Files are rewritten in place; run on files that have the new spelling, it changes nothing.
"""

import os
import re
import sys

TOKEN = re.compile(r"[^\s(){}\[\],;.:\"«»`|]+")
DECLARES = re.compile(
    r"^\s*(?:(?:abbrev|unfoldable|opaque|pub|record|data)\s+)*([^\s(){}\[\],;.:\"«»`|]+)"
    r"(?:\s*(?:\([^)]*\)|\{[^}]*\}|\[[^\]]*\]))*\s*:(?:\s|$)"
)
TYPE = re.compile(r"^\s*(?:pub\s+)?(?:record|data)\s+([^\s(){}\[\],;.:\"«»`|]+)")
# a name that Rattle makes for a goal, an invariant or a measure
MADE = re.compile(r":\s*(?:goal|given|need)\.")
# where a type of src/ has the name already
CHOSEN = {
    "Book-figures": "BookFiguresHold",
    "Pledge-figures": "PledgeFiguresHold",
    "Lending-figures": "LendingFiguresHold",
}
# printed by a program, and so kept in docs/
PRINTED = {"block-price"}


def respelled(name):
    if name in CHOSEN:
        return CHOSEN[name]
    if name[0].isupper():
        return "".join(part[:1].upper() + part[1:] for part in re.split("[-_]", name))
    return name.replace("-", "_")


def files(top, folder, endings):
    for where, folders, names in os.walk(os.path.join(top, folder)):
        folders[:] = sorted(f for f in folders if f not in ("out", ".git"))
        for name in sorted(names):
            if name.endswith(endings):
                yield os.path.join(where, name)


def read(path):
    with open(path, encoding="utf-8") as f:
        return f.read()


def declared(top):
    found = {}
    for path in files(top, "crates", (".antt",)):
        for line in read(path).split("\n"):
            m = TYPE.match(line) or DECLARES.match(line)
            if not m or MADE.search(line) or line.lstrip().startswith(("--", "let ", "|", "use ", "mod ")):
                continue
            name = m.group(1)
            new = respelled(name)
            if new != name and re.fullmatch(r"\w[\w'-]*", name):
                found[name] = new
    return found


def words(text, names):
    return TOKEN.sub(lambda m: names.get(m.group(), m.group()), text)


def in_ticks(text, names):
    return re.sub(r"`[^`\n]*`", lambda m: words(m.group(), names), text)


# strings and characters stay; of a comment, only what stands between backticks is respelled
SOURCE = re.compile(r'(?P<text>b?"(?:[^"\\]|\\.)*"|b?\'(?:[^\'\\]|\\.)\')|(?P<comment>//[^\n]*)|(?P<code>(?:(?!b?"|b?\'(?:[^\'\\]|\\.)\'|//)[\s\S])+)')


def source(text, names):
    def turn(m):
        if m.group("comment"):
            return in_ticks(m.group(), names)
        return words(m.group(), names) if m.group("code") else m.group()

    return SOURCE.sub(turn, text)


def main():
    top = sys.argv[1] if len(sys.argv) > 1 else os.path.join(os.path.dirname(os.path.abspath(__file__)), "..")
    names = declared(top)
    taken = {}
    for old, new in sorted(names.items()):
        if new in taken:
            raise SystemExit(f"{old} and {taken[new]} fall together as {new}")
        taken[new] = old
    told = {old: new for old, new in names.items() if old not in PRINTED}
    ways = [
        ("crates", (".antt",), words, names),
        ("crates", (".rt", ".edit"), source, names),
        ("docs", (".md",), in_ticks, told),
    ]
    paths = [(p, way, known) for folder, endings, way, known in ways for p in files(top, folder, endings)]
    paths.append((os.path.join(top, "README.md"), in_ticks, told))
    changed = 0
    for path, way, known in paths:
        before = read(path)
        after = way(before, known)
        if after != before:
            with open(path, "w", encoding="utf-8") as f:
                f.write(after)
            changed += 1
    print(f"{len(names)} names respelled, {changed} files changed")


main()
