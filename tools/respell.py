#!/usr/bin/env python3
"""Respells this repository's own definitions and lemmas as today's Rattle spells names; run once, at the top, after the kit's port.py.

A word that names a fact or a type is in camel case (First-entries becomes FirstEntries), any other in snake case (reset-of becomes reset_of); so
are the parameters of definitions.
Names that Rattle makes, as those of goals, keep their dashes, and so do the library's. Functions of src/, strings, inputs and outputs are not
touched: only names with a dash are looked for, and only as whole words. It stops where two names of one file would fall together; that a
definition gets the name of the function whose contract cites it is meant.
"""

import os
import re
import sys

# Characters of a name.
NAME = r"[\w'◌ℕ·]"
WORD = re.compile(rf"{NAME}(?:{NAME}|-(?={NAME}))*")
DECLARED = re.compile(
    rf"(?m)^[ \t]*(?:(?:abbrev|unfoldable|pub|data|record|ruleset)\s+)*({WORD.pattern})\s*(?:[({{][^:;=\n]*?:[^\n]*?[)}}]\s*)*:(?=\s)(?!\s*goal\.)"
)
BOUND = re.compile(rf"[({{]((?:{WORD.pattern}\s+)*{WORD.pattern}) : |\blet ({WORD.pattern}) [:=]|\bas ({WORD.pattern})(?=[,}}])")
# A comment of a .rt or an .antt file.
COMMENT = re.compile(r"(?m)(?:^|(?<=\s))(?://|--)(?:\s.*)?$")
FUNCTION = re.compile(r"\bfn (\w+)")


def files(root):
    for folder, dirs, names in os.walk(os.path.join(root, "crates")):
        dirs[:] = sorted(d for d in dirs if d not in ("out", "data"))
        for name in sorted(names):
            if name.endswith((".antt", ".rt", ".edit")):
                yield os.path.join(folder, name)


def code(path, text):
    """The text without its comments, of the same length."""
    return text if path.endswith(".edit") else COMMENT.sub(lambda m: " " * len(m[0]), text)


def respelled(name):
    parts = name.replace("getD", "get_or").split("-")
    if parts[0][0].isupper():
        return "".join(p[0].upper() + p[1:] for p in parts)
    return "_".join(parts)


def main():
    whole = {p: open(p, encoding="utf-8").read() for p in files(".")}
    texts = {p: code(p, text) for p, text in whole.items()}
    goals = set()
    for path, text in texts.items():
        if path.endswith(".antt"):
            goals |= set(re.findall(rf"(?m)^(?:abbrev )?pub ({WORD.pattern}) : goal\.", text))
    own = set()
    for path, text in texts.items():
        if path.endswith(".antt"):
            found = DECLARED.findall(text)
            for names in BOUND.findall(text):
                found += " ".join(names).split()
            own |= {n for n in found if "-" in n and n not in goals}
    functions = {n for path, text in texts.items() if path.endswith(".rt") for n in FUNCTION.findall(text)}
    to = {n: respelled(n) for n in own}
    clash = False
    for path, text in texts.items():
        words = set(WORD.findall(text))
        # a part of a path or of a projection is no other name
        free = {m[0] for m in WORD.finditer(text) if text[m.start() - 1 : m.start()] != "."}
        for n in sorted(words & own):
            if to[n] in free and not (path.endswith(".rt") and to[n] in functions):
                print(f"falls together: {path}: {n} and {to[n]}")
                clash = True
    for a in own:
        for b in own:
            if a < b and to[a] == to[b]:
                print(f"falls together: {a} and {b}")
                clash = True
    if clash:
        sys.exit(1)
    for path, text in texts.items():
        old, new, done = whole[path], "", 0
        for m in WORD.finditer(text):
            new += old[done : m.start()] + to.get(m[0], m[0])
            done = m.end()
        new += old[done:]
        if new != old:
            with open(path, "w", encoding="utf-8") as f:
                f.write(new)
    print(f"{len(to)} names respelled")


if __name__ == "__main__":
    main()
