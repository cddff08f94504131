#!/usr/bin/env python3
"""Respells this repository's own names in specs/ and proofs/: words in snake case, types and modules in camel case.

usage: python3 tools/respell.py [--dry]      at the top of the repository, once, after port.py; --dry lists the names

A name is one of ours where a file of specs/ or proofs/ declares it (a definition, a lemma, a record's field, a
constructor, a name bound by let or where) and no goal of the check has it. Generated names (answers, invariants) and
names that come from a library keep their spelling. Clauses of src/ and the texts of must-fail edits follow.
It stops without a change where two names would fall together, or where a new name is already in use.
"""

import os
import re
import sys

# where the plain respelling would fall together with a name that is in use: what stands in its place
CHOSEN = {}

# definitions that have the name of the function whose meaning they are: a clause cannot name a function, so both keep it
SHARED = {
    "at-fault", "before-data", "is-command", "is-used", "move-on", "own-word", "reads-value", "take-pair", "take-ram", "tick-task",
    "touch-number",
}

TOKEN = re.compile(r"[^\s(){}\[\];,.:⌜⌝\"|`]+")
DECLARED = re.compile(
    r"^[ \t]*(?:(?:pub|abbrev|unfoldable|data|record|let|module)[ \t]+)*([^\s(){}:;,.|=]+)(?:[ \t]+[({][^\n]*?)?[ \t]*:[ \t]", re.M
)
BOUND = re.compile(r"(?:let|[({λ])[ \t]*((?:[^\s(){}:;,.|=]+[ \t]+)*[^\s(){}:;,.|=]+)[ \t]*:[ \t]")
LAMBDA = re.compile(r"λ[ \t]*([^.(){}]+)\.")
GENERATED = re.compile(r"^(?:(?:pub|abbrev|unfoldable)[ \t]+)*(\S+)[ \t]*:[ \t]*(?:goal|given|use)\b", re.M)
COMMENT = re.compile(r"--(?= |$).*$", re.M)


def files(top, ends):
    for folder, dirs, names in os.walk(os.path.join(top, "crates")):
        dirs[:] = sorted(d for d in dirs if d not in ("out", ".git"))
        for name in sorted(names):
            if name.endswith(ends):
                yield os.path.join(folder, name)


def read(path):
    with open(path, encoding="utf-8") as f:
        return f.read()


def respelled(name):
    if name in CHOSEN:
        return CHOSEN[name]
    words = name.split("-")
    if name[0].isupper():
        return "".join(w[:1].upper() + w[1:] for w in words)
    return "_".join(words)


def library(top):
    """The names that some file takes from outside this repository."""
    ours = set(os.listdir(os.path.join(top, "crates")))
    found = set()
    for path in files(top, ".antt"):
        for m in re.finditer(r"use (\S+?)\.\{([^}]*)\}", read(path)):
            parts = m.group(1).split(".")
            if parts[0] != "Rattle" or parts[1] not in ours:
                found.update(n.strip() for n in m.group(2).split(","))
    return found


def own(top):
    """The names with a hyphen that this repository declares."""
    names, generated = set(), set()
    for path in files(top, ".antt"):
        text = COMMENT.sub("", read(path))
        if os.path.basename(path) in ("Answers.antt", "Invariants.antt"):
            generated.update(GENERATED.findall(text))
        names.update(DECLARED.findall(text))
        for m in BOUND.findall(text) + LAMBDA.findall(text):
            names.update(m.split())
    taken = library(top)
    return {n for n in names if "-" in n.strip("-") and "◌" not in n and re.match(r"[^\W\d]", n)} - generated - taken


def main():
    top = os.getcwd()
    names = {n: respelled(n) for n in own(top)}
    used = {}
    for path in files(top, (".antt", ".rt")):
        for w in TOKEN.findall(read(path)):
            used.setdefault(w, path)
    wrong = [f"{n} -> {names[n]}: in use, as in {os.path.relpath(used[names[n]], top)}" for n in sorted(names) if names[n] in used and n not in SHARED]
    back = {}
    for n in sorted(names):
        if names[n] in back:
            wrong.append(f"{n} and {back[names[n]]} fall together")
        back[names[n]] = n
    if wrong:
        print("\n".join(wrong))
        raise SystemExit(2)
    if "--dry" in sys.argv:
        print("\n".join(f"{a} {b}" for a, b in sorted(names.items())))
        return
    for path in files(top, (".antt", ".rt", ".edit")):
        old = read(path)
        new = TOKEN.sub(lambda m: names.get(m.group(0), m.group(0)), old)
        if new != old:
            with open(path, "w", encoding="utf-8") as f:
                f.write(new)


main()
