#!/usr/bin/env python3
"""Brings the names of this repository's own definitions and lemmas to the spelling of today's Rattle.

usage: python3 tools/respell.py     at the top of a checkout on which /opt/rattle/port/port.py has just run

Definitions, lemmas, fields and constructors are written in snake case, types, facts and modules in camel case. Names
that the check makes (goals, steps of the code, invariants), functions of src/, strings, inputs and outputs stay.
It stops before it changes anything where two names would fall together.
"""

import glob
import os
import re
import subprocess
import sys

HEAD = re.compile(r"^(\s*)((?:(?:abbrev|unfoldable|pub|data|record|ruleset|let)\s+)*)([^\s(){}:.,;\[\]]+)\s*(?:\{[^}]*\}\s*|\((?:[^()]|\([^()]*\))*\)\s*)*:(?!=)\s*(.*)$")
WORD = re.compile(r"(?<![\w'\u00b7-])[\w'][\w'-]*(?![\w'-])")
CLAUSE = re.compile(r"^\s*(pub\s+)?(ghost|requires|ensures)\b")


def camel(name):
    return "".join(part[:1].upper() + part[1:] for part in re.split(r"[-_]", name))


def respelled(name):
    return camel(name) if name[0].isupper() else name.replace("-", "_")


def proof_texts():
    return sorted(glob.glob("crates/*/specs/**/*.antt", recursive=True) + glob.glob("crates/*/proofs/**/*.antt", recursive=True))


def named(path):
    """The names that a file of specs/ or proofs/ defines itself, without those whose statement the check makes."""
    with open(path, encoding="utf-8") as f:
        for line in f:
            found = HEAD.match(line.rstrip("\n"))
            if found and not re.match(r"goal\.", found.group(4)) and not re.match(r"(use|open|--)", line.strip()):
                yield found.group(3)


def modules():
    """Files of specs/ and proofs/ that lie beside a Lib.antt: their names are modules of the repository's own."""
    for path in proof_texts():
        folder, name = os.path.split(path)
        if os.path.basename(folder) in ("specs", "proofs") and name != "Lib.antt":
            yield path, name[: -len(".antt")]


def table():
    names, every = {}, set()
    for path in proof_texts():
        for name in named(path):
            every.add(name)
            if "-" in name or (name[0].isupper() and "_" in name):
                names[name] = respelled(name)
    for _, name in modules():
        if "-" in name:
            names[name] = respelled(name)
    clashes = [(old, new) for old, new in sorted(names.items()) if new in every]
    if len(set(names.values())) != len(names):
        seen = {}
        for old, new in sorted(names.items()):
            if new in seen:
                clashes.append((seen[new], old))
            seen[new] = old
    if clashes:
        sys.exit("respell: these would fall together: " + ", ".join(f"{a} {b}" for a, b in clashes))
    return names


def turned(text, names):
    return WORD.sub(lambda m: names.get(m.group(0), m.group(0)), text)


def rewrite(path, change):
    with open(path, encoding="utf-8") as f:
        old = f.read()
    new = change(old)
    if new != old:
        with open(path, "w", encoding="utf-8") as f:
            f.write(new)


def in_source(text, names):
    return "".join(turned(line, names) if CLAUSE.match(line) else line for line in text.splitlines(keepends=True))


def in_page(text, names):
    return re.sub(r"`[^`\n]+`", lambda m: turned(m.group(0), names), text)


def main():
    if not os.path.exists("crates.txt"):
        sys.exit("respell: run it at the top of the repository")
    names = table()
    for path in proof_texts():
        rewrite(path, lambda text: turned(text, names))
    for path in sorted(glob.glob("crates/*/src/**/*.rt", recursive=True)):
        rewrite(path, lambda text: in_source(text, names))
    for path in ["README.md"] + sorted(glob.glob("docs/*.md")):
        rewrite(path, lambda text: in_page(text, names))
    for path, name in list(modules()):
        if name in names:
            subprocess.run(["git", "mv", path, os.path.join(os.path.dirname(path), names[name] + ".antt")], check=True)
    for old, new in sorted(names.items()):
        print(f"{old} {new}")


main()
