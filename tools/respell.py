#!/usr/bin/env python3
"""Brings this repository's own names to the spelling of today's Rattle, once, after the toolchain's port.py.

usage: python3 tools/respell.py    at the top of the repository

- A word of ours in camel case becomes one in snake case: `accountEncoding` is `account_encoding`. Types and modules keep their capitals.
- A law on the number at a place is called after `get_or`, as the library's are, where port.py left its name: `getD-zeros` is `get_or-zeros`.
- The crate `slab` is `calls`, since the kit has a library of that name.
- The names in must-fail edits follow; what else has to change in an edit is turned by hand.
Strings, functions of src/ and exported names are left alone: no function or exported name of ours is in camel case.
"""
import os
import re
import subprocess

ROOT = subprocess.run(["git", "rev-parse", "--show-toplevel"], capture_output=True, text=True, check=True).stdout.strip()
CRATES = os.path.join(ROOT, "crates")
SIGNED = re.compile(r"^ *(?:unfoldable |abbrev |pub )*([^\s:(){}]+)(?: \{[^}]*\})* : ", re.M)
FIELD = re.compile(r"^ +(?:pub )?([a-z]\S*) :", re.M)
CONSTRUCTOR = re.compile(r"^ +([a-z]\S*) : ", re.M)
# Laws that had the name which a definition beside them has now.
LAWS = [("figures", "at_held"), ("header", "keys_from"), ("uplink", "last_line"), ("figures", "all_words")]


def files(*endings):
    for folder, dirs, names in os.walk(CRATES):
        dirs[:] = [d for d in dirs if d != "out"]
        for n in sorted(names):
            if n.endswith(endings):
                yield os.path.join(folder, n)


def read(path):
    with open(path, encoding="utf-8") as f:
        return f.read()


def write(path, text):
    with open(path, "w", encoding="utf-8") as f:
        f.write(text)


def snake(name):
    """A name whose parts are joined by dashes, each part in snake case where it begins with a small letter."""
    parts = []
    for part in name.split("-"):
        if part[:1].islower():
            part = re.sub(r"^getD", "get_or", part)
            part = re.sub(r"(?<=[a-z0-9])([A-Z])", lambda m: "_" + m.group(1).lower(), part)
        parts.append(part)
    return "-".join(parts)


def camel_words():
    """Every name of ours, of a definition, a law or a field, with a part in camel case."""
    found = set()
    for path in files(".antt"):
        text = read(path)
        for pattern in (SIGNED, FIELD, CONSTRUCTOR):
            found.update(pattern.findall(text))
    return {n: snake(n) for n in found if snake(n) != n}


def fall_together(names):
    """Names that were two and would be one within one file that defines both, or that stood there already."""
    taken = set()
    for path in files(".antt"):
        taken.update(SIGNED.findall(read(path)))
    return sorted((old, new) for old, new in names.items() if new in taken)


def turned(text, pattern, names):
    return pattern.sub(lambda m: names[m.group(0)], text)


def main():
    for crate, law in LAWS:
        for path in files(".antt"):
            if os.path.join(CRATES, crate, "") in path:
                text = read(path)
                write(path, re.sub(r"(?<![\w'-])%s(?![\w'-])" % law, law + "_lem", text))
    names = camel_words()
    for old, new in fall_together(names):
        print(f"falls together: {old} and {new}")
    # A dash and a letter continue a name, so the longest name is tried first and none is taken out of the middle of another.
    alternatives = "|".join(re.escape(n) for n in sorted(names, key=len, reverse=True))
    pattern = re.compile(r"(?<![\w'-])(?:%s)(?![\w'])(?!-[A-Za-z])" % alternatives)
    for path in files(".antt", ".rt", ".edit"):
        text = read(path)
        new = turned(text, pattern, names)
        new = re.sub(r"\bRattle\.slab\b", "Rattle.calls", new)
        if path.endswith(".rt"):
            new = re.sub(r"\bslab::", "calls::", new)
            new = re.sub(r"^use slab\b", "use calls", new, flags=re.M)
        if new != text:
            write(path, new)
    lists = os.path.join(ROOT, "crates.txt")
    write(lists, re.sub(r"\bslab\b", "calls", read(lists)))
    if os.path.isdir(os.path.join(CRATES, "slab")):
        subprocess.run(["git", "mv", os.path.join(CRATES, "slab"), os.path.join(CRATES, "calls")], cwd=ROOT, check=True)
    print(f"{len(names)} names")


main()
