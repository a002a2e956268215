#!/usr/bin/env python3
"""Respells this repository's own definitions and lemmas as the installed Rattle spells names, and renames the crate hex.

usage: python3 tools/respell.py     once, at the top of a checkout that port.py has just turned

A definition that computes is in snake case (areWords: are_words), a statement in camel case (Unique-reading:
UniqueReading). Names of src/, strings, inputs and outputs stay. Where two names would fall together it stops and writes
nothing.
"""

import os
import re
import sys

STATEMENTS = ["Unique-reading", "Whole-parts", "Read-back", "Printable-texts", "Parts-are-messages", "Telling-words", "Building-suffices"]
# proofs that equality is decidable: terms, so in snake case
TERMS = {"Msg-discrete": "msg_discrete", "Key-discrete": "key_discrete"}
CRATE = ("hex", "hex_text")
NAME = r"(?<![\w'\\-])%s(?![\w'-])"
CAMEL = re.compile(r"(?<![\w'\\-])[a-z][a-z]+[A-Z][A-Za-z]*(?![\w'-])")
STRING = re.compile(r'b?"(?:[^"\\]|\\.)*"|b?\'(?:[^\'\\]|\\.)\'|//[^\n]*|--[^\n]*')


def snake(name):
    return re.sub(r"[A-Z]", lambda m: "_" + m.group(0).lower(), name)


def texts():
    for folder, dirs, files in os.walk("crates"):
        dirs[:] = sorted(d for d in dirs if d != "out")
        for f in sorted(files):
            if f.endswith((".rt", ".antt")):
                yield os.path.join(folder, f)


def parts(text):
    """The text cut into what is code, and what is a string or a comment, in turn."""
    at = 0
    for m in STRING.finditer(text):
        yield True, text[at : m.start()]
        yield False, m.group(0)
        at = m.end()
    yield True, text[at:]


def main():
    files = {p: open(p, encoding="utf-8").read() for p in texts()}
    code = {p: "".join(t for is_code, t in parts(t) if is_code) for p, t in files.items()}
    names = {n for t in code.values() for n in CAMEL.findall(t)}
    turned = {n: snake(n) for n in names}
    turned |= {n: n.title().replace("-", "") for n in STATEMENTS} | TERMS
    clash = []
    for old, new in sorted(turned.items()):
        crates = {p.split("/")[1] for p, t in code.items() if re.search(NAME % re.escape(old), t)}
        for p, t in code.items():
            if p.endswith(".antt") and p.split("/")[1] in crates and re.search(r"(?<![.\w'-])%s(?![.\w'-])" % re.escape(new), t):
                clash.append(f"{old} would be {new}, which stands in {p}")
    if clash or len(set(turned.values())) != len(turned):
        print("\n".join(clash) or "two names would fall together")
        return 1
    pattern = re.compile(NAME % ("(?:" + "|".join(re.escape(n) for n in sorted(turned, key=len, reverse=True)) + ")"))
    for p, t in files.items():
        to = "".join(pattern.sub(lambda m: turned[m.group(0)], x) if is_code else x for is_code, x in parts(t))
        to = re.sub(r"\bRattle\.%s\." % CRATE[0], f"Rattle.{CRATE[1]}.", to)
        if p.endswith(".rt"):
            to = re.sub(r"\buse %s::" % CRATE[0], f"use {CRATE[1]}::", to)
            to = re.sub(r"(?<![\w:])%s::" % CRATE[0], f"{CRATE[1]}::", to)
        if to != t:
            with open(p, "w", encoding="utf-8") as f:
                f.write(to)
    with open("crates.txt", encoding="utf-8") as f:
        listed = f.read()
    with open("crates.txt", "w", encoding="utf-8") as f:
        f.write(re.sub(r"(?<![\w])%s(?![\w])" % CRATE[0], CRATE[1], listed))
    os.rename("crates/" + CRATE[0], "crates/" + CRATE[1])
    for old, new in sorted(turned.items()):
        print(f"{old} {new}")
    return 0


if __name__ == "__main__":
    raise SystemExit(main() if len(sys.argv) == 1 else print(__doc__) or 2)
