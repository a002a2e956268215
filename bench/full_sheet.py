#!/usr/bin/env python3
"""Writes a sheet of exactly 8,192 bytes, the most that a sheet may have, that breaks no rule."""
from sheet_text import text_of

AGENTS = ["agentaaa", "agentbbb"]
# The two short names make the text end at the last byte that it may have.
TEXTS = ["textaaaa", "textbbbb", "textcccc", "abc", "abd"]
LONG_NAMES = AGENTS + TEXTS[:3]


def term(atoms):
    """A term of so many atoms in pairs. Sixteen make 31 words."""
    names = [LONG_NAMES[i % len(LONG_NAMES)] for i in range(atoms)]
    return "".join("pair " + name + " " for name in names[:-1]) + names[-1]


def role_lines(role):
    return ["role rolenam%d" % role] + ["send " + term(16)] * (8 if role < 3 else 7)


def sheet():
    sections = [
        ("agents", ["agent " + name for name in AGENTS]),
        ("texts", ["text " + name for name in TEXTS]),
        ("roles", [line for role in range(4) for line in role_lines(role)]),
        ("nonces", []),
        ("known", ["know " + term(atoms) for atoms in (16, 16, 16, 16, 6)]),
        ("claim", ["holds done agentaaa needs begun agentaaa"]),
        ("ranks", []),
    ]
    return text_of(sections)


if __name__ == "__main__":
    print(sheet(), end="")
