#!/usr/bin/env python3
"""Writes the sheet whose check takes longest: 4 roles of 5 agent variables and 8 steps each, 6 agents, 12 `seal` lines of 5 free variables. It is accepted, so that every instance is tried."""
from sheet_text import text_of

AGENTS = "ABCDEF"
# 27 words, with four seals.
TERM = "pair seal self u pair v w pair seal self v pair w x pair seal self w pair x y seal self x pair y u"


def sheet():
    variables = ["var %s agent" % name for name in "uvwxy"]
    sections = [
        ("agents", ["agent " + name for name in AGENTS]),
        ("texts", []),
        ("roles", [line for role in range(4) for line in ["role r%d" % role] + variables + ["send " + TERM] * 8]),
        ("nonces", []),
        ("known", []),
        ("claim", ["holds done A needs begun A"]),
        ("ranks", ["free %s agent" % name for name in "fghij"]
            + ["seal 1 %s f pair g pair h pair i j" % name for name in AGENTS]
            + ["seal 1 %s f pair g pair h pair i pair j f" % name for name in AGENTS]
            + ["mark 0 done A"]),
    ]
    return text_of(sections)


if __name__ == "__main__":
    print(sheet(), end="")
