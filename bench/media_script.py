#!/usr/bin/env python3
"""Writes a contact script that fills an enemy's areas of so many bytes with sealed chains, each key sealed under the next and heard before it, and opens them by the last message."""
import sys

# The keys that an enemy does not know at the start: those of two of six honest agents, or of one twice.
KEYS = [(a, b) for a in range(6) for b in range(a, 6)]


def key(pair):
    return "4B %02X %02X" % pair


def script(size):
    lines = ["over enemy %d %d" % (size, size)]
    # A seal of a key under a key has 7 bytes, and its length takes one.
    room = size - 4
    chain = ["hear 45 %s %s" % (key(KEYS[i + 1]), key(KEYS[i])) for i in range(len(KEYS) - 1)]
    while room >= 8:
        for line in chain:
            if room < 8:
                break
            lines.append(line)
            room -= 8
    lines.append("ask " + key(KEYS[0]))
    lines.append("hear " + key(KEYS[-1]))
    lines += ["ask " + key(KEYS[0])] * 1000
    return lines


if __name__ == "__main__":
    print("\n".join(script(int(sys.argv[1]))))
