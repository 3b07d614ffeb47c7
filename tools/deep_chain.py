#!/usr/bin/env python3
"""Writes a book of 4,096 entries whose statements nest as deeply as they can.

    deep_chain.py CONSTRUCT > BOOK

CONSTRUCT is one of: compound if switch loop continuing for while. Each statement of the chain is the only one in the body
of the last; the innermost is empty.
"""

import struct
import sys

ENTRIES = 4096
CONDITION = ENTRIES - 1  # the last entry, a literal: every condition and selector of the chain

# The bodies of one link of the chain, which starts at an entry; the last of them has the next link as its child.
LINKS = {
    "compound": lambda at: [[2, 1, at + 1]],
    "if": lambda at: [[6, 1, CONDITION, at + 1, at + 1], [2, 1, at + 2]],
    "switch": lambda at: [[7, CONDITION, 1, 0, at + 1], [2, 1, at + 2]],
    "loop": lambda at: [[8, at + 1, 0], [2, 1, at + 2]],
    "continuing": lambda at: [[8, at + 2, at + 1], [18, at + 2, 0], [2, 1, at + 3]],
    "for": lambda at: [[9, 0, 0, 0, at + 1], [2, 1, at + 2]],
    "while": lambda at: [[10, CONDITION, at + 1], [2, 1, at + 2]],
}


def deep(construct: str) -> list[int]:
    """The words of the book."""
    link = LINKS[construct]
    bodies = [[0, 1, 1]]
    while len(bodies) + len(link(0)) < CONDITION:
        bodies += link(len(bodies))
    bodies += [[1]] * (CONDITION - len(bodies)) + [[32, 0, 1, 0, 0, 0]]
    words, place = [len(bodies)], len(bodies) + 1
    for body in bodies:
        words.append(place)
        place += len(body)
    return words + [word for body in bodies for word in body]


def main() -> int:
    if len(sys.argv) != 2 or sys.argv[1] not in LINKS:
        print("usage: deep_chain.py " + " | ".join(LINKS), file=sys.stderr)
        return 1
    words = deep(sys.argv[1])
    sys.stdout.buffer.write(struct.pack(f"<{len(words)}H", *words))
    return 0


if __name__ == "__main__":
    sys.exit(main())
