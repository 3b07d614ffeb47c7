#!/usr/bin/env python3
"""Writes a book whose entries share: N entries each name the next one twice.

    shared_chain.py N > BOOK

Entry 0 is the unit, entries 1 to N - 1 are compound statements, entry N is an empty statement.
Read as a tree it has 2 to the power N leaves.
"""

import struct
import sys


def chain(links: int) -> list[int]:
    """The words of the book."""
    bodies = [[0 if entry == 0 else 2, 2, entry + 1, entry + 1] for entry in range(links)] + [[1]]
    places = [len(bodies) + 1 + 4 * entry for entry in range(links + 1)]
    return [len(bodies)] + places + [word for body in bodies for word in body]


def main() -> int:
    if len(sys.argv) != 2 or not sys.argv[1].isdigit() or not 1 <= int(sys.argv[1]) <= 4095:
        print("usage: shared_chain.py N, with N from 1 to 4095", file=sys.stderr)
        return 1
    words = chain(int(sys.argv[1]))
    sys.stdout.buffer.write(struct.pack(f"<{len(words)}H", *words))
    return 0


if __name__ == "__main__":
    sys.exit(main())
