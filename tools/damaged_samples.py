#!/usr/bin/env python3
"""Writes damaged copies of the freight book, one for each way to be refused.

    damaged_samples.py FREIGHT_BOOK OUTDIR
"""

from __future__ import annotations

import os
import struct
import sys

from refcheck import read_words

LOOP, BINARY, FUNCTION = 8, 35, 48
BODY_OF_FUNCTION = 4
BODY_OF_LOOP = 1


def first(words: list[int], tag: int) -> int:
    """The first entry of a tag."""
    return next(entry for entry in range(words[0]) if words[words[1 + entry]] == tag)


def changed(words: list[int], index: int, value: int) -> list[int]:
    """The words with one of them replaced."""
    return words[:index] + [value] + words[index + 1:]


def copies(words: list[int]) -> dict[str, list[int]]:
    """The damaged copies by name."""
    function, loop, binary = (first(words, tag) for tag in (FUNCTION, LOOP, BINARY))

    def place(entry: int) -> int:
        return words[1 + entry]

    return {
        "freight-n-zero": changed(words, 0, 0),
        "freight-cut": words[:-1],
        "freight-left-over": words + [0],
        "freight-bad-place": changed(words, 1 + function, place(function) + 1),
        "freight-bad-tag": changed(words, place(loop), 19),
        "freight-bad-operator": changed(words, place(binary) + 1, 16),
        # The function's body has the right tag, but a smaller number than the loop.
        "freight-child-before-parent": changed(words, place(loop) + BODY_OF_LOOP, words[place(function) + BODY_OF_FUNCTION]),
    }


def main() -> int:
    if len(sys.argv) != 3:
        print("usage: damaged_samples.py FREIGHT_BOOK OUTDIR", file=sys.stderr)
        return 1
    words = read_words(sys.argv[1])
    for name, copy in copies(words).items():
        with open(os.path.join(sys.argv[2], name + ".book"), "wb") as file:
            file.write(struct.pack(f"<{len(copy)}H", *copy))
    return 0


if __name__ == "__main__":
    sys.exit(main())
