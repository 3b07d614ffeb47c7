#!/usr/bin/env python3
"""Writes damaged copies of a book.

    damage.py BOOK OUTDIR

OUTDIR/change-INDEX-VALUE.book: the word at INDEX becomes 0, 1, one less, one more or 65535.
OUTDIR/cut-LENGTH.book: only the first LENGTH words.
"""

from __future__ import annotations

import os
import struct
import sys
from typing import Iterator

from refcheck import read_words


def damaged(words: list[int]) -> Iterator[tuple[str, list[int]]]:
    """Every copy with its name."""
    for index, word in enumerate(words):
        values = {0, 1, word - 1, word + 1, 65535} - {word, -1, 65536}
        for value in sorted(values):
            yield f"change-{index}-{value}", words[:index] + [value] + words[index + 1:]
    for length in range(len(words)):
        yield f"cut-{length}", words[:length]


def main() -> int:
    if len(sys.argv) != 3:
        print("usage: damage.py BOOK OUTDIR", file=sys.stderr)
        return 1
    book, out = sys.argv[1:]
    count = 0
    try:
        words = read_words(book)
        os.makedirs(out, exist_ok=True)
        for name, copy in damaged(words):
            with open(os.path.join(out, name + ".book"), "wb") as file:
                file.write(struct.pack(f"<{len(copy)}H", *copy))
            count += 1
    except (OSError, ValueError) as error:
        print(f"damage.py: {error}", file=sys.stderr)
        return 1
    print(f"{count} books written to {out}")
    return 0


if __name__ == "__main__":
    sys.exit(main())
