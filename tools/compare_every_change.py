#!/usr/bin/env python3
"""Holds `rulebook check` to the reference reader on every change of one word of a book, to each of the other 65,535 values.

    compare_every_change.py RULEBOOK BOOK [FIRST LAST]

FIRST and LAST are indexes of words, so that a book can be shared out among processes. Prints a count; exits 1 if
anything differs.
"""

from __future__ import annotations

import os
import struct
import subprocess
import sys
import tempfile

sys.dont_write_bytecode = True

import refcheck


def differing(program: str, words: list[int], index: int) -> int:
    """How many changes of the word at the index the program judges otherwise than the reference reader."""
    values = [value for value in range(65536) if value != words[index]]
    layout = struct.Struct(f"<{len(words)}H")
    with tempfile.TemporaryDirectory() as scratch:
        for value in values:
            with open(os.path.join(scratch, str(value)), "wb") as file:
                file.write(layout.pack(*words[:index], value, *words[index + 1:]))
        asked = "".join(f"check {value}\n" for value in values)
        run = subprocess.run([program, "batch"], input=asked, cwd=scratch, capture_output=True, text=True, check=True)
    answers = [line for line in run.stdout.splitlines() if not line.startswith(">")]
    wanted = [refcheck.verdict(words[:index] + [value] + words[index + 1:]) for value in values]
    if len(answers) != len(wanted):
        return len(wanted)
    return sum(answer != want for answer, want in zip(answers, wanted))


def main(argv: list[str]) -> int:
    if len(argv) not in (2, 4):
        print("usage: compare_every_change.py RULEBOOK BOOK [FIRST LAST]", file=sys.stderr)
        return 1
    program = os.path.abspath(argv[0])
    words = refcheck.read_words(argv[1])
    first, last = (int(argv[2]), int(argv[3])) if len(argv) == 4 else (0, len(words) - 1)
    differ = sum(differing(program, words, index) for index in range(first, last + 1))
    print(f"{(last - first + 1) * 65535} books compared, {differ} differ")
    return 1 if differ else 0


if __name__ == "__main__":
    sys.exit(main(sys.argv[1:]))
