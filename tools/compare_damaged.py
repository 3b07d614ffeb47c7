#!/usr/bin/env python3
"""Holds `rulebook check` to the reference reader on damaged books.

    compare_damaged.py RULEBOOK BOOK...

The copies that damage.py makes of each BOOK, and books at the limits of length, are written to a scratch folder, checked
by one `rulebook batch`, and compared with refcheck.py: number, name and entry. Prints a count; exits 1 if anything differs.
"""

from __future__ import annotations

import os
import subprocess
import sys
import tempfile

sys.dont_write_bytecode = True

import damage
import refcheck


def edges() -> list[tuple[str, list[int]]]:
    """Books at the limits of the number of entries and of words."""
    made = [("empty", []), ("one word", [1]), ("n zero", [0, 0, 0])]
    for n in (4096, 4097):
        places = [n + 1] + [n + 3 + e for e in range(n - 1)]
        made.append((f"{n} entries", [n] + places + [0, 0] + [1] * (n - 1)))
    for length in (65535, 65536):
        made.append((f"{length} words", [1, 2, 0, 0] + [0] * (length - 4)))
    return made


def main(argv: list[str]) -> int:
    program, books = argv[0], argv[1:]
    cases = edges()
    for path in books:
        words = refcheck.read_words(path)
        cases += [(f"{path} {name}", copy) for name, copy in damage.damaged(words)]
    differ = 0
    with tempfile.TemporaryDirectory() as scratch:
        for i, (_, words) in enumerate(cases):
            with open(os.path.join(scratch, f"{i}.book"), "wb") as file:
                file.write(b"".join(word.to_bytes(2, "little") for word in words))
        asked = "".join(f"check {i}.book\n" for i in range(len(cases)))
        run = subprocess.run([os.path.abspath(program), "batch"], input=asked, cwd=scratch, capture_output=True, text=True)
        answers = [line for line in run.stdout.splitlines() if not line.startswith(">")]
        if run.returncode != 0 or len(answers) != len(cases):
            print(f"status {run.returncode}, {len(answers)} answers of {len(cases)}: {run.stderr.strip()}")
            return 1
        for (name, words), answer in zip(cases, answers):
            wanted = refcheck.verdict(words)
            if answer != wanted:
                differ += 1
                if differ <= 20:
                    print(f"{name}: expected {wanted}, got {answer}")
    print(f"{len(cases)} books compared, {differ} differ")
    return 1 if differ else 0


if __name__ == "__main__":
    sys.exit(main(sys.argv[1:]))
