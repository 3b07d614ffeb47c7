#!/usr/bin/env python3
"""The report that `rulebook behavior` is to print, by a reading of its own: refbehavior.py FILE.

It fills a table from the last entry to the first, and looks below each function anew; it shares no code with the
program.
"""

from __future__ import annotations

import sys

sys.dont_write_bytecode = True

from refcheck import read_words, verdict

ORDER = ["Next", "Break", "Continue", "Return"]
ABSENT_TYPE = 65535


class Book:
    """The bodies of an accepted book."""

    def __init__(self, words: list[int]) -> None:
        bounds = words[1:1 + words[0]] + [len(words)]
        self.bodies = [words[place:end] for place, end in zip(bounds, bounds[1:])]
        self.sets: list[frozenset[str]] = [frozenset()] * len(self.bodies)
        for entry in reversed(range(len(self.bodies))):
            self.sets[entry] = frozenset(self.set_of(self.bodies[entry]))

    def set_of(self, body: list[int]) -> set[str]:
        tag, f = body[0], body[1:]
        if tag == 2:
            so_far = {"Next"}
            for child in f[1:]:
                if "Next" in so_far:
                    so_far = so_far - {"Next"} | self.sets[child]
            return so_far
        if tag == 6:
            joined = set().union(*(self.sets[b] for b in f[2:-1:2]))
            return joined | (self.sets[f[-1]] if f[-1] else {"Next"})
        if tag == 7:
            joined = set().union(*(self.sets[b] for b in f[3::2]))
            if "Break" in joined:
                joined = joined - {"Break"} | {"Next"}
            return joined if 0 in f[2::2] else joined | {"Next"}
        if tag == 8:
            break_if = f[1] != 0 and self.bodies[f[1]][2] != 0
            return self.repeated(f[0], {"Next"} if break_if or "Break" in self.sets[f[0]] else set())
        if tag == 9:
            return self.repeated(f[3], {"Next"} if f[1] or "Break" in self.sets[f[3]] else set())
        if tag == 10:
            return self.repeated(f[1], {"Next"})
        return {11: {"Break"}, 12: {"Continue"}, 13: {"Return"}}.get(tag, {"Next"})

    def repeated(self, body: int, ends: set[str]) -> set[str]:
        return ends | (self.sets[body] & {"Return"})

    def children(self, entry: int) -> list[int]:
        """The statements, bodies and continuings right below an entry."""
        tag, f = self.bodies[entry][0], self.bodies[entry][1:]
        found = {2: f[1:], 6: f[2:-1:2] + f[-1:], 7: f[3::2], 8: f[0:2], 9: f[3:4], 10: f[1:2], 18: f[0:1], 48: f[3:4]}
        return [child for child in found.get(tag, []) if child]

    def below(self, entry: int) -> list[int]:
        seen, todo = set(), [entry]
        while todo:
            here = todo.pop()
            if here not in seen:
                seen.add(here)
                todo += self.children(here)
        return sorted(seen)

    def leaves(self, entry: int) -> bool:
        return self.bodies[entry][0] == 18 and not self.sets[self.bodies[entry][1]] <= {"Next"}

    def fault(self, entry: int) -> str:
        """What is wrong with a function, and where; nothing if it is fit."""
        f = self.bodies[entry][1:]
        typed, body = f[2] != ABSENT_TYPE, f[3]
        if self.sets[body] & {"Break", "Continue"}:
            return f"BreakOrContinue;{body}"
        if typed and "Next" in self.sets[body]:
            return f"NoReturn;{body}"
        below = self.below(body)
        for k in below:
            if self.bodies[k][0] == 13 and (self.bodies[k][1] != 0) != typed:
                return ("MissingValue;" if typed else "UnexpectedValue;") + str(k)
        for k in below:
            if self.leaves(k):
                return f"LeavingContinuing;{k}"
        return ""

    def lines(self) -> list[str]:
        text = ["{" + ", ".join(m for m in ORDER if m in s) + "}" for s in self.sets]
        statements = [f"entry;{e};{text[e]}" for e, b in enumerate(self.bodies) if 1 <= b[0] <= 17]
        functions = [e for e, b in enumerate(self.bodies) if b[0] == 48]
        faults = {e: self.fault(e) for e in functions}
        reported = [
            f"function;{self.bodies[e][1]};{text[self.bodies[e][4]]};" + (f"unfit;{faults[e]}" if faults[e] else "fit")
            for e in functions
        ]
        fit = not any(faults.values()) and not any(self.leaves(e) for e in range(len(self.bodies)))
        return statements + reported + ["book;fit" if fit else "book;unfit"]


def lines(words: list[int]) -> list[str]:
    answer = verdict(words)
    return [answer] if answer.startswith("refused") else Book(words).lines()


if __name__ == "__main__":
    print("\n".join(lines(read_words(sys.argv[1]))))
