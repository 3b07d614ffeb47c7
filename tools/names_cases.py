#!/usr/bin/env python3
"""Makes cases for crates/names_cases: operations on tables of names, and what the rules answer.

The answers come from scopes that each hold their own names, as a reader of docs/RULES.md would draw them; the program
keeps one table. Writes crates/names_cases/stdin and stdout, or with --check says whether they are up to date.
"""
import pathlib
import random
import sys

LIMITS = {"i": (-2**31, 2**31 - 1), "u": (0, 2**32 - 1)}


class Table:
    def __init__(self, length):
        self.usable = min(length, 1024)
        self.scopes = [("root", [])]  # the root's first; each with its kind and its names in order

    def names(self):
        return [name for _, names in self.scopes for name in names]

    def open(self, kind):
        if len(self.scopes) < 258:
            self.scopes.append((kind, []))

    def close(self, what):
        if what == "all":
            del self.scopes[1:]
        elif len(self.scopes) > 1:
            self.scopes.pop()

    def duplicate(self, name):
        seen = list(self.scopes[-1][1])
        if self.scopes[-1][0] == "transparent":
            seen += self.scopes[-2][1]
        return any(n[1] == name for n in seen)

    def bind(self, kind, name, value):
        if self.duplicate(name):
            return "!15"
        if len(self.names()) == self.usable:
            return "!52"
        self.scopes[-1][1].append([kind, name, value])
        return "ok"

    def lookup(self, name):
        """The scopes from the innermost outward, up to a call's; then the root's alone."""
        visible = []
        for i in reversed(range(len(self.scopes))):
            visible.append(i)
            if self.scopes[i][0] == "call":
                visible.append(0)
                break
        for i in visible:
            before = sum(len(names) for _, names in self.scopes[:i])
            for k in reversed(range(len(self.scopes[i][1]))):
                if self.scopes[i][1][k][1] == name:
                    return before + k
        return None

    def variable(self, place):
        names = self.names()
        if place < len(names) and names[place][0] == "var":
            return names[place]
        return None

    def write(self, place, value):
        held = self.variable(place)
        if held is None:
            return "!13"
        if held[2][0] != value[0]:
            return "!12"
        held[2] = value
        return "ok"

    def assign(self, place, value):
        held = self.variable(place)
        if held is None:
            return "!13"
        to = held[2][0]
        if value[0] != to:
            if value[0] != "a" or to not in LIMITS:
                return "!11"
            low, high = LIMITS[to]
            if not low <= int(value[1:]) <= high:
                return "!11"
            value = to + value[1:]
        return self.write(place, value)


def shown(place, name):
    return f"{place}: {name[0]} {name[1]} {name[2]}"


def perform(table, line):
    word, rest = line.split(" ", 1)
    if word == "open":
        table.open(rest)
        return ""
    if word == "close":
        table.close(rest)
        return ""
    if word == "bind":
        kind, name, value = rest.split(" ")
        return " = " + table.bind(kind, int(name), value)
    if word == "lookup":
        place = table.lookup(int(rest))
        return " = " + ("!21" if place is None else shown(place, table.names()[place]))
    if word == "duplicate":
        return " = " + ("yes" if table.duplicate(int(rest)) else "no")
    if word == "variable":
        held = table.variable(int(rest))
        return " = " + ("none" if held is None else shown(int(rest), held))
    place, value = rest.split(" ")
    return " = " + (table.write if word == "write" else table.assign)(int(place), value)


def random_value(rng):
    kind = rng.choice("baiu")
    if kind == "b":
        return "b" + str(rng.randrange(2))
    low, high = {"a": (-2**63, 2**63 - 1)}.get(kind) or LIMITS[kind]
    return kind + str(rng.choice([low, high, 0, 1, rng.randrange(100), -1 if low < 0 else 2, 2**31 if high > 2**31 else 3]))


def random_block(rng, count):
    yield f"table {rng.choice([0, 1, 2, 3, 5, 8, 16, 64])}"
    for _ in range(count):
        name = rng.randrange(6)
        place = rng.randrange(10)
        yield rng.choices(
            [
                f"open {rng.choice(['regular', 'transparent', 'call'])}",
                "close scope",
                "close all",
                f"bind {rng.choice(['const', 'let', 'var', 'var'])} {name} {random_value(rng)}",
                f"lookup {name}",
                f"duplicate {name}",
                f"variable {place}",
                f"write {place} {random_value(rng)}",
                f"assign {place} {random_value(rng)}",
            ],
            weights=[8, 6, 1, 16, 12, 4, 2, 6, 8],
        )[0]


def edges():
    """The most names, and the most scopes."""
    yield "table 1030"
    for name in range(1026):
        yield f"bind let {name} i{name}"
    yield "lookup 0"
    yield "lookup 1023"
    yield "lookup 1024"
    yield "table 8"
    yield "bind var 1 i1"
    for _ in range(257):
        yield "open regular"
    yield "bind let 1 i2"
    yield "open regular"
    yield "bind let 1 i3"
    yield "lookup 1"
    for _ in range(256):
        yield "close scope"
    yield "duplicate 1"
    yield "lookup 1"
    yield "close scope"
    yield "lookup 1"
    yield "close scope"
    yield "lookup 1"


def main():
    rng = random.Random(20250)
    lines = list(edges())
    for _ in range(60):
        lines += random_block(rng, 50)
    answers, table = [], None
    for line in lines:
        if line.startswith("table "):
            table = Table(int(line.split(" ")[1]))
            answers.append(line)
        else:
            answers.append(line + perform(table, line))
    crate = pathlib.Path(__file__).resolve().parent.parent / "crates" / "names_cases"
    texts = {"stdin": lines, "stdout": answers}
    for name, rows in texts.items():
        text = "\n".join(rows) + "\n"
        if "--check" in sys.argv[1:]:
            if (crate / name).read_text() != text:
                sys.exit(f"{name} is not up to date")
        else:
            (crate / name).write_text(text)


main()
