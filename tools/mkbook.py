#!/usr/bin/env python3
"""Makes a book of 16-bit words from a readable rule."""

from __future__ import annotations

import argparse
import re
import struct
import sys
from typing import NoReturn

from rule_text import Entry, Field, Parser, RuleError

NOTATION = """\
The notation follows WGSL. `//` starts a comment.

Names. A book knows names by number. A rule starts with the numbers of its
identifiers; `n20` is name 20 and needs no line there:

    names { price = 1, weight = 16, charge = 20 }

Types. bool abstract i32 u32 (scalar host), flag count gram cent (tariff host),
or t77 for type 77.

Literals. 5 is AbstractInt, 5i I32, 5u U32, true and false Bool; 2ct Count,
500g Gram, 150p Cent, yes and no Flag; lit(KIND, NUMBER) is any other, such as
lit(2, -5). `-5i` is a negation of 5i. A host's ranges are not checked here.

Expressions. (e) is an entry of its own; [e] groups without one. As in WGSL,
&& and ||, and & | ^ with anything else, do not mix without either.

Functions and statements:

    @const @must_use fn charge(weight: gram, n2: count) -> cent { ... }
    const price: cent = 450p;   let n3 = price;   var n4: cent;
    n4 = price;   n4 += price;   n3++;   n3--;   charge(5g, 2ct);   ;   { ... }
    if e { ... } else if e { ... } else { ... }
    switch e { case 1ct, 2ct { ... } case 3ct, default { ... } }
    loop { ... continuing { ... break if e; } }
    for (var n5 = 0i; n5 < 3i; n5++) { ... }   while e { ... }
    break;   continue;   return;   return e;   discard;   const_assert e;

The selectors of one case share its body. Any optional part may be left out.

Sharing. 'a: before a function, a statement, a body in braces, a continuing or
an operand labels that entry; 'a names the same entry again, before or after:

    { 'a: n4 += price;  'a; }         a statement
    if e 'b: { ... } else 'b          a body
    n4 = 'c: [n4 + price] * 'c;       an operand
    ['d: charge(5g, 2ct)];  ['d];     the call of a call statement
    continuing 'e;                    a whole continuing
    loop 'b continuing 'b break if e; bodies that have a continuing or a break-if

At the start of a statement a label is the statement's: write ['a: n4] = e; to
label the left side.

Numbering. Entries are numbered depth first, a parent before its children; a
shared entry takes its number where it is named last, so after all its parents.
"""

MOST_ENTRIES = 4096
MOST_WORDS = 65535


def children(entry: Entry) -> list[Entry]:
    """The children that an entry names, in the order of its fields."""
    return [field for field in entry.fields if isinstance(field, Entry)]


def reached(start: Entry) -> set[Entry]:
    """The entries that are named, however far down, by `start`."""
    seen: set[Entry] = set()
    waiting = [start]
    while waiting:
        for child in children(waiting.pop()):
            if child not in seen:
                seen.add(child)
                waiting.append(child)
    return seen


def numbered(unit: Entry, labels: dict[str, Entry]) -> list[Entry]:
    """The entries in the order of their numbers: each when it is named for the last time."""
    entries = reached(unit) | {unit}
    mentions = {entry: 0 for entry in entries}
    mentions[unit] = 1
    for entry in entries:
        for child in children(entry):
            mentions[child] += 1
    order, waiting = [], [unit]
    while waiting:
        entry = waiting.pop()
        mentions[entry] -= 1
        if mentions[entry] == 0:
            order.append(entry)
            waiting += reversed(children(entry))
    if len(order) < len(entries):
        for label, entry in labels.items():
            if entry in reached(entry):
                raise RuleError(f"{label} contains itself: a child must have a larger number than its parent",
                                entry.token.line, entry.token.column)
    return order


def bodies_of(unit: Entry, labels: dict[str, Entry]) -> list[list[int]]:
    """The bodies of a book, in the order of the entries."""
    order = numbered(unit, labels)
    if len(order) > MOST_ENTRIES:
        token = order[MOST_ENTRIES].token
        raise RuleError(f"{len(order)} entries, but a book has at most {MOST_ENTRIES}", token.line, token.column)
    number = {entry: i for i, entry in enumerate(order)}

    def word(field: Field) -> int:
        if field is None:
            return 0
        return number[field] if isinstance(field, Entry) else field

    bodies = [[entry.tag] + [word(field) for field in entry.fields] for entry in order]
    length = 1 + len(bodies) + sum(map(len, bodies))
    if length > MOST_WORDS:
        raise RuleError(f"{length} words, but a book has at most {MOST_WORDS}", unit.token.line, unit.token.column)
    return bodies


def places_of(bodies: list[list[int]]) -> list[int]:
    """The index of the first word of each body."""
    places, at = [], len(bodies) + 1
    for body in bodies:
        places.append(at)
        at += len(body)
    return places


def make(text: str) -> list[list[int]]:
    """The bodies of the book that a rule describes."""
    parser = Parser(text)
    unit = parser.unit()
    return bodies_of(unit, parser.labels)


def book_of(bodies: list[list[int]]) -> list[int]:
    """The words of the book with these bodies."""
    return [len(bodies)] + places_of(bodies) + [word for body in bodies for word in body]


def listing(bodies: list[list[int]], form: str) -> str:
    """The words as text, one body a line; `--from-words` reads it back."""
    lines = [([len(bodies)], "N"), (places_of(bodies), "places")]
    for entry, (place, body) in enumerate(zip(places_of(bodies), bodies)):
        lines.append((body, f"entry {entry}, at word {place}"))
    return "".join(" ".join(format(word, form) for word in words) + f"  # {note}\n" for words, note in lines)


def words_of_text(text: str) -> list[int]:
    """The words of a list of numbers, decimal or 0x…; `#` starts a comment."""
    words = []
    for line, content in enumerate(text.split("\n"), 1):
        for match in re.finditer(r"\S+", content.split("#")[0]):
            piece = match.group()
            if not re.fullmatch(r"[0-9]{1,9}|0x[0-9a-fA-F]{1,9}", piece):
                raise RuleError(f"'{piece}' is no word: 0 to 65535, or 0x0 to 0xffff", line, match.start() + 1)
            word = int(piece, 16 if piece.startswith("0x") else 10)
            if word > 65535:
                raise RuleError(f"{piece} is above 65535", line, match.start() + 1)
            words.append(word)
    return words


class Arguments(argparse.ArgumentParser):
    """An argument parser that ends with status 1."""

    def error(self, message: str) -> NoReturn:
        self.exit(1, f"{self.prog}: {message}\n")


def main() -> int:
    arguments = Arguments(description=__doc__, epilog=NOTATION, formatter_class=argparse.RawDescriptionHelpFormatter)
    arguments.add_argument("file", metavar="FILE", help="the rule, or the list of words")
    arguments.add_argument("-o", metavar="BOOK", help="write there instead of to standard output")
    form = arguments.add_mutually_exclusive_group()
    form.add_argument("--words", action="store_true", help="write the words as decimal text, one body a line")
    form.add_argument("--hex", action="store_true", help="the same in hexadecimal")
    form.add_argument("--from-words", action="store_true", help="FILE is a plain list of words, which need not be a good book")
    chosen = arguments.parse_args()
    sys.setrecursionlimit(100000)
    try:
        with open(chosen.file, encoding="utf-8") as file:
            text = file.read()
        if chosen.from_words:
            words = words_of_text(text)
            data = struct.pack(f"<{len(words)}H", *words)
        else:
            bodies = make(text)
            words = book_of(bodies)
            data = struct.pack(f"<{len(words)}H", *words)
            if chosen.words or chosen.hex:
                data = listing(bodies, "#06x" if chosen.hex else "d").encode()
        if chosen.o:
            with open(chosen.o, "wb") as file:
                file.write(data)
        else:
            sys.stdout.buffer.write(data)
    except RuleError as error:
        print(f"{chosen.file}:{error.line}:{error.column}: {error}", file=sys.stderr)
        return 1
    except OSError as error:
        print(f"mkbook.py: {error.filename}: {error.strerror}", file=sys.stderr)
        return 1
    except UnicodeDecodeError:
        print(f"mkbook.py: {chosen.file}: not a text in UTF-8", file=sys.stderr)
        return 1
    return 0


if __name__ == "__main__":
    sys.exit(main())
