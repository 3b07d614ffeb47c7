#!/usr/bin/env python3
"""Says what loading a book answers: a reference for `rulebook check`.

    refcheck.py FILE

prints `accepted;ENTRIES;WORDS` or `refused;NUMBER;NAME;ENTRY`.
"""

from __future__ import annotations

import struct
import sys
from typing import Iterator, NamedTuple, Optional, Union

NAMES = {1: "BadLength", 2: "BadPlace", 3: "BadField", 4: "WrongChild"}

MOST_ENTRIES = 4096
MOST_WORDS = 65535


class Plain(NamedTuple):
    """A field that is a number from 0 to `greatest`."""
    greatest: int


class Child(NamedTuple):
    """A field that names an entry of one of these tags; 0 if `optional` and absent."""
    tags: frozenset[int]
    optional: bool = False


class Many(NamedTuple):
    """A count from `least` to `most`, then that many groups of fields."""
    least: int
    most: int
    group: list[Field]


Field = Union[Plain, Child]

ANY = Plain(65535)
NAME = Plain(65534)
PARAMETER_TYPE = Plain(65534)
TYPE = ANY
KIND_OF_DECLARATION = Plain(2)
FLAGS = Plain(3)
ASSIGNMENT_OPERATOR = Plain(8)
UNARY_OPERATOR = Plain(2)
BINARY_OPERATOR = Plain(15)

STATEMENTS = frozenset(range(1, 18))
S = Child(STATEMENTS)
E = Child(frozenset(range(32, 38)))
B = Child(frozenset({2}))
MAYBE_E = E._replace(optional=True)
MAYBE_B = B._replace(optional=True)

SHAPES: dict[int, list[Union[Field, Many]]] = {
    0: [Many(0, 64, [Child(STATEMENTS | {48})])],
    1: [],
    2: [Many(0, 64, [S])],
    3: [ASSIGNMENT_OPERATOR, E, E],
    4: [E],
    5: [E],
    6: [Many(1, 64, [E, B]), MAYBE_B],
    7: [E, Many(0, 64, [MAYBE_E, B])],
    8: [B, Child(frozenset({18}), optional=True)],
    9: [Child(frozenset({3, 4, 5, 15, 17}), optional=True), MAYBE_E,
        Child(frozenset({3, 4, 5, 15}), optional=True), B],
    10: [E, B],
    11: [],
    12: [],
    13: [MAYBE_E],
    14: [],
    15: [Child(frozenset({37}))],
    16: [E],
    17: [KIND_OF_DECLARATION, NAME, TYPE, MAYBE_E],
    18: [B, MAYBE_E],
    32: [ANY, ANY, ANY, ANY, ANY],
    33: [E],
    34: [UNARY_OPERATOR, E],
    35: [BINARY_OPERATOR, E, E],
    36: [NAME],
    37: [NAME, Many(0, 16, [E])],
    48: [NAME, FLAGS, TYPE, B, Many(0, 16, [NAME, PARAMETER_TYPE])],
}


class Refusal(Exception):
    """A refusal's number, and the entry at which it arose."""

    def __init__(self, number: int, entry: int) -> None:
        super().__init__(number, entry)
        self.number, self.entry = number, entry


def length_of_body(words: list[int], place: int) -> Optional[int]:
    """The length of the body at `place`, its count as it stands; none if the count itself is missing."""
    length = 1
    for part in SHAPES[words[place]]:
        if isinstance(part, Many):
            if place + length >= len(words):
                return None
            length += 1 + words[place + length] * len(part.group)
        else:
            length += 1
    return length


def fields_of_body(words: list[int], place: int) -> Iterator[tuple[Union[Field, Many], int]]:
    """Each field of a complete body beside its word; a count stands beside its Many."""
    at = place + 1
    for part in SHAPES[words[place]]:
        yield part, words[at]
        at += 1
        if isinstance(part, Many):
            for _ in range(words[at - 1]):
                for field in part.group:
                    yield field, words[at]
                    at += 1


def fits(field: Union[Field, Many], word: int) -> bool:
    """Whether a word that is no child lies within its field's limits."""
    if isinstance(field, Plain):
        return word <= field.greatest
    if isinstance(field, Many):
        return field.least <= word <= field.most
    return True


def check(words: list[int]) -> None:
    """Raises the first refusal of the words, if there is one."""
    if not words or len(words) > MOST_WORDS:
        raise Refusal(1, 0)
    count = words[0]
    if not 1 <= count <= MOST_ENTRIES or len(words) < count + 1:
        raise Refusal(1, 0)

    end = count + 1
    for entry in range(count):
        place = words[1 + entry]
        if place != end or place >= len(words):
            raise Refusal(2, entry)
        tag = words[place]
        if tag not in SHAPES:
            raise Refusal(3, entry)
        length = length_of_body(words, place)
        if length is None or place + length > len(words):
            raise Refusal(2, entry)
        if (tag == 0) != (entry == 0):
            raise Refusal(3, entry)
        if not all(fits(field, word) for field, word in fields_of_body(words, place)):
            raise Refusal(3, entry)
        end = place + length
    if end != len(words):
        raise Refusal(2, count - 1)

    for entry in range(count):
        for field, word in fields_of_body(words, words[1 + entry]):
            if not isinstance(field, Child) or word == 0 and field.optional:
                continue
            if not entry < word < count or words[words[1 + word]] not in field.tags:
                raise Refusal(4, entry)


def verdict(words: list[int]) -> str:
    """The line that `rulebook check` prints."""
    try:
        check(words)
    except Refusal as refusal:
        return f"refused;{refusal.number};{NAMES[refusal.number]};{refusal.entry}"
    return f"accepted;{words[0]};{len(words)}"


def read_words(path: str) -> list[int]:
    """The words of a file, two bytes each, the low byte first."""
    with open(path, "rb") as file:
        data = file.read()
    if len(data) % 2:
        raise ValueError("an odd number of bytes is no list of words")
    return list(struct.unpack(f"<{len(data) // 2}H", data))


def main() -> int:
    if len(sys.argv) != 2:
        print("usage: refcheck.py FILE", file=sys.stderr)
        return 1
    try:
        words = read_words(sys.argv[1])
    except OSError as error:
        print(f"refcheck.py: {sys.argv[1]}: {error.strerror}", file=sys.stderr)
        return 1
    except ValueError as error:
        print(f"refcheck.py: {sys.argv[1]}: {error}", file=sys.stderr)
        return 1
    print(verdict(words))
    return 0


if __name__ == "__main__":
    sys.exit(main())
