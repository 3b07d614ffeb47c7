#!/usr/bin/env python3
"""Lists a book's entries: a reference for `rulebook show`.

    refshow.py FILE

prints one line an entry, ascending; for a refused book the line of refcheck.py.
"""

from __future__ import annotations

import sys

from refcheck import read_words, verdict

BINARY = ["+", "-", "*", "/", "%", "&", "|", "^", "==", "!=", "<", "<=", ">", ">=", "&&", "||"]
UNARY = ["-", "!", "~"]
ASSIGNMENT = ["="] + [operator + "=" for operator in BINARY[:8]]
DECLARATION = ["const", "let", "var"]
ABSENT_TYPE = 65535


def listed(words: list[int]) -> str:
    """[1 3 7]"""
    return "[" + " ".join(map(str, words)) + "]"


def paired(words: list[int]) -> str:
    """[3:4 default:5], of the words of the pairs; 0 before the colon is a default."""
    pairs = zip(words[0::2], words[1::2])
    return "[" + " ".join(f"{left or 'default'}:{right}" for left, right in pairs) + "]"


def parameters(words: list[int]) -> str:
    """[1:4 2:6], name and type of each parameter."""
    return "[" + " ".join(f"{name}:{type_}" for name, type_ in zip(words[0::2], words[1::2])) + "]"


def optional(name: str, child: int) -> list[str]:
    """A child that may be absent."""
    return [f"{name}={child}"] if child else []


def typed(type_: int) -> list[str]:
    """A type that may be absent."""
    return [f"type={type_}"] if type_ != ABSENT_TYPE else []


def signed(words: list[int]) -> int:
    """Four words, the lowest first, as one signed number."""
    number = sum(word << 16 * i for i, word in enumerate(words))
    return number - 2**64 if number >= 2**63 else number


def construct(body: list[int]) -> list[str]:
    """The name of a body's construct, and its fields."""
    tag, f = body[0], body[1:]
    if tag == 0:
        return ["unit", f"children={listed(f[1:])}"]
    if tag == 1:
        return ["empty"]
    if tag == 2:
        return ["compound", f"statements={listed(f[1:])}"]
    if tag == 3:
        return ["assignment", f"operator={ASSIGNMENT[f[0]]}", f"lhs={f[1]}", f"rhs={f[2]}"]
    if tag == 4:
        return ["increment", f"operand={f[0]}"]
    if tag == 5:
        return ["decrement", f"operand={f[0]}"]
    if tag == 6:
        return ["if", f"clauses={paired(f[1:-1])}"] + optional("else", f[-1])
    if tag == 7:
        return ["switch", f"expression={f[0]}", f"clauses={paired(f[2:])}"]
    if tag == 8:
        return ["loop", f"body={f[0]}"] + optional("continuing", f[1])
    if tag == 9:
        parts = optional("initializer", f[0]) + optional("condition", f[1]) + optional("update", f[2])
        return ["for"] + parts + [f"body={f[3]}"]
    if tag == 10:
        return ["while", f"condition={f[0]}", f"body={f[1]}"]
    if tag == 11:
        return ["break"]
    if tag == 12:
        return ["continue"]
    if tag == 13:
        return ["return"] + optional("expression", f[0])
    if tag == 14:
        return ["discard"]
    if tag == 15:
        return ["call-statement", f"call={f[0]}"]
    if tag == 16:
        return ["const-assert", f"expression={f[0]}"]
    if tag == 17:
        return ["declaration", f"kind={DECLARATION[f[0]]}", f"name={f[1]}"] + typed(f[2]) + optional("initializer", f[3])
    if tag == 18:
        return ["continuing", f"body={f[0]}"] + optional("break-if", f[1])
    if tag == 32:
        return ["literal", f"kind={f[0]}", f"number={signed(f[1:])}"]
    if tag == 33:
        return ["parenthesized", f"expression={f[0]}"]
    if tag == 34:
        return ["unary", f"operator={UNARY[f[0]]}", f"operand={f[1]}"]
    if tag == 35:
        return ["binary", f"operator={BINARY[f[0]]}", f"left={f[1]}", f"right={f[2]}"]
    if tag == 36:
        return ["name", f"name={f[0]}"]
    if tag == 37:
        return ["call", f"name={f[0]}", f"arguments={listed(f[2:])}"]
    assert tag == 48
    flags = ["const"] * (f[1] & 1) + ["must-use"] * (f[1] >> 1)
    return ["function", f"name={f[0]}"] + flags + typed(f[2]) + [f"parameters={parameters(f[5:])}", f"body={f[3]}"]


def lines(words: list[int]) -> list[str]:
    """The listing of an accepted book, or the line that says why it is refused."""
    answer = verdict(words)
    if answer.startswith("refused"):
        return [answer]
    bounds = words[1:1 + words[0]] + [len(words)]
    bodies = [words[place:end] for place, end in zip(bounds, bounds[1:])]
    return [" ".join([str(entry)] + construct(body)) for entry, body in enumerate(bodies)]


def main() -> int:
    if len(sys.argv) != 2:
        print("usage: refshow.py FILE", file=sys.stderr)
        return 1
    try:
        words = read_words(sys.argv[1])
    except OSError as error:
        print(f"refshow.py: {sys.argv[1]}: {error.strerror}", file=sys.stderr)
        return 1
    except ValueError as error:
        print(f"refshow.py: {sys.argv[1]}: {error}", file=sys.stderr)
        return 1
    for line in lines(words):
        print(line)
    return 0


if __name__ == "__main__":
    sys.exit(main())
