#!/usr/bin/env python3
"""Writes crates/host_cases/stdin and stdout: questions to the two hosts with the answers that the rules give.

The answers are computed here from the rules of docs/HOSTS.md with Python's integers, and not by the Rattle code.
host_cases_by_hand.txt has answers that were worked out by hand; the tool stops where it gives another.
"""
import os
import sys

ROOT = os.path.dirname(os.path.dirname(os.path.abspath(__file__)))
STAGES = ["const", "override", "exec"]
BINARY = ["+", "-", "*", "/", "%", "&", "|", "^", "==", "!=", "<", "<=", ">", ">="]
UNARY = ["-", "!", "~"]

LOW64, HIGH64 = -(2**63), 2**63 - 1
LOW32, HIGH32 = -(2**31), 2**31 - 1
TOP32 = 2**32 - 1


class Fault(Exception):
    def __init__(self, number):
        self.number = number


def answer(f, *args):
    try:
        r = f(*args)
    except Fault as fault:
        return "!%d" % fault.number
    if r is None:
        return "none"
    if r is True or r is False:
        return "true" if r else "false"
    if isinstance(r, tuple):
        return "%s%d" % r
    return str(r)


# ---- scalar: a value is a letter and a number

RANGE = {"b": (0, 1), "a": (LOW64, HIGH64), "i": (LOW32, HIGH32), "u": (0, TOP32)}
KIND = {"b": 0, "a": 1, "i": 2, "u": 3}
LETTER = {n: c for c, n in KIND.items()}


def fits(letter, n):
    low, high = RANGE[letter]
    return low <= n <= high


def signed_words(words):
    n = int.from_bytes(b"".join(w.to_bytes(2, "little") for w in words), "little", signed=True)
    return n


def scalar_literal(kind, *words):
    if kind not in LETTER:
        raise Fault(55)
    n = signed_words(words)
    if not fits(LETTER[kind], n):
        raise Fault(55)
    return (LETTER[kind], n)


def scalar_convert(v, t):
    letter, n = v
    if t == KIND[letter]:
        return v
    if letter == "a" and t in (2, 3) and fits(LETTER[t], n):
        return (LETTER[t], n)
    return None


def scalar_zero(t):
    return (LETTER[t], 0) if t in (0, 2, 3) else None


def scalar_concretise(t):
    return 2 if t == 1 else t


def twos(letter, n):
    """The number that the type's lowest bits of n write."""
    size = {"a": 8, "i": 4, "u": 4}[letter]
    kept = n & ((1 << (8 * size)) - 1)
    return int.from_bytes(kept.to_bytes(size, "little"), "little", signed=letter != "u")


def toward_zero(m, n):
    q = abs(m) // abs(n)
    return q if (m < 0) == (n < 0) else -q


def scalar_unary(stage, op, v):
    letter, n = v
    if op == "-" and letter in "ai":
        return (letter, n if n == RANGE[letter][0] else -n)
    if op == "!" and letter == "b":
        return ("b", 1 - n)
    if op == "~" and letter in "aiu":
        return (letter, twos(letter, ~n))
    raise Fault(40)


def scalar_binary(stage, op, a, b):
    if a[0] == "a" and b[0] in "iu":
        a = scalar_convert(a, KIND[b[0]])
    elif b[0] == "a" and a[0] in "iu":
        b = scalar_convert(b, KIND[a[0]])
    if a is None or b is None or a[0] != b[0]:
        raise Fault(41)
    letter, m = a
    n = b[1]
    if op == "==":
        return ("b", int(m == n))
    if op == "!=":
        return ("b", int(m != n))
    if letter == "b":
        if op == "&":
            return ("b", int(m == 1 and n == 1))
        if op == "|":
            return ("b", int(m == 1 or n == 1))
        raise Fault(41)
    if op in ("<", "<=", ">", ">="):
        return ("b", int({"<": m < n, "<=": m <= n, ">": m > n, ">=": m >= n}[op]))
    if op in "&|^":
        # Python's integers have endless two's complement, which is the type's own inside its range.
        return (letter, {"&": m & n, "|": m | n, "^": m ^ n}[op])
    if op in "+-*":
        exact = {"+": m + n, "-": m - n, "*": m * n}[op]
        if letter == "a":
            if not fits("a", exact):
                raise Fault({"+": 43, "-": 44, "*": 45}[op])
            return ("a", exact)
        return (letter, twos(letter, exact))
    lenient = stage == "exec" and letter in "iu"
    if op == "/":
        if n == 0:
            if lenient:
                return a
            raise Fault(46)
        if m == RANGE[letter][0] and n == -1:
            if lenient:
                return a
            raise Fault(42)
        return (letter, toward_zero(m, n))
    if n == 0:
        if lenient:
            return (letter, 0)
        raise Fault(47)
    return (letter, m - n * toward_zero(m, n))


def scalar_same(a, b):
    return a == b


def scalar_up(v):
    return (v[0], twos(v[0], v[1] + 1)) if v[0] in "iu" else "wrong type"


def scalar_down(v):
    return (v[0], twos(v[0], v[1] - 1)) if v[0] in "iu" else "wrong type"


def scalar_truth(v):
    return v[1] == 1 if v[0] == "b" else None


def scalar_type(v):
    return KIND[v[0]]


# ---- tariff

TARIFF_KIND = {"f": 0, "c": 4, "g": 5, "p": 6}
TARIFF_LETTER = {n: c for c, n in TARIFF_KIND.items()}


def tariff_fits(letter, n):
    return 0 <= n <= (1 if letter == "f" else TOP32)


def tariff_literal(kind, *words):
    n = signed_words(words)
    if kind not in TARIFF_LETTER or not tariff_fits(TARIFF_LETTER[kind], n):
        raise Fault(55)
    return (TARIFF_LETTER[kind], n)


def tariff_convert(v, t):
    return v if TARIFF_KIND[v[0]] == t else None


def tariff_zero(t):
    return (TARIFF_LETTER[t], 0) if t in TARIFF_LETTER else None


def tariff_concretise(t):
    return t


def tariff_unary(stage, op, v):
    if op == "!" and v[0] == "f":
        return ("f", 1 - v[1])
    raise Fault(40)


def tariff_binary(stage, op, a, b):
    (s, m), (t, n) = a, b
    if s == "f" and t == "f":
        if op in ("&", "|", "==", "!="):
            return ("f", int({"&": m == n == 1, "|": 1 in (m, n), "==": m == n, "!=": m != n}[op]))
        raise Fault(41)
    if s == "f" or t == "f":
        raise Fault(41)
    if op in ("==", "!=", "<", "<=", ">", ">="):
        if s != t:
            raise Fault(41)
        return ("f", int({"==": m == n, "!=": m != n, "<": m < n, "<=": m <= n, ">": m > n, ">=": m >= n}[op]))
    if op == "*":
        if s == "c":
            of = t
        elif t == "c":
            of = s
        else:
            raise Fault(41)
        if m * n > TOP32:
            raise Fault(45)
        return (of, m * n)
    if op == "/":
        if t == "c":
            of = s
        elif s == t:
            of = "c"
        else:
            raise Fault(41)
        if n == 0:
            raise Fault(46)
        return (of, m // n)
    if s != t or op not in "+-%":
        raise Fault(41)
    if op == "+":
        if m + n > TOP32:
            raise Fault(43)
        return (s, m + n)
    if op == "-":
        if m < n:
            raise Fault(44)
        return (s, m - n)
    if n == 0:
        raise Fault(47)
    return (s, m % n)


def tariff_same(a, b):
    return a == b


def tariff_up(v):
    if v[0] != "c":
        return "wrong type"
    return "overflow" if v[1] == TOP32 else ("c", v[1] + 1)


def tariff_down(v):
    if v[0] != "c":
        return "wrong type"
    return "overflow" if v[1] == 0 else ("c", v[1] - 1)


def tariff_truth(v):
    return v[1] == 1 if v[0] == "f" else None


def tariff_type(v):
    return TARIFF_KIND[v[0]]


# ---- the table

RULES = {
    "scalar": {
        "binary": scalar_binary, "unary": scalar_unary, "same": scalar_same, "up": scalar_up, "down": scalar_down,
        "literal": scalar_literal, "convert": scalar_convert, "zero": scalar_zero, "concretise": scalar_concretise,
        "truth": scalar_truth, "type": scalar_type,
    },
    "tariff": {
        "binary": tariff_binary, "unary": tariff_unary, "same": tariff_same, "up": tariff_up, "down": tariff_down,
        "literal": tariff_literal, "convert": tariff_convert, "zero": tariff_zero, "concretise": tariff_concretise,
        "truth": tariff_truth, "type": tariff_type,
    },
}


def field(text, host):
    """The value that a field writes: a letter, and an integer in its shortest form, inside the type."""
    letters = RANGE if host == "scalar" else TARIFF_KIND
    letter, digits = text[:1], text[1:]
    if letter not in letters or letter == "":
        return None
    try:
        n = int(digits, 10)
    except ValueError:
        return None
    if str(n) != digits:
        return None
    inside = fits(letter, n) if host == "scalar" else tariff_fits(letter, n)
    return (letter, n) if inside else None


def expected(question):
    words = question.split(" ")
    host, call = words[0], words[1]
    f = RULES[host][call]
    if call in ("binary", "unary"):
        values = [field(w, host) for w in words[4:]]
        return "unreadable" if None in values else answer(f, words[2], words[3], *values)
    if call == "convert":
        v = field(words[2], host)
        return "unreadable" if v is None else answer(f, v, int(words[3]))
    if call in ("literal", "zero", "concretise"):
        return answer(f, *[int(w) for w in words[2:]])
    values = [field(w, host) for w in words[2:]]
    return "unreadable" if None in values else answer(f, *values)


A = ["a%d" % n for n in (LOW64, LOW64 + 1, LOW32 - 1, LOW32, -7, -1, 0, 1, 2, 7, HIGH32, HIGH32 + 1, TOP32, TOP32 + 1, HIGH64 - 1, HIGH64)]
I = ["i%d" % n for n in (LOW32, LOW32 + 1, -7, -1, 0, 1, 2, 7, HIGH32 - 1, HIGH32)]
U = ["u%d" % n for n in (0, 1, 2, 7, HIGH32, HIGH32 + 1, TOP32 - 1, TOP32)]
B = ["b0", "b1"]
AMOUNTS = [c + str(n) for c in "cgp" for n in (0, 1, 2, 7, 65536, TOP32 - 1, TOP32)]
F = ["f0", "f1"]

# Pairs of scalars: the edges of each type, and one type beside another.
PAIRS = [
    (LOW64, -1), (LOW64, 1), (LOW64, LOW64), (LOW64, 0), (HIGH64, 1), (HIGH64, -1), (HIGH64, HIGH64), (HIGH64, 2), (-7, 2), (7, -2), (0, 0), (1, 0), (0, LOW64),
]
PAIRS32 = [(LOW32, -1), (LOW32, 1), (LOW32, LOW32), (LOW32, 0), (HIGH32, 1), (HIGH32, -1), (HIGH32, HIGH32), (-7, 2), (7, -2), (-7, -2), (1, 0), (0, 0)]
PAIRSU = [(TOP32, 1), (TOP32, TOP32), (0, 1), (1, 0), (0, 0), (7, 2), (HIGH32 + 1, 2), (2**16, 2**16), (TOP32, HIGH32)]
MIXED = [
    ("a1", "i2"), ("i2", "a1"), ("a%d" % HIGH32, "i1"), ("a%d" % (HIGH32 + 1), "i1"), ("i1", "a%d" % (HIGH32 + 1)), ("a%d" % LOW32, "i-1"), ("a%d" % (LOW32 - 1), "i0"),
    ("a-1", "u1"), ("u1", "a-1"), ("a%d" % TOP32, "u1"), ("a%d" % (TOP32 + 1), "u1"), ("i1", "u1"), ("u1", "i1"), ("b1", "i1"), ("a1", "b1"), ("b0", "a0"), ("u0", "b0"),
]
TARIFF_PAIRS = [
    ("f1", "f0"), ("f1", "f1"), ("f0", "f0"), ("f1", "c1"), ("p1", "f1"), ("c2", "c3"), ("c3", "c2"), ("c%d" % TOP32, "c1"), ("c0", "c1"), ("c7", "c0"),
    ("g500", "g3"), ("g0", "g0"), ("g%d" % TOP32, "g%d" % TOP32), ("p150", "p50"), ("p50", "p150"), ("p1", "p0"), ("c3", "g5"), ("g5", "c3"), ("c3", "p150"), ("p150", "c4"),
    ("p%d" % TOP32, "c2"), ("c65536", "g65536"), ("c65535", "g65537"), ("g5", "p5"), ("p5", "g5"), ("p7", "c0"), ("c2", "g0"), ("c2", "p1"), ("p%d" % TOP32, "p1"), ("g0", "c%d" % TOP32),
]


def questions():
    for op in BINARY:
        pairs = [("a%d" % m, "a%d" % n) for m, n in PAIRS] + [("i%d" % m, "i%d" % n) for m, n in PAIRS32]
        pairs += [("u%d" % m, "u%d" % n) for m, n in PAIRSU] + MIXED + [(x, y) for x in B for y in B]
        for k, (x, y) in enumerate(pairs):
            stages = STAGES if op in "/%" else [STAGES[k % 3]]
            for stage in stages:
                yield "scalar binary %s %s %s %s" % (stage, op, x, y)
    for op in UNARY:
        for k, v in enumerate(A + I + U + B):
            yield "scalar unary %s %s %s" % (STAGES[k % 3], op, v)
    for stage in STAGES:
        yield "scalar unary %s - i%d" % (stage, LOW32)
        yield "scalar unary %s - a%d" % (stage, LOW64)
    for x, y in [("i1", "i1"), ("i1", "u1"), ("i1", "a1"), ("a1", "a1"), ("b1", "b1"), ("b1", "b0"), ("b1", "i1"), ("u0", "u0"), ("i-1", "i1"), ("u%d" % TOP32, "u%d" % TOP32), ("a%d" % LOW64, "a%d" % LOW64), ("i%d" % LOW32, "i%d" % HIGH32)]:
        yield "scalar same %s %s" % (x, y)
    for v in I + U + ["a1", "a%d" % HIGH64, "b1"]:
        yield "scalar up %s" % v
        yield "scalar down %s" % v
    for v in A + ["i-1", "i%d" % LOW32, "u7", "u%d" % TOP32, "b1", "b0"]:
        for t in (0, 1, 2, 3, 4):
            yield "scalar convert %s %d" % (v, t)
    for t in (0, 1, 2, 3, 4, 5, 65535):
        yield "scalar zero %d" % t
        yield "scalar concretise %d" % t
    for v in ["b0", "b1", "a0", "i1", "u1"]:
        yield "scalar truth %s" % v
        yield "scalar type %s" % v
    for kind in (0, 1, 2, 3, 4, 65535):
        for n in (0, 1, 2, -1, HIGH32, HIGH32 + 1, LOW32, LOW32 - 1, TOP32, TOP32 + 1, LOW64, HIGH64):
            words = (n % 2**64).to_bytes(8, "little")
            yield "scalar literal %d %s" % (kind, " ".join(str(int.from_bytes(words[i : i + 2], "little")) for i in (0, 2, 4, 6)))
    for text in ["i007", "i-0", "i+7", "i", "x7", "i7.", "i 7"[:1] + "7a", "b2", "b-1", "u-1", "u4294967296", "i2147483648", "i-2147483649", "a9223372036854775808", "a-9223372036854775809", "a18446744073709551617", "a100000000000000000000", "a-9223372036854775808", "I7", "i--7", "-7", "7"]:
        yield "scalar type %s" % text
    for k, op in enumerate(BINARY):
        for j, (x, y) in enumerate(TARIFF_PAIRS):
            yield "tariff binary %s %s %s %s" % (STAGES[(j + k) % 3], op, x, y)
    for stage in STAGES:
        yield "tariff binary %s / p7 p0" % stage
        yield "tariff binary %s %% g7 g0" % stage
        yield "tariff binary %s + c%d c1" % (stage, TOP32)
        yield "tariff binary %s - p0 p1" % stage
    for op in UNARY:
        for k, v in enumerate(F + ["c0", "c1", "g1", "p%d" % TOP32]):
            yield "tariff unary %s %s %s" % (STAGES[k % 3], op, v)
    for v in AMOUNTS + F:
        yield "tariff up %s" % v
        yield "tariff down %s" % v
    for x, y in [("f1", "f1"), ("f0", "f1"), ("c1", "c1"), ("c1", "c2"), ("c1", "g1"), ("g7", "p7"), ("p%d" % TOP32, "p%d" % TOP32), ("f1", "c1")]:
        yield "tariff same %s %s" % (x, y)
    for v in ["f1", "c2", "g500", "p150"]:
        for t in (0, 1, 4, 5, 6, 7):
            yield "tariff convert %s %d" % (v, t)
    for t in (0, 1, 2, 3, 4, 5, 6, 7, 77):
        yield "tariff zero %d" % t
        yield "tariff concretise %d" % t
    for v in ["f0", "f1", "c0", "c1", "g1", "p1"]:
        yield "tariff truth %s" % v
        yield "tariff type %s" % v
    for kind in (0, 1, 3, 4, 5, 6, 7):
        for n in (0, 1, 2, -1, TOP32, TOP32 + 1, LOW64):
            words = (n % 2**64).to_bytes(8, "little")
            yield "tariff literal %d %s" % (kind, " ".join(str(int.from_bytes(words[i : i + 2], "little")) for i in (0, 2, 4, 6)))
    for text in ["c007", "c-0", "c-1", "f2", "g4294967296", "p", "p+5", "i7", "p1.5", "p150", "g18446744073709551616"]:
        yield "tariff type %s" % text


# Answers that were worked out by hand from the rules.
with open(os.path.join(ROOT, "tools", "host_cases_by_hand.txt")) as f:
    BY_HAND = f.read().splitlines()


def main():
    for line in BY_HAND:
        question, by_hand = line.split(" = ")
        if expected(question) != by_hand:
            sys.exit("by hand: %s, by the rules: %s" % (line, expected(question)))
    seen, lines = set(), []
    for line in BY_HAND:
        seen.add(line.split(" = ")[0])
        lines.append(line)
    for question in questions():
        if question not in seen:
            seen.add(question)
            lines.append("%s = %s" % (question, expected(question)))
    folder = os.path.join(ROOT, "crates", "host_cases")
    text = "".join(line + "\n" for line in lines)
    with open(os.path.join(folder, "stdin"), "w") as f:
        f.write(text)
    with open(os.path.join(folder, "stdout"), "w") as f:
        f.write(text + "%d cases, 0 differ\n" % len(lines))
    print("%d cases, %d of them by hand" % (len(lines), len(BY_HAND)))


main()
