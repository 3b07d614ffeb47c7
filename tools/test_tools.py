#!/usr/bin/env python3
"""Tests of the book maker and the two references: python3 tools/test_tools.py"""

from __future__ import annotations

import glob
import os
import sys
import unittest

sys.dont_write_bytecode = True

import damage
import mkbook
import refcheck
import refshow
from rule_text import RuleError

ROOT = os.path.join(os.path.dirname(os.path.abspath(__file__)), "..")
BOOKS = os.path.join(ROOT, "crates", "rulebook", "data")
RULES = os.path.join(ROOT, "samples")


def words_of(rule: str) -> list[int]:
    return mkbook.book_of(mkbook.make(rule))


def show(rule: str) -> list[str]:
    return refshow.lines(words_of(rule))


def book(*bodies: list[int]) -> list[int]:
    return mkbook.book_of(list(bodies))


def largest() -> list[int]:
    """A book of 4,096 entries and 65,535 words."""
    last = 4095
    compounds = [[2, 13] + [last] * 13 for _ in range(4094)]
    compounds[-1] = [2, 38] + [last] * 38
    return book([0, 0], *compounds, [1])


class Maker(unittest.TestCase):
    def refused(self, rule: str, line: int, column: int) -> None:
        with self.assertRaises(RuleError) as caught:
            words_of(rule)
        self.assertEqual((caught.exception.line, caught.exception.column), (line, column), caught.exception)

    def test_words(self) -> None:
        self.assertEqual(words_of("return 1i + 2i;"),
                         [5, 6, 9, 11, 15, 21, 0, 1, 1, 13, 2, 35, 0, 3, 4, 32, 2, 1, 0, 0, 0, 32, 2, 2, 0, 0, 0])
        self.assertEqual(words_of(""), [1, 2, 0, 0])

    def test_text_of_words_reads_back(self) -> None:
        bodies = mkbook.make("return n1 - lit(9, -2);")
        for form in ("d", "#06x"):
            self.assertEqual(mkbook.words_of_text(mkbook.listing(bodies, form)), mkbook.book_of(bodies))

    def test_precedence(self) -> None:
        self.assertEqual(words_of("return n1 - n2 - n3 * n4 < n5 && !n6 && n7;"),
                         words_of("return [[[[n1 - n2] - [n3 * n4]] < n5] && [!n6]] && n7;"))
        self.assertEqual(words_of("return -n1 & ~n2 & n3;"), words_of("return [[-n1] & [~n2]] & n3;"))
        for operators in ("&& ||", "& |", "^ +", "+ &", "== !=", "& =="):
            one, two = operators.split()
            with self.assertRaises(RuleError, msg=operators):
                words_of(f"return n1 {one} n2 {two} n3;")

    def test_shared_entries_follow_all_parents(self) -> None:
        self.assertEqual(show("{ 'a: n1++; { 'a; } }"), [
            "0 unit children=[1]", "1 compound statements=[3 2]", "2 compound statements=[3]",
            "3 increment operand=4", "4 name name=1"])
        self.assertEqual(show("switch n1 { case 1, default {} }")[1], "1 switch expression=2 clauses=[3:4 default:4]")
        self.refused("{ 'a: { ; { 'a; } } }", 1, 7)

    def test_messages_have_line_and_column(self) -> None:
        self.refused("return\n  x;", 2, 3)
        self.refused("names { x = 1,\n y = 1 }", 2, 2)
        self.refused("return 1 +\n;", 2, 1)
        self.refused("n1(" + ",".join("1" * 17) + ");", 1, 1)
        self.refused("'a;", 1, 1)
        self.refused("'a: ; return 'a;", 1, 14)
        self.refused("return 9223372036854775808;", 1, 8)
        self.refused("{" + ";" * 65 + "}", 1, 1)


class Check(unittest.TestCase):
    def answers(self, words: list[int], answer: str) -> None:
        self.assertEqual(refcheck.verdict(words), answer)

    def test_length(self) -> None:
        for words in ([], [0], [0, 0], [1], [4097] + [0] * 5000, largest() + [0]):
            self.answers(words, "refused;1;BadLength;0")
        self.answers(largest(), "accepted;4096;65535")
        self.answers([1, 2], "refused;2;BadPlace;0")

    def test_place_then_field(self) -> None:
        self.answers([1, 3, 0, 0], "refused;2;BadPlace;0")
        self.answers([1, 2, 0, 65], "refused;2;BadPlace;0")
        self.answers([1, 2, 0, 65] + [0] * 65, "refused;3;BadField;0")
        self.answers([2, 3, 5, 0, 0, 19], "refused;3;BadField;1")
        self.answers([2, 3, 5, 0, 0, 0], "refused;2;BadPlace;1")
        self.answers([2, 3, 5, 0, 0, 0, 0], "refused;3;BadField;1")
        self.answers([1, 2, 1], "refused;3;BadField;0")
        self.answers([2, 3, 6, 0, 1, 9, 1, 1], "refused;2;BadPlace;1")

    def test_fields(self) -> None:
        for good, bad in [([36, 65534], [36, 65535]), ([35, 15, 2, 2], [35, 16, 2, 2]), ([34, 2, 2], [34, 3, 2]),
                          ([3, 8, 2, 2], [3, 9, 2, 2]), ([17, 2, 0, 65535, 0], [17, 3, 0, 65535, 0]),
                          ([48, 1, 3, 2, 3, 0], [48, 1, 4, 2, 3, 0]), ([48, 1, 3, 2, 3, 1, 0, 65534], [48, 1, 3, 2, 3, 1, 0, 65535]),
                          ([6, 1, 2, 3, 0], [6, 0, 0]), ([37, 1, 16] + [2] * 16, [37, 1, 17] + [2] * 17)]:
            self.answers(book([0, 0], good, [36, 1], [2, 0]), f"accepted;4;{11 + len(good)}")
            self.answers(book([0, 0], bad, [36, 1], [2, 0]), "refused;3;BadField;1")
        self.answers(book([0, 0], [32, 65535, 65535, 65535, 65535, 65535], [1]), "accepted;3;13")

    def test_children(self) -> None:
        for child in (0, 1, 3, 65535):
            self.answers(book([0, 0], [33, child], [36, 1]), "refused;4;WrongChild;1")
        self.answers(book([0, 0], [33, 2], [36, 1]), "accepted;3;10")
        self.answers(book([0, 2, 1, 1], [1]), "accepted;2;8")
        self.answers(book([0, 1, 1], [18, 2, 0], [2, 0]), "refused;4;WrongChild;0")
        self.answers(book([0, 1, 1], [9, 0, 0, 2, 3], [17, 0, 0, 0, 0], [2, 0]), "refused;4;WrongChild;1")


class Samples(unittest.TestCase):
    def test_stored_samples(self) -> None:
        for path in sorted(glob.glob(os.path.join(RULES, "*.rule"))):
            name = os.path.splitext(os.path.basename(path))[0]
            with open(path) as file:
                self.assertEqual(words_of(file.read()), refcheck.read_words(os.path.join(BOOKS, name + ".book")), name)

    def test_shapes_has_every_tag(self) -> None:
        words = refcheck.read_words(os.path.join(BOOKS, "shapes.book"))
        self.assertEqual({words[place] for place in words[1:1 + words[0]]}, set(refcheck.SHAPES))

    def test_damaged_copies_have_one_answer(self) -> None:
        words = refcheck.read_words(os.path.join(BOOKS, "freight.book"))
        for name, copy in damage.damaged(words):
            answer = refcheck.verdict(copy)
            self.assertTrue(answer.startswith("refused;") or name.startswith("change-"), (name, answer))


if __name__ == "__main__":
    unittest.main()
