"""Reads the text of a rule into a tree of entries; `mkbook.py --help` has the notation."""

from __future__ import annotations

import re
from dataclasses import dataclass
from typing import Callable, NoReturn, Optional, Union

Field = Union[int, None, "Entry", "Use"]
Part = Union["Entry", "Use"]

BINARY = ["+", "-", "*", "/", "%", "&", "|", "^", "==", "!=", "<", "<=", ">", ">=", "&&", "||"]
UNARY = ["-", "!", "~"]
ASSIGNMENT = ["=", "+=", "-=", "*=", "/=", "%=", "&=", "|=", "^="]
DECLARATION = ["const", "let", "var"]
FLAGS = {"@const": 1, "@must_use": 2}
TYPES = {"bool": 0, "abstract": 1, "i32": 2, "u32": 3, "flag": 0, "count": 4, "gram": 5, "cent": 6}
SUFFIXES = {"": 1, "i": 2, "u": 3, "ct": 4, "g": 5, "p": 6}
TRUTHS = {"true": 1, "yes": 1, "false": 0, "no": 0}
RESERVED = set(DECLARATION) | set(TRUTHS) | set(
    "names fn if else switch case default loop continuing for while break continue"
    " return discard const_assert lit".split())

ABSENT = 65535
GREATEST_NAME = 65534
MOST_PARTS = 64
MOST_ARGUMENTS = 16
LONGEST_PIECE = 100

TOKEN = re.compile(r"""
    (?P<blank>[ \t\r\n]+|//[^\n]*)
  | (?P<number>\d\w*)
  | (?P<word>[A-Za-z_]\w*)
  | (?P<label>'[A-Za-z_]\w*)
  | (?P<attribute>@\w+)
  | (?P<sign>\+\+|--|->|&&|\|\||[-+*/%&|^=!<>]=|[-+*/%&|^=!<>~(){}\[\]:;,])
""", re.VERBOSE | re.ASCII)


class RuleError(Exception):
    """What is wrong with a text, and where."""

    def __init__(self, message: str, line: int, column: int) -> None:
        super().__init__(message)
        self.line, self.column = line, column


@dataclass(frozen=True)
class Token:
    """A piece of the text; its kind is a group of TOKEN, or `end`."""
    kind: str
    text: str
    line: int
    column: int


@dataclass(frozen=True)
class Kind:
    """The tags that a child field takes, and words for them."""
    tags: frozenset[int]
    text: str


STATEMENT = Kind(frozenset(range(1, 18)), "a statement")
CHILD_OF_UNIT = Kind(STATEMENT.tags | {48}, "a function or a statement")
BODY = Kind(frozenset({2}), "a body in braces")
INITIALIZER = Kind(frozenset({3, 4, 5, 15, 17}), "a declaration, assignment, increment, decrement or call")
UPDATE = Kind(frozenset({3, 4, 5, 15}), "an assignment, increment, decrement or call")
CONTINUING = Kind(frozenset({18}), "a continuing")
EXPRESSION = Kind(frozenset(range(32, 38)), "an expression")
CALL = Kind(frozenset({37}), "a call")


@dataclass(eq=False)
class Entry:
    """An entry: its tag, its fields in the order of the body, and where it starts."""
    tag: int
    fields: list[Field]
    token: Token


@dataclass(frozen=True)
class Use:
    """A label that stands for an entry written elsewhere."""
    token: Token
    kind: Kind


def tokens_of(text: str) -> list[Token]:
    """The tokens of a text, blanks and comments left out, `end` last."""
    tokens, at, line, start = [], 0, 1, 0
    while at < len(text):
        match = TOKEN.match(text, at)
        if match is None:
            raise RuleError(f"unexpected character {text[at]!r}", line, at - start + 1)
        kind, piece = str(match.lastgroup), match.group()
        if kind != "blank":
            if len(piece) > LONGEST_PIECE:
                raise RuleError(f"a word or number of {len(piece)} characters", line, at - start + 1)
            tokens.append(Token(kind, piece, line, at - start + 1))
        if "\n" in piece:
            line += piece.count("\n")
            start = at + piece.rindex("\n") + 1
        at = match.end()
    return tokens + [Token("end", "", line, at - start + 1)]


class Parser:
    """A recursive descent parser from a text to the unit's entry."""

    def __init__(self, text: str) -> None:
        self.tokens = tokens_of(text)
        self.at = 0
        self.names: dict[str, int] = {}
        self.labels: dict[str, Entry] = {}
        self.entries: list[Entry] = []
        self.statements: dict[str, Callable[[], Entry]] = {
            "{": self.compound, ";": self.empty, "if": self.if_statement, "switch": self.switch,
            "loop": self.loop, "for": self.for_statement, "while": self.while_statement,
            "break": lambda: self.plain(11), "continue": lambda: self.plain(12),
            "return": self.return_statement, "discard": lambda: self.plain(14),
            "const_assert": self.const_assert,
        }

    # Tokens

    @property
    def token(self) -> Token:
        """The token to be taken next."""
        return self.tokens[self.at]

    def fail(self, message: str, token: Optional[Token] = None) -> NoReturn:
        token = token or self.token
        raise RuleError(message, token.line, token.column)

    def sees(self, *texts: str) -> bool:
        """Whether the next tokens read so."""
        return [t.text for t in self.tokens[self.at:self.at + len(texts)]] == list(texts)

    def sees_label(self, after: str) -> bool:
        """Whether a label comes next, and `after` behind it."""
        return self.token.kind == "label" and self.tokens[self.at + 1].text == after

    def take(self) -> Token:
        token = self.token
        if token.kind == "end":
            self.fail("unexpected end of the rule")
        self.at += 1
        return token

    def accept(self, text: str) -> bool:
        if self.sees(text):
            self.at += 1
            return True
        return False

    def expect(self, text: str) -> Token:
        if not self.sees(text):
            self.expected(f"'{text}'")
        return self.take()

    def expected(self, what: str) -> NoReturn:
        found = f"'{self.token.text}'" if self.token.kind != "end" else "the end of the rule"
        self.fail(f"expected {what}, found {found}")

    # Numbers, names and types

    def number(self, least: int, greatest: int) -> int:
        """A plain number within limits."""
        token = self.token
        negative = self.accept("-")
        if not (self.token.kind == "number" and self.token.text.isdigit()):
            self.expected("a number")
        value = int(self.take().text)
        return self.within(-value if negative else value, least, greatest, token)

    def within(self, value: int, least: int, greatest: int, token: Token) -> int:
        if not least <= value <= greatest:
            self.fail(f"{value} is outside {least} to {greatest}", token)
        return value

    def name(self) -> int:
        """The number of a name."""
        token = self.token
        if token.kind != "word" or token.text in RESERVED:
            self.expected("a name")
        self.take()
        if re.fullmatch(r"n\d+", token.text):
            return self.within(int(token.text[1:]), 0, GREATEST_NAME, token)
        if token.text not in self.names:
            self.fail(f"'{token.text}' has no number: give it one in names {{ }}", token)
        return self.names[token.text]

    def type(self) -> int:
        """The number of a type."""
        token = self.token
        if token.text in TYPES:
            self.take()
            return TYPES[token.text]
        if not re.fullmatch(r"t\d+", token.text):
            self.expected("a type")
        self.take()
        return self.within(int(token.text[1:]), 0, GREATEST_NAME, token)

    def numbered_names(self) -> None:
        """names { identifier = number, … }"""
        self.expect("{")
        while not self.accept("}"):
            token = self.token
            if token.kind != "word" or token.text in RESERVED or re.fullmatch(r"n\d+", token.text):
                self.expected("an identifier that is no keyword and not of the form n5")
            self.take()
            self.expect("=")
            number = self.number(0, GREATEST_NAME)
            if token.text in self.names:
                self.fail(f"'{token.text}' has a number already", token)
            if number in self.names.values():
                self.fail(f"number {number} has an identifier already", token)
            self.names[token.text] = number
            if not self.sees("}"):
                self.expect(",")

    # Entries

    def entry(self, tag: int, token: Token, *fields: Field) -> Entry:
        entry = Entry(tag, list(fields), token)
        self.entries.append(entry)
        return entry

    def counted(self, parts: list, most: int, what: str, token: Token) -> int:
        """The count of a list, if a book can hold it."""
        if len(parts) > most:
            self.fail(f"{len(parts)} {what}, but a book takes at most {most} here", token)
        return len(parts)

    def labelled(self, parse: Callable[[], Part]) -> Part:
        """'label: and the entry that it labels."""
        label = self.take()
        self.expect(":")
        part = parse()
        if isinstance(part, Use):
            self.fail(f"{label.text} must label an entry, not another label", label)
        if label.text in self.labels:
            self.fail(f"label {label.text} stands for another entry already", label)
        self.labels[label.text] = part
        return part

    def unit(self) -> Entry:
        """The whole rule, labels resolved."""
        token = self.token
        if self.accept("names"):
            self.numbered_names()
        children = []
        while self.token.kind != "end":
            children.append(self.child_of_unit())
        unit = self.entry(0, token, self.counted(children, MOST_PARTS, "children of the unit", token), *children)
        for entry in self.entries:
            entry.fields = [self.resolved(f) if isinstance(f, Use) else f for f in entry.fields]
        return unit

    def resolved(self, use: Use) -> Entry:
        entry = self.labels.get(use.token.text)
        if entry is None:
            self.fail(f"label {use.token.text} labels nothing", use.token)
        if entry.tag not in use.kind.tags:
            self.fail(f"{use.token.text} is not {use.kind.text}, which is needed here", use.token)
        return entry

    def child_of_unit(self) -> Part:
        if self.sees_label(":"):
            return self.labelled(self.child_of_unit)
        if self.token.kind == "attribute" or self.sees("fn"):
            return self.function()
        return self.statement(CHILD_OF_UNIT)

    def function(self) -> Entry:
        token, flags = self.token, 0
        while self.token.kind == "attribute":
            attribute = self.take()
            flag = FLAGS.get(attribute.text, 0)
            if flag == 0 or flags & flag:
                self.fail(f"{attribute.text} is unknown or stands twice", attribute)
            flags |= flag
        self.expect("fn")
        name = self.name()
        parameters = self.listed(self.parameter)
        type_ = self.type() if self.accept("->") else ABSENT
        count = self.counted(parameters, MOST_ARGUMENTS, "parameters", token)
        return self.entry(48, token, name, flags, type_, self.body(), count,
                          *[word for pair in parameters for word in pair])

    def parameter(self) -> tuple[int, int]:
        name = self.name()
        self.expect(":")
        return name, self.type()

    def listed(self, parse: Callable) -> list:
        """( item, item, … )"""
        items = []
        self.expect("(")
        while not self.accept(")"):
            items.append(parse())
            if not self.sees(")"):
                self.expect(",")
        return items

    # Statements

    def statement(self, kind: Kind = STATEMENT) -> Part:
        if self.sees_label(":"):
            return self.labelled(self.statement)
        if self.sees_label(";"):
            use = Use(self.take(), kind)
            self.take()
            return use
        parse = self.statements.get(self.token.text)
        if parse is not None:
            return parse()
        statement = self.simple_statement()
        self.expect(";")
        return statement

    def simple_statement(self) -> Entry:
        """A declaration, assignment, increment, decrement or call, without its semicolon."""
        token = self.token
        if token.text in DECLARATION:
            return self.declaration()
        if not self.sees_operand():
            self.expected("a statement")
        left = self.operand()
        if self.token.text in ASSIGNMENT:
            operator = ASSIGNMENT.index(self.take().text)
            return self.entry(3, token, operator, left, self.expression())
        if self.accept("++"):
            return self.entry(4, token, left)
        if self.accept("--"):
            return self.entry(5, token, left)
        if isinstance(left, Use):
            return self.entry(15, token, Use(left.token, CALL))
        if left.tag != 37:
            self.expected("an assignment, '++' or '--'")
        return self.entry(15, token, left)

    def declaration(self) -> Entry:
        token = self.take()
        name = self.name()
        type_ = self.type() if self.accept(":") else ABSENT
        initializer = self.expression() if self.accept("=") else None
        return self.entry(17, token, DECLARATION.index(token.text), name, type_, initializer)

    def plain(self, tag: int) -> Entry:
        """A statement of one word: break, continue or discard."""
        token = self.take()
        self.expect(";")
        return self.entry(tag, token)

    def empty(self) -> Entry:
        return self.entry(1, self.take())

    def compound(self, last: Optional[Callable[[], bool]] = None) -> Entry:
        """Statements in braces; `last` takes what may stand last in them, if it is there."""
        token, statements = self.expect("{"), []
        while not self.accept("}"):
            if last is not None and last():
                self.expect("}")
                break
            statements.append(self.statement())
        return self.entry(2, token, self.counted(statements, MOST_PARTS, "statements", token), *statements)

    def body(self, last: Optional[Callable[[], bool]] = None) -> Part:
        if self.sees_label(":"):
            return self.labelled(lambda: self.body(last))
        if self.token.kind == "label":
            use = Use(self.take(), BODY)
            if last is not None:
                last()
            return use
        return self.compound(last)

    def if_statement(self) -> Entry:
        token, clauses, otherwise = self.expect("if"), [], None
        clauses += [self.expression(), self.body()]
        while self.accept("else"):
            if not self.accept("if"):
                otherwise = self.body()
                break
            clauses += [self.expression(), self.body()]
        count = self.counted(clauses[::2], MOST_PARTS, "conditions", token)
        return self.entry(6, token, count, *clauses, otherwise)

    def switch(self) -> Entry:
        token = self.expect("switch")
        expression, clauses = self.expression(), []
        self.expect("{")
        while not self.accept("}"):
            selectors: list[Optional[Part]] = []
            if self.accept("default"):
                selectors.append(None)
            else:
                self.expect("case")
                selectors.append(self.selector())
                while self.accept(","):
                    selectors.append(self.selector())
            self.accept(":")
            body = self.body()
            for selector in selectors:
                clauses += [selector, body]
        count = self.counted(clauses[::2], MOST_PARTS, "selectors", token)
        return self.entry(7, token, expression, count, *clauses)

    def selector(self) -> Optional[Part]:
        return None if self.accept("default") else self.expression()

    def loop(self) -> Entry:
        """A loop; its continuing stands last in its braces."""
        token, continuing = self.expect("loop"), None

        def last() -> bool:
            nonlocal continuing
            if self.sees("continuing") or self.sees_label(":") and self.tokens[self.at + 2].text == "continuing":
                continuing = self.continuing()
            return continuing is not None

        body = self.body(last)
        return self.entry(8, token, body, continuing)

    def continuing(self) -> Part:
        """A continuing; its break-if stands last in its braces."""
        if self.sees_label(":"):
            return self.labelled(self.continuing)
        token, condition = self.expect("continuing"), None
        if self.sees_label(";"):
            use = Use(self.take(), CONTINUING)
            self.take()
            return use

        def last() -> bool:
            nonlocal condition
            if self.sees("break", "if"):
                self.at += 2
                condition = self.expression()
                self.expect(";")
            return condition is not None

        body = self.body(last)
        return self.entry(18, token, body, condition)

    def for_statement(self) -> Entry:
        token = self.expect("for")
        self.expect("(")
        initializer = self.part_of_for(INITIALIZER, ";")
        condition = None if self.sees(";") else self.expression()
        self.expect(";")
        update = self.part_of_for(UPDATE, ")")
        return self.entry(9, token, initializer, condition, update, self.body())

    def part_of_for(self, kind: Kind, end: str) -> Optional[Part]:
        """The initializer or the update of a `for`, and the sign that ends it."""
        token, part = self.token, None
        if self.sees_label(end):
            part = Use(self.take(), kind)
        elif self.sees_label(":"):
            part = self.labelled(self.simple_statement)
        elif not self.sees(end):
            part = self.simple_statement()
        if isinstance(part, Entry) and part.tag not in kind.tags:
            self.fail(f"expected {kind.text}", token)
        self.expect(end)
        return part

    def while_statement(self) -> Entry:
        token = self.expect("while")
        return self.entry(10, token, self.expression(), self.body())

    def return_statement(self) -> Entry:
        token = self.expect("return")
        expression = None if self.sees(";") else self.expression()
        self.expect(";")
        return self.entry(13, token, expression)

    def const_assert(self) -> Entry:
        token, expression = self.expect("const_assert"), self.expression()
        self.expect(";")
        return self.entry(16, token, expression)

    # Expressions, as WGSL's grammar groups them

    def expression(self) -> Part:
        left = self.operand()
        if self.token.text in ("&", "|", "^"):
            left = self.chain([self.token.text], self.operand, left)
        else:
            left = self.relational(left)
            if self.token.text in ("&&", "||"):
                left = self.chain([self.token.text], self.relational, left)
        if self.token.text in BINARY:
            self.fail(f"'{self.token.text}' does not mix with the operator before it: add parentheses")
        return left

    def chain(self, operators: list[str], parse: Callable[[], Part], left: Part) -> Part:
        """Operators of one rank, grouped from the left."""
        while self.token.text in operators:
            token = self.take()
            left = self.entry(35, token, BINARY.index(token.text), left, parse())
        return left

    def relational(self, left: Optional[Part] = None) -> Part:
        left = self.additive(left)
        if self.token.text in ("==", "!=", "<", "<=", ">", ">="):
            token = self.take()
            left = self.entry(35, token, BINARY.index(token.text), left, self.additive())
        return left

    def additive(self, left: Optional[Part] = None) -> Part:
        return self.chain(["+", "-"], self.multiplicative, self.multiplicative(left))

    def multiplicative(self, left: Optional[Part] = None) -> Part:
        return self.chain(["*", "/", "%"], self.operand, left or self.operand())

    def sees_operand(self) -> bool:
        """Whether an operand can start with the next token."""
        token = self.token
        if token.kind == "word":
            return token.text not in RESERVED or token.text in TRUTHS or token.text == "lit"
        return token.kind in ("number", "label") or token.text in UNARY + ["(", "["]

    def operand(self) -> Part:
        token = self.token
        if not self.sees_operand():
            self.expected("an expression")
        if self.sees_label(":"):
            return self.labelled(self.operand)
        if token.kind == "label":
            return Use(self.take(), EXPRESSION)
        if token.text in UNARY:
            self.take()
            return self.entry(34, token, UNARY.index(token.text), self.operand())
        if self.accept("("):
            expression = self.expression()
            self.expect(")")
            return self.entry(33, token, expression)
        if self.accept("["):
            grouped = self.expression()
            self.expect("]")
            return grouped
        if token.kind == "number" or token.text in TRUTHS or token.text == "lit":
            return self.literal()
        name = self.name()
        if not self.sees("("):
            return self.entry(36, token, name)
        arguments = self.listed(self.expression)
        return self.entry(37, token, name, self.counted(arguments, MOST_ARGUMENTS, "arguments", token), *arguments)

    def literal(self) -> Entry:
        token = self.take()
        if token.text == "lit":
            self.expect("(")
            kind = self.number(0, 65535)
            self.expect(",")
            value = self.number(-2**63, 2**63 - 1)
            self.expect(")")
        elif token.text in TRUTHS:
            kind, value = 0, TRUTHS[token.text]
        else:
            digits = re.match(r"\d+", token.text).group()
            suffix = token.text[len(digits):]
            if suffix not in SUFFIXES:
                self.fail(f"'{token.text}' is no number: a suffix is i, u, ct, g or p", token)
            kind, value = SUFFIXES[suffix], self.within(int(digits), 0, 2**63 - 1, token)
        return self.entry(32, token, kind, *[value >> shift & 65535 for shift in (0, 16, 32, 48)])
