"""The reader of expressions and arguments. NOT and signs may stand before any operand, as a controller takes them."""
from typing import Callable, List, Tuple, Union

from .model import NotRead
from .tokens import CALLED, HOLE, NAME, NUMBER, TEXT, Tokens
from .tree import (
    Aggregate,
    Argument,
    Binary,
    Call,
    Component,
    Expression,
    Group,
    Index,
    Name,
    Number,
    Placeholder,
    Text,
    Truth,
    Unary,
)

RELATIONS = frozenset(["=", "<>", "<", ">", "<=", ">="])
FACTORS = frozenset(["*", "/", "DIV", "MOD"])
SIGNS = frozenset(["+", "-"])
ALTERNATIVES = frozenset(["OR", "XOR"])
CONJUNCTION = frozenset(["AND"])
# How deep forms may stand in one another. RAPID has no such limit, and no program comes near it.
DEEPEST = 100


class Expressions:
    """A reader at a token; `at` is the token's number. Each `parse_..` reads a form from there on, or raises NotRead."""

    def __init__(self, tokens: Tokens) -> None:
        self.tokens = tokens
        self.kinds = tokens.kinds
        self.texts = tokens.texts
        self.starts = tokens.starts
        self.at = 0
        self.depth = 0

    # Tokens

    def start(self) -> int:
        return self.starts[self.at]

    def end(self) -> int:
        """Where the token before this one ends."""
        return self.starts[self.at - 1] + len(self.texts[self.at - 1])

    def next_is(self, kind: str) -> bool:
        """Takes the next token if it is of a kind."""
        if self.kinds[self.at] != kind:
            return False
        self.at += 1
        return True

    def expect(self, kind: str) -> int:
        """Takes the next token, which has to be of a kind, and gives its place."""
        if self.kinds[self.at] != kind:
            raise self.refused(CALLED.get(kind, f"`{kind}`"))
        self.at += 1
        return self.starts[self.at - 1]

    def name(self) -> str:
        self.expect(NAME)
        return self.texts[self.at - 1]

    def word(self) -> str:
        """A name, or a reserved word in its place, as after a backslash or a point."""
        if not self.texts[self.at][:1].isalpha():
            raise self.refused("a name")
        self.at += 1
        return self.texts[self.at - 1]

    def refused(self, expected: str) -> NotRead:
        return self.tokens.refused(self.start(), expected)

    def deeper(self) -> None:
        self.depth += 1
        if self.depth > DEEPEST:
            raise self.refused(f"at most {DEEPEST} forms in one another")

    # Expressions

    def expression(self) -> Expression:
        start = self.start()
        self.deeper()
        found = self.negated(True) if self.kinds[self.at] == "NOT" else self.conjunction()
        while self.kinds[self.at] in ALTERNATIVES:
            sign = self.kinds[self.at]
            self.at += 1
            found = Binary(start, 0, sign, found, self.conjunction())
            found.end = self.end()
        self.depth -= 1
        return found

    def negated(self, is_first: bool) -> Unary:
        """NOT with its operand: at the start of an expression it covers the ANDs that follow, elsewhere a relation."""
        start = self.expect("NOT")
        operand = self.conjunction() if is_first else self.relation()
        return Unary(start, self.end(), "NOT", operand, is_first)

    def conjunction(self) -> Expression:
        return self.chain(CONJUNCTION, self.relation)

    def relation(self) -> Expression:
        if self.kinds[self.at] == "NOT":
            return self.negated(False)
        start = self.start()
        found = self.sum(True)
        if self.kinds[self.at] not in RELATIONS:
            return found
        sign = self.kinds[self.at]
        self.at += 1
        right = self.negated(False) if self.kinds[self.at] == "NOT" else self.sum(True)
        return Binary(start, self.end(), sign, found, right)

    def sum(self, is_first: bool) -> Expression:
        start = self.start()
        if self.kinds[self.at] in SIGNS:
            sign = self.kinds[self.at]
            self.at += 1
            operand = self.term()
            left: Expression = Unary(start, self.end(), sign, operand, is_first)
        else:
            left = self.term()
        while self.kinds[self.at] in SIGNS:
            sign = self.kinds[self.at]
            self.at += 1
            left = Binary(start, 0, sign, left, self.term())
            left.end = self.end()
        return left

    def term(self) -> Expression:
        return self.chain(FACTORS, self.factor)

    def chain(self, signs: frozenset, part: Callable[[], Expression]) -> Expression:
        start = self.start()
        found = part()
        while self.kinds[self.at] in signs:
            sign = self.kinds[self.at]
            self.at += 1
            found = Binary(start, 0, sign, found, part())
            found.end = self.end()
        return found

    def factor(self) -> Expression:
        """An operand, with a sign or NOT before it where one stands after an operator."""
        kind = self.kinds[self.at]
        if kind in SIGNS or kind == "NOT":
            start = self.start()
            self.at += 1
            self.deeper()
            operand = self.factor()
            self.depth -= 1
            return Unary(start, self.end(), kind, operand, False)
        return self.primary()

    def primary(self) -> Expression:
        kind, start = self.kinds[self.at], self.start()
        if kind == NAME:
            return self.named()
        self.at += 1
        spelled = self.texts[self.at - 1]
        if kind == NUMBER:
            return Number(start, self.end(), spelled)
        if kind == TEXT:
            return Text(start, self.end(), spelled[1:-1].replace('""', '"').replace("\\\\", "\\"))
        if kind in ("TRUE", "FALSE"):
            return Truth(start, self.end(), kind == "TRUE")
        if kind == HOLE:
            return Placeholder(start, self.end(), spelled)
        self.at -= 1
        return self.bracketed()

    def bracketed(self) -> Expression:
        start = self.start()
        if self.next_is("("):
            inner = self.expression()
            self.expect(")")
            return Group(start, self.end(), inner)
        if self.next_is("["):
            parts = self.several("]")
            return Aggregate(start, self.end(), parts)
        raise self.refused("an expression")

    def several(self, close: str) -> List[Expression]:
        """Expressions with commas between them, and what closes them."""
        parts = [self.expression()]
        while self.next_is(","):
            parts.append(self.expression())
        self.expect(close)
        return parts

    def named(self) -> Expression:
        start = self.start()
        name = self.texts[self.at]
        self.at += 1
        if self.kinds[self.at] == "(":
            self.at += 1
            found = [] if self.kinds[self.at] == ")" else self.arguments()
            self.expect(")")
            return Call(start, self.end(), name, found)
        parts = self.parts() if self.kinds[self.at] in ("{", ".") else []
        return Name(start, self.end(), name, parts)

    def parts(self) -> List[Union[Index, Component]]:
        found: List[Union[Index, Component]] = []
        while True:
            start = self.start()
            if self.next_is("{"):
                indices = self.several("}")
                found.append(Index(start, self.end(), indices))
            elif self.next_is("."):
                found.append(Component(start, 0, self.word()))
                found[-1].end = self.end()
            else:
                return found

    def place(self) -> Expression:
        """What is written: a name with its indices and components."""
        start = self.start()
        if self.kinds[self.at] == HOLE:
            self.at += 1
            return Placeholder(start, self.end(), self.texts[self.at - 1])
        name = self.name()
        parts = self.parts()
        return Name(start, self.end(), name, parts)

    # Arguments

    def arguments(self) -> List[Argument]:
        """Arguments up to what follows them: commas between them, which may be missing before a backslash."""
        found = [self.argument()]
        while self.kinds[self.at] in (",", "\\"):
            self.next_is(",")
            found.append(self.argument())
        return found

    def argument(self) -> Argument:
        start = self.start()
        if self.next_is("\\"):
            option = self.word()
            given, value = self.option_value()
            return Argument(start, self.end(), value, option, given)
        if self.kinds[self.at] == NAME and self.kinds[self.at + 1] == ":=":
            self.at += 2
        value = self.expression()
        return Argument(start, self.end(), value)

    def option_value(self) -> Tuple[str, Union[Expression, None]]:
        if self.next_is("?"):
            return self.name(), None
        return "", self.expression() if self.next_is(":=") else None
