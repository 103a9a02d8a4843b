"""The grammar of docs/LANGUAGE.md, a parser by it, and what may stand at a place where a text is refused.

The parser is one of ordered choice, which for this grammar takes the same texts as the program, but for its limit of nesting. It
judges nothing: it says what may stand at the place that the program refused, and where the forms of a text begin and end.
"""
import functools
import re
import sys
from dataclasses import dataclass, field
from typing import Callable, Dict, Iterator, List, Optional, Sequence, Set, Tuple

from .places import LANGUAGE
from .tokens import MARK, NAME, NUMBER, STRING, WORD, Token

# How deep the parser may call itself: 64 levels of nesting of the deepest form.
DEEP = 8_000
SIGN = re.compile(r'"([^"]+)"|([A-Z]+)|([a-z]+)|([][{}()|=])')
# How many tokens are parsed at most, which takes a second or two.
MOST = 30_000
FAILED = -1


@dataclass
class Node:
    """A form that was found: its rule, its first token and the one after it, by their numbers, and the forms within it."""

    rule: str
    start: int
    end: int
    inner: List["Node"] = field(default_factory=list)

    def walk(self) -> Iterator["Node"]:
        yield self
        for it in self.inner:
            yield from it.walk()


@dataclass(frozen=True)
class Open:
    """A form that is open at a place: its rule and its first token."""

    rule: str
    start: int


@dataclass
class Parse:
    """What came of a text: its form, or None; and for the token that was asked about, what may stand there: each terminal (a word in
    capitals, a mark, or one of name, number and string) with the forms that are open before it, from the outermost."""

    tree: Optional[Node]
    expected: Dict[str, Tuple[Open, ...]]


class Parser:
    def __init__(self, tokens: Sequence[Token], target: int) -> None:
        self.signs = [terminal_of(it) for it in tokens]
        self.count, self.target = len(tokens), target
        self.expected: Dict[str, Tuple[Open, ...]] = {}
        self.open: List[Open] = []
        self.found: List[Node] = []


Step = Callable[[Parser, int], int]


def parse(tokens: Sequence[Token], rule: str = "module", target: int = FAILED) -> Parse:
    """Parses all tokens by a rule. Too many give nothing."""
    if len(tokens) > MOST:
        return Parse(None, {})
    parser = Parser(tokens, target)
    limit = sys.getrecursionlimit()
    sys.setrecursionlimit(max(limit, DEEP))
    try:
        end = steps()[rule](parser, 0)
    except RecursionError:
        return Parse(None, {})
    finally:
        sys.setrecursionlimit(limit)
    return Parse(parser.found[0] if end == len(tokens) else None, parser.expected)


@functools.lru_cache(maxsize=None)
def steps() -> Dict[str, Step]:
    """The parser's step for each rule."""
    table: Dict[str, Step] = {}
    for name, text in rules().items():
        table[name] = of_rule(name, Reader(text, table).choice())
    return table


@functools.lru_cache(maxsize=None)
def rules() -> Dict[str, str]:
    """Each rule of the grammar: its name, and its right side."""
    text = LANGUAGE.read_text(encoding="utf-8")
    blocks = re.findall(r"^```\n(.*?)^```$", text, re.M | re.S)
    found = re.findall(r"^(\w+) += (.*(?:\n +.*)*)", "\n".join(blocks), re.M)
    # Only items, for a text that is read from one of its routines on.
    return {**dict(found), "items": "{ item } ENDMODULE"}


@functools.lru_cache(maxsize=None)
def starters(rule: str) -> Set[str]:
    """The terminals with which a rule can begin."""
    return set(parse((), rule, 0).expected)


@functools.lru_cache(maxsize=None)
def is_needed(rule: str) -> bool:
    """Whether a rule takes a token at least."""
    return parse((), rule, 0).tree is None


def may_begin(rule: str, parser: Parser, at: int) -> bool:
    """Whether a rule can take the tokens from a place on, by the first of them."""
    if at >= parser.count or not is_needed(rule):
        return True
    return parser.signs[at] in starters(rule)


class Reader:
    """Reads the right side of a rule and makes the parser's step for it."""

    def __init__(self, text: str, table: Dict[str, Step]) -> None:
        self.signs = [it.group() for it in SIGN.finditer(text)]
        self.at, self.table = 0, table

    def choice(self) -> Step:
        options = [self.row()]
        while self.peek() == "|":
            self.at += 1
            options.append(self.row())
        return options[0] if len(options) == 1 else of_choice(options)

    def row(self) -> Step:
        parts = []
        while self.peek() not in ("", "|", "]", "}", ")"):
            parts.append(self.part())
        return parts[0] if len(parts) == 1 else of_row(parts)

    def part(self) -> Step:
        sign = self.peek()
        self.at += 1
        if sign in ("[", "{", "("):
            inner = self.choice()
            self.at += 1
            return inner if sign == "(" else of_optional(inner) if sign == "[" else of_many(inner)
        if sign.startswith('"'):
            return of_terminal(sign[1:-1])
        if sign.isupper() or sign in (NAME, NUMBER, STRING):
            return of_terminal(sign)
        return lambda parser, at: self.table[sign](parser, at)

    def peek(self) -> str:
        return self.signs[self.at] if self.at < len(self.signs) else ""


def of_terminal(sign: str) -> Step:
    def step(parser: Parser, at: int) -> int:
        if at == parser.target:
            parser.expected.setdefault(sign, tuple(parser.open))
        return at + 1 if at < parser.count and parser.signs[at] == sign else FAILED

    return step


def terminal_of(token: Token) -> str:
    return token.text if token.kind in (WORD, MARK) else token.kind


def of_rule(name: str, inner: Step) -> Step:
    def step(parser: Parser, at: int) -> int:
        if at != parser.target and not may_begin(name, parser, at):
            return FAILED
        outer, parser.found = parser.found, []
        parser.open.append(Open(name, at))
        end = inner(parser, at)
        parser.open.pop()
        if end != FAILED:
            outer.append(Node(name, at, end, parser.found))
        parser.found = outer
        return end

    return step


def of_choice(options: Sequence[Step]) -> Step:
    def step(parser: Parser, at: int) -> int:
        count = len(parser.found)
        for option in options:
            end = option(parser, at)
            if end != FAILED:
                return end
            del parser.found[count:]
        return FAILED

    return step


def of_row(parts: Sequence[Step]) -> Step:
    def step(parser: Parser, at: int) -> int:
        count = len(parser.found)
        for part in parts:
            at = part(parser, at)
            if at == FAILED:
                del parser.found[count:]
                return FAILED
        return at

    return step


def of_optional(inner: Step) -> Step:
    def step(parser: Parser, at: int) -> int:
        end = inner(parser, at)
        return at if end == FAILED else end

    return step


def of_many(inner: Step) -> Step:
    def step(parser: Parser, at: int) -> int:
        while True:
            end = inner(parser, at)
            if end in (FAILED, at):
                return at
            at = end

    return step


# What may stand at a place

# Groups of terminals under the name that they have for a reader; the first ones are looked for first.
GROUPS = (("a declaration", "item"), ("a statement", "stmt"), ("an expression", "expr"), ("a value", "primary"))
OPERATORS = ("* / DIV MOD".split(), "+ -".split(), "= <> < > <= >=".split(), ["AND"], ["OR", "XOR"])


def said_of(expected: Sequence[str]) -> List[str]:
    """What may stand at a place, for a reader: groups of terminals under one name, then the others in quotes."""
    left, said = set(expected), []
    for name, rule in GROUPS:
        if starters(rule) <= left:
            said.append(name)
            left -= starters(rule)
    operators = {it for group in OPERATORS for it in group if set(group) <= left}
    if len(operators) > 1 and operators <= left:
        said.append("an operator")
        left -= operators
    kinds = {NAME: "a name", NUMBER: "a number", STRING: "a string"}
    said += [kinds[it] for it in (NAME, NUMBER, STRING) if it in left]
    return said + [f"`{it}`" for it in expected if it in left and it not in kinds]
