"""The routines of a module and their statements, from the tokens of a text that the program accepts.

Only the forms are followed, with the lists inside them; what stands between, such as an expression, is passed over.
"""
import bisect
import functools
from dataclasses import dataclass, field
from typing import Iterator, List, Optional, Sequence, Tuple

from .tokens import NAME, NUMBER, STRING, Token, tokens_of

ROUTINES = {"PROC": "ENDPROC", "FUNC": "ENDFUNC", "TRAP": "ENDTRAP"}
# The words that end a list of statements.
ENDS = frozenset("ELSEIF ELSE ENDIF ENDFOR ENDWHILE CASE DEFAULT ENDTEST ERROR ENDPROC ENDFUNC ENDTRAP".split())
CLOSED_BY = {"(": ")", "[": "]", "{": "}"}
OPERATORS = frozenset("+ - * / DIV MOD = <> < > <= >= AND OR XOR".split())
SIGNS = frozenset("+ - NOT".split())
IF, ONE, FOR, WHILE, TEST, LABEL, SIMPLE = "IF", "one", "FOR", "WHILE", "TEST", "label", "simple"


@dataclass
class Arm:
    """A list of statements inside a statement, with the word that begins it: IF, ELSEIF, ELSE, DO, CASE, DEFAULT, or THEN if the
    statement of an IF without THEN is meant. Its head goes from the word's token to the list."""

    word: str
    head: Tuple[int, int]
    statements: List["Statement"]


@dataclass
class Statement:
    """A statement: its form, its first token and the one after it, and the lists inside it. `head` is the token after its head, which
    ends where its first list begins."""

    form: str
    start: int
    head: int
    past: int
    arms: List[Arm] = field(default_factory=list)

    def walk(self) -> Iterator["Statement"]:
        """The statement and those inside it, in the order of the text."""
        yield self
        for arm in self.arms:
            for it in arm.statements:
                yield from it.walk()


@dataclass
class Datum:
    """A declared datum: CONST, VAR or PERS, the name of its type, its own name, whether only its module sees it, the tokens of its
    length if it is an array, those of its value, and the token of its name."""

    kind: str
    type: str
    name: str
    is_local: bool
    length: Sequence[Token]
    value: Sequence[Token]
    name_at: int


@dataclass
class Routine:
    """A routine: PROC, FUNC or TRAP; its first token, that of its name, and that of the word that ends it; its parameters, its data,
    its statements, and those of its ERROR part with the token of that word, if it has one."""

    kind: str
    name: str
    start: int
    name_at: int
    end: int
    params: List[str] = field(default_factory=list)
    data: List[Datum] = field(default_factory=list)
    statements: List[Statement] = field(default_factory=list)
    error: Optional[int] = None
    handler: List[Statement] = field(default_factory=list)

    def walk(self) -> Iterator[Statement]:
        for it in [*self.statements, *self.handler]:
            yield from it.walk()


@dataclass
class Source:
    """The text of a module: its tokens, its data, its routines, and the places where its lines begin."""

    tokens: List[Token]
    data: List[Datum]
    routines: List[Routine]
    lines: List[int]

    def row(self, at: int) -> int:
        """The line of a byte, from 1."""
        return bisect.bisect_right(self.lines, at)

    def row_of(self, token: int) -> int:
        return self.row(self.tokens[token].at)

    def place_of(self, token: int) -> Tuple[int, int]:
        """The line and the column of a token, both from 1."""
        row = self.row_of(token)
        return row, self.tokens[token].at - self.lines[row - 1] + 1


@functools.lru_cache(maxsize=64)
def source_of(text: bytes) -> Source:
    """ValueError if the text is no module that the program accepts."""
    lines = [0]
    while True:
        at = text.find(b"\n", lines[-1])
        if at < 0:
            break
        lines.append(at + 1)
    try:
        return Reader(tokens_of(text)).source(lines)
    except (IndexError, KeyError) as error:
        raise ValueError(f"no module: {error!r}") from None


class Reader:
    def __init__(self, tokens: List[Token]) -> None:
        self.tokens = tokens
        self.k = 0

    def source(self, lines: List[int]) -> Source:
        found = Source(self.tokens, [], [], lines)
        self.k = self.after(2, "(", ")")
        while self.word() != "ENDMODULE":
            start = self.k
            while self.word() in ("LOCAL", "TASK"):
                self.k += 1
            if self.word() in ROUTINES:
                found.routines.append(self.routine(start))
            else:
                found.data.append(self.datum(self.tokens[start].text == "LOCAL"))
        return found

    def word(self) -> str:
        return self.tokens[self.k].text

    def after(self, k: int, opening: str, closing: str) -> int:
        """The token after the brackets at a token, or the token itself if none are there."""
        if self.tokens[k].text != opening:
            return k
        depth = 0
        while True:
            depth += {opening: 1, closing: -1}.get(self.tokens[k].text, 0)
            k += 1
            if depth == 0:
                return k

    def past(self, *words: str) -> int:
        """The token after the next one of these words, to which it goes."""
        while self.word() not in words:
            self.k += 1
        self.k += 1
        return self.k

    def datum(self, is_local: bool = False) -> Datum:
        kind, sort, name = self.word(), self.tokens[self.k + 1].text, self.tokens[self.k + 2].text
        at, length = self.k + 2, self.k + 3
        value = self.after(length, "{", "}")
        self.k = value
        past = self.past(";")
        return Datum(kind, sort, name, is_local, self.tokens[length + 1 : max(value - 1, length + 1)], self.tokens[value + 1 : past - 1], at)

    def routine(self, start: int) -> Routine:
        kind = self.word()
        name = self.k + (2 if kind == "FUNC" else 1)
        found = Routine(kind, self.tokens[name].text, start, name, 0)
        self.k = self.after(name + 1, "(", ")")
        # A parameter's name is what stands before a comma or the parenthesis.
        inner = self.tokens[name + 1 : self.k]
        found.params = [it.text for it, after in zip(inner, inner[1:]) if it.kind == NAME and after.text in (",", ")")]
        while self.word() in ("CONST", "VAR"):
            found.data.append(self.datum())
        found.statements = self.list()
        if self.word() == "ERROR":
            found.error = self.k
            self.k += 1
            found.handler = self.list()
        found.end = self.k
        self.k += 1
        return found

    def list(self) -> List[Statement]:
        found = []
        while self.word() not in ENDS:
            found.append(self.statement())
        return found

    def statement(self) -> Statement:
        start, word = self.k, self.word()
        if word == "IF":
            return self.of_if(start)
        if word in ("FOR", "WHILE"):
            head = self.past("DO")
            arm = Arm("DO", (start, head), self.list())
            self.k += 1
            return Statement(word, start, head, self.k, [arm])
        if word == "TEST":
            return self.of_test(start)
        if self.tokens[start + 1].text == ":" and self.tokens[start].kind == NAME:
            self.k += 2
            return Statement(LABEL, start, self.k, self.k)
        self.past(";")
        return Statement(SIMPLE, start, self.k, self.k)

    def of_if(self, start: int) -> Statement:
        head = self.past("THEN", ";")
        if self.tokens[head - 1].text == ";":
            self.k = self.after_expression(start + 1)
            one = self.k
            return Statement(ONE, start, one, head, [Arm("THEN", (start, one), [self.statement()])])
        arms = [Arm("IF", (start, head), self.list())]
        while self.word() != "ENDIF":
            word, at = self.word(), self.k
            self.k = self.past("THEN") if word == "ELSEIF" else at + 1
            arms.append(Arm(word, (at, self.k), self.list()))
        self.k += 1
        return Statement(IF, start, head, self.k, arms)

    def of_test(self, start: int) -> Statement:
        while self.word() not in ("CASE", "DEFAULT", "ENDTEST"):
            self.k += 1
        head, arms = self.k, []
        while self.word() != "ENDTEST":
            word, at = self.word(), self.k
            arms.append(Arm(word, (at, self.past(":")), self.list()))
        self.k += 1
        return Statement(TEST, start, head, self.k, arms)

    def after_expression(self, k: int) -> int:
        """The token after the expression that begins at a token."""
        while True:
            while self.tokens[k].text in SIGNS:
                k += 1
            k = self.after_primary(k)
            if self.tokens[k].text not in OPERATORS:
                return k
            k += 1

    def after_primary(self, k: int) -> int:
        first = self.tokens[k]
        if first.text in CLOSED_BY:
            return self.after(k, first.text, CLOSED_BY[first.text])
        k += 1
        if first.kind in (NUMBER, STRING) or first.text in ("TRUE", "FALSE"):
            return k
        while self.tokens[k].text in ("(", "{", "."):
            k = k + 2 if self.tokens[k].text == "." else self.after(k, self.tokens[k].text, CLOSED_BY[self.tokens[k].text])
        return k
