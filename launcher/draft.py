"""A copy of a module's text in which what is wrong is left out. It keeps its length and its lines, so that all places stay."""
from dataclasses import dataclass, field
from typing import List, Optional, Sequence, Tuple

from . import grammar, names
from .tokens import NAME, Token, tokens_of
from .view import ENDS, STARTS, item_around


class CannotMend(Exception):
    """Nothing can be left out so that the rest of the module still says what it said."""


@dataclass(frozen=True)
class Taint:
    """A name whose declaration was changed or left out: what is refused because of it is no fault of its own. It is seen between two
    places of its module, or in the whole task."""

    name: str
    start: Optional[int] = None
    end: Optional[int] = None


@dataclass
class Draft:
    """A module's text as it is checked next, and the names that were changed in it."""

    text: bytes
    taints: List[Taint] = field(default_factory=list)
    tokens: List[Token] = field(default_factory=list)

    def __post_init__(self) -> None:
        self.tokens = tokens_of(self.text)

    def blank(self, start: int, end: int, put: str = "") -> None:
        """Puts spaces for the bytes of a span, and a text at its front, which has to fit into its first line."""
        inner = bytearray(10 if it == 10 else 32 for it in self.text[start:end])
        data = put.encode()
        if len(data) > len(inner) or b"\n" in inner[: len(data)]:
            raise CannotMend
        inner[: len(data)] = data
        self.text = self.text[:start] + bytes(inner) + self.text[end:]
        self.tokens = tokens_of(self.text)

    def blank_tokens(self, first: int, past: int, put: str = "") -> None:
        """The same for tokens, from the first one to the one before another, by their numbers."""
        if first >= past:
            raise CannotMend
        self.blank(self.tokens[first].at, self.tokens[past - 1].end, put)

    def taint(self, name: names.Declared) -> None:
        is_local = name.kind in ("PARAM", "FOR", "LABEL") or name.start is not None
        self.taints.append(Taint(name.name.lower(), name.start if is_local else None, name.end if is_local else None))

    def taint_between(self, first: int, past: int) -> None:
        """Taints the names that are declared by tokens, by their numbers."""
        places = range(self.tokens[first].at, self.tokens[past - 1].end)
        for it in names.declared(self.tokens):
            if it.at in places:
                self.taint(it)

    def is_tainted(self, token: Token) -> bool:
        name = token.text.lower()
        return token.kind == NAME and any(
            it.name == name and (it.start is None or it.start <= token.at <= (it.end or 0)) for it in self.taints
        )

    def forms(self, k: int) -> List[grammar.Node]:
        """The forms around a token, from the item of the module to the innermost one, with the numbers of tokens."""
        start, end = item_around(self.tokens, k)
        tree = grammar.parse(self.tokens[start:end], "item").tree
        path = []
        while tree:
            path.append(grammar.Node(tree.rule, tree.start + start, tree.end + start))
            tree = next((it for it in tree.inner if it.start + start <= k < it.end + start), None)
        return path


# Declarations


def simplify_datum(draft: Draft, k: int) -> None:
    """Makes a num without a value of the datum whose declaration has a token: its name stays, and is tainted."""
    first, past = datum_around(draft.tokens, k)
    at = next((n for n in range(first, past) if draft.tokens[n].text in ("CONST", "VAR", "PERS")), None)
    if at is None or past - at < 4 or draft.tokens[at + 1].kind != NAME or draft.tokens[at + 2].kind != NAME:
        raise CannotMend
    draft.taint_between(first, past)
    if past - 1 > at + 3:
        draft.blank_tokens(at + 3, past - 1)
    draft.blank_tokens(at + 1, at + 2, "num")
    if draft.tokens[at].text == "CONST":
        draft.blank_tokens(at, at + 1, "VAR")


def datum_around(tokens: Sequence[Token], k: int) -> Tuple[int, int]:
    """The numbers of a declaration's first token and of the one after its `;`."""
    first = next((n for n in range(min(k, len(tokens) - 1), -1, -1) if tokens[n].text in ("CONST", "VAR", "PERS")), None)
    past = next((n + 1 for n in range(k, len(tokens)) if tokens[n].text == ";"), None)
    if first is None or past is None or any(it.text in (*STARTS, *ENDS) for it in tokens[first:past]):
        raise CannotMend
    while first and tokens[first - 1].text in ("LOCAL", "TASK"):
        first -= 1
    return first, past


def simplify_head(draft: Draft, k: int) -> None:
    """Leaves out the parameters of the routine whose head has a token, and makes a num of a function's result. The routine's name
    and those of its parameters are tainted."""
    first = next((n for n in range(k, -1, -1) if draft.tokens[n].text in STARTS), None)
    if first is None:
        raise CannotMend
    opening = next((n for n in range(first, len(draft.tokens)) if draft.tokens[n].text == "("), None)
    if opening is None or opening > first + 3:
        raise CannotMend
    closing = closing_of(draft.tokens, opening)
    draft.taint_between(first, opening)
    end = next((it.end for it in draft.tokens[closing:] if it.text in ENDS), len(draft.text))
    for n in range(opening, closing):
        if draft.tokens[n].kind == NAME and draft.tokens[n + 1].kind != NAME:
            draft.taints.append(Taint(draft.tokens[n].text.lower(), draft.tokens[n].at, end))
    is_function = draft.tokens[first].text == "FUNC"
    if closing > opening + 1:
        draft.blank(draft.tokens[opening].end, draft.tokens[closing].at)
    if is_function:
        draft.blank_tokens(first + 1, first + 2, "num")


def closing_of(tokens: Sequence[Token], opening: int) -> int:
    """The number of the parenthesis that closes another one."""
    depth = 0
    for n in range(opening, len(tokens)):
        depth += (tokens[n].text == "(") - (tokens[n].text == ")")
        if depth == 0:
            return n
        if tokens[n].text in (";", *ENDS):
            break
    raise CannotMend
