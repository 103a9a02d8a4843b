"""What is left out of a module so that its names and types can be checked further after an error in them."""
from dataclasses import dataclass
from typing import Sequence

from . import grammar, names
from .draft import CannotMend, Draft, simplify_datum, simplify_head
from .view import STARTS

DATUM, HEAD, STATEMENT, CONDITION, TEST = "datum", "head", "statement", "condition", "test"
CONDITIONS = ("IF", "ELSEIF", "WHILE")


@dataclass(frozen=True)
class Part:
    """What can be left out around a token `k`: its kind, its first token and the one after it. `whole` is the statement of which it
    is the head, as those numbers."""

    k: int
    kind: str
    first: int
    past: int
    whole: Sequence[int] = ()


def part_around(draft: Draft, k: int) -> Part:
    """The smallest part around a token that can be left out. CannotMend if there is none."""
    path = draft.forms(k)
    if not path:
        raise CannotMend
    statements = [it for it in path if it.rule == "stmt"]
    if not statements:
        found = next((it for it in reversed(path) if it.rule == "rest"), None)
        return Part(k, DATUM, found.start - 1, found.end) if found else Part(k, HEAD, path[0].start, path[0].end)
    inner = statements[-1]
    whole = (inner.start, inner.end)
    if not draft.tokens[inner.end - 1].text.startswith("END"):
        return Part(k, STATEMENT, *whole)
    if draft.tokens[inner.start].text == "TEST":
        return Part(k, TEST, *whole)
    head = next((it for it in path[path.index(inner) :] if it.rule == "expr"), None)
    if head is None:
        raise CannotMend
    return Part(k, CONDITION, head.start, head.end, whole)


def mend(draft: Draft, part: Part, rule: str) -> None:
    """Mends the argument that breaks a rule if it is a part of its own, or leaves the part out."""
    if rule in ("CornerZone", "ToolOnly", "ArgName") and is_argument_mended(draft, part.k, rule):
        return
    if part.kind == DATUM:
        simplify_datum(draft, part.k)
    elif part.kind == HEAD:
        mend_head(draft, part)
    elif part.kind == STATEMENT:
        draft.blank_tokens(part.first, part.past)
    elif part.kind == TEST:
        mend_test(draft, part)
    else:
        mend_condition(draft, part)


def is_argument_mended(draft: Draft, k: int, rule: str) -> bool:
    """Puts the zone or the tool that is taken for another one, or leaves out an option, if there is room."""
    token = draft.tokens[k]
    try:
        if rule == "ArgName":
            return is_option_left_out(draft, k)
        if rule == "ToolOnly":
            draft.blank(token.at, token.end, "wobj0" if draft.tokens[k - 1].text == ":=" else "tool0")
            return True
        after = draft.tokens[k + 1]
        draft.blank(token.at, after.end + (draft.text[after.end : after.end + 1] == b" "), f"fine{after.text}")
        return True
    except CannotMend:
        return False


def is_option_left_out(draft: Draft, k: int) -> bool:
    """Leaves out an option with its value, from its backslash to the next argument."""
    if draft.tokens[k].text != "\\":
        return False
    depth = 0
    for n in range(k + 1, len(draft.tokens)):
        text = draft.tokens[n].text
        if depth == 0 and text in (",", ";", "\\", ")", "]", "}"):
            draft.blank_tokens(k, n)
            return True
        depth += (text in ("(", "[", "{")) - (text in (")", "]", "}"))
    return False


def mend_head(draft: Draft, part: Part) -> None:
    """A routine's head without its parameters. Where its name is declared twice or taken, it gets a name that nothing has."""
    first = next(n for n in range(part.k, -1, -1) if draft.tokens[n].text in STARTS)
    own = first + (2 if draft.tokens[first].text == "FUNC" else 1)
    if part.k != own:
        simplify_head(draft, part.k)
        return
    token = draft.tokens[own]
    draft.taint(names.Declared(token.text, "PROC", "", token.at))
    draft.blank_tokens(own, own + 1, unused_name(draft, len(token.text)))


def unused_name(draft: Draft, length: int) -> str:
    taken = {it.text.lower() for it in draft.tokens}
    for n in range(10_000):
        name = f"q{n}"
        if name not in taken and len(name) <= length:
            return name
    raise CannotMend


def mend_test(draft: Draft, part: Part) -> None:
    """Makes a constant of the tested value and of all values of the CASEs."""
    form = next(it for it in draft.forms(part.k) if (it.rule, it.start) == ("stmt", part.first))
    values = [it for it in inner_forms(draft, form) if it.rule == "expr"]
    for it in reversed(values):
        draft.blank_tokens(it.start, it.end, "1")


def inner_forms(draft: Draft, form: grammar.Node) -> Sequence[grammar.Node]:
    """The forms right within a statement."""
    tree = grammar.parse(draft.tokens[form.start : form.end], "stmt").tree
    inner = tree.inner if tree else []
    return [grammar.Node(it.rule, it.start + form.start, it.end + form.start) for it in inner]


def mend_condition(draft: Draft, part: Part) -> None:
    """Puts a constant for an expression of a statement's head, or leaves out the whole statement if there is no room."""
    puts = ("TRUE", "1=1") if draft.tokens[part.first - 1].text in CONDITIONS else ("1",)
    for put in puts:
        try:
            draft.blank_tokens(part.first, part.past, put)
            return
        except CannotMend:
            continue
    draft.blank_tokens(part.whole[0], part.whole[1])
