"""Which refusals of a draft are not errors of their own, but follow from what was changed in it before."""
from typing import Optional, Sequence

from . import manual
from .draft import Draft
from .name_mends import Part
from .tokens import NAME, Token
from .view import item_around

# The rules that do not depend on the types of a statement's other names.
OWN = frozenset("NoName NameTwice NameTaken NotThis ReadOnly SyncName".split())
# Those that depend on no name at all: a zone and a tool are not looked up.
FREE = frozenset("CornerZone ToolOnly HandlerOnly ReturnKind NoLabel LabelTwice NoArm".split())
# Those that depend only on what is called.
OF_CALLED = frozenset(("ArgCount", "ArgName"))


def follows(draft: Draft, part: Part, rule: str, drafts: Sequence[Draft]) -> bool:
    """Whether a refusal can follow from what was changed: the part around it has a name that is tainted, on which the rule depends."""
    tokens = draft.tokens[part.first : part.past]
    if rule in FREE:
        return False
    if not any(is_tainted(it, draft, drafts) for it in tokens) and not returns_tainted(draft, part, drafts):
        return False
    if rule in OWN:
        return is_tainted(root_of(draft, part.k), draft, drafts)
    if rule in OF_CALLED:
        called = called_at(draft, part.k)
        return called is None or is_tainted(called, draft, drafts)
    return True


def is_tainted(token: Token, draft: Draft, drafts: Sequence[Draft]) -> bool:
    """Whether a name is tainted in its own module, or in the whole task by another one."""
    if token.kind != NAME:
        return False
    name = token.text.lower()
    others = (it for other in drafts if other is not draft for it in other.taints)
    return draft.is_tainted(token) or any(it.name == name and it.start is None for it in others)


def returns_tainted(draft: Draft, part: Part, drafts: Sequence[Draft]) -> bool:
    """Whether a part has a RETURN of a function whose type was changed."""
    if all(it.text != "RETURN" for it in draft.tokens[part.first : part.past]):
        return False
    start, _ = item_around(draft.tokens, part.k)
    return any(is_tainted(it, draft, drafts) for it in draft.tokens[start : start + 4])


def root_of(draft: Draft, k: int) -> Token:
    """The name at the front of the place whose component a token is, or the token itself."""
    while k > 1 and draft.tokens[k - 1].text == ".":
        k -= 2
        if draft.tokens[k].text == "}":
            k = max((n for n in range(k) if draft.tokens[n].text == "{"), default=k) - 1
    return draft.tokens[max(k, 0)]


def called_at(draft: Draft, k: int) -> Optional[Token]:
    """The name of what is called around a token, or at it."""
    for form in reversed(draft.forms(k)):
        first = draft.tokens[form.start]
        after = draft.tokens[form.start + 1].text if form.start + 1 < len(draft.tokens) else ""
        is_function = form.rule == "primary" and after == "("
        if first.kind == NAME and (is_function or (form.rule == "simple" and after not in (":=", "{", "."))):
            return first
    return None


def is_reported_once(draft: Draft, k: int, rule: str) -> bool:
    """Whether a missing name is reported only where it first stands: one declaration or signal corrects it everywhere, while a word
    of RAPID has to be rewritten at each place."""
    token = draft.tokens[k]
    is_component = k > 0 and draft.tokens[k - 1].text == "."
    return rule == "NoName" and token.kind == NAME and not is_component and manual.find(token.text) is None
