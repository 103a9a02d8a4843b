"""What is left out of a module so that its form can be checked further after an error in it."""
import re
import zlib
from typing import Dict, List, Tuple

from . import grammar
from .draft import CannotMend, Draft, Taint, simplify_datum, simplify_head
from .tokens import index_at
from .view import ENDS, STARTS

# What ends a statement's reach: no statement is left out past one of these.
WALLS = frozenset(
    "THEN ELSE ELSEIF ENDIF DO ENDFOR ENDWHILE CASE DEFAULT ENDTEST ERROR ENDPROC ENDFUNC ENDTRAP ENDMODULE PROC FUNC TRAP IF FOR WHILE TEST".split()
)
# What stands after the expression of a head, by what it begins with.
AFTER_HEAD = ("THEN", "DO", "TO", "STEP", "CASE", "DEFAULT", ":")
STRING_OF = re.compile(rb'"(?:""|[^"\n])*"?')


def mend(draft: Draft, rule: str, at: int) -> None:
    """Leaves out what is refused at a place. CannotMend if nothing can be left out."""
    if rule in ("BadByte", "OpenString", "BadEscape", "LongString", "LongName", "BadLiteral"):
        mend_token(draft, rule, at)
    elif rule == "LeftOut":
        leave_part(draft, index_at(draft.tokens, at))
    elif rule == "Syntax":
        mend_form(draft, index_at(draft.tokens, at))
    else:
        raise CannotMend


# Tokens


def mend_token(draft: Draft, rule: str, at: int) -> None:
    if rule == "BadLiteral":
        draft.blank_tokens(*one(draft, at), "0")
    elif rule == "LongName":
        rename(draft, at)
    elif rule == "OpenString":
        leave_open_string(draft, at)
    else:
        mend_string(draft, rule, at)


def one(draft: Draft, at: int) -> Tuple[int, int]:
    k = index_at(draft.tokens, at)
    return k, k + 1


def rename(draft: Draft, at: int) -> None:
    """Shortens a long name wherever it stands in the module."""
    name = draft.tokens[index_at(draft.tokens, at)].text.lower()
    short = f"{name[:20]}_{zlib.crc32(name.encode())}"
    for token in [it for it in draft.tokens if it.text.lower() == name]:
        draft.blank(token.at, token.end, short)


def mend_string(draft: Draft, rule: str, at: int) -> None:
    """Puts a character that may stand in a string for one that may not; else leaves out the statement around it."""
    start = draft.text.rfind(b"\n", 0, at) + 1
    for found in STRING_OF.finditer(draft.text, start):
        if found.start() < at < found.end() or (rule == "LongString" and found.start() == at):
            if rule == "LongString":
                draft.blank(found.start(), found.end(), '""')
            else:
                end = at + 1
                while rule == "BadByte" and end < found.end() - 1 and 0x80 <= draft.text[end] < 0xC0:
                    end += 1
                draft.blank(at, end, "?" * (end - at))
            return
        if found.start() > at:
            break
    leave_around(draft, index_at(draft.tokens, at), at)


def leave_open_string(draft: Draft, at: int) -> None:
    """Leaves out a statement up to the end of the line in which its string is not closed."""
    k = index_at(draft.tokens, at)
    first = start_of_statement(draft, k)
    start = min(draft.tokens[first].at, at) if first < len(draft.tokens) else at
    end = draft.text.find(b"\n", at)
    draft.blank(start, end if end >= 0 else len(draft.text))


# Parts of a routine


def leave_part(draft: Draft, k: int) -> None:
    """Leaves out a RECORD, an ALIAS, an UNDO or a BACKWARD part."""
    word = draft.tokens[k].text
    if word in ("RECORD", "ALIAS"):
        end = "ENDRECORD" if word == "RECORD" else ";"
        past = next((n + 1 for n in range(k, len(draft.tokens)) if draft.tokens[n].text == end), None)
        if past is None or any(it.text in (*STARTS, "ENDMODULE") for it in draft.tokens[k:past]):
            raise CannotMend
        name = draft.tokens[k + 1 if word == "RECORD" else k + 2]
        first = k - 1 if k and draft.tokens[k - 1].text == "LOCAL" else k
        draft.blank_tokens(first, past)
        draft.taints.append(Taint(name.text.lower()))
        return
    past = next((n for n in range(k + 1, len(draft.tokens)) if draft.tokens[n].text in ("UNDO", "BACKWARD", "ERROR", *ENDS)), None)
    if past is None:
        raise CannotMend
    draft.blank_tokens(k, past)


# Forms


def mend_form(draft: Draft, k: int) -> None:
    """Leaves out the smallest form around the first token that does not fit."""
    first = first_of_item(draft, k)
    expected = grammar.parse(draft.tokens[first : k + 1], "items" if first else "module", k - first).expected
    stacks: List[Tuple[grammar.Open, ...]] = sorted(expected.values(), key=len)
    if not stacks or k >= len(draft.tokens):
        raise CannotMend
    rules = [it.rule for it in stacks[-1]]
    before = draft.tokens[k - 1]
    is_new_line = b"\n" in draft.text[before.end : draft.tokens[k].at]
    if "params" in rules or "param" in rules or is_in_head(draft, k):
        simplify_head(draft, k)
    elif "rest" in rules:
        simplify_datum(draft, k)
    elif before.text == "ERROR" and draft.tokens[k].text == "(":
        draft.blank_tokens(k, past_error_list(draft, k))
    elif ";" in expected and is_new_line:
        # Its end is missing.
        draft.blank_tokens(first + started(expected[";"]), k)
    elif draft.tokens[k].text == "ERROR" and any(it.text == "ERROR" for it in draft.tokens[first:k]):
        # The statements of a second ERROR part are checked as those of the first.
        draft.blank_tokens(k, past_error_list(draft, k + 1))
    else:
        leave_in_list(draft, k, first, expected)


def past_error_list(draft: Draft, k: int) -> int:
    """The number of the token after the list of an ERROR part, if it begins at a token, else that token's."""
    if k >= len(draft.tokens) or draft.tokens[k].text != "(":
        return k
    past = next((n + 1 for n in range(k, len(draft.tokens)) if draft.tokens[n].text in (")", ";", *ENDS)), k)
    if draft.tokens[past - 1].text != ")":
        raise CannotMend
    return past


def leave_in_list(draft: Draft, k: int, first: int, expected: Dict[str, Tuple[grammar.Open, ...]]) -> None:
    """Leaves out the statement around a token, or mends the expression of its head."""
    stack = max(expected.values(), key=len)
    statement = started(stack) + first
    head = next((it.start + first for it in reversed(stack) if it.rule == "expr"), None)
    in_simple = any(it.rule == "simple" and it.start + first <= k for it in stack[last_of(stack, "stmt") :])
    if head is not None and not in_simple and draft.tokens[statement].text in ("IF", "WHILE", "FOR", "TEST"):
        outer = next(it.start + first for it in stack[last_of(stack, "stmt") :] if it.rule == "expr")
        if mends_head(draft, outer, k):
            return
    if draft.tokens[k].text in WALLS and statement == k:
        # A form around it is not ended: what was meant is unknown.
        raise CannotMend
    past = end_of_statement(draft, k)
    draft.blank_tokens(statement, past)


def mends_head(draft: Draft, first: int, k: int) -> bool:
    """Puts a constant for the expression of a head, up to the word after it. An IF without THEN has no such word."""
    past = next((n for n in range(k, len(draft.tokens)) if draft.tokens[n].text in (*AFTER_HEAD, ";", *ENDS)), None)
    if past is None or draft.tokens[past].text not in AFTER_HEAD:
        return False
    is_condition = draft.tokens[first - 1].text in ("IF", "ELSEIF", "WHILE")
    draft.blank_tokens(first, past, "TRUE" if is_condition else "1")
    return True


def started(stack: Tuple[grammar.Open, ...]) -> int:
    """The number of the first token of the innermost statement; a simple one after an IF belongs to that IF."""
    places = [it.start for it in stack if it.rule == "stmt"]
    if not places:
        raise CannotMend
    return places[-1]


def last_of(stack: Tuple[grammar.Open, ...], rule: str) -> int:
    return max(n for n, it in enumerate(stack) if it.rule == rule)


def end_of_statement(draft: Draft, k: int) -> int:
    """The number of the token after the next `;`, before which no other form may begin or end."""
    for n in range(k, len(draft.tokens)):
        if draft.tokens[n].text == ";":
            return n + 1
        if draft.tokens[n].text in WALLS and n > k:
            break
    raise CannotMend


def first_of_item(draft: Draft, k: int) -> int:
    for n in range(min(k, len(draft.tokens)) - 1, 0, -1):
        if draft.tokens[n].text in STARTS:
            return n - 1 if draft.tokens[n - 1].text == "LOCAL" else n
    return 0


def is_in_head(draft: Draft, k: int) -> bool:
    """Whether a token stands in the parentheses of a routine's head."""
    first = next((n for n in range(k - 1, -1, -1) if draft.tokens[n].text in (*STARTS, *ENDS)), None)
    if first is None or draft.tokens[first].text not in STARTS:
        return False
    opening = next((n for n in range(first, min(first + 4, len(draft.tokens))) if draft.tokens[n].text == "("), None)
    return opening is not None and opening < k and all(it.text != ")" for it in draft.tokens[opening:k])


def start_of_statement(draft: Draft, k: int) -> int:
    """The number of the first token of the statement or the declaration that has a token, by the words before it."""
    n = k - 1
    while n >= 0 and draft.tokens[n].text not in (";", ":") and draft.tokens[n].text not in WALLS - {"IF"} and not ends_head(draft, n):
        n -= 1
    return n + 1


def ends_head(draft: Draft, n: int) -> bool:
    """Whether a token is the last one of a routine's head."""
    if draft.tokens[n - 1].text == "TRAP":
        return True
    if draft.tokens[n].text != ")":
        return False
    opening = next((m for m in range(n, -1, -1) if draft.tokens[m].text == "("), 0)
    return any(it.text in ("PROC", "FUNC") for it in draft.tokens[max(opening - 3, 0) : opening])


def leave_around(draft: Draft, k: int, at: int) -> None:
    """Leaves out the statement, the declaration or the parameters around bytes that are no token."""
    if is_in_head(draft, k):
        simplify_head(draft, k)
        return
    first = start_of_statement(draft, k)
    past = end_of_statement(draft, k)
    word = draft.tokens[first].text if first < len(draft.tokens) else ""
    if word in ("LOCAL", "TASK", "CONST", "VAR", "PERS"):
        simplify_datum(draft, k)
        return
    draft.blank(min(draft.tokens[first].at, at), draft.tokens[past - 1].end)
