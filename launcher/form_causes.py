"""Why the tokens or the form of a module are refused, as far as the text around the place shows."""
from typing import Dict, List, Optional, Tuple

from . import grammar, manual
from .own_cause import Own
from .tokens import MARK, NAME, NUMBER, STRING, WORD, Token
from .view import View

KINDS = {NAME: "the name", WORD: "the word", NUMBER: "the number", STRING: "the string", MARK: "the mark"}
# What ends a form that one of these words begins.
ENDS = {"IF": "ENDIF", "FOR": "ENDFOR", "WHILE": "ENDWHILE", "TEST": "ENDTEST", "PROC": "ENDPROC", "FUNC": "ENDFUNC", "TRAP": "ENDTRAP"}


def of(rule: str, seen: View) -> Optional[Own]:
    if rule == "Syntax":
        return of_syntax(seen)
    if rule == "LeftOut":
        return Own(f"{seen.word} is not supported", manual.notes_on(seen.word), True)
    if rule == "BadByte":
        return of_byte(seen)
    if rule == "LongName":
        return Own(f"this name has {len(seen.word)} characters; 32 is the limit")
    return None


def of_byte(seen: View) -> Own:
    """A byte that begins nothing: shown as the character that it begins, if it does."""
    data = seen.text[seen.at : seen.at + 4]
    for length in (1, 2, 3, 4):
        try:
            character = data[:length].decode()
        except UnicodeDecodeError:
            continue
        if character.isprintable():
            notes = notes_on_byte(character)
            return Own(f"{character!r} is allowed only in comments", notes, bool(notes))
        break
    return Own(f"the byte {data[0]:02X} is allowed only in comments" if data else "")


def notes_on_byte(character: str) -> List[str]:
    if character == "%":
        return manual.notes_on('%"name"%')
    if character == "|":
        return manual.notes_on("\\switch on | switch off")
    return []


# Forms


def of_syntax(seen: View) -> Own:
    first = first_of_routine(seen)
    tokens = seen.tokens[first : seen.k + 1]
    expected = grammar.parse(tokens, "items" if first else "module", seen.k - first).expected
    label = f"found {found(seen.token)}" if seen.token else "the text ends here"
    if not expected:
        return Own(label)
    wanted = grammar.said_of(list(expected))
    label = f"expected {joined(wanted)}, {label}" if len(wanted) <= 4 else label
    notes = [] if len(wanted) <= 4 else [f"what may stand here: {', '.join(wanted)}"]
    known = of_missing_form(seen, expected)
    return Own(label, [*notes, *(known or of_missing_sign(seen, expected, first))], True)


def first_of_routine(seen: View) -> int:
    """The number of the token with which the last item before the place begins, judging by its first word. Everything before it is
    well formed, since the first token that is not is refused."""
    for k in range(min(seen.k, len(seen.tokens)) - 1, 0, -1):
        if seen.tokens[k].text in ("PROC", "FUNC", "TRAP"):
            return k - 1 if seen.tokens[k - 1].text == "LOCAL" else k
    return 0


def found(token: Token) -> str:
    return f"{KINDS[token.kind]} `{token.text}`"


def joined(words: List[str]) -> str:
    return words[0] if len(words) == 1 else f"{', '.join(words[:-1])} or {words[-1]}"


def of_missing_sign(seen: View, expected: Dict[str, Tuple[grammar.Open, ...]], first: int) -> List[str]:
    """The `;` that is missing in the line before, or the word that ends an open form."""
    before = seen.tokens[seen.k - 1] if seen.k else None
    here = seen.token.at if seen.token else len(seen.text)
    if ";" in expected and before and seen.row(before.at) < seen.row(here):
        return [f"perhaps `;` is missing at the end of line {seen.row(before.at)}, after `{before.text}`"]
    notes = []
    for end in ENDS.values():
        if end in expected:
            opened = seen.tokens[first + expected[end][-1].start]
            begun = opener(seen, first + expected[end][-1].start)
            if seen.token and seen.token.text in (*ENDS.values(), "ENDMODULE", "PROC", "FUNC", "TRAP", "ELSE", "ELSEIF", "CASE", "DEFAULT"):
                notes.append(f"perhaps {end} is missing: the {begun} of line {seen.row(opened.at)} is still open here")
    return notes


def opener(seen: View, k: int) -> str:
    """The word that begins an open form."""
    token = seen.tokens[k]
    return seen.tokens[k + 1].text if token.text == "LOCAL" and k + 1 < len(seen.tokens) else token.text


def of_missing_form(seen: View, expected: Dict[str, Tuple[grammar.Open, ...]]) -> List[str]:
    """What to write instead of a form of RAPID that is not supported, by the token at the place and those around it."""
    here = seen.token.text if seen.token else ""
    before = seen.tokens[seen.k - 1].text if seen.k else ""
    in_head = ")" in expected and any(it.rule in ("params", "param") for stack in expected.values() for it in stack)
    if here == "," and "}" in expected:
        return manual.notes_on("arrays of two")
    if here == "{" and in_head:
        return manual.notes_on("num a{*}")
    if here == "\\" and (in_head or is_head_open(seen)):
        return manual.notes_on("\\num x")
    if here == "(" and before == "ERROR":
        return manual.notes_on("ERROR (1, 2)")
    if here in ("<", "*") and (grammar.starters("expr") <= set(expected) or grammar.starters("stmt") <= set(expected)):
        return manual.notes_on("<EXP>")
    if here == "NOT":
        return ["NOT may stand only at the start of an expression: write `(NOT ...)` here"]
    if here in ("+", "-") and grammar.starters("primary") <= set(expected):
        return manual.notes_on("a * -b")
    return []


def is_head_open(seen: View) -> bool:
    """Whether the place is right after the parenthesis or a comma of a routine's head."""
    opening = next((k for k in range(seen.k - 1, -1, -1) if seen.tokens[k].text in ("(", ")", ";")), 0)
    head = [it.text for it in seen.tokens[max(opening - 3, 0) : opening]]
    return seen.tokens[opening].text == "(" and any(it in ("PROC", "FUNC") for it in head)
