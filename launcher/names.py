"""The names of a cell's modules: what a module declares, what is predefined, and the nearest ones to a name that is neither."""
import difflib
import functools
import re
from dataclasses import dataclass
from typing import Dict, Iterable, Iterator, List, Optional, Sequence, Tuple

from . import tables
from .places import LANGUAGE
from .tokens import NAME, Token

TYPE, DATA, FUNCTION, INSTRUCTION = "type", "data", "function", "instruction"
COMPONENTS: Dict[str, Tuple[str, ...]] = {
    "robjoint": tuple(f"rax_{k}" for k in range(1, 7)),
    "extjoint": tuple(f"eax_{k}" for k in "abcdef"),
    "jointtarget": ("robax", "extax"),
    "speeddata": ("v_tcp", "v_ori", "v_leax", "v_reax"),
    "tasks": ("taskname",),
}
# The types that have no values.
VALUELESS = frozenset(("intnum", "syncident", "shapedata", "wztemporary", "wzstationary"))
# What a label follows, besides a routine's head.
BEFORE_LABEL = frozenset("; : THEN ELSE DO ENDIF ENDFOR ENDWHILE ENDTEST ERROR )".split())
# The calls that take the name of a signal, with the kind that it has.
OF_SIGNALS = {"set": "do", "reset": "do", "setdo": "do", "waitdo": "do", "isignaldo": "do", "doutput": "do"}
OF_SIGNALS.update({"waitdi": "di", "isignaldi": "di", "testdi": "di"})
ROUTINES = {"PROC": "ENDPROC", "FUNC": "ENDFUNC", "TRAP": "ENDTRAP"}


@dataclass(frozen=True)
class Declared:
    """A declared name.

    `kind` is MODULE, CONST, VAR, PERS, PROC, FUNC, TRAP, PARAM, FOR or LABEL; `type` the name of its type, or of a function's result;
    `at` the place of its first byte; `start` and `end` are the places between which it is visible in its module, or None if
    the whole task sees it; a LOCAL item is seen in its whole module.
    """

    name: str
    kind: str
    type: str
    at: int
    start: Optional[int] = None
    end: Optional[int] = None


def declared(tokens: Sequence[Token]) -> List[Declared]:
    """The names that a module declares, in the order of its text. The module may be refused."""
    return list(Scan(tokens).names())


class Scan:
    def __init__(self, tokens: Sequence[Token]) -> None:
        self.tokens = tokens
        self.whole = (0, tokens[-1].end if tokens else 0)
        # The places of the routine that the scan is in.
        self.routine: Optional[Tuple[int, int]] = None

    def names(self) -> Iterator[Declared]:
        for k, token in enumerate(self.tokens):
            text = token.text
            if text in ROUTINES:
                self.routine = (token.at, self.end_of(k, ROUTINES[text]))
                yield from self.routine_at(k)
            elif text in ROUTINES.values():
                self.routine = None
            elif text in ("CONST", "VAR", "PERS") and self.are_names(k + 1, k + 2) and not self.is_param(k):
                yield self.made(k + 2, text, self.tokens[k + 1].text, k)
            elif text == "FOR" and self.are_names(k + 1):
                end = self.end_of(k, "ENDFOR")
                yield Declared(self.tokens[k + 1].text, "FOR", "num", self.tokens[k + 1].at, token.at, end)
            elif text == "MODULE" and self.are_names(k + 1):
                yield Declared(self.tokens[k + 1].text, "MODULE", "", self.tokens[k + 1].at)
            elif text == ":" and k > 1 and self.are_names(k - 1) and self.tokens[k - 2].text in BEFORE_LABEL:
                yield self.made(k - 1, "LABEL", "", k)

    def routine_at(self, k: int) -> Iterator[Declared]:
        """A routine's name, and its parameters."""
        is_function = self.tokens[k].text == "FUNC"
        at = k + 1 + is_function
        if not self.are_names(at):
            return
        is_local = k > 0 and self.tokens[k - 1].text == "LOCAL"
        visible = self.whole if is_local else (None, None)
        name = self.tokens[at]
        yield Declared(name.text, self.tokens[k].text, self.tokens[k + 1].text if is_function else "", name.at, *visible)
        if at + 1 < len(self.tokens) and self.tokens[at + 1].text == "(":
            yield from self.params(at + 2)

    def params(self, k: int) -> Iterator[Declared]:
        while k < len(self.tokens) and self.tokens[k].text != ")" and self.tokens[k].text not in ROUTINES.values():
            if self.are_names(k, k + 1):
                yield self.made(k + 1, "PARAM", self.tokens[k].text, k)
                k += 1
            k += 1

    def made(self, name: int, kind: str, sort: str, k: int) -> Declared:
        is_local = any(it.text == "LOCAL" for it in self.tokens[max(k - 1, 0) : k])
        visible = self.routine or (self.whole if is_local else (None, None))
        return Declared(self.tokens[name].text, kind, sort, self.tokens[name].at, *visible)

    def is_param(self, k: int) -> bool:
        """Whether a word such as VAR stands before a parameter."""
        return k > 0 and self.tokens[k - 1].text in ("(", ",")

    def are_names(self, *places: int) -> bool:
        return all(k < len(self.tokens) and self.tokens[k].kind == NAME for k in places)

    def end_of(self, k: int, word: str) -> int:
        """The place after the word that ends what begins at a token, or the text's end."""
        depth = 0
        for token in self.tokens[k:]:
            if token.text == self.tokens[k].text:
                depth += 1
            elif token.text == word:
                depth -= 1
                if depth == 0:
                    return token.end
        return self.whole[1]


@functools.lru_cache(maxsize=None)
def predefined() -> Dict[str, str]:
    """Each name that is predefined, as it is spelled, with its kind."""
    found: Dict[str, str] = {}
    for row in tables.rows():
        if row.place.endswith(", Data types"):
            found.update({name: TYPE for name in tables.codes(row.cells[0][1])})
        elif row.cells[0][0] == "Data":
            found.update({name: DATA for name in tables.codes(row.cells[0][1])})
    text = LANGUAGE.read_text(encoding="utf-8")
    for kind in (FUNCTION, INSTRUCTION):
        listed = re.search(rf"^- {kind.capitalize()}s: (.*)$", text, re.M)
        found.update({name: kind for name in tables.codes(listed[1])} if listed else {})
    return found


def nearest(name: str, names: Iterable[str], most: int = 3) -> List[str]:
    """The names that a name was perhaps meant to be, the nearest first."""
    by_small = {it.lower(): it for it in names}
    found = difflib.get_close_matches(name.lower(), by_small, most, 0.7)
    return [by_small[it] for it in found]


# What a name stands for

AS_TYPE, AS_INSTRUCTION, AS_FUNCTION, AS_COMPONENT, AS_VALUE = "type", "instruction", "function", "component", "value"
BEFORE_TYPE = frozenset("CONST VAR PERS INOUT FUNC".split())
BEFORE_STATEMENT = BEFORE_LABEL | {"THEN", "ENDIF"}


def use_of(tokens: Sequence[Token], k: int) -> str:
    """What a name is used as where it stands."""
    before = tokens[k - 1].text if k else ""
    after = tokens[k + 1] if k + 1 < len(tokens) else None
    if before == ".":
        return AS_COMPONENT
    if before in BEFORE_TYPE or (before in ("(", ",") and after and after.kind == NAME):
        return AS_TYPE
    if after and after.text == "(":
        return AS_FUNCTION
    if (before in BEFORE_STATEMENT or before in ROUTINES.values()) and after and after.text not in (":=", "{", "."):
        return AS_INSTRUCTION
    if after and (after.kind == NAME or after.text == "\\") and before not in (",", ":="):
        return AS_INSTRUCTION
    return AS_VALUE


def suited(use: str, kinds: Dict[str, str]) -> List[str]:
    """The predefined names that suit a use."""
    wanted = {
        AS_TYPE: (TYPE,),
        AS_INSTRUCTION: (INSTRUCTION,),
        AS_FUNCTION: (FUNCTION,),
        AS_VALUE: (DATA, FUNCTION),
    }.get(use, ())
    return [name for name, kind in kinds.items() if kind in wanted]


def suited_declared(use: str, names: Iterable[Declared], at: int) -> List[Declared]:
    """The declared names that suit a use and that are visible at a place of their module."""
    wanted = {
        AS_INSTRUCTION: ("PROC",),
        AS_FUNCTION: ("FUNC",),
        AS_VALUE: ("CONST", "VAR", "PERS", "PARAM", "FOR", "FUNC", "LABEL", "TRAP"),
    }.get(use, ())
    return [it for it in names if it.kind in wanted and (it.start is None or it.start <= at <= (it.end or 0))]
