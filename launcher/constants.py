"""The values of constant expressions: of CONSTs, lengths and initial values, in a task whose modules the program accepts."""
import re
from decimal import ROUND_HALF_UP, Decimal
from typing import Any, Dict, List, NamedTuple, Optional, Sequence

from . import values
from .statements import Datum, Routine, Source
from .tokens import NAME, NUMBER, STRING, Token
from .values import UNIT, OutOfRange, Raised, Value

OPERATORS = {
    "OR": "Or", "XOR": "Xor", "AND": "And", "=": "Equal", "<>": "NotEqual", "<": "Less", ">": "Greater", "<=": "LessEqual",
    ">=": "GreaterEqual", "+": "Add", "-": "Sub", "*": "Mul", "/": "Div", "DIV": "IntDiv", "MOD": "Mod",
}  # fmt: skip
# The binary operators, from the weakest.
LEVELS = (("OR", "XOR"), ("AND",), ("=", "<>", "<", ">", "<=", ">="), ("+", "-"), ("*", "/", "DIV", "MOD"))
SUM = 3
# What a text has in place of a character: a quote or a backslash twice, or a character's code.
ESCAPED = re.compile(r'""|\\\\|\\([0-9A-Fa-f]{2})')
SPEED = re.compile(r"v(\d+)", re.I)
FIXED = {"low": 0, "high": UNIT, "vmax": (5000 * UNIT, 500 * UNIT, 5000 * UNIT, 1000 * UNIT)}
ERRORS = ("err_divzero", "err_strtoolng", "err_alrdycnt", "err_unkino", "err_inomax")
# A value, or a list: the elements of an array, or what stands in brackets.
Held = Any


class Known(NamedTuple):
    """A CONST that is visible, and the names among which its own value is worked out."""

    datum: Datum
    names: "Names"


Names = Dict[str, Known]


class Constants:
    """The CONSTs of a task."""

    def __init__(self, sources: Sequence[Source]) -> None:
        self.found: Dict[int, Held] = {}
        task: Names = {}
        self.modules: List[Names] = []
        for source in sources:
            own: Names = {}
            for it in source.data:
                (own if it.is_local else task)[it.name.lower()] = Known(it, own)
            self.modules.append(own)
        for own in self.modules:
            for name, it in task.items():
                own.setdefault(name, it)

    def names(self, module: int, routine: Optional[Routine] = None) -> Names:
        """The CONSTs that are visible in a module, or in a routine of it."""
        if routine is None:
            return self.modules[module]
        own = dict(self.modules[module])
        own.update({it.name.lower(): Known(it, own) for it in routine.data})
        return own

    def length(self, datum: Datum, names: Names) -> int:
        """How many elements a datum has; 0 if it is no array."""
        return int(self.value(datum.length, names)) // UNIT if datum.length else 0

    def values(self, datum: Datum, names: Names) -> List[Value]:
        """The initial values of a datum, one for each element."""
        if not datum.value:
            return [values.first_value(datum.type)] * max(self.length(datum, names), 1)
        held = Reader(self, datum.value, names).whole()
        return [values.record_of(parts_of(it)) for it in (held if datum.length else [held])]

    def value(self, tokens: Sequence[Token], names: Names) -> Held:
        return Reader(self, tokens, names).whole()

    def of(self, known: Known) -> Held:
        """The value of a CONST, or its elements."""
        key = id(known.datum)
        if key not in self.found:
            held = self.values(known.datum, known.names)
            self.found[key] = held if known.datum.length else held[0]
        return self.found[key]


def parts_of(held: Held) -> List[Value]:
    """The components in brackets, also of brackets in brackets."""
    return [part for it in held for part in parts_of(it)] if isinstance(held, list) else [held]


class Reader:
    """Reads an expression and works it out."""

    def __init__(self, constants: Constants, tokens: Sequence[Token], names: Names) -> None:
        self.constants, self.tokens, self.names, self.k = constants, tokens, names, 0

    def whole(self) -> Held:
        return self.level(0)

    def word(self) -> str:
        return self.tokens[self.k].text if self.k < len(self.tokens) else ""

    def take(self, *words: str) -> str:
        """The next word if it is one of these, or the empty text."""
        found = self.word() if self.word() in words else ""
        self.k += bool(found)
        return found

    def level(self, number: int) -> Held:
        if number == len(LEVELS):
            return self.primary()
        sign = self.take("NOT") if number == 0 else self.take("+", "-") if number == SUM else ""
        found = self.level(number + 1)
        found = not found if sign == "NOT" else -found if sign == "-" else found
        while True:
            operator = self.take(*LEVELS[number])
            if not operator:
                return found
            found = self.between(operator, found, self.level(number + 1))

    def between(self, operator: str, left: Held, right: Held) -> Held:
        try:
            return values.applied(OPERATORS[operator], left, right)
        except (Raised, OutOfRange):
            # Only a right operand that is never evaluated does this where the program accepts the text.
            return 0

    def primary(self) -> Held:
        token = self.tokens[self.k]
        self.k += 1
        if token.text in ("(", "["):
            found = self.listed(")" if token.text == "(" else "]")
            return found[0] if token.text == "(" else found
        if token.kind == NUMBER:
            return literal(token.text)
        if token.kind == STRING:
            return ESCAPED.sub(lambda it: chr(int(it[1], 16)) if it[1] else it[0][0], token.text[1:-1])
        if token.text in ("TRUE", "FALSE"):
            return token.text == "TRUE"
        return self.place(token.text.lower()) if token.kind == NAME else 0

    def listed(self, closing: str) -> List[Held]:
        """Expressions up to a closing sign."""
        found = [self.level(0)]
        while self.take(","):
            found.append(self.level(0))
        self.take(closing)
        return found

    def place(self, name: str) -> Held:
        held = self.constants.of(self.names[name]) if name in self.names else predefined(name)
        if self.take("{"):
            index = int(self.level(0)) // UNIT
            self.take("}")
            held = held[index - 1]
        while self.take("."):
            held = values.part(held, self.word())
            self.k += 1
        return held


def predefined(name: str) -> Value:
    speed = SPEED.fullmatch(name)
    if speed:
        return (int(speed[1]) * UNIT, 500 * UNIT, 5000 * UNIT, 1000 * UNIT)
    return (values.ERR_DIVZERO + ERRORS.index(name)) * UNIT if name in ERRORS else FIXED[name]


def literal(text: str) -> int:
    if text[:2].lower() in ("0x", "0o", "0b"):
        return int(text, 0) * UNIT
    return int((Decimal(text) * UNIT).to_integral_value(ROUND_HALF_UP))
