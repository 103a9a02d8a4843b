"""Strings, numbers, truth values and dates of a TOML text, as the program reads them: by TOML 1.1.

A value that a cell has no use for, a float or a date, is None here.
"""
import calendar
import re
from typing import List, Tuple, Union

Plain = Union[str, int, bool, None]

# What stands for itself in a string, by its quote and by whether it may have several lines.
RUNS = {
    (b'"', False): re.compile(rb"[\t !#-\[\]-~\x80-\xff]*"),
    (b'"', True): re.compile(rb"[\t\n !#-\[\]-~\x80-\xff]*"),
    (b"'", False): re.compile(rb"[\t -&(-~\x80-\xff]*"),
    (b"'", True): re.compile(rb"[\t\n -&(-~\x80-\xff]*"),
}
ESCAPE = re.compile(rb'\\(?:([bfnrte"\\])|x([0-9A-Fa-f]{2})|u([0-9A-Fa-f]{4})|U([0-9A-Fa-f]{8}))')
# A backslash at the end of a line leaves out what is blank up to the next text.
JOINED = re.compile(rb"\\[ \t]*\r?\n(?:[ \t\n]|\r\n)*")
MEANT = {b"b": b"\b", b"f": b"\f", b"n": b"\n", b"r": b"\r", b"t": b"\t", b"e": b"\x1b", b'"': b'"', b"\\": b"\\"}
FIRST_LINE = re.compile(rb"\r?\n")
QUOTES = re.compile(rb"\"+|'+")

# A space before a digit joins a date and a time.
WORD = re.compile(rb"[A-Za-z0-9_.:+-]+(?: (?=[0-9])[A-Za-z0-9_.:+-]+)?")
DECIMAL = re.compile(rb"[+-]?(?:0|[1-9](?:_?[0-9])*)(\.[0-9](?:_?[0-9])*)?([eE][+-]?[0-9](?:_?[0-9])*)?")
OF_RADIX = (
    (16, re.compile(rb"0x([0-9A-Fa-f](?:_?[0-9A-Fa-f])*)")),
    (8, re.compile(rb"0o([0-7](?:_?[0-7])*)")),
    (2, re.compile(rb"0b([01](?:_?[01])*)")),
)
NO_NUMBER = re.compile(rb"[+-]?(?:inf|nan)")
TIME = rb"([01][0-9]|2[0-3]):[0-5][0-9](?::(?:[0-5][0-9]|60)(?:\.[0-9]+)?)?"
OFFSET = rb"(?:[Zz]|[+-](?:[01][0-9]|2[0-3]):[0-5][0-9])?"
DATE = re.compile(rb"([0-9]{4})-([0-9]{2})-([0-9]{2})(?:[Tt ]" + TIME + OFFSET + rb")?")
ONLY_TIME = re.compile(TIME)
# The least integer is -LIMIT. No integer within the limits has more digits.
LIMIT = 2**63
DIGITS = 19


class NoToml(Exception):
    """The text is not TOML at a byte's place."""

    def __init__(self, at: int, cause: str) -> None:
        super().__init__(at, cause)
        self.at, self.cause = at, cause


# Strings


def string(text: bytes, at: int, may_be_long: bool = True) -> Tuple[str, int]:
    """The string whose quote stands at a place, and the place after it. A key's is never one of several lines."""
    quote = text[at : at + 1]
    is_long = may_be_long and text.startswith(quote * 3, at)
    at += 3 if is_long else 1
    found = FIRST_LINE.match(text, at) if is_long else None
    pieces: List[bytes] = []
    at = found.end() if found else at
    while True:
        run = RUNS[quote, is_long].match(text, at)
        assert run
        pieces.append(run[0])
        at = run.end()
        if text.startswith(quote, at):
            count = quotes_at(text, at) if is_long else 0
            if count in (0, 3):
                return b"".join(pieces).decode(errors="surrogateescape"), at + (count or 1)
            if count > 5:
                raise NoToml(at, "more than two quotes within a text in quotes")
        piece, at = special(text, at, quote, is_long)
        pieces.append(piece)


def quotes_at(text: bytes, at: int) -> int:
    found = QUOTES.match(text, at)
    return len(found[0]) if found else 0


def special(text: bytes, at: int, quote: bytes, is_long: bool) -> Tuple[bytes, int]:
    """What a byte stands for that is no plain one of a string, and the place after it."""
    here = text[at : at + 1]
    if is_long and (here == quote or text.startswith(b"\r\n", at)):
        return here, at + 1
    if here == b"\\" and quote == b'"':
        joined = JOINED.match(text, at) if is_long else None
        return (b"", joined.end()) if joined else escaped(text, at)
    if here in (b"", b"\n", b"\r"):
        cause = "a text in quotes is not closed" if is_long else "a text in quotes ends on its line: perhaps a quote is missing"
        raise NoToml(at, cause)
    raise NoToml(at, f"the byte {here[0]:02X} may not stand in a text in quotes")


def escaped(text: bytes, at: int) -> Tuple[bytes, int]:
    found = ESCAPE.match(text, at)
    if not found:
        raise NoToml(at, "no character is written so after a backslash: a backslash itself is `\\\\`")
    if found[1]:
        return MEANT[found[1]], found.end()
    code = int(found[2] or found[3] or found[4], 16)
    if code >= 0x110000 or 0xD800 <= code < 0xE000:
        raise NoToml(at, "no character has this number")
    return chr(code).encode(), found.end()


# Words


def word(text: bytes, at: int) -> Tuple[Plain, int]:
    """The number, the truth value or the date that stands at a place, and the place after it."""
    found = WORD.match(text, at)
    if not found:
        raise NoToml(at, "expected a value")
    if found[0] in (b"true", b"false"):
        return found[0] == b"true", found.end()
    if is_date(found[0]):
        return None, found.end()
    return number(found[0], at), found.end()


def is_date(given: bytes) -> bool:
    found = DATE.fullmatch(given)
    if not found:
        return ONLY_TIME.fullmatch(given) is not None
    year, month, day = (int(it) for it in found.groups()[:3])
    # The calendar's first year is 1, and TOML's is 0, which is a leap year.
    return 1 <= month <= 12 and 1 <= day <= calendar.monthrange(year or 400, month)[1]


def number(given: bytes, at: int) -> Plain:
    for radix, form in OF_RADIX:
        found = form.fullmatch(given)
        if found:
            return within(int(found[1].replace(b"_", b""), radix), at)
    found = DECIMAL.fullmatch(given)
    if not found:
        if NO_NUMBER.fullmatch(given):
            return None
        raise NoToml(at, "this is no number, no truth value and no date; a text stands in quotes")
    plain = given.replace(b"_", b"")
    if found[1] or found[2]:
        if float(plain) in (float("inf"), float("-inf")):
            raise NoToml(at, "this number is too large")
        return None
    return within(int(plain) if len(plain.lstrip(b"+-")) <= DIGITS else LIMIT, at)


def within(size: int, at: int) -> int:
    if not -LIMIT <= size < LIMIT:
        raise NoToml(at, "this number is too large")
    return size
