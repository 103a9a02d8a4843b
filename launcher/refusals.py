"""A refusal of the program, read from its line on standard error."""
import enum
import re
from dataclasses import dataclass
from typing import Optional


class Kind(enum.Enum):
    WORDS = "words"
    SCRIPT = "script"
    MODULE = "module"
    READ = "read"
    LONG = "long"
    MEMORY = "memory"
    WRITE = "write"
    HISTORY = "history"


@dataclass(frozen=True)
class Refusal:
    """What the program refused.

    `name` is a file as the script or the caller spells it (module, read, long), `row` and `column` count from 1 and columns
    count bytes (module; of history only the row), `rule` is a rule's name (module, script), `key` a key of the script (script), and `place` the place
    of a word, from 0 (words).
    """

    kind: Kind
    name: bytes = b""
    row: int = 0
    column: int = 0
    rule: str = ""
    key: str = ""
    place: int = -1


FORMS = re.compile(
    rb"^rapid_cell: (?:"
    rb"module (?P<module>.*) (?P<row>\d+):(?P<column>\d+) (?P<rule>\w+)"
    rb"|script (?P<key>.*) (?P<broken>\w+)"
    rb"|words (?P<place>\d+)"
    rb"|read (?P<read>.*)"
    rb"|long (?P<long>.*)"
    rb"|history (?P<line>\d+)"
    rb"|(?P<alone>memory|write)"
    rb")\n\Z",
    re.M | re.S,
)


def parse(said: bytes) -> Optional[Refusal]:
    """The refusal that standard error ends with, or None."""
    found = FORMS.search(said)
    if not found:
        return None
    if found["module"] is not None:
        row, column = int(found["row"]), int(found["column"])
        return Refusal(Kind.MODULE, name=found["module"], row=row, column=column, rule=found["rule"].decode())
    if found["key"] is not None:
        return Refusal(Kind.SCRIPT, key=found["key"].decode(errors="replace"), rule=found["broken"].decode())
    if found["place"] is not None:
        return Refusal(Kind.WORDS, place=int(found["place"]))
    if found["read"] is not None:
        return Refusal(Kind.READ, name=found["read"])
    if found["long"] is not None:
        return Refusal(Kind.LONG, name=found["long"])
    if found["line"] is not None:
        return Refusal(Kind.HISTORY, row=int(found["line"]))
    return Refusal(Kind(found["alone"].decode()))


def line_of(refusal: Refusal) -> bytes:
    """The program's line of a refusal."""
    told = {
        Kind.WORDS: b"words %d" % refusal.place,
        Kind.SCRIPT: b"script %s %s" % (refusal.key.encode(errors="replace"), refusal.rule.encode()),
        Kind.MODULE: b"module %s %d:%d %s" % (refusal.name, refusal.row, refusal.column, refusal.rule.encode()),
        Kind.READ: b"read %s" % refusal.name,
        Kind.LONG: b"long %s" % refusal.name,
        Kind.HISTORY: b"history %d" % refusal.row,
    }.get(refusal.kind, refusal.kind.value.encode())
    return b"rapid_cell: %s\n" % told
