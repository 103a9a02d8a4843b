"""The tokens of a module's text, as docs/LANGUAGE.md has them ("Lexical elements").

Bytes that begin no token and no gap are passed over, and so is a string without its end: the program refuses such a text itself.
"""
import bisect
import re
from dataclasses import dataclass
from typing import Iterator, List

RESERVED = frozenset(
    "ALIAS AND BACKWARD CASE CONNECT CONST DEFAULT DIV DO ELSE ELSEIF ENDFOR ENDFUNC ENDIF ENDMODULE ENDPROC ENDRECORD ENDTEST "
    "ENDTRAP ENDWHILE ERROR EXIT FALSE FOR FROM FUNC GOTO IF INOUT LOCAL MOD MODULE NOSTEPIN NOT NOVIEW OR PERS PROC RAISE "
    "READONLY RECORD RETRY RETURN STEP SYSMODULE TASK TEST THEN TO TRAP TRUE TRYNEXT UNDO VAR VIEWONLY WHILE WITH XOR".split()
)
NAME, WORD, NUMBER, STRING, MARK = "name", "word", "number", "string", "mark"
HEAD = re.compile(rb"(?:\xef\xbb\xbf)?[\t\n\f\r ]*(?:%%%.*?%%%)?", re.S)
TOKEN = re.compile(
    rb"(?P<gap>[\t\n\f\r ]+|![^\n]*)"
    rb"|(?P<name>[A-Za-z][A-Za-z0-9_]*)"
    rb"|(?P<number>0[xX][0-9A-Fa-f]+|0[oO][0-7]+|0[bB][01]+|(?:[0-9]+\.?[0-9]*|\.[0-9]+)(?:[Ee][+-]?[0-9]+)?)"
    rb'|(?P<string>"(?:""|\\\\|\\[0-9A-Fa-f]{2}|[^"\\\n\r])*")'
    rb"|(?P<mark>:=|<=|>=|<>|[{}\[\]().,;:=<>+\-*/\\?])"
    rb"|(?P<none>.)",
    re.S,
)


@dataclass(frozen=True)
class Token:
    """A token: its kind, its bytes, and the place of its first byte. The text of a reserved word is in capitals."""

    kind: str
    text: str
    at: int

    @property
    def end(self) -> int:
        return self.at + len(self.text)

    def is_name(self, name: str) -> bool:
        return self.kind == NAME and self.text.lower() == name.lower()


def tokens_of(text: bytes) -> List[Token]:
    return list(tokens_in(text))


def tokens_in(text: bytes) -> Iterator[Token]:
    head = HEAD.match(text)
    for found in TOKEN.finditer(text, head.end() if head else 0):
        kind = found.lastgroup
        if kind in ("gap", "none") or kind is None:
            continue
        spelled = found[0].decode("latin-1")
        if kind == NAME and spelled.upper() in RESERVED:
            yield Token(WORD, spelled.upper(), found.start())
        else:
            yield Token(kind, spelled, found.start())


def index_at(tokens: List[Token], at: int) -> int:
    """The number of the token at a byte, of the first one after it, or of all tokens."""
    return bisect.bisect_left([it.at for it in tokens], at)


def is_gap(text: bytes) -> bool:
    """Whether bytes, such as those between two tokens, are only blanks and comments."""
    return not text or all(it.lastgroup == "gap" for it in TOKEN.finditer(text))
