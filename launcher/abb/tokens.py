"""The tokens of a RAPID module. Places count characters of the decoded text from 0."""
import re
from typing import Dict, List, Tuple

from ..tokens import RESERVED
from .model import NotRead

LETTER = "A-Za-z\u00c0-\u00d6\u00d8-\u00f6\u00f8-\u00ff"
TOKEN = re.compile(
    r"(?:[ \t\r\n\f\v\x00]+|![^\n]*)*"
    r"(?:(?P<name>[%s][%s0-9_]*)" % (LETTER, LETTER) + r"|(?P<number>0[xX][0-9A-Fa-f]+|0[oO][0-7]+|0[bB][01]+|(?:[0-9]+\.?[0-9]*|\.[0-9]+)(?:[eE][+-]?[0-9]+)?)"
    r'|(?P<text>"(?:[^"\r\n]|"")*")'
    r"|(?P<hole><(?:TDN|DDN|RDN|PAR|ALT|DIM|SMT|VAR|EIT|CSE|EXP|ARG|ID)>)"
    r"|(?P<mark>:=|<>|<=|>=|[{}\[\](),.;:=<>+\-*/\\?|%])|(?P<end>\Z)|(?P<other>[\s\S]))"
)
HEADER = re.compile(r"\ufeff?\s*%%%[\s\S]*?%%%")
MARKED = re.compile(r"\ufeff?")
# The kinds of a token besides the reserved words and the marks, which are kinds of their own.
NAME, NUMBER, TEXT, HOLE, END = "name", "number", "text", "hole", ""
CALLED = {NAME: "a name", NUMBER: "a number", TEXT: "a string", HOLE: "a placeholder", END: "the end of the text"}


def decoded(text: bytes) -> Tuple[str, str]:
    """The characters of a text and their encoding: UTF-8 if the text is valid UTF-8, and Latin-1 otherwise."""
    try:
        return text.decode("utf-8"), "utf-8"
    except UnicodeDecodeError:
        return text.decode("latin-1"), "latin-1"


class Tokens:
    """The tokens of a text: their kinds, texts and places, and one END after the last."""

    def __init__(self, file: str, text: str, encoding: str) -> None:
        self.file = file
        self.text = text
        self.encoding = encoding
        self.kinds: List[str] = []
        self.texts: List[str] = []
        self.starts: List[int] = []
        self.read()

    def read(self) -> None:
        at = self.after_header()
        kinds, texts, starts, known = self.kinds, self.texts, self.starts, KINDS.copy()
        for it in TOKEN.finditer(self.text, at):
            group = it.lastgroup or ""
            spelled = it[group]
            kind = known.get(spelled)
            if kind is None:
                kind = known[spelled] = self.kind_of(group, spelled, it.start(group))
            kinds.append(kind)
            texts.append(spelled)
            starts.append(it.start(group))
            if not kind:
                return

    def kind_of(self, group: str, spelled: str, at: int) -> str:
        if group == "name":
            word = spelled.upper()
            return word if word in RESERVED else NAME
        if group == "mark":
            return spelled
        if group == "other":
            raise self.refused(at, "the closing quote of a string" if spelled == '"' else "a word, a number, a string or a mark")
        return END if group == "end" else group

    def after_header(self) -> int:
        found = HEADER.match(self.text) or MARKED.match(self.text)
        return found.end() if found else 0

    def refused(self, at: int, expected: str) -> NotRead:
        """The error that something else was expected at a place."""
        start = self.text.rfind("\n", 0, at) + 1
        column = len(self.text[start:at].encode(self.encoding, "replace")) + 1
        return NotRead(self.file, self.text.count("\n", 0, at) + 1, column, f"expected {expected}")


# The kinds of spellings that are met most.
KINDS: Dict[str, str] = {it: it for it in RESERVED}
