"""The reserved words and the marks: their forms, from the grammar, and what the words mean, from reserved.txt."""
import functools
import re
from dataclasses import dataclass
from typing import Dict, Iterator, List, Optional

from . import grammar
from .places import RESERVED as FILE
from .tokens import RESERVED


@dataclass(frozen=True)
class Form:
    """A reserved word or a mark: the rules of the grammar that have it, and what it means, if that is said."""

    name: str
    means: str

    def lines(self) -> Iterator[str]:
        yield f"  {'Word' if self.name in RESERVED else 'Mark'}: {self.name}"
        for n, form in enumerate(forms_with(self.name)):
            yield f"  {'Form:' if n == 0 else '     '} {form}"
        if self.means:
            yield f"  Meaning: {self.means}"


def find(word: str) -> Optional[Form]:
    if word.upper() in RESERVED:
        return Form(word.upper(), meanings()[word.upper()])
    return Form(word, "") if word in marks() else None


@functools.lru_cache(maxsize=None)
def meanings() -> Dict[str, str]:
    lines = FILE.read_text(encoding="utf-8").splitlines()
    return {word: rest for word, _, rest in (line.partition(" ") for line in lines if not line.startswith("#"))}


@functools.lru_cache(maxsize=None)
def marks() -> List[str]:
    return sorted({it for text in grammar.rules().values() for it in re.findall(r'"([^"]+)"', text)})


def forms_with(name: str) -> List[str]:
    """The alternatives of the grammar's rules that have a word or a mark."""
    sign = re.compile(rf"(?<![A-Z]){name}(?![A-Z])" if name.isalpha() else re.escape(f'"{name}"'))
    return [
        f"{rule} = {option}"
        for rule, text in grammar.rules().items()
        if rule != "items"
        for option in alternatives(text)
        if sign.search(option)
    ]


def alternatives(text: str) -> List[str]:
    """The parts of a rule between the marks `|` that are in no brackets."""
    options, depth = [""], 0
    for sign in re.findall(r'"[^"]+"|\s+|[^\s"]', text):
        depth += (sign in "[{(") - (sign in ")}]") if len(sign) == 1 else 0
        if sign == "|" and depth == 0:
            options.append("")
        else:
            options[-1] += " " if sign.isspace() else sign
    return [it.strip() for it in options]
