"""`examples WORD`: the cells of the examples that show a word. Alone, the index of all of them, which is docs/EXAMPLES.md.

What a cell shows is the first comment of its script or of its module, or else its name in words.
"""
import os
import re
from dataclasses import dataclass
from pathlib import Path
from typing import FrozenSet, Iterator, List, Sequence

from . import actions, names, toml_places
from .places import FIRST_CELL, TOP
from .say import put_out, wrong
from .texts import read_cell
from .tokens import NAME, WORD, tokens_of

EXAMPLES = TOP / "examples"
COMMENT = re.compile(r"(?:#[^\n]*\n)+")
FIRST_OF_MODULE = re.compile(r"MODULE \w+\s*\n((?:\s*![^\n]*\n)+)")
HEAD = (
    "# The examples by what they show\n\n"
    "`./rapid_cell examples WORD` lists those that have a word: an instruction, a function, a type or a word of RAPID, a key of the "
    "script, or a word of this page. What a cell shows is said by the first comment of its script or of its module, or else by its "
    "name. `./rapid_cell examples` prints this page.\n"
)


@dataclass(frozen=True)
class Example:
    """A cell: its folder below `examples`, what it shows, and the words of RAPID and the keys that it has, in small letters."""

    name: str
    says: str
    words: FrozenSet[str]


def examples(words: Sequence[bytes]) -> int:
    if len(words) > 1:
        return wrong("examples takes one word, such as WZDOSet, RETRY or zone")
    every = list(all_examples())
    if not words:
        put_out(page(every))
        return 0
    word = os.fsdecode(words[0])
    found = [it for it in every if shows(it, word.lower())]
    if not found:
        near = actions.nearest(word, known(every))
        return wrong(f"no example shows {word!a}{f': did you mean {near}?' if near else ''}")
    above = FIRST_CELL.partition("examples/")[0]
    put_out("".join(f"{above}examples/{it.name}/cell.toml\n    {it.says}\n" for it in found))
    return 0


def shows(example: Example, word: str) -> bool:
    said = re.findall(r"\w+", f"{example.name.replace('_', ' ')} {example.says}".lower())
    return word in example.words or word in said or word == example.name.lower() or word == example.name.rpartition("/")[2].lower()


def known(every: Sequence[Example]) -> List[str]:
    """The predefined names and the words of RAPID that some example has, as they are usually spelled."""
    used = {word for it in every for word in it.words}
    return [it for it in names.predefined() if it.lower() in used]


def all_examples() -> Iterator[Example]:
    """Each cell of the examples, those with many parts first."""
    scripts = sorted(EXAMPLES.rglob("cell.toml"), key=lambda it: (len(it.parts), it))
    for script in scripts:
        name = script.parent.relative_to(EXAMPLES).as_posix()
        yield Example(name, says_of(script, name), frozenset(words_of(script)))


def says_of(script: Path, name: str) -> str:
    """The first comment of a script or of its module, on one line, or its name in words."""
    found = COMMENT.match(script.read_text(encoding="utf-8"))
    if found:
        return joined(found[0], "# ")
    for module in sorted(script.parent.glob("*.mod")):
        first = FIRST_OF_MODULE.match(module.read_text(encoding="utf-8", errors="replace"))
        if first:
            return joined(first[1], "! ")
    words = name.rpartition("/")[2].replace("_s_", "'s ").replace("_", " ")
    return f"{words[0].upper()}{words[1:]}."


def joined(comment: str, mark: str) -> str:
    return " ".join(it.strip().strip(mark) for it in comment.splitlines()).strip()


def words_of(script: Path) -> Iterator[str]:
    cell = read_cell(script)
    for key in toml_places.keys_of(cell.text):
        yield from (it.lower() for it in key.path if not it.isdigit())
    predefined = {it.lower() for it in names.predefined()}
    for module in cell.modules:
        if module.file.is_file():
            for token in tokens_of(module.file.read_bytes()):
                if token.kind == WORD or (token.kind == NAME and token.text.lower() in predefined):
                    yield token.text.lower()


def page(every: Sequence[Example]) -> str:
    """The index, by the folders of the cells."""
    lines = [HEAD]
    folder = None
    for it in every:
        above = it.name.rpartition("/")[0]
        if above != folder:
            folder = above
            lines.append(f"\n## {f'examples/{above}' if above else 'examples'}\n\n| Cell | Shows |\n|---|---|\n")
        shown = it.says.replace("|", "\\|")
        lines.append(f"| [`{it.name.rpartition('/')[2]}`](../examples/{it.name}) | {shown} |\n")
    return "".join(lines)
