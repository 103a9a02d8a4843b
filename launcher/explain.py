"""`explain WORD`: what there is to say of a word."""
import functools
import os
import re
from typing import Dict, Iterator, List, Sequence, Set, Tuple

from . import actions, manual, names, reserved
from .places import COMMAND
from .say import put_out, wrong
from .tables import Row, codes, plain, rows
from .tokens import RESERVED

# A place, and the lines below it.
Part = Tuple[str, List[str]]
# Words of the first cells that are no topics.
COMMON = frozenset(
    "about another begins breaks count declared each fast filled first from given have here into later length letters many moves "
    "named number other others over parts place places places row same share side silently some such than that their them then there "
    "they this three values what where which whole with words your".split()
)
# How the answer of a row begins that only says that its names are not supported.
OUTSIDE = "nothing: they are"
OWN_ERROR = "a number of your own: `RAISE {0};` raises it, ERRNO in an ERROR part has it, and the language itself never raises it"
HELP = f"{COMMAND} --help"
LEFT = "`E TASK Fault Unhandled {0}`, if no ERROR part handles it"


def explain(words: Sequence[bytes]) -> int:
    if len(words) != 1:
        return wrong("explain takes one word, such as CornerZone, ZoneStop, 9 or MoveJ")
    word = os.fsdecode(words[0])
    found = list(parts_for(word))
    if not found:
        # Few mistype the first letter; most words that differ there mean something else.
        alike = [it for it in known_words() if it[:1].lower() == word[:1].lower()]
        near = actions.nearest(word, alike) if len(word) > 2 else None
        return wrong(f"nothing is known about the word {word!a}{f': did you mean {near}?' if near else ''}")
    put_out("\n".join("".join(f"{line}\n" for line in (place, *lines)) for place, lines in found))
    return 0


def parts_for(word: str) -> Iterator[Part]:
    """What there is to say of a word: as a reserved word, by the tables, as the number of an error, as a name of RAPID."""
    form = reserved.find(word)
    if form:
        yield "docs/LANGUAGE.md, its grammar", list(form.lines())
    found = rows_for(word)
    for row in found:
        yield row.place, list(row.lines())
    if re.fullmatch(r"[1-9]|[1-8]\d|90", word):
        own = Row("docs/LANGUAGE.md, Error recovery", ["Error", "Cause", "Seen"], [word, OWN_ERROR.format(word), LEFT.format(word)])
        yield own.place, list(own.lines())
    if not found:
        yield from of_launcher(word)
    if all(it.get("Write instead").startswith(OUTSIDE) for it in found):
        for entry in manual.entries_for(word):
            yield "launcher/manual.txt", list(entry.lines())


def of_launcher(word: str) -> Iterator[Part]:
    """What there is to say of a word of the launcher."""
    for it in actions.ACTIONS:
        if it.name == word:
            yield HELP, list(Row(HELP, ["Action", "Does"], [f"{it.name} {it.takes}".strip(), joined(it.does)]).lines())
    for option in actions.OPTIONS:
        if option.name == word:
            yield HELP, list(Row(HELP, ["Option", "Does"], [option.name, joined(option.does)]).lines())


def joined(text: str) -> str:
    return text.replace("\n", " ")


def rows_for(word: str) -> List[Row]:
    """The rows that explain a word: of exactly this spelling, else of another case; else those that have it as a topic."""
    exact, small, topics = index()
    bare = word.lstrip("\\") or word
    for table, key in ((exact, word), (exact, bare), (small, word.lower()), (small, bare.lower())):
        if key in table:
            return table[key]
    return topics.get(word.lower(), [])


def cause_of(word: str) -> str:
    """The cause of a fault, an end or an error, by the documents."""
    return first_cell(word, "Cause")


def instead_of(word: str) -> str:
    """What to write instead."""
    return first_cell(word, "Write instead")


def first_cell(word: str, head: str) -> str:
    return next((plain(cell) for cell in (it.get(head) for it in rows_for(word)) if cell), "")


Index = Dict[str, List[Row]]


@functools.lru_cache(maxsize=None)
def index() -> Tuple[Index, Index, Index]:
    """The rows by their words, by their words in small letters, and by their topics, each row once."""
    exact: Index = {}
    small: Index = {}
    topics: Index = {}
    for row in rows():
        for table, words in (
            (exact, words_of(row)),
            (small, [it.lower() for it in words_of(row)]),
            (topics, topics_of(row)),
        ):
            for word in dict.fromkeys(words):
                table.setdefault(word, []).append(row)
    # Spelled as in a history only: Watch is a request, and watch the launcher's.
    for word, found in history_rows(set(exact)).items():
        exact[word] = found
    return exact, small, topics


def history_rows(taken: Set[str]) -> Index:
    """The rows of a history's lines by the requests and answers in them, except the words that other rows explain."""
    found: Index = {}
    for row in rows():
        for word in history_words(row):
            if word not in taken and row not in found.setdefault(word, []):
                found[word].append(row)
    return found


def history_words(row: Row) -> List[str]:
    """The names of the requests and answers in a row about a line of a history."""
    if not row.cells[0][1].startswith("`H "):
        return []
    parts = [part.split() for it in codes(row.cells[0][1]) for part in it.split(None, 2)[2].split(" > ")]
    parts += [it.split() for it in codes(row.cells[1][1])]
    return [it[0] for it in parts if re.fullmatch(r"[A-Z][A-Za-z]*[a-z][A-Za-z]*", it[0]) and it[0] != "Ok"]


def words_of(row: Row) -> List[str]:
    """The words that a row explains."""
    head, first = row.cells[0]
    bare = [it.lstrip("\\") for it in codes(first)]
    begun = [it.split()[0] for it in bare if it] if head == "Line" else bare
    options = re.findall(r"\\(\w+)", row.get("Arguments"))
    components = [part for name in codes(first) for part in names.COMPONENTS.get(name, ())] if head == "Type" else []
    return [*row.words, *begun, *options, *components]


def topics_of(row: Row) -> List[str]:
    """The words of a row's first cell, outside its code, that name what the row is about."""
    text = re.sub(r"`[^`]*`", "", row.cells[0][1]).lower()
    return [it for it in re.findall(r"[a-z']{4,}", text) if it not in COMMON]


def known_words() -> List[str]:
    """Every word that is explained, each once."""
    found: Dict[str, None] = dict.fromkeys(RESERVED)
    found.update(dict.fromkeys(plain(word) for row in rows() for word in [*words_of(row), *history_words(row)]))
    found.update(dict.fromkeys(it.name for it in manual.read() if it.kind not in manual.PARTS or len(it.name) > 2))
    return sorted(it for it in found if re.fullmatch(r"\w+", it))
