"""The lines of a history, as `round --history` and `run --history` print them: H for an event, E for how a task ended."""
import re
from typing import NamedTuple, Tuple

# Who causes the events of the input script.
INPUTS = "-"
SAY = re.compile(r'Say "((?:[^"\\]|""|\\\\)*)"(?: (.+))?')
DOUBLED = re.compile(r'(["\\])\1')


class Event(NamedTuple):
    """An event: the task that asks, or `-`, the first word of what it asks, the request and the answer in the words of its line."""

    actor: str
    kind: str
    request: str
    answer: str


def event_of(line: str) -> Event:
    """The event of a line H."""
    _, actor, words = line.split(" ", 2)
    return asked(actor, words)


def asked(actor: str, words: str) -> Event:
    """The event of a request and its answer. A text in one of them may have the sign between them: one that is read is an answer, all
    others are in requests."""
    kind = words.partition(" ")[0]
    request, _, answer = words.partition(" > ") if kind == "ReadP" else words.rpartition(" > ")
    return Event(actor, kind, request, answer)


def end_of(line: str) -> Tuple[str, str]:
    """The task and the fate of a line E."""
    _, task, fate = line.split(" ", 2)
    return task, fate


def said_by(request: str) -> str:
    """The text of a Say as the operator sees it: with its num or its truth value right after it."""
    found = SAY.fullmatch(request)
    return DOUBLED.sub(r"\1", found[1]) + (found[2] or "") if found else ""
