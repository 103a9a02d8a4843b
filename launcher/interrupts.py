"""The interrupts of the tasks along a run: what they are ordered on, and how often they are due."""
from dataclasses import dataclass
from typing import Dict, List, Optional, Tuple

from .history import Event

ASKED = frozenset("Connect Order Sleep Watch Delete Disable Enable".split())
STORED = frozenset("ReadP WriteP TestSet".split())


@dataclass
class Interrupt:
    """An interrupt: the number of its TRAP among the routines, what it is ordered on, as `D0 1` or `P0`, whether it fires only once,
    whether it sleeps, and how often it waits in the queue."""

    trap: int
    watched: str = ""
    is_single: bool = False
    sleeps: bool = False
    waiting: int = 0


class Interrupts:
    """The interrupts of each task by their numbers, and the event by which a task disabled its own, if it did."""

    def __init__(self) -> None:
        self.of: Dict[str, Dict[int, Interrupt]] = {}
        self.disabled: Dict[str, Optional[int]] = {}
        self.values: Dict[str, str] = {}

    def take(self, event: Event, number: int, changes: List[Tuple[int, int]]) -> None:
        """Goes on by an event, with its number and the signals that it changed."""
        if event.kind in ASKED:
            self.ask(event, event.request.split(), self.of.setdefault(event.actor, {}), number)
        elif event.answer.startswith("Trap "):
            self.of[event.actor][int(event.answer.split()[1])].waiting -= 1
        for signal, value in changes:
            self.fire(f"D{signal} {value}")
        if event.kind in STORED:
            self.store(event, event.request.split(" ", 2))

    def ask(self, event: Event, words: List[str], own: Dict[int, Interrupt], number: int) -> None:
        if event.kind == "Connect" and event.answer.startswith("Number "):
            own[int(event.answer.split()[1])] = Interrupt(int(words[2]))
        elif event.kind in ("Disable", "Enable"):
            self.disabled[event.actor] = number if event.kind == "Disable" else None
        elif event.answer == "Ok":
            it = own[int(words[1])]
            if event.kind == "Order":
                it.is_single = words[-1] == "Single"
                it.watched = " ".join(words[2 : len(words) - it.is_single])
            elif event.kind == "Delete":
                del own[int(words[1])]
            else:
                it.sleeps = event.kind == "Sleep"

    def store(self, event: Event, words: List[str]) -> None:
        """A value of a persistent, which may be another one than before."""
        new = event.answer if event.kind == "ReadP" else words[2] if event.kind == "WriteP" else "TRUE"
        if event.kind == "TestSet" and event.answer == "FALSE":
            return
        if event.kind != "ReadP" and self.values.get(words[1]) != new:
            self.fire(words[1].partition("{")[0].partition(".")[0])
        self.values[words[1]] = new

    def fire(self, change: str) -> None:
        for own in self.of.values():
            for it in own.values():
                if it.watched == change and not it.sleeps:
                    it.waiting += 1
                    if it.is_single:
                        it.watched = ""
