"""What the conversion of a task keeps: its names, the signals that it uses, what the generated module gets, the report."""
import re
import unicodedata
from dataclasses import dataclass, field
from typing import Dict, List, Optional, Set, Tuple

from .flow import Flow
from .library import MODULE, Library
from .model import Added, Backup, Signal, Task
from .names import Names, Text
from .reading import Reading
from .report import GUESSED, Report
from .tree_items import Routine

LONGEST = 32
WORD = re.compile(r"[^\W\d]\w*")
# The signals of the cell that the library names: they end waits, and start a task that stopped.
SIGNALS = {"timeout_TASK": "di", "timed_out_TASK": "do", "start_TASK": "di"}
# The errors that the library raises.
ERRORS = ("ERR_WAIT_MAXTIME",)
# Letters that are two in plain spelling.
SPELLED = {"ä": "ae", "ö": "oe", "ü": "ue", "Ä": "Ae", "Ö": "Oe", "Ü": "Ue", "ß": "ss", "å": "a", "Å": "A", "æ": "ae", "ø": "o", "Æ": "Ae", "Ø": "O"}


@dataclass
class Job:
    """The conversion of one task. `signals` are those of the backup by their names in small letters."""

    backup: Backup
    task: Task
    names: Names
    reading: Reading
    report: Report
    library: Library
    used: Set[str] = field(default_factory=set)
    added: Dict[str, Added] = field(default_factory=dict)
    # The names of data that a record became, and of names that were too long, by what they stand for.
    flat: Dict[Tuple[str, ...], str] = field(default_factory=dict)
    taken: Set[str] = field(default_factory=set)
    # Signals that are passed as arguments, by their numbers from 1; work objects that are passed.
    passed: List[str] = field(default_factory=list)
    # What triggers do, by their numbers from 1; whether a move fires one.
    triggers: List[str] = field(default_factory=list)
    fires: bool = False
    # The numbers that the modules raise; the tools that moves name; the list of the first SyncMoveOn.
    raised: Set[int] = field(default_factory=set)
    tools: Dict[str, str] = field(default_factory=dict)
    sync_list: Optional[str] = None
    # The main that is run again and again, by a background task.
    repeated: Optional[Routine] = None
    # What other tasks write, in small letters; whether a loop of the task only looks.
    others: Set[str] = field(default_factory=set)
    is_polling: bool = False
    # The signals that AliasIO gives another name, by that name, in small letters.
    aliases: Dict[str, str] = field(default_factory=dict)
    # What is done with signals by their numbers.
    supplied: Set[str] = field(default_factory=set)
    # Declared error numbers that BookErrNo gave.
    booked: Dict[str, int] = field(default_factory=dict)
    once: Set[str] = field(default_factory=set)

    def __post_init__(self) -> None:
        self.flow = Flow(self.names)
        self.is_converted = any(it.name.lower() == MODULE for it in self.names.texts)
        for text in self.names.texts:
            self.taken.update(it.lower() for it in WORD.findall(text.characters))

    # Signals

    def signal(self, name: str) -> Optional[Signal]:
        """The signal of a name, which the cell then has."""
        small = self.aliases.get(name.lower(), name.lower())
        found = self.backup.signals.get(small)
        if found:
            self.used.add(small)
        return found

    def guess(self, text: Text, line: int, name: str, kind: str) -> Signal:
        """A signal that modules use and EIO.cfg lacks."""
        found = Signal(name, kind, 0, 8 if kind in ("GI", "GO") else 1, is_guessed=True)
        self.backup.signals[name.lower()] = found
        self.used.add(name.lower())
        self.report.add(GUESSED, self.task.name, text.name, line, f"{name} is a signal of type {kind}, which EIO.cfg does not have")
        return found

    def add_signal(self, name: str, kind: str) -> str:
        """A signal that the cell has besides those of the backup."""
        self.added.setdefault(name.lower(), Added(name, kind))
        return name

    def number_of(self, signal: str) -> int:
        """The number of a signal that is passed as an argument."""
        small = signal.lower()
        if small not in self.passed:
            self.passed.append(small)
        return self.passed.index(small) + 1

    def need(self, name: str) -> str:
        """Takes an item of the library, with the signals that it names; gives its name."""
        before = len(self.library.items)
        found = self.library.need(name)
        for text in list(self.library.items.values())[before:]:
            for error in ERRORS:
                if error in text:
                    self.error(error)
            for signal, kind in SIGNALS.items():
                if re.search(rf"\b{self.library.spelled(signal)}\b", text):
                    self.add_signal(self.library.spelled(signal), kind)
        return found

    # Errors

    def error(self, name: str) -> str:
        """The name of an error of RAPID, a constant of the generated module."""
        if name.lower() not in self.library.declared:
            self.library.add(name, f"CONST errnum {name}:={self.error_number(name)};")
        return name

    def error_number(self, name: str) -> int:
        """The number of an error: from 1 on, without those that the modules raise by number."""
        small = name.lower()
        if small not in self.booked:
            free = (it for it in range(1, 91) if it not in self.raised and it not in self.booked.values())
            self.booked[small] = next(free, 90)
        return self.booked[small]

    # Triggers and timers

    def trigger(self, done: str) -> int:
        """The number of a trigger that does this, from 1."""
        if done not in self.triggers:
            self.triggers.append(done)
        return self.triggers.index(done) + 1

    def fire(self) -> str:
        self.fires = True
        return "abb_trigger"

    def timer(self, interrupt: str) -> str:
        """The input that stands for the timer of an interrupt."""
        return self.add_signal(f"timer_{plain(interrupt)}", "di")

    # Names

    def of_parts(self, *parts: str) -> str:
        """The name of the datum for a component of a record: the same for the same parts."""
        key = tuple(it.lower() for it in parts)
        if key not in self.flat:
            self.flat[key] = self.free("_".join(plain(it) for it in parts))
        return self.flat[key]

    def free(self, name: str) -> str:
        """A name that no module of the task has, as near to this one as can be."""
        found, count = name[:LONGEST], 1
        while found.lower() in self.taken:
            count += 1
            found = f"{name[: LONGEST - 3]}_{count}"
        self.taken.add(found.lower())
        return found

    def tell_once(self, kind: str, text: Text, line: int, key: str, told: str) -> None:
        """Adds an entry to the report the first time that a task gives cause for it."""
        if key not in self.once:
            self.once.add(key)
            self.report.add(kind, self.task.name, text.name, line, told)


def plain(text: str) -> str:
    """A text in characters from space to `~`: letters without accents, `?` for what has no such spelling."""
    if text.isascii() and text.isprintable():
        return text
    return "".join(plain_letter(it) for it in text)


def plain_letter(letter: str) -> str:
    if " " <= letter <= "~":
        return letter
    found = SPELLED.get(letter) or unicodedata.normalize("NFKD", letter).encode("ascii", "ignore").decode()
    return found if found and found.isprintable() else " " if letter < " " else "?"
