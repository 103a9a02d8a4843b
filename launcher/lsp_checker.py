"""Checks a cell whenever its files or an editor's buffers change, on a thread of its own."""
import subprocess
import sys
import threading
import time
import traceback
from pathlib import Path
from typing import Callable, Dict, List, Mapping, Optional, Tuple

from . import faults, program
from .asked import MOST
from .checks import Check, check
from .lsp_diagnostics import Diagnostic, diagnostic
from .lsp_files import Files, stamps
from .places import TOP
from .program import Program
from .texts import Cell

# Seconds of quiet after a change before a check starts, and between two looks at the files on the disk.
QUIET = 0.2
LOOK = 1.0
# Seconds that an end waits for the kit to stop.
LAST = 5.0


class NotWanted(Exception):
    """The texts have changed while they were checked."""


class Search(faults.Search):
    """The search for all errors, which ends with NotWanted once it is no longer wanted."""

    def __init__(self, ready: Program, cell: Cell, changed: Mapping[Path, bytes], is_wanted: Callable[[], bool]) -> None:
        super().__init__(ready, cell, changed, MOST)
        self.is_wanted = is_wanted

    def checked(self) -> Check:
        if not self.is_wanted():
            raise NotWanted
        return super().checked()


class Checker:
    """`found` is called with the diagnostics of the whole cell after each check, and `say` with what the user should know."""

    def __init__(self, files: Files, found: Callable[[List[Diagnostic], Program], None], say: Callable[[str], None]) -> None:
        self.files, self.found, self.say = files, found, say
        self.news = threading.Event()
        # The files of the cell at the last check, and when they were changed last.
        self.watched: List[Path] = []
        self.seen: Optional[Dict[Path, Tuple[int, int]]] = None
        self.is_over = False
        self.changed_at = 0.0
        self.making: "Optional[subprocess.Popen[bytes]]" = None
        self.thread = threading.Thread(target=self.work, daemon=True)

    def start(self) -> None:
        self.thread.start()

    def changed(self) -> None:
        """A buffer has changed: check soon."""
        self.changed_at = time.monotonic()
        self.news.set()

    def end(self) -> None:
        """Stops, with what it started."""
        self.is_over = True
        self.news.set()
        made = self.making
        if made and made.poll() is None:
            # The launcher then stops the kit.
            made.terminate()
            try:
                made.wait(LAST)
            except subprocess.TimeoutExpired:
                made.kill()

    def work(self) -> None:
        ready = self.ready()
        while not ready and not self.is_over:
            time.sleep(LOOK)
            ready = program.proved()
        while ready and not self.is_over:
            if self.news.is_set() or stamps(self.watched) != self.seen:
                self.wait_for_quiet()
                # A program that was proved meanwhile takes the place of the unproved one.
                ready = program.proved() or ready
                self.check_safely(ready)
            self.news.wait(LOOK)

    def check_safely(self, ready: Program) -> None:
        """A fault of this server's own must not end the checks."""
        try:
            self.check(ready)
        except Exception as error:
            traceback.print_exc()
            self.say(f"the cell could not be checked: {error!r}")

    def wait_for_quiet(self) -> None:
        while not self.is_over:
            self.news.clear()
            left = self.changed_at + QUIET - time.monotonic()
            if left <= 0:
                return
            time.sleep(left)

    def check(self, ready: Program) -> None:
        cell, changed = self.files.snapshot()
        self.watched = [self.files.script, *(it.file for it in (cell.modules if cell else []))]
        self.seen = stamps(self.watched)
        if not cell:
            self.say(f"{self.files.script} cannot be read")
            return
        try:
            self.tell(check(ready, cell, changed), cell, changed, ready)
        except (OSError, subprocess.TimeoutExpired) as error:
            self.say(f"the cell could not be checked: {error}")

    def tell(self, told: Check, cell: Cell, changed: Mapping[Path, bytes], ready: Program) -> None:
        """Publishes the first error at once, and then all of them, unless something changes meanwhile."""
        first = diagnostic(told.refusal, cell, changed) if told.refusal else None
        if told.refusal and not first:
            self.say(told.said.decode(errors="replace").strip())
        self.give([first] if first else [], ready)
        if first:
            try:
                found = Search(ready, cell, changed, self.is_wanted).run()
            except NotWanted:
                return
            every = [diagnostic(it.refusal, cell, changed, it.text) for it in found.faults]
            self.give([it for it in every if it], ready)

    def give(self, found: List[Diagnostic], ready: Program) -> None:
        if self.is_wanted():
            self.found(found, ready)

    def is_wanted(self) -> bool:
        """Whether nothing has changed since the check began."""
        return not self.is_over and not self.news.is_set()

    def ready(self) -> Optional[Program]:
        """The program, made first if there is none; None if it cannot be made."""
        found = program.ready()
        if found:
            return found
        self.say("There is no program yet. An unproved one is made now, in a minute or two; then the cell is checked.")
        words = [sys.executable, str(TOP / "rapid_cell"), "--unproved", "check", str(Path(self.files.script).resolve())]
        self.making = subprocess.Popen(words, stdin=subprocess.DEVNULL, stdout=subprocess.DEVNULL, stderr=subprocess.PIPE)
        said = self.making.communicate()[1].decode(errors="replace").strip()
        found = program.ready()
        if not found and not self.is_over:
            self.say(f"There is no program to check the cell with. {said}")
        return found
