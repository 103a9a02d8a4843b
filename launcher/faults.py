"""All errors of a cell at once, as far as they can be reported honestly.

A check ends at its first error. So a copy of the cell is made without that error, and the copy is checked again. The statement with
the error is left out, or a constant takes the place of the condition in its head; a datum becomes a num, and what is refused because
of that is not reported (`consequences`). Where nothing can be left out, the rest of the module, and the names and types of the tasks
that have it, are not checked further, and the answer says so.
"""
import re
from dataclasses import dataclass, field
from pathlib import Path
from typing import Dict, List, Mapping, Optional

from . import consequences, form_mends, name_mends, names, script_mends
from .asked import RUNS
from .checks import Check, check
from .draft import CannotMend, Draft, Taint, simplify_datum
from .program import Program
from .refusals import Kind, Refusal
from .texts import Cell, modules_of, offset_of, read
from .tokens import index_at

FORM = frozenset("BadByte OpenString BadEscape LongString LongName BadLiteral OpenHeader Syntax LeftOut TooDeep".split())
OF_TASK = frozenset(("NoMain", "DataRange"))
STUB = "MODULE stub_{0} PROC main() ENDPROC ENDMODULE"


@dataclass(frozen=True)
class Fault:
    """An error, and for one of a module the text that was checked, with the errors before left out."""

    refusal: Refusal
    text: Optional[bytes] = None


@dataclass
class Found:
    """The errors in the order of the files; which parts were not checked further; how many statements were left out unchecked, since
    they have a name that was changed; and what ended the search, if it was not done."""

    faults: List[Fault] = field(default_factory=list)
    ended: List[str] = field(default_factory=list)
    unchecked: int = 0
    is_cut: bool = False
    status: int = 0


def all_faults(program: Program, cell: Cell, changed: Mapping[Path, bytes] = {}, most: int = RUNS) -> Found:
    """The errors of a cell, as many as are found. OSError, TimeoutExpired if the program cannot be run."""
    return Search(program, cell, changed, most).run()


class Search:
    def __init__(self, program: Program, cell: Cell, changed: Mapping[Path, bytes], most: int) -> None:
        self.program, self.cell, self.most = program, cell, most
        self.script = script_mends.Draft(cell.text)
        self.changed: Dict[Path, bytes] = dict(changed)
        self.drafts: Dict[Path, Draft] = {}
        self.stubs: Dict[Path, bool] = {}
        self.found = Found()

    def run(self) -> Found:
        for _ in range(RUNS):
            ran = self.checked()
            self.found.status = self.found.status or ran.status
            before = self.state()
            if ran.refusal is None or not self.goes_on(ran.refusal):
                break
            if len(self.found.faults) >= self.most or self.state() == before:
                self.found.is_cut = True
                break
        else:
            self.found.is_cut = True
        self.found.faults.sort(key=lambda it: self.order(it.refusal))
        return self.found

    def state(self) -> List[object]:
        """All that a check depends on."""
        return [self.script.text, *(it.text for it in self.drafts.values()), *self.stubs]

    def checked(self) -> Check:
        """Checks the cell as it is by now. The first check is of the cell itself."""
        texts = {file.resolve(): draft.text for file, draft in self.drafts.items()}
        texts.update({file.resolve(): STUB.format(n).encode() for n, file in enumerate(self.stubs)})
        script = self.script.text
        if not texts and script == self.cell.text:
            return check(self.program, self.cell, self.changed)
        cell = Cell(self.cell.script, script, modules_of(self.cell.script, script))
        return check(self.program, cell, {**self.changed, **texts, self.cell.script.resolve(): script})

    def goes_on(self, refusal: Refusal) -> bool:
        """Takes a refusal, and leaves out what it is about. Returns whether the search goes on."""
        if refusal.kind is Kind.SCRIPT:
            return self.on_script(refusal)
        if refusal.kind in (Kind.READ, Kind.LONG):
            return self.on_file(refusal)
        if refusal.kind is not Kind.MODULE:
            self.tell(refusal)
            return False
        return self.on_module(refusal)

    def on_script(self, refusal: Refusal) -> bool:
        own = self.script.original(refusal)
        # A value for a persistent is refused if its declaration was changed or left out.
        if not (refusal.key.startswith("pers[") and "." not in refusal.key and (self.drafts or self.stubs)):
            self.tell(own)
        try:
            self.script.mend(refusal)
        except CannotMend:
            self.found.ended.append("neither the rest of the script nor the modules were checked")
            return False
        return True

    def on_file(self, refusal: Refusal) -> bool:
        self.tell(refusal)
        module = self.cell.named(refusal.name)
        if module is None or module.file in self.stubs:
            return False
        self.end_module(module.file)
        return True

    def on_module(self, refusal: Refusal) -> bool:
        module = self.cell.named(refusal.name)
        if module is None or module.file in self.stubs:
            # The copy in its place is refused: nothing more can be said.
            self.found.is_cut = True
            return False
        if refusal.rule not in FORM and self.has_stub(module.file):
            self.end_tasks(module.file)
            return True
        draft = self.draft_of(module.file)
        at = offset_of(draft.text, refusal.row, refusal.column)
        try:
            if refusal.rule in FORM:
                self.tell(refusal, draft)
                form_mends.mend(draft, refusal.rule, at)
            elif refusal.rule in OF_TASK:
                self.tell(refusal, draft)
                raise CannotMend
            else:
                self.on_name(refusal, draft, at, module.file)
        except CannotMend:
            if refusal.rule in FORM:
                self.end_module(module.file)
            else:
                self.end_tasks(module.file)
        return True

    def on_name(self, refusal: Refusal, draft: Draft, at: int, file: Path) -> None:
        """Tells a refusal by a rule of names or types, unless it follows from what was changed, and leaves its part out."""
        k = index_at(draft.tokens, at)
        try:
            part = name_mends.part_around(draft, k)
        except CannotMend:
            self.tell(refusal, draft)
            raise
        if consequences.follows(draft, part, refusal.rule, list(self.drafts.values())):
            self.found.unchecked += 1
        else:
            self.tell(refusal, draft)
        if refusal.rule == "NoArm" and self.script.gives_arm([it.task for it in self.cell.modules if it.file == file]):
            return
        if self.gives_signal(refusal, draft, k):
            return
        if consequences.is_reported_once(draft, k, refusal.rule):
            draft.taints.append(Taint(draft.tokens[k].text.lower()))
        if refusal.rule == "PersType":
            self.simplify_shared(draft.tokens[k].text.lower())
        else:
            name_mends.mend(draft, part, refusal.rule)

    def simplify_shared(self, name: str) -> None:
        """Makes a num of a persistent in all modules."""
        for file in {it.file: None for it in self.cell.modules if it.file not in self.stubs}:
            draft = self.draft_of(file)
            places = [it.at for it in names.declared(draft.tokens) if (it.kind, it.name.lower(), it.start) == ("PERS", name, None)]
            for at in places:
                simplify_datum(draft, index_at(draft.tokens, at))

    def gives_signal(self, refusal: Refusal, draft: Draft, k: int) -> bool:
        """Adds a missing signal to the script, if what is called shows its kind."""
        called = consequences.called_at(draft, k)
        kind = names.OF_SIGNALS.get(called.text.lower()) if called and called.at != draft.tokens[k].at else None
        return bool(refusal.rule == "NoName" and kind and self.script.gives_signal(draft.tokens[k].text, kind))

    def tell(self, refusal: Refusal, draft: Optional[Draft] = None) -> None:
        self.found.faults.append(Fault(refusal, draft.text if draft else None))

    def draft_of(self, file: Path) -> Draft:
        if file not in self.drafts:
            self.drafts[file] = Draft(read(file, self.changed))
        return self.drafts[file]

    def has_stub(self, file: Path) -> bool:
        tasks = {it.task for it in self.cell.modules if it.file == file}
        return any(it.file in self.stubs for it in self.cell.modules if it.task in tasks)

    def end_module(self, file: Path) -> None:
        """Puts an empty module for one that cannot be checked further."""
        self.drafts.pop(file, None)
        self.stubs[file] = True
        self.found.ended.append(f"{name_of(self.cell, file)} was not checked beyond its last error")

    def end_tasks(self, file: Path) -> None:
        """Ends the check of names and types of the tasks that have a module."""
        tasks = {it.task for it in self.cell.modules if it.file == file}
        for it in self.cell.modules:
            if it.task in tasks and it.file not in self.stubs:
                self.stubs[it.file] = True
                self.drafts.pop(it.file, None)
        told = ", ".join(f"task[{it}]" for it in sorted(tasks))
        self.found.ended.append(f"names and types of {told} were not checked further")

    def order(self, refusal: Refusal) -> List[int]:
        """The place of a refusal in the order of the files: the script, then the modules as it names them."""
        if refusal.kind is not Kind.MODULE:
            numbers = [int(it) for it in re.findall(r"\d+", refusal.key)]
            return [-1 if refusal.kind is Kind.SCRIPT else 0, *numbers]
        modules = [it.name.encode("utf-8", "surrogateescape") for it in self.cell.modules]
        place = modules.index(refusal.name) if refusal.name in modules else len(modules)
        return [place, refusal.row, refusal.column]


def name_of(cell: Cell, file: Path) -> str:
    return next((it.name for it in cell.modules if it.file == file), str(file))
