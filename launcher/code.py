"""The code of a task, as `list` prints it, walked along the statements of its modules.

A statement's code begins with its Look; the lists inside it stand at places that its jumps name. crates/stack_code has each layout,
in specs/StmtLayouts.antt.
"""
from dataclasses import dataclass
from typing import List, NamedTuple, Optional, Sequence, Tuple

from .statements import FOR, IF, LABEL, ONE, TEST, WHILE, Routine, Source, Statement

# The operations after the last statement of a list that is not inside another statement.
ENDS = ("Back", "NoBack", "Again")
# The statements that end with such an operation of their own.
LAST = {"RETURN": ("Back", "BackWith"), "RAISE": ("Raise", "Again")}


class Op(NamedTuple):
    name: str
    args: str

    def number(self, k: int = 0) -> int:
        return int(self.args.split()[k])


@dataclass(frozen=True)
class Owner:
    """What an operation belongs to: the module and the routine, by their numbers in the task, and the tokens to be shown, from the
    first one to the one before `past`."""

    module: int
    routine: int
    first: int
    past: int


class Misfit(Exception):
    """The code is not that of the text."""


class Walk:
    """A walk along the code of a task. `owners` has the owner of each operation, and `spans` the places where its statement begins and
    ends; `entries` are the places where the routines begin, and `handlers` those of their ERROR parts."""

    def __init__(self, ops: Sequence[Op], sources: Sequence[Source]) -> None:
        self.ops = ops
        self.owners: List[Optional[Owner]] = [None] * len(ops)
        self.spans: List[Optional[Tuple[int, int]]] = [None] * len(ops)
        self.entries: List[int] = []
        self.handlers: List[Optional[int]] = []
        self.number, at = -1, 0
        for self.module, self.source in enumerate(sources):
            for routine in self.source.routines:
                self.number += 1
                at = self.routine(routine, at)
        self.exactly(at, len(ops))

    def routine(self, it: Routine, at: int) -> int:
        self.entries.append(at)
        self.handlers.append(None)
        at = self.list(it.statements, at)
        end = it.end if it.error is None else it.error
        self.expect(at, "NoBack" if it.kind == "FUNC" else "Back")
        self.own(at, at + 1, end, end + 1)
        if it.error is None:
            return at + 1
        self.handlers[-1] = at + 1
        at = self.list(it.handler, at + 1)
        self.expect(at, "Again")
        self.own(at, at + 1, it.end, it.end + 1)
        return at + 1

    def list(self, statements: Sequence[Statement], at: int, limit: Optional[int] = None) -> int:
        """Walks along a list from a place, at most up to a limit. Returns the place after it."""
        for it in statements:
            if it.form != LABEL:
                end = self.statement(it, at, limit)
                self.own(at, end, it.start, it.head)
                for k in range(at, end):
                    self.spans[k] = self.spans[k] or (at, end)
                at = end
        return at

    def statement(self, it: Statement, at: int, limit: Optional[int]) -> int:
        self.expect(at, "Look")
        if it.form == IF:
            return self.of_if(it, at + 1)
        if it.form == TEST:
            return self.of_test(it, at + 1, limit)
        if it.form == ONE:
            jump = self.jump(at + 1, "JumpFalse")
            end = self.ops[jump].number()
            return self.whole(it.arms[0].statements, jump + 1, end)
        if it.form == WHILE:
            jump = self.jump(at + 1, "JumpFalse")
            end = self.ops[jump].number()
            self.expect(end - 1, "Jump")
            return self.whole(it.arms[0].statements, jump + 1, end - 1) + 1
        if it.form == FOR:
            turn = self.next(at + 1, "Turn")
            end = self.ops[turn].number(1)
            self.expect(turn + 1, "Look")
            self.expect(end - 1, "Step")
            return self.whole(it.arms[0].statements, turn + 2, end - 1) + 1
        return self.simple(it, at + 1, limit)

    def of_if(self, it: Statement, at: int) -> int:
        end = at
        for arm in it.arms:
            if arm.word == "ELSE":
                return self.whole(arm.statements, at, end)
            jump = self.jump(at, "JumpFalse")
            following = self.ops[jump].number()
            self.expect(following - 1, "Jump")
            self.whole(arm.statements, jump + 1, following - 1)
            self.own(at, jump + 1, *arm.head)
            at, end = following, self.ops[following - 1].number()
        return self.exactly(at, end)

    def of_test(self, it: Statement, at: int, limit: Optional[int]) -> int:
        end = None
        for arm in it.arms:
            if arm.word == "CASE":
                start = self.values(at) if end is None else at
                drop = self.ops[self.jump(start, "JumpTrue")].number()
                self.expect(drop, "Drop")
                following = self.ops[drop - 1].number()
                self.expect(following - 1, "Jump")
                self.whole(arm.statements, drop + 1, following - 1)
                self.own(start, drop + 1, *arm.head)
                at, end = following, self.ops[following - 1].number()
        at = self.dropped(at) + 1
        if it.arms and it.arms[-1].word == "DEFAULT":
            at = self.list(it.arms[-1].statements, at, limit if end is None else end)
        return at if end is None else self.exactly(at, end)

    def simple(self, it: Statement, at: int, limit: Optional[int]) -> int:
        """The place after a statement without a list inside it."""
        last = LAST.get(self.source.tokens[it.start].text, ())
        while at < len(self.ops) and at != limit:
            name = self.ops[at].name
            if name in last:
                return at + 1
            # The Look after a Point is that of a move between two setpoints.
            if name in ENDS or (name == "Look" and self.ops[at - 1].name != "Point"):
                return at
            at += 1
        return at

    def whole(self, statements: Sequence[Statement], at: int, end: int) -> int:
        """The same as `list`, for a list that has to end at a place."""
        return self.exactly(self.list(statements, at, end), end)

    def jump(self, at: int, name: str) -> int:
        """The next jump of this name, without those by which AND and OR skip their right operand."""
        at = self.next(at, name)
        while self.ops[at - 1].name == "Dup":
            at = self.next(at + 1, name)
        return at

    def values(self, at: int) -> int:
        """The place of the values of the first CASE, each of which is compared with a copy of the tested value."""
        at = self.next(at, "Dup")
        while self.ops[at + 1].name in ("JumpFalse", "JumpTrue"):
            at = self.next(at + 1, "Dup")
        return at

    def dropped(self, at: int) -> int:
        """The place where the tested value is dropped before DEFAULT."""
        at = self.next(at, "Drop")
        while self.ops[at - 1].name in ("JumpFalse", "JumpTrue"):
            at = self.next(at + 1, "Drop")
        return at

    def next(self, at: int, name: str) -> int:
        for k in range(at, len(self.ops)):
            if self.ops[k].name == name:
                return k
        raise Misfit

    def expect(self, at: int, name: str) -> None:
        if not 0 <= at < len(self.ops) or self.ops[at].name != name:
            raise Misfit

    def exactly(self, at: int, end: int) -> int:
        if at != end:
            raise Misfit
        return at

    def own(self, start: int, past: int, first: int, last: int) -> None:
        """Gives the operations that belong to no statement inside it to what is shown by these tokens."""
        owner = Owner(self.module, self.number, first, last)
        for at in range(start, past):
            self.owners[at] = self.owners[at] or owner
