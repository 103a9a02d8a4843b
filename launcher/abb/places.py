"""The reading of positions by places of the TCP: axes 1 to 3 are x, y, z in centimetres, axes 4 to 6 the angles about x, y, z in degrees."""
from pathlib import Path
from typing import Dict, List, Optional, Sequence, Tuple, Union

from . import place_texts as texts
from .frames import Frames
from .geometry import matrix_of, shown
from .literals import NONE_ABOVE, Literals, Value, jointtarget, robtarget
from .model import Backup, Task
from .orientations import Named, named_in
from .place_parts import Parts
from .reading import Context
from .report import GUESSED, MISSING, TO_DECIDE, Report
from .rows import START, Row, read_table, table_text
from .starts import first_target
from .tree import Aggregate, Assign, Call, Expression, Instruct, Name, Node
from .tree_items import Data, Module, Parameter

GENERATED = "from_abb"


class Places:
    """One object reads the positions of all tasks of a backup. `task` is called for each before its modules are converted. `starts` has
    where the arms start, in thousandths, by the names of the tasks."""

    title = "places of the TCP; axes 1 to 3 are x, y, z in centimetres, axes 4 to 6 the angles about x, y, z in degrees"
    is_places = True

    def __init__(self, backup: Backup, table: Optional[Path], report: Report) -> None:
        self.report = report
        self.table = table
        self.rows: Dict[Tuple[str, str], Row] = {it.key: it for it in (read_table(table) if table else [])}
        self.used: Dict[Tuple[str, str], Row] = {}
        self.starts: Dict[str, List[int]] = {}
        # Of the task that is being converted:
        self.literals = Literals([])
        self.named = Named()
        self.frames = Frames([], [])
        self.is_converted = False

    def task(self, task: Task, modules: Sequence[Module]) -> None:
        """Looks at the modules of the task that is converted next."""
        self.literals = Literals(modules)
        self.named = named_in(self.literals, task.external_axes)
        for it in self.rows.values():
            if it.is_filled and it.task.lower() == task.name.lower():
                self.named.add_angles([it.values[n] or 0.0 for n in (3, 4, 5)])
        wobjs = [it.name for _, it in self.literals.data.values() if it.type.lower() == "wobjdata"]
        self.frames = Frames(self.named.angles, wobjs)
        self.is_converted = any(it.name.lower() == GENERATED for it in modules)
        if task.has_arm:
            self.starts[task.name] = self.start(task, modules)

    @property
    def external_axes(self) -> int:
        """How many external axes the arm of the task has."""
        return self.named.external_axes

    # Values

    def declared(self, at: Context, it: Data) -> str:
        if it.value is None:
            return ""
        value = None if self.is_converted else at.constant(it.value)
        if value is None:
            return at.source(it.value) if self.is_converted else at.render(it.value)
        return self.value_text(at, it.value, value, it.type.lower(), f"{at.module}.{it.name}", len(it.sizes))

    def value_text(self, at: Context, node: Node, value: Value, kind: str, position: str, depth: int) -> str:
        """The text of a value, an array of so many dimensions; that of the module where its shape is wrong, for `check` to refuse."""
        if depth:
            if not isinstance(value, list):
                return at.source(node)
            rest = "{" + position.split("{", 1)[1][:-1] + "," if "{" in position else "{"
            name = position.split("{", 1)[0]
            parts = [self.value_text(at, node, it, kind, f"{name}{rest}{n}}}", depth - 1) for n, it in enumerate(value, 1)]
            return f"[{','.join(it[1:-1] if depth > 1 else it for it in parts)}]"
        if kind == "jointtarget" or jointtarget(value):
            return self.joints_text(at, node, value, position)
        parts = robtarget(value)
        if not parts:
            return at.source(node)
        matrix = matrix_of(parts[1])
        if not matrix:
            at.note(TO_DECIDE, node, f"{position} has the orientation [0,0,0,0]: taken as [1,0,0,0]")
        return texts.place_text(parts[0], matrix or matrix_of([1, 0, 0, 0]) or [], parts[2])

    def joints_text(self, at: Context, node: Node, value: Value, position: str) -> str:
        """A position that the backup has as joints: by its row, or noughts; one without the robot's axes stays as it is."""
        parts = jointtarget(value)
        if not parts or all(it >= NONE_ABOVE for it in parts[0]):
            return at.source(node) if isinstance(node, Aggregate) and not parts else self.axes_text([9e9] * 6, parts[1] if parts else [])
        row = self.row(at.task, position)
        if not row.is_filled:
            at.note(MISSING, node, f"{position}: its joints are given, where is its TCP? Taken as noughts")
        axes = [(it or 0.0) / (10 if n < 3 else 1) for n, it in enumerate(row.values[:6])]
        extax = [given if it is None else it for given, it in zip(parts[1], row.values[6:])]
        return self.axes_text(axes, extax)

    def axes_text(self, axes: Sequence[float], extax: Sequence[float]) -> str:
        return f"[[{','.join(texts.axis(it) for it in axes)}],[{','.join(texts.axis(it) for it in extax)}]]"

    def row(self, task: str, position: str) -> Row:
        """The row of a position; an empty one, which then is asked for, where the table has none."""
        empty = Row(task, position, "tool0", "wobj0", (None,) * 12)
        row = self.rows.get(empty.key, empty)
        self.used.setdefault(row.key, row)
        return row

    def aggregate(self, at: Context, node: Aggregate, kind: str) -> str:
        if self.is_converted:
            return at.source(node)
        value = at.constant(node)
        if value is not None:
            return self.value_text(at, node, value, kind, f"{at.module}.line_{at.line(node)}", 0)
        if kind == "jointtarget" or len(node.parts) != 4:
            at.lost(node, "the axes of a position are computed")
        return Parts(self.frames, self.named).computed(at, node)

    # Moves and calls

    def target(self, at: Context, node: Expression, kind: str, tool: Optional[Expression], wobj: Optional[Expression]) -> str:
        text = at.render(node)
        if self.is_converted:
            return text
        if kind == "jointtarget":
            self.tell_tool(at, node, tool)
        else:
            text = self.frames.in_world(at, text, wobj)
        return f"{self.kept(at)}({text})" if self.named.is_partial and not self.is_whole(at, node) else text

    def tell_tool(self, at: Context, node: Expression, tool: Optional[Expression]) -> None:
        """Remembers the tool of a position that the table asks for."""
        name = f"{at.module}.{node.name}" if isinstance(node, Name) else f"{at.module}.line_{at.line(node)}"
        key = Row(at.task, name, "", "", ()).key
        row = self.used.get(key)
        if row and not row.line and isinstance(tool, Name) and tool.name.lower() != row.tool:
            self.used[key] = Row(row.task, row.position, tool.name, row.wobj, row.values)

    def is_whole(self, at: Context, node: Expression) -> bool:
        """Whether a position is known to have a value for each axis of the arm."""
        datum = at.datum(node.name) if isinstance(node, Name) and not node.parts else None
        value = at.initial(node.name) if isinstance(datum, Data) and datum.kind == "CONST" and isinstance(node, Name) else at.constant(node)
        target, joints = robtarget(value), jointtarget(value)
        extax = target[2] if target else joints[1] if joints and joints[0][0] < NONE_ABOVE else [9e9] * 6
        return all(it < NONE_ABOVE for it in extax[: self.external_axes]) and bool(target or joints)

    def kept(self, at: Context) -> str:
        return at.add("kept", texts.kept("kept", self.external_axes))

    def passed(self, at: Context, node: Expression, call: Union[Instruct, Call], parameter: Parameter) -> str:
        return at.render(node)

    def work_object(self, at: Context, node: Optional[Expression]) -> str:
        return self.frames.number(at, node)

    def component(self, at: Context, node: Name, type_before: str, depth: int) -> str:
        return at.source(node) if self.is_converted else self.parts.component(at, node, type_before, depth)

    def parts_of(self, at: Context, node: Expression, kind: str) -> List[str]:
        return self.parts.of(at, node, kind)

    def assigned(self, at: Context, node: Assign, depth: int) -> str:
        return at.source(node) if self.is_converted else self.parts.assigned(at, node, depth)

    def call(self, at: Context, node: Call) -> str:
        return at.source(node) if self.is_converted else self.parts.call(at, node)

    @property
    def parts(self) -> Parts:
        return Parts(self.frames, self.named)

    # The table, and where the arms start

    def start(self, task: Task, modules: Sequence[Module]) -> List[int]:
        """Where the arm of a task starts, in thousandths: by its row, or at the first position that it moves to."""
        given = self.rows.get((task.name.lower(), START))
        if given and given.is_filled:
            self.used[given.key] = given
            axes = [(it or 0.0) / (10 if n < 3 else 1) for n, it in enumerate(given.values)]
            return [round(it * 1000) for it in axes]
        found = first_target(self.literals, task.entry)
        if not found:
            self.report.add(GUESSED, task.name, "", 0, "the arm starts at noughts, since no first move with a known target was found")
            return [0] * 12
        self.report.add(GUESSED, task.name, "", 0, f"the arm starts at {found.name}, the first position that it moves to")
        return self.place_of(task, found.module, found.name, found.value, found.wobj)

    def place_of(self, task: Task, module: str, name: str, value: Value, wobj: Optional[Value]) -> List[int]:
        """A position in the world, in thousandths; axes without a value are 0."""
        from .frames import frame_of
        from .geometry import angles_of, applied, product

        target, joints = robtarget(value), jointtarget(value)
        if target:
            frame = frame_of(wobj) if wobj is not None else None
            matrix = matrix_of(target[1]) or [[1.0, 0, 0], [0, 1.0, 0], [0, 0, 1.0]]
            trans = [it / 10 for it in target[0]]
            if frame:
                trans = [a + b for a, b in zip(applied(frame[0], trans), frame[1])]
                matrix = product(frame[0], matrix)
            axes = [*trans, *angles_of(matrix), *target[2]]
        else:
            assert joints
            row = self.rows.get(Row(task.name, f"{module}.{name}", "", "", ()).key)
            filled = row.values if row and row.is_filled else (0.0,) * 6
            axes = [(it or 0.0) / (10 if n < 3 else 1) for n, it in enumerate(filled[:6])] + joints[1]
        return [round(float(shown(0.0 if it >= NONE_ABOVE else it)) * 1000) for it in axes]

    def files(self) -> Dict[str, bytes]:
        """The table with all rows that it needs."""
        for it in self.rows.values():
            if it.key not in self.used and self.table:
                self.report.add(TO_DECIDE, it.task, self.table.name, it.line, f"{it.position} is no position of the backup that needs a row")
        return {"places.csv": table_text(list(self.used.values()))} if self.used else {}
