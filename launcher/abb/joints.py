"""The reading of positions by a table of joints: a row of joints.csv for each position with its tool and work object."""
from pathlib import Path
from typing import Dict, List, Optional, Sequence, Tuple, Union

from . import place_texts as texts
from .joint_texts import NO_AXES, axes_text, computed_function, plain_value
from .literals import NONE_ABOVE, Literals, Value, jointtarget, numbers, robtarget
from .log_joints import Wanted, log_module
from .model import Backup, Task
from .orientations import Named, named_in
from .reading import Context
from .report import GUESSED, MISSING, TO_DECIDE, Report
from .rows import START, Row, read_table, table_text
from .starts import first_target
from .tree import Aggregate, Assign, Call, Component, Expression, Instruct, Name
from .tree_items import Data, Module, Parameter
from .uses import COMPUTED, NO_PAIR, Pair, Uses

# The functions of the controller that compute a position, by their names in small letters.
SPELLED = {"offs": "Offs", "reltool": "RelTool"}


class Joints:
    """One object reads the positions of all tasks. `task` is called for each before its modules are converted."""

    title = "joints by the rows of joints.csv; axes 1 to 6 are the robot's, in degrees"
    is_places = False

    def __init__(self, backup: Backup, table: Optional[Path], report: Report) -> None:
        self.report, self.table = report, table
        self.rows: Dict[Tuple[str, str, str, str], Row] = {it.pair: it for it in (read_table(table) if table else [])}
        self.used: Dict[Tuple[str, str, str, str], Row] = {}
        self.wanted: Dict[str, List[Wanted]] = {}
        self.starts: Dict[str, List[int]] = {}
        # Of the task that is being converted:
        self.literals, self.named = Literals([]), Named()
        self.uses = Uses(self.literals)
        self.task_name = ""
        self.logs: Dict[str, bytes] = {}

    def task(self, task: Task, modules: Sequence[Module]) -> None:
        self.task_name = task.name
        self.literals = Literals(modules)
        self.named = named_in(self.literals, task.external_axes)
        self.uses = Uses(self.literals)
        self.wanted.setdefault(task.name, [])
        if task.has_arm:
            self.starts[task.name] = self.start(task)

    @property
    def external_axes(self) -> int:
        return self.named.external_axes

    # Rows

    def row(self, position: str, pair: Pair) -> Row:
        """The row of a position with its tool and work object; an empty one, which then is asked for, where the table has none."""
        empty = Row(self.task_name, position, pair.tool, pair.wobj, (None,) * 12)
        row = self.rows.get(empty.pair, empty)
        self.used.setdefault(row.pair, row)
        return row

    def value_of(self, at: Context, node: Expression, position: str, pair: Pair, value: Optional[Value], source: str) -> str:
        """The jointtarget of a position: its row, or noughts where that is missing. `source` is the robtarget as the module writes it, for
        log_joints."""
        row = self.row(position, pair)
        if not row.is_filled:
            at.note(MISSING, node, f"{position} with {pair.tool} and {pair.wobj}: its joints; taken as noughts")
        self.want(Wanted(position, pair.tool, pair.wobj, source))
        target = robtarget(value)
        return axes_text(row, target[2] if target else NO_AXES)

    def want(self, it: Wanted) -> None:
        if it not in self.wanted[self.task_name]:
            self.wanted[self.task_name].append(it)

    # Values

    def declared(self, at: Context, it: Data) -> str:
        if it.value is None:
            return ""
        if it.type.lower() != "robtarget":
            return at.source(it.value)
        return self.array(at, it, at.constant(it.value), self.uses.first(it.name))

    def array(self, at: Context, it: Data, value: Optional[Value], pair: Pair) -> str:
        """The value of a declared robtarget, or of an array of them, with one pair."""
        assert it.value is not None
        if value is None or not it.sizes and not robtarget(value):
            return at.render(it.value) if isinstance(it.value, Name) else at.source(it.value)
        return self.elements(at, it, value, pair, [])

    def elements(self, at: Context, it: Data, value: Value, pair: Pair, index: List[int]) -> str:
        assert it.value is not None
        if len(index) < len(it.sizes) and isinstance(value, list):
            parts = [self.elements(at, it, part, pair, [*index, n]) for n, part in enumerate(value, 1)]
            return f"[{','.join(part[1:-1] if len(index) + 1 < len(it.sizes) else part for part in parts)}]"
        named = it.name + ("{" + ",".join(map(str, index)) + "}" if index else "")
        return self.value_of(at, it.value, f"{at.module}.{named}", pair, value, self.source_of(at, it, named, value))

    def source_of(self, at: Context, it: Data, named: str, value: Value) -> str:
        """How log_joints names a position: by its name, or by its value where another module does not see it."""
        module = self.literals.data.get(it.name.lower())
        is_seen = module is not None and module[1] is it and it.scope != "LOCAL"
        return named if is_seen else plain_value(value)

    def aggregate(self, at: Context, node: Aggregate, kind: str) -> str:
        return at.source(node) if kind == "jointtarget" else self.written(at, node, NO_PAIR)

    def written(self, at: Context, node: Expression, pair: Pair) -> str:
        """A robtarget that is written at its use."""
        value = at.constant(node)
        if value is None or not robtarget(value):
            at.lost(node, "the joints of a position that is computed")
        return self.value_of(at, node, f"{at.module}.line_{at.line(node)}", pair, value, plain_value(value))

    # Moves and calls

    def target(self, at: Context, node: Expression, kind: str, tool: Optional[Expression], wobj: Optional[Expression]) -> str:
        if kind == "jointtarget":
            text = at.render(node)
            return f"{at.add('kept', texts.kept('kept', self.external_axes))}({text})" if self.named.is_partial else text
        pair = Pair(tool.name if isinstance(tool, Name) else "tool0", wobj.name if isinstance(wobj, Name) else "wobj0")
        return self.with_pair(at, node, pair)

    def passed(self, at: Context, node: Expression, call: Union[Instruct, Call], parameter: Parameter) -> str:
        return self.with_pair(at, node, self.uses.pair_in_call(call, parameter))

    def with_pair(self, at: Context, node: Expression, pair: Pair) -> str:
        """The jointtarget of a position with a tool and a work object."""
        if isinstance(node, Aggregate):
            return self.written(at, node, pair)
        if isinstance(node, Call) and node.name.lower() in COMPUTED:
            return self.computed(at, node, pair)
        datum = at.datum(node.name) if isinstance(node, Name) else None
        if not isinstance(node, Name) or not isinstance(datum, Data) or datum.value is None or datum.type.lower() != "robtarget":
            return at.render(node)
        first = self.uses.first(node.name)
        if (pair.tool.lower(), pair.wobj.lower()) == (first.tool.lower(), first.wobj.lower()):
            return at.render(node)
        if datum.kind == "VAR":
            at.note(TO_DECIDE, node, f"{node.name} is a variable, and is used with several tools or work objects: joints of the first ones")
            return at.render(node)
        return self.other(at, node, datum, pair, first)

    def other(self, at: Context, node: Name, datum: Data, pair: Pair, first: Pair) -> str:
        """The datum of a position for a tool and a work object that are not its first ones."""
        added = pair.wobj if pair.wobj.lower() != first.wobj.lower() else pair.tool
        sizes = "{" + ",".join(at.render(it) for it in datum.sizes) + "}" if datum.sizes else ""
        value = self.array(at, datum, at.initial(datum.name), pair)
        name = at.add(f"{datum.name}_{added}", f"CONST jointtarget {datum.name}_{added}{sizes}:={value};")
        return name + at.render(node)[len(node.name) :]

    def computed(self, at: Context, node: Call, pair: Pair) -> str:
        """Offs or RelTool: a row where its numbers are constant, or else a function over the rows of the table."""
        name = SPELLED[node.name.lower()]
        base = node.arguments[0].value if node.arguments else None
        values = [it.value for it in node.arguments[1:] if not it.option]
        turns = {it.option.lower(): it.value for it in node.arguments if it.option}
        values += [turns.get(it) for it in ("rx", "ry", "rz")] if name == "RelTool" else []
        given = numbers([at.constant(it) if it else 0.0 for it in values], len(values))
        datum = at.datum(base.name) if isinstance(base, Name) else None
        if base is None or len(values) != (6 if name == "RelTool" else 3):
            at.lost(node, f"{name} takes a position and three numbers")
        if given and isinstance(base, Name) and isinstance(datum, Data) and datum.kind != "VAR" and not datum.sizes:
            numbered = f"{name}({','.join(texts.shown(it) for it in given)})"
            position = f"{self.module_of(at, base)}.{base.name}+{numbered}"
            source = numbered.replace("(", f"({self.source_of(at, datum, base.name, at.initial(base.name) or 0.0)},", 1)
            return self.constant_of(at, node, base, position, pair, source)
        function = at.add(name, computed_function(name, self.known_rows(at, name), len(values)))
        shown = ",".join(at.render(it) if it else "0" for it in values)
        return f"{function}({self.with_pair(at, base, pair)},{shown})"

    def constant_of(self, at: Context, node: Call, base: Name, position: str, pair: Pair, source: str) -> str:
        """The datum of a position with a constant offset, in the generated module."""
        value = self.value_of(at, node, position, pair, at.initial(base.name), source)
        same = [it for it in self.used if it[0] == self.task_name.lower() and it[1].startswith(position.split("+")[0].lower() + "+")]
        name = f"{base.name}_at{same.index(self.row(position, pair).pair) + 1}"
        return at.add(name, f"CONST jointtarget {name}:={value};")

    def known_rows(self, at: Context, function: str) -> List[Tuple[str, List[float], Row]]:
        """The rows of the table for a function: the datum that is its base, a copy in the generated module, its numbers, and the row."""
        found: List[Tuple[str, List[float], Row]] = []
        for row in self.rows.values():
            base, plus, call = row.position.replace(" ", "").partition("+")
            if not plus or row.task.lower() != self.task_name.lower() or not call.lower().startswith(function.lower() + "(") or not row.is_filled:
                continue
            self.used.setdefault(row.pair, row)
            start = self.rows.get(Row(row.task, base, row.tool, row.wobj, ()).pair)
            given = [float(it) for it in call[len(function) + 1 : -1].split(",")]
            if start and start.is_filled:
                name = at.add(f"base_{len(found) + 1}", f"CONST jointtarget base_{len(found) + 1}:={axes_text(start, NO_AXES)};")
                found.append((name, given, row))
        return found

    def module_of(self, at: Context, node: Name) -> str:
        """The module that declares a position; that of the place for what a routine declares."""
        found = self.literals.data.get(node.name.lower())
        return found[0] if found and at.datum(node.name) is found[1] else at.module

    def component(self, at: Context, node: Name, type_before: str, depth: int) -> str:
        part = node.parts[depth]
        if type_before == "jointtarget" or isinstance(part, Component) and part.name.lower() == "extax":
            return at.source(node)
        return at.lost(node, "a coordinate of a position that is in joints")

    def parts_of(self, at: Context, node: Expression, kind: str) -> List[str]:
        return at.lost(node, f"a {kind} of a position that is in joints")

    def assigned(self, at: Context, node: Assign, depth: int) -> str:
        place = node.place
        assert isinstance(place, Name)
        kind = at.type_of(Name(place.start, place.end, place.name, place.parts[:depth]))
        self.component(at, place, kind, depth)
        return f"{at.source(place)}:={at.render(node.value)};"

    def call(self, at: Context, node: Call) -> str:
        small = node.name.lower()
        if small in COMPUTED:
            base = node.arguments[0].value if node.arguments else None
            return self.computed(at, node, self.uses.first(base.name) if isinstance(base, Name) else NO_PAIR)
        values = [it.value for it in node.arguments if not it.option and it.value]
        options = {it.option.lower(): it.value for it in node.arguments if it.option}
        if small in ("crobt", "cjointt") and "taskref" not in options and "taskname" not in options:
            return "CJointT()"
        tool = values[1] if values[1:] else None
        if small in ("calcrobt", "calcjointt") and values:
            return at.render(values[0]) if small == "calcrobt" else self.target(at, values[0], "robtarget", tool, options.get("wobj"))
        return at.lost(node, f"{node.name} of a position that is in joints")

    def work_object(self, at: Context, node: Optional[Expression]) -> str:
        return "0"

    def start(self, task: Task) -> List[int]:
        """Where the arm of a task starts, in thousandths: by its row, or at the first position that it moves to."""
        given = next((it for it in self.rows.values() if it.key == (task.name.lower(), START) and it.is_filled), None)
        found = None if given else first_target(self.literals, task.entry)
        if given:
            self.used[given.pair] = given
        if found and not jointtarget(found.value):
            pair = self.uses.first(found.name)
            given = self.rows.get(Row(task.name, f"{found.module}.{found.name}", pair.tool, pair.wobj, ()).pair)
        joints = jointtarget(found.value) if found else None
        axes: List[Optional[float]] = [*joints[0], *joints[1]] if joints else list(given.values) if given and given.is_filled else []
        if not given or found:
            where = f"{found.name}, the first position that it moves to" if found and axes else "noughts"
            self.report.add(GUESSED, task.name, "", 0, f"the arm starts at {where}")
        return [0 if it is None or it >= NONE_ABOVE else round(it * 1000) for it in axes] or [0] * 12

    def files(self) -> Dict[str, bytes]:
        """The table with all rows that it needs, and for each task the module that fills them in on a controller."""
        name = self.table.name if self.table else ""
        for it in [row for row in self.rows.values() if name and row.pair not in self.used]:
            self.report.add(TO_DECIDE, it.task, name, it.line, f"{it.position} with {it.tool} and {it.wobj} is not needed")
        found = {"joints.csv": table_text(list(self.used.values()))}
        found.update({f"log_joints_{task}.sys": log_module(task, wanted) for task, wanted in self.wanted.items() if wanted})
        return found

