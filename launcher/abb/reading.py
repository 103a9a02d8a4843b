"""What a reading of positions gives: what robtargets, jointtargets and work objects become. places.py and joints.py are the two readings.

A robtarget becomes a jointtarget in both. The conversion asks the reading for the text of each position, at the place where it is used, and
puts that text into the statement.

In the reading by places of the TCP a robtarget stays in the coordinates of its work object: axes 1 to 3 are x, y, z in centimetres, axes 4
to 6 the angles about x, y, z in degrees (EulerZYX). A move adds the work object: `target` of `pPick` with wobjTray is
`in_wobjTray(pPick)`, a function of the generated module, and nothing for wobj0 or a frame that changes nothing. So `Offs` is an addition,
`p.trans.x` is `(p.robax.rax_1*10)`, and a position that is used with two work objects needs no copy.

In the reading by joints a position is a row of joints.csv for each tool and work object that it is used with.
"""
from typing import Dict, List, NoReturn, Optional, Protocol, Sequence, Union

from .model import Task
from .tree import Aggregate, Argument, Assign, Call, Expression, Instruct, Name, Node
from .tree_items import Data, Module, Parameter, Routine

# A value of a constant expression.
Value = Union[float, str, bool, List["Value"]]


class Context(Protocol):
    """What a rule may ask and do at the place that is being converted."""

    @property
    def task(self) -> str:
        """The name of the task."""

    @property
    def module(self) -> str:
        """The name of the module, as MODULE has it."""

    @property
    def routine(self) -> Optional[Routine]:
        """The routine, or None at the module's items."""

    def line(self, node: Node) -> int:
        """The line of a node, from 1."""

    def source(self, node: Node) -> str:
        """The text of a node as the module has it."""

    def render(self, node: Expression) -> str:
        """The converted text of an expression. Raises Lost where a part cannot be kept."""

    def constant(self, node: Expression) -> Optional[Value]:
        """The value of a constant expression, or None where it is none: a number as a float, a bracket as a list."""

    def initial(self, name: str) -> Optional[Value]:
        """The constant value that the declaration of a visible datum gives, CONST, VAR or PERS alike."""

    def datum(self, name: str) -> Union[Data, Parameter, None]:
        """The declaration of a datum or a parameter that is visible here."""

    def type_of(self, node: Expression) -> str:
        """The name of an expression's type in small letters (ALIAS resolved), "" where it is not known."""

    def parts(self, node: Expression, kind: str) -> List[str]:
        """The nums of a pos or an orient (`kind`), whatever expression it is."""

    def need(self, name: str) -> str:
        """Sees to it that the generated module has the routine or the datum of this name, out of the library; gives the name."""

    def add(self, name: str, text: str) -> str:
        """Adds an item (a routine, a datum) to the generated module, once for each name, and gives the name, which may be shortened."""

    def note(self, kind: str, node: Node, text: str) -> None:
        """Adds an entry to the report, at the line of a node."""

    def lost(self, node: Node, why: str) -> NoReturn:
        """Raises Lost: the statement is not kept."""


class Reading(Protocol):
    """A reading of positions. One object serves all tasks of a backup."""

    # What the report, the page and --help call it.
    title: str
    # Whether axes are places of the TCP, so that boxes are zones and joints are not.
    is_places: bool

    # Where the arms start, in thousandths, by the names of the tasks.
    starts: Dict[str, List[int]]

    def task(self, task: Task, modules: Sequence[Module]) -> None:
        """Looks at the modules of the task that is converted next."""

    @property
    def external_axes(self) -> int:
        """How many external axes the arm of that task has."""

    def declared(self, at: Context, it: Data) -> str:
        """The value of a declared robtarget or jointtarget, scalar or array, without `:=`; "" where the declaration gives none.
        It may at.add further data, as `p10_wobjFrame`, and asks for rows where they are needed."""

    def aggregate(self, at: Context, node: Aggregate, kind: str) -> str:
        """The jointtarget in brackets for a robtarget or a jointtarget (`kind`) that is written at its use."""

    def target(self, at: Context, node: Expression, kind: str, tool: Optional[Expression], wobj: Optional[Expression]) -> str:
        """The target of a MoveAbsJ, an expression of type jointtarget, for the target of a move with this tool and work object. `kind` is
        robtarget (MoveL) or jointtarget (MoveAbsJ, MoveExtJ). `wobj` None is wobj0. 9E9 at an axis that the arm has keeps that axis."""

    def passed(self, at: Context, node: Expression, call: Union[Instruct, Call], parameter: Parameter) -> str:
        """The text of a robtarget that a routine of the backup gets by value."""

    def component(self, at: Context, node: Name, type_before: str, depth: int) -> str:
        """The value of a part of a robtarget: `node.parts[depth:]` are the components after the robtarget, as `.trans.x`, `.rot.q1`,
        `.extax.eax_a`; the parts before `depth` name the robtarget. `.trans`, `.rot` as a whole come through `parts_of`."""

    def parts_of(self, at: Context, node: Expression, kind: str) -> List[str]:
        """The three nums of a pos, the four of an orient (`kind`): of `p.trans`, `CPos()`, `OrientZYX(..)`, `p.rot`."""

    def assigned(self, at: Context, node: Assign, depth: int) -> str:
        """The statements, each with its semicolon, that do `p.trans.x := v;`, `p.trans := v;`, `p.rot := OrientZYX(..);`."""

    def call(self, at: Context, node: Call) -> str:
        """The text of a function of positions: one of CALLS."""

    def work_object(self, at: Context, node: Optional[Expression]) -> str:
        """A work object as a num, for a parameter of type wobjdata: its number in the task, 0 for wobj0 or none."""

    def files(self) -> Dict[str, bytes]:
        """The files that the reading writes into OUT, by their names: places.csv, or joints.csv and a log_joints module for each task."""


# The functions that a reading converts.
CALLS = frozenset(
    "offs reltool crobt cjointt cpos orobt calcrobt calcjointt eulerzyx orientzyx distance mirpos posemult poseinv posevect defframe vectmagn"
    " norient ctool cwobj".split()
)
# A position by name or at its use, as tables have it.
POSITIONS = ("robtarget", "jointtarget")
__all__ = ["Argument", "CALLS", "Context", "POSITIONS", "Reading", "Value"]
