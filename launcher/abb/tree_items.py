"""The nodes of a module's items: data, types, routines, and the module itself."""
from dataclasses import dataclass
from typing import List, Optional, Union

from .tree import Expression, Node, Placeholder, Statement


@dataclass
class Data(Node):
    """A declared datum. `scope` is "", LOCAL or TASK; `kind` CONST, VAR or PERS; `sizes` are the lengths of an array."""

    scope: str
    kind: str
    type: str
    name: str
    sizes: List[Expression]
    value: Optional[Expression]
    type_at: int = 0
    name_at: int = 0
    name_end: int = 0


@dataclass
class Field(Node):
    type: str
    name: str


@dataclass
class Record(Node):
    scope: str
    name: str
    fields: List[Field]


@dataclass
class Alias(Node):
    scope: str
    type: str
    name: str


@dataclass
class Parameter(Node):
    """A parameter: `kind` is "", VAR, PERS, INOUT or REF; `dimensions` counts the stars of `{*,*}`; `group` is the same number for the
    alternatives of one optional group, and -1 for a required one."""

    kind: str
    type: str
    name: str
    dimensions: int = 0
    group: int = -1

    @property
    def is_optional(self) -> bool:
        return self.group >= 0


@dataclass
class Handler(Node):
    """ERROR with the errors of its list, if it has one, UNDO or BACKWARD."""

    word: str
    errors: List[Expression]
    body: List[Statement]


@dataclass
class Routine(Node):
    """`kind` is PROC, FUNC or TRAP; `type` the result's. `head_end` is where the head ends, after the closing parenthesis or the trap's
    name; `parameters_at` the place of the opening parenthesis."""

    scope: str
    kind: str
    type: str
    name: str
    parameters: List[Parameter]
    data: List[Data]
    body: List[Statement]
    handlers: List[Handler]
    name_at: int = 0
    parameters_at: int = 0
    head_end: int = 0


Item = Union[Data, Record, Alias, Routine, Placeholder]


@dataclass
class Module(Node):
    """A module: `name` as MODULE has it, its attributes in capitals, and its items; `end_at` is the place of ENDMODULE."""

    name: str
    attributes: List[str]
    items: List[Item]
    end_at: int = 0
