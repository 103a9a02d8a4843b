"""The nodes of a module's tree. Each has the bytes of the text from `start` up to `end`; lists of parts are in the order of the text."""
from dataclasses import dataclass, field
from typing import List, Optional, Union


@dataclass
class Node:
    start: int
    end: int


# Expressions


@dataclass
class Number(Node):
    text: str


@dataclass
class Text(Node):
    """A string literal; `value` is the text that it spells."""

    value: str


@dataclass
class Truth(Node):
    value: bool


@dataclass
class Index(Node):
    """`{i}`, `{i,j}`, `{i,j,k}`."""

    parts: List["Expression"]


@dataclass
class Component(Node):
    """`.name`."""

    name: str


@dataclass
class Name(Node):
    """A datum, a parameter, a constant or a signal, with its indices and components: `a`, `a{2}.trans.x`."""

    name: str
    parts: List[Union[Index, Component]] = field(default_factory=list)


@dataclass
class Argument(Node):
    """An argument of a call: `value`, or `\\option`, `\\option:=value`, or `\\option?parameter` (then `given` is the parameter's name)."""

    value: Optional["Expression"]
    option: str = ""
    given: str = ""


@dataclass
class Call(Node):
    """A function call."""

    name: str
    arguments: List[Argument]


@dataclass
class Aggregate(Node):
    parts: List["Expression"]


@dataclass
class Unary(Node):
    """NOT, `+` or `-` before its operand."""

    sign: str
    operand: "Expression"
    # Whether it stands at the start of an expression, where the profile's grammar takes it.
    is_first: bool = True


@dataclass
class Binary(Node):
    """An operator, in capitals where it is a word, with its operands."""

    sign: str
    left: "Expression"
    right: "Expression"


@dataclass
class Group(Node):
    """An expression in parentheses."""

    inner: "Expression"


@dataclass
class Placeholder(Node):
    """`<EXP>`, `<SMT>` and the like, which an unfinished program has."""

    text: str


Expression = Union[Number, Text, Truth, Name, Call, Aggregate, Unary, Binary, Group, Placeholder]


# Statements


@dataclass
class Assign(Node):
    place: Expression
    value: Expression


@dataclass
class Instruct(Node):
    """An instruction or a procedure call; `late` is the text of a name in percent signs, and `name` is then empty."""

    name: str
    arguments: List[Argument]
    late: Optional[Expression] = None


@dataclass
class Branch(Node):
    """A list of statements under a condition, or under none (ELSE); with a CASE under the values of `tests`."""

    condition: Optional[Expression]
    body: List["Statement"]
    tests: List[Expression] = field(default_factory=list)


@dataclass
class If(Node):
    branches: List[Branch]


@dataclass
class ShortIf(Node):
    """`IF c statement`."""

    condition: Expression
    body: "Statement"


@dataclass
class For(Node):
    variable: str
    first: Expression
    last: Expression
    step: Optional[Expression]
    body: List["Statement"]


@dataclass
class While(Node):
    condition: Expression
    body: List["Statement"]


@dataclass
class Test(Node):
    value: Expression
    branches: List[Branch]


@dataclass
class Goto(Node):
    label: str


@dataclass
class Label(Node):
    label: str


@dataclass
class Return(Node):
    value: Optional[Expression]


@dataclass
class Raise(Node):
    value: Optional[Expression]


@dataclass
class Plain(Node):
    """EXIT, RETRY, TRYNEXT."""

    word: str


@dataclass
class Connect(Node):
    place: Expression
    trap: str
    # The place of the trap's name.
    trap_at: int = 0


Statement = Union[Assign, Instruct, If, ShortIf, For, While, Test, Goto, Label, Return, Raise, Plain, Connect, Placeholder]
