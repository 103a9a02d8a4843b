"""The conversion of one module: the texts of its nodes, and the changes that are made in it."""
import re
from typing import Callable, Dict, List, NoReturn, Optional, Sequence, Tuple, Type, Union

from . import constants
from .job import Job
from .names import Meant, Text
from .reading import Value
from .report import CHANGED, LEFT_OUT, NOT_KEPT
from .tree import Expression, Group, Node, While
from .tree_items import Data, Parameter, Routine

COMMENT = re.compile(r'"(?:[^"\r\n]|"")*"|(![^\r\n]*)')
GAP = re.compile(r"(?:\s+|![^\n]*)*")
BLANKS = re.compile(r"\s+")


class Lost(Exception):
    """A part that cannot be kept, and why."""

    def __init__(self, node: Node, why: str) -> None:
        super().__init__(why)
        self.node = node
        self.why = why


class Rendering:
    """A module of a task that is being converted; it is the Context of rules and readings."""

    def __init__(self, job: Job, text: Text) -> None:
        self.job = job
        self.text = text
        self.routine: Optional[Routine] = None
        # The parameters and data of the routine, and the variables of the FORs around the place, the innermost last.
        self.own: Dict[str, Union[Data, Parameter]] = {}
        self.counted: List[str] = []
        # The WHILEs around the place, the innermost last.
        self.loops: List[While] = []
        self.edits: List[Tuple[int, int, str]] = []

    # Where

    @property
    def task(self) -> str:
        return self.job.task.name

    @property
    def module(self) -> str:
        return self.text.name

    def line(self, node: Node) -> int:
        return self.text.line_of(node.start)

    def source(self, node: Node) -> str:
        return self.text.characters[node.start : node.end]

    # Names

    def meant(self, name: str) -> Meant:
        """What a name means at this place, the variable of a FOR excepted."""
        return self.own.get(name.lower()) or self.job.names.item(self.text, name)

    def is_counted(self, name: str) -> bool:
        return name.lower() in self.counted

    def datum(self, name: str) -> Union[Data, Parameter, None]:
        found = self.meant(name)
        return found if isinstance(found, (Data, Parameter)) and not self.is_counted(name) else None

    def base(self, kind: str) -> str:
        return self.job.names.base(self.text, kind)

    def type_of(self, node: Expression) -> str:
        from .typing_of import type_of

        return type_of(self, node)

    def parts(self, node: Expression, kind: str) -> List[str]:
        """The nums of a pos or an orient, of any expression of that type."""
        from .expressions import parts_of

        return parts_of(self, node, kind)

    # Values

    def constant(self, node: Expression) -> Optional[Value]:
        return constants.value_of(self, node)

    def initial(self, name: str) -> Optional[Value]:
        found = self.datum(name)
        return self.constant(found.value) if isinstance(found, Data) and found.value else None

    # Texts

    def render(self, node: Expression) -> str:
        """The converted text of an expression. Raises Lost where a part cannot be kept."""
        rule = EXPRESSIONS.get(type(node))
        return rule(self, node) if rule else self.source(node)

    def spliced(self, node: Node, parts: Sequence[Expression]) -> str:
        """The text of a node with the converted texts of its parts, which are in the order of the text."""
        return self.put_in(node, [(it.start, it.end, self.render(it)) for it in parts])

    def put_in(self, node: Node, changes: Sequence[Tuple[int, int, str]]) -> str:
        characters, at, found = self.text.characters, node.start, []
        for start, end, new in changes:
            found += [characters[at:start], new]
            at = end
        return "".join([*found, characters[at : node.end]])

    # The generated module and the report

    def need(self, name: str) -> str:
        return self.job.need(name)

    def add(self, name: str, text: str) -> str:
        return self.job.library.add(name, text)

    def note(self, kind: str, node: Node, text: str) -> None:
        self.job.report.add(kind, self.task, self.module, self.line(node), text)

    def lost(self, node: Node, why: str) -> NoReturn:
        raise Lost(node, why)

    # Changes

    def change(self, start: int, end: int, new: str) -> None:
        self.edits.append((start, end, new))

    def replaced(self, node: Node, new: str) -> None:
        """Puts statements in the place of one: on its first line, with the comments of all of its lines."""
        if new != self.source(node):
            self.note(CHANGED, node, f"{short(self.source(node))} -> {short(new)}")
            self.change(node.start, node.end, fitted(flat(new), self.source(node)))

    def stopped(self, node: Node, lost: "Lost") -> None:
        """Puts a stop in the place of a statement that is not kept."""
        self.change(node.start, node.end, fitted(self.stop(node, lost), self.source(node)))

    def left_out(self, node: Node, why: str = "") -> None:
        """Makes a statement or a declaration a comment; where others share its lines it goes without one."""
        self.note(LEFT_OUT, node, short(self.source(node)) + (f": {why}" if why else ""))
        self.comment_out(node)

    def comment_out(self, node: Node) -> None:
        source = self.source(node)
        if self.is_alone(node):
            self.change(node.start, node.end, re.sub(r"(?m)^([ \t]*)(?=\S)", r"\1! ", source))
        else:
            self.change(node.start, node.end, fitted("", source))

    def token_after(self, at: int) -> int:
        """The place of the first token from a place on."""
        found = GAP.match(self.text.characters, at)
        return found.end() if found else at

    def is_alone(self, node: Node) -> bool:
        """Whether nothing but blanks and a comment shares a node's first and last line."""
        characters = self.text.characters
        before = characters[characters.rfind("\n", 0, node.start) + 1 : node.start]
        stop = characters.find("\n", node.end)
        after = characters[node.end : stop if stop >= 0 else len(characters)].strip()
        return not before.strip(" \t\ufeff") and (not after or after.startswith("!"))

    def stop(self, node: Node, lost: Lost) -> str:
        """The statement that stands for one that is not kept."""
        self.note(NOT_KEPT, node, f"{short(self.source(node))}: {lost.why}")
        self.need("abb_stop")
        return f'abb_stop "{self.module}",{self.line(node)};'

    def result(self) -> str:
        """The text with all changes made."""
        found, at = [], 0
        for start, end, new in sorted(self.edits, key=lambda it: (it[0], it[1])):
            if start >= at:
                found += [self.text.characters[at:start], new]
                at = end
        return "".join([*found, self.text.characters[at:]])


def short(text: str) -> str:
    """A text on one line, without its comments, cut where it is long."""
    found = flat(text).strip()
    return found if len(found) <= 160 else f"{found[:157]}..."


def flat(text: str) -> str:
    """A text on one line, without its comments."""
    if "\n" not in text and "!" not in text:
        return text
    return BLANKS.sub(" ", COMMENT.sub(lambda it: "" if it[1] else it[0], text)) if "\n" in text else text


def fitted(new: str, source: str) -> str:
    """A text of one line with as many lines as its source has, and with the comments of those lines."""
    if "\n" not in source:
        return new
    ends = "\r\n" if "\r\n" in source else "\n"
    comments = ["".join(it[1] or "" for it in COMMENT.finditer(line)) for line in source.split("\n")]
    first = f"{new} {comments[0]}" if comments[0] else new
    return ends.join([first, *comments[1:]])


def grouped(text: str) -> str:
    """A text as an operand: in parentheses unless it is a name, a number or a call."""
    return text if re.fullmatch(r"[\w.]+(?:\{[^{}]*\}[\w.]*|\([^()]*\))?", text) else f"({text})"


def inner(node: Expression) -> Expression:
    while isinstance(node, Group):
        node = node.inner
    return node


Rule = Callable[[Rendering, Expression], str]
# The rule for each kind of expression; those without one stay as they are.
EXPRESSIONS: Dict[Type[Node], Rule] = {}
