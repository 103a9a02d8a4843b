"""The reader of a module's text: its items, by recursive descent over the grammar of ABB's manual of the RAPID kernel."""
from typing import List, Optional

from .parse_statements import Statements
from .tokens import END, HOLE, NAME, Tokens, decoded
from .tree import Expression, Placeholder
from .tree_items import Alias, Data, Field, Handler, Item, Module, Parameter, Record, Routine

KINDS = ("VAR", "PERS", "CONST")
PASSED = ("VAR", "PERS", "INOUT")
ROUTINES = ("PROC", "FUNC", "TRAP")
ATTRIBUTES = ("SYSMODULE", "NOVIEW", "NOSTEPIN", "VIEWONLY", "READONLY")


def parse(file: str, text: bytes) -> Optional[Module]:
    """The tree of a module's text, or None for a text of gaps alone. NotRead if it is no module."""
    characters, encoding = decoded(text)
    return parse_text(file, characters, encoding)


def parse_text(file: str, text: str, encoding: str) -> Optional[Module]:
    reader = Modules(Tokens(file, text, encoding))
    return None if reader.kinds[0] == END else reader.module()


class Modules(Statements):
    def module(self) -> Module:
        start = self.expect("MODULE")
        name = self.name()
        attributes = self.attributes() if self.next_is("(") else []
        items = self.items()
        end_at = self.start()
        if not self.next_is("ENDMODULE"):
            raise self.refused("a declaration, a routine or ENDMODULE")
        end = self.end()
        if self.kinds[self.at] != END:
            raise self.refused("the end of the text")
        return Module(start, end, name, attributes, items, end_at)

    def attributes(self) -> List[str]:
        found = []
        while True:
            if self.kinds[self.at] not in ATTRIBUTES:
                raise self.refused("an attribute of a module")
            found.append(self.kinds[self.at])
            self.at += 1
            if not self.next_is(","):
                self.expect(")")
                return found

    def items(self) -> List[Item]:
        found: List[Item] = []
        while True:
            start, scope = self.start(), ""
            if self.kinds[self.at] in ("LOCAL", "TASK"):
                scope = self.kinds[self.at]
                self.at += 1
            kind = self.kinds[self.at]
            if kind in KINDS:
                found.append(self.data(start, scope))
            elif kind in ROUTINES:
                found.append(self.routine(start, scope))
            elif kind == "RECORD":
                found.append(self.record(start, scope))
            elif kind == "ALIAS":
                found.append(self.alias(start, scope))
            elif kind == HOLE and not scope:
                found.append(self.placeholder())
            elif scope:
                raise self.refused("a declaration or a routine")
            else:
                return found

    def placeholder(self) -> Placeholder:
        start, text = self.start(), self.texts[self.at]
        self.at += 1
        self.next_is(";")
        return Placeholder(start, self.end(), text)

    # Data and types

    def data(self, start: int, scope: str) -> Data:
        kind = self.kinds[self.at]
        self.at += 1
        type_at, type_name = self.start(), self.hole_or_name()
        name_at, name = self.start(), self.hole_or_name()
        name_end = self.end()
        sizes = self.sizes() if self.next_is("{") else []
        value = self.expression() if self.next_is(":=") else None
        self.closed()
        return Data(start, self.end(), scope, kind, type_name, name, sizes, value, type_at, name_at, name_end)

    def hole_or_name(self) -> str:
        return "" if self.next_is(HOLE) else self.name()

    def sizes(self) -> List[Expression]:
        return self.several("}")

    def record(self, start: int, scope: str) -> Record:
        self.expect("RECORD")
        name = self.hole_or_name()
        fields = []
        while self.kinds[self.at] == NAME:
            at = self.start()
            type_name, field = self.name(), self.name()
            self.closed()
            fields.append(Field(at, self.end(), type_name, field))
        self.expect("ENDRECORD")
        return Record(start, self.end(), scope, name, fields)

    def alias(self, start: int, scope: str) -> Alias:
        self.expect("ALIAS")
        type_name, name = self.hole_or_name(), self.hole_or_name()
        self.closed()
        return Alias(start, self.end(), scope, type_name, name)

    # Routines

    def routine(self, start: int, scope: str) -> Routine:
        kind = self.kinds[self.at]
        self.at += 1
        type_name = self.hole_or_name() if kind == "FUNC" else ""
        name_at, name = self.start(), self.hole_or_name()
        parameters_at = self.start()
        parameters: List[Parameter] = []
        if kind != "TRAP":
            self.expect("(")
            parameters = self.parameters()
            self.expect(")")
        head_end = self.end()
        data = self.own_data()
        body = self.statements()
        handlers = self.handlers()
        if not self.next_is("END" + kind):
            raise self.refused(f"a statement or END{kind}")
        found = Routine(start, self.end(), scope, kind, type_name, name, parameters, data, body, handlers)
        found.name_at, found.parameters_at, found.head_end = name_at, parameters_at, head_end
        return found

    def own_data(self) -> List[Data]:
        found = []
        while True:
            if self.kinds[self.at] in KINDS:
                found.append(self.data(self.start(), ""))
            elif self.kinds[self.at] != HOLE or self.texts[self.at] != "<DDN>":
                return found
            else:
                self.placeholder()

    def parameters(self) -> List[Parameter]:
        found: List[Parameter] = []
        group = -1
        while self.kinds[self.at] != ")":
            if found and not self.next_is(",") and self.kinds[self.at] != "\\":
                raise self.refused("`,`, `\\` or `)`")
            if self.next_is("\\"):
                group += 1
                self.parameter(found, group)
                while self.next_is("|"):
                    self.parameter(found, group)
            else:
                self.parameter(found, -1)
        return found

    def parameter(self, found: List[Parameter], group: int) -> None:
        start = self.start()
        if self.next_is(HOLE):
            return
        kind = ""
        if self.kinds[self.at] in PASSED:
            kind = self.kinds[self.at]
            self.at += 1
        type_name, name = self.name(), self.name()
        dimensions = self.stars() if self.next_is("{") else 0
        found.append(Parameter(start, self.end(), kind, type_name, name, dimensions, group))

    def stars(self) -> int:
        count = 1
        if not self.next_is(HOLE):
            self.expect("*")
        while self.next_is(","):
            self.expect("*")
            count += 1
        self.expect("}")
        return count

    def handlers(self) -> List[Handler]:
        found = []
        while self.kinds[self.at] in ("ERROR", "UNDO", "BACKWARD"):
            start, word = self.start(), self.kinds[self.at]
            self.at += 1
            errors = self.several(")") if word == "ERROR" and self.next_is("(") else []
            body = self.statements()
            found.append(Handler(start, self.end(), word, errors, body))
        return found
