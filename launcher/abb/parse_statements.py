"""The reader of statements."""
from typing import Dict, Callable, List, Optional

from .parse_expressions import Expressions
from .tokens import HOLE, NAME
from .tree import (
    Assign,
    Branch,
    Connect,
    Expression,
    For,
    Goto,
    If,
    Instruct,
    Label,
    Placeholder,
    Plain,
    Raise,
    Return,
    ShortIf,
    Statement,
    Test,
    While,
)


class Statements(Expressions):
    def statements(self) -> List[Statement]:
        """The statements up to a word that begins none."""
        found: List[Statement] = []
        self.deeper()
        while True:
            kind = self.kinds[self.at]
            if kind == NAME:
                found.append(self.of_name())
            elif kind in FORMS:
                found.append(FORMS[kind](self))
            else:
                self.depth -= 1
                return found

    def of_name(self) -> Statement:
        """A statement that begins with a name: an instruction or a call, an assignment, a label."""
        start, after = self.start(), self.kinds[self.at + 1]
        if after == ":":
            self.at += 2
            return Label(start, self.end(), self.texts[self.at - 2])
        if after in (":=", "{", "."):
            return self.assignment()
        self.at += 1
        name = self.texts[self.at - 1]
        arguments = [] if self.kinds[self.at] == ";" else self.arguments()
        self.closed()
        return Instruct(start, self.end(), name, arguments)

    def assignment(self) -> Statement:
        start = self.start()
        place = self.place()
        self.expect(":=")
        value = self.expression()
        self.closed()
        return Assign(start, self.end(), place, value)

    def closed(self) -> None:
        if not self.next_is(";"):
            raise self.refused("`;`")

    def late(self) -> Statement:
        start = self.expect("%")
        name = self.expression()
        self.expect("%")
        arguments = [] if self.kinds[self.at] == ";" else self.arguments()
        self.closed()
        return Instruct(start, self.end(), "", arguments, name)

    def hole(self) -> Statement:
        if self.kinds[self.at + 1] == ":=":
            return self.assignment()
        start, text = self.start(), self.texts[self.at]
        self.at += 1
        self.next_is(";")
        return Placeholder(start, self.end(), text)

    def chosen(self) -> Statement:
        """IF, with THEN or with one statement."""
        start = self.expect("IF")
        condition = self.expression()
        if self.kinds[self.at] != "THEN":
            return self.chosen_short(start, condition)
        self.at += 1
        branches = [self.branch(condition, start)]
        while self.kinds[self.at] in ("ELSEIF", HOLE):
            begin = self.start()
            if self.next_is(HOLE):
                continue
            self.at += 1
            condition = self.expression()
            self.expect("THEN")
            branches.append(self.branch(condition, begin))
        begin = self.start()
        if self.next_is("ELSE"):
            branches.append(self.branch(None, begin))
        self.expect("ENDIF")
        return If(start, self.end(), branches)

    def branch(self, condition: Optional[Expression], start: int) -> Branch:
        body = self.statements()
        return Branch(start, self.end(), condition, body)

    def chosen_short(self, start: int, condition: Expression) -> Statement:
        kind = self.kinds[self.at]
        if kind == NAME and self.kinds[self.at + 1] != ":":
            body = self.of_name()
        elif kind in SIMPLE:
            body = FORMS[kind](self)
        else:
            raise self.refused("THEN or a statement")
        return ShortIf(start, self.end(), condition, body)

    def counted(self) -> Statement:
        start = self.expect("FOR")
        variable = "" if self.next_is(HOLE) else self.name()
        self.expect("FROM")
        first = self.expression()
        self.expect("TO")
        last = self.expression()
        step = self.expression() if self.next_is("STEP") else None
        self.expect("DO")
        body = self.statements()
        self.expect("ENDFOR")
        return For(start, self.end(), variable, first, last, step, body)

    def repeated(self) -> Statement:
        start = self.expect("WHILE")
        condition = self.expression()
        self.expect("DO")
        body = self.statements()
        self.expect("ENDWHILE")
        return While(start, self.end(), condition, body)

    def tested(self) -> Statement:
        start = self.expect("TEST")
        value = self.expression()
        branches: List[Branch] = []
        while self.kinds[self.at] in ("CASE", HOLE):
            begin = self.start()
            if self.next_is(HOLE):
                continue
            self.at += 1
            tests = self.several(":")
            branches.append(self.branch(None, begin))
            branches[-1].tests = tests
        begin = self.start()
        if self.next_is("DEFAULT"):
            self.expect(":")
            branches.append(self.branch(None, begin))
        self.expect("ENDTEST")
        return Test(start, self.end(), value, branches)

    def jump(self) -> Statement:
        start = self.expect("GOTO")
        label = "" if self.next_is(HOLE) else self.name()
        self.closed()
        return Goto(start, self.end(), label)

    def valued(self) -> Statement:
        """RETURN or RAISE, with or without a value."""
        start, kind = self.start(), self.kinds[self.at]
        self.at += 1
        value = None if self.kinds[self.at] == ";" else self.expression()
        self.closed()
        made = Return if kind == "RETURN" else Raise
        return made(start, self.end(), value)

    def plain(self) -> Statement:
        start, kind = self.start(), self.kinds[self.at]
        self.at += 1
        self.closed()
        return Plain(start, self.end(), kind)

    def connected(self) -> Statement:
        start = self.expect("CONNECT")
        place = self.place()
        self.expect("WITH")
        at = self.start()
        trap = "" if self.next_is(HOLE) else self.name()
        self.closed()
        return Connect(start, self.end(), place, trap, at)


FORMS: Dict[str, Callable[[Statements], Statement]] = {
    "IF": Statements.chosen,
    "FOR": Statements.counted,
    "WHILE": Statements.repeated,
    "TEST": Statements.tested,
    "GOTO": Statements.jump,
    "RETURN": Statements.valued,
    "RAISE": Statements.valued,
    "EXIT": Statements.plain,
    "RETRY": Statements.plain,
    "TRYNEXT": Statements.plain,
    "CONNECT": Statements.connected,
    "%": Statements.late,
    HOLE: Statements.hole,
}
# Those that may follow the condition of an IF without THEN.
SIMPLE = frozenset(FORMS) - {"IF", "FOR", "WHILE", "TEST"}
