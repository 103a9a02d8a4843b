"""Clocks: a cell has no time, so a clock counts how often it was read since its reset."""
from .expressions import FUNCTIONS, values_of
from .instructions import INSTRUCTIONS, argument
from .rendering import Rendering
from .tree import Call, Instruct


def clk_reset(at: Rendering, node: Instruct) -> str:
    return f"{at.render(argument(at, node, 0))}:=0;"


def clk_read(at: Rendering, node: Call) -> str:
    return f"{at.need('abb_ClkRead')}({at.render(values_of(node.arguments)[0])})"


def text_of_time(at: Rendering, node: Call) -> str:
    """CDate, CTime: a cell has no date."""
    return '"2000-01-01"' if node.name.lower() == "cdate" else '"00:00:00"'


INSTRUCTIONS["clkreset"] = clk_reset
FUNCTIONS.update({"clkread": clk_read, "cdate": text_of_time, "ctime": text_of_time})
