"""Errors: numbers from 1 to 90, and the errors that a program books for itself."""
from typing import Optional

from ..manual import entries
from .expressions import DATA, options_of
from .instructions import INSTRUCTIONS, argument
from .rendering import Rendering
from .tree import Instruct, Name

# The errors that a cell has by itself.
OWN = ("err_divzero", "err_strtoolng", "err_alrdycnt", "err_unkino", "err_inomax")


def book_err_no(at: Rendering, node: Instruct) -> str:
    """A number that no other error of the task has."""
    place = argument(at, node, 0)
    return f"{at.render(place)}:={at.job.error_number(at.source(place))};"


def proc_err_recovery(at: Rendering, node: Instruct) -> Optional[str]:
    return at.lost(node, "an error of a move that goes on")


def err_raise(at: Rendering, node: Instruct) -> str:
    """ErrRaise: the error with its number, and its text."""
    number = argument(at, node, 1)
    return f"RAISE {at.render(number)};"


def numbered(at: Rendering, node: Name) -> str:
    """The name of an error of RAPID: a constant of the generated module."""
    name = next(it.name for it in entries()[node.name.lower()])
    return at.job.error(name)


def own(at: Rendering, node: Name) -> str:
    return at.source(node)


def raise_to_user(at: Rendering, node: Instruct) -> str:
    """RaiseToUser: the error goes to the caller; every routine here is a user's."""
    found = options_of(node.arguments).get("errornumber")
    return f"RAISE {at.render(found.value)};" if found and found.value else "RAISE;"


INSTRUCTIONS["raisetouser"] = raise_to_user
INSTRUCTIONS.update({"bookerrno": book_err_no, "procerrrecovery": proc_err_recovery, "errraise": err_raise})
DATA.update({it: own for it in (*OWN, "errno")})
DATA.update({it: numbered for it in entries() if it.startswith("err_")})
