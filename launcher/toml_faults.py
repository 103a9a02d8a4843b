"""Where and why a text is not TOML."""
from dataclasses import dataclass
from typing import Optional

from . import toml_places

KITS = "but the program's TOML reader does not: docs/CELL_SCRIPT.md says what a script may contain"


@dataclass(frozen=True)
class Fault:
    """The byte's place, or None if it is not known, and the cause."""

    at: Optional[int]
    cause: str


def find(text: bytes) -> Fault:
    try:
        text.decode()
    except UnicodeDecodeError as error:
        return Fault(error.start, "this byte is not valid UTF-8")
    fault = toml_places.read(text)[1]
    if fault is None:
        return Fault(None, f"the launcher accepts this script, {KITS}")
    if fault.at >= len(text):
        return Fault(len(text.rstrip()), f"{fault.cause}, at the end of the script")
    return Fault(fault.at, fault.cause)
