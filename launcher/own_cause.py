"""What the text around a place shows about a refusal."""
from dataclasses import dataclass, field
from typing import List


@dataclass
class Own:
    """The text beside the caret, or nothing for the table's words; notes; and whether these are enough without the table's."""

    label: str = ""
    notes: List[str] = field(default_factory=list)
    is_enough: bool = False
