"""`clearance --watched CELL`: the least gap of each zone of the script over the segments on which it was watched.

The gaps are those of the program's lines G, which it proves; which segments were watched is read off the history of the same run.
"""
from fractions import Fraction
from pathlib import Path
from typing import Dict, Iterator, List, Optional, Sequence, Set, Tuple

from . import history, program, script
from .hints import HISTORY
from .program import Answer, Program
from .replay import Replay
from .script import Script
from .texts import read

# A gap, and the first event that has it.
Gap = Tuple[Fraction, int]


def printed(found: Program, name: bytes, file: Path) -> Answer:
    """What `clearance` prints, and a line W for each zone."""
    lines: List[str] = []
    answer = program.read(found, [b"clearance", name], lines.extend)
    if not lines:
        return answer
    cell = script.parse(read(file))
    watched: List[Set[int]] = []
    program.read(found, [b"round", name, HISTORY], lambda events: watched.extend(watched_by(cell, events)))
    lines += [f"W {zone.name} {words_of(gap)}" for zone, gap in zip(cell.zones, least(lines, watched))]
    return Answer(answer.status, "".join(f"{it}\n" for it in lines).encode("utf-8", "surrogateescape"), answer.err)


def watched_by(cell: Script, lines: Iterator[str]) -> List[Set[int]]:
    """Of each zone the events at which its arm was given a setpoint while the zone was watched."""
    replay = Replay(cell)
    found: List[Set[int]] = [set() for _ in cell.zones]
    for number, line in enumerate(it for it in lines if it.startswith("H ")):
        event = history.event_of(line)
        if event.kind == "Setpoint" and event.answer == "Given":
            for zone, events in zip(cell.zones, found):
                if cell.tasks[zone.task].name == event.actor and replay.signals[zone.signal] == zone.value:
                    events.add(number)
        replay.take(event)
    return found


def least(lines: Sequence[str], watched: Sequence[Set[int]]) -> List[Optional[Gap]]:
    """The least gap of each zone over the events at which it was watched. The lines of a zone end with its line C."""
    found: Dict[int, Gap] = {}
    zone = 0
    for words in (it.split() for it in lines):
        if words[0] == "C":
            zone += 1
        elif words[0] == "G" and words[-5] != "start" and int(words[-5]) in watched[zone]:
            gap = Fraction(words[-4]), int(words[-5])
            found[zone] = min(found.get(zone, gap), gap)
    return [found.get(k) for k in range(len(watched))]


def words_of(gap: Optional[Gap]) -> str:
    return f"{gap[1]} {gap[0].numerator}/{gap[0].denominator}" if gap else "- -"
