"""The signals of EIO.cfg: their kinds, first values and widths, and what the system itself does with them."""
import re
from typing import Dict, List, Set

from .cfg import Cfg, Row
from .model import NotRead, Signal, SystemUse
from .report import GUESSED, TO_DECIDE, Report

KINDS = ("DI", "DO", "GI", "GO", "AI", "AO")
# How wide a group is whose bits are mapped nowhere.
UNMAPPED_BITS = 16


def read_signals(eio: Cfg, report: Report) -> Dict[str, Signal]:
    """The signals by their names in small letters. NotRead where a row has no name, an unknown type, or a name that another has."""
    found: Dict[str, Signal] = {}
    for row in eio.rows("EIO_SIGNAL"):
        signal = signal_of(eio, row, report)
        if signal.name.lower() in found:
            raise NotRead(str(eio.file), row.line, 1, f"signal {signal.name} stands twice")
        found[signal.name.lower()] = signal
    return found


def signal_of(eio: Cfg, row: Row, report: Report) -> Signal:
    name, kind = row.get("name"), row.get("signaltype", "type").upper()
    if not name:
        raise NotRead(str(eio.file), row.line, 1, "`-Name` with a name was expected in the row of a signal")
    if kind not in KINDS:
        raise NotRead(str(eio.file), row.line, 1, f"`-SignalType` of {name} should be one of {', '.join(KINDS)}")
    bits = width(eio, row, name, report) if kind in ("GI", "GO") else 1
    return Signal(name, kind, start_of(eio, row, name, kind, bits), bits)


def width(eio: Cfg, row: Row, name: str, report: Report) -> int:
    """How many bits a group has, by its map, as `16-19` or `0,2,4-7`."""
    mapped = row.get("devicemap", "unitmap").replace(" ", "")
    if not mapped:
        report.add(GUESSED, "", eio.file.name, row.line, f"the group {name} is mapped nowhere: taken as {UNMAPPED_BITS} bits wide")
        return UNMAPPED_BITS
    count = 0
    for part in mapped.split(","):
        ends = re.fullmatch(r"(\d+)(?:-(\d+))?", part)
        if not ends:
            raise NotRead(str(eio.file), row.line, 1, f"the map of {name} should have bits, as `16-19`")
        count += abs(int(ends.group(2) or ends.group(1)) - int(ends.group(1))) + 1
    return count


def start_of(eio: Cfg, row: Row, name: str, kind: str, bits: int) -> int:
    """The value that -Default gives; 0 without one, and for an analog signal."""
    given = row.get("default") or "0"
    try:
        value = float(given)
    except ValueError:
        raise NotRead(str(eio.file), row.line, 1, f"`-Default` of {name} should be a number") from None
    if kind in ("AI", "AO"):
        return 0
    if value != int(value) or not 0 <= value < 2**bits:
        raise NotRead(str(eio.file), row.line, 1, f"`-Default` of {name} should be a whole number from 0 to {2**bits - 1}")
    return int(value)


def system_uses(eio: Cfg) -> List[SystemUse]:
    """The signals that are tied to the system, as a motors-on lamp."""
    outs = [SystemUse(it.get("signal"), it.get("status") or "a status", True, it.line) for it in eio.rows("SYSSIG_OUT")]
    ins = [SystemUse(it.get("signal"), it.get("action") or "an action", False, it.line) for it in eio.rows("SYSSIG_IN")]
    return [it for it in outs + ins if it.signal]


def tell_system_uses(uses: List[SystemUse], used: Set[str], report: Report) -> None:
    """Tells of the used signals (names in small letters) which the system sets or acts on: here nothing does."""
    for it in uses:
        if it.signal.lower() in used:
            what = "the system sets it, here nothing does" if it.is_set else "the system acts on it, here only the program does"
            report.add(TO_DECIDE, "", "EIO.cfg", it.line, f"{it.signal} is tied to {it.what}: {what}")
