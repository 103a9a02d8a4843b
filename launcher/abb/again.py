"""`import --again`: the words of the last import, the texts of the builder, and what changed since."""
import hashlib
import json
from dataclasses import dataclass, field
from pathlib import Path
from typing import Dict, List, Optional

from .imported import REPORT, Imported, Wanted
from .report_text import report_text

# What an import remembers in OUT: its words, and a checksum of each file that it wrote.
RECORD = "import.json"
OPTIONS = ("places", "joints", "add", "cross")
# The tables that a builder fills in.
TABLES = ("places.csv", "joints.csv")
MOST_LINES = 12
SAVED = ".before"


@dataclass
class Before:
    """The files of the last import as they are in OUT, and the checksums of what was written."""

    files: Dict[str, bytes] = field(default_factory=dict)
    sums: Dict[str, str] = field(default_factory=dict)

    @property
    def edited(self) -> List[str]:
        """The files that somebody changed since."""
        return [name for name, text in self.files.items() if name in self.sums and checksum(text) != self.sums[name]]


def checksum(text: bytes) -> str:
    return hashlib.sha256(text).hexdigest()


def record(out: Path) -> dict:
    try:
        found = json.loads((out / RECORD).read_text(encoding="utf-8"))
    except (OSError, ValueError):
        return {}
    return found if isinstance(found, dict) else {}


def complete(wanted: Wanted) -> None:
    """Takes the words that are not given from the last import. A table in OUT, which the builder fills in, stays."""
    known = record(wanted.out)
    for option in OPTIONS:
        if getattr(wanted, option) is None and known.get(option):
            setattr(wanted, option, Path(known[option]))
    for option, table in zip(OPTIONS, TABLES):
        other = "joints" if option == "places" else "places"
        if (wanted.out / table).is_file() and getattr(wanted, other) is None and known.get("table", "places") == option:
            setattr(wanted, option, wanted.out / table)


def before(wanted: Wanted) -> Optional[Before]:
    """What the last import wrote, or None without --again."""
    if not wanted.is_again:
        return None
    found = Before({}, {str(name): str(it) for name, it in record(wanted.out).get("files", {}).items()})
    for name in [*found.sums, REPORT]:
        file = wanted.out / name
        if file.is_file():
            found.files[name] = file.read_bytes()
    return found


def write(wanted: Wanted, found: Imported) -> None:
    """Writes the files of an import. One that the builder edited is kept beside, as NAME.before."""
    known = before(wanted)
    for name in known.edited if known else []:
        if name not in TABLES and known and found.files.get(name) != known.files[name]:
            (wanted.out / f"{name}{SAVED}").write_bytes(known.files[name])
    for name, text in found.files.items():
        file = wanted.out / name
        file.parent.mkdir(parents=True, exist_ok=True)
        if not file.is_file() or file.read_bytes() != text:
            file.write_bytes(text)
    words = {it: str(getattr(wanted, it)) for it in OPTIONS if getattr(wanted, it) is not None}
    words["table"] = "joints" if wanted.joints else "places"
    sums = {name: checksum(text) for name, text in sorted(found.files.items())}
    (wanted.out / RECORD).write_text(json.dumps({**words, "files": sums}, indent=1) + "\n", encoding="utf-8")


def changes(known: Before, found: Imported) -> List[str]:
    """What is another file, another line or another entry of the report than in the last import."""
    lines: List[str] = []
    for name, text in found.files.items():
        if name not in (REPORT, RECORD):
            lines += changed_file(name, known.files.get(name), text)
    lines += [f"  {name}: no longer written" for name in known.sums if name not in found.files]
    lines += [f"  {name}: was edited; the edited text is kept as {name}{SAVED}" for name in known.edited if name not in TABLES and name in found.files]
    lines += told_anew(known, found)
    return ["Changed since the last import:", *lines] if lines else ["Nothing changed since the last import."]


def changed_file(name: str, old: Optional[bytes], new: bytes) -> List[str]:
    if old is None:
        return [f"  {name}: new"]
    if old == new:
        return []
    before_lines, after_lines = old.split(b"\n"), new.split(b"\n")
    numbers = [str(n + 1) for n in range(len(after_lines)) if n >= len(before_lines) or before_lines[n] != after_lines[n]]
    shown = ", ".join(numbers[:MOST_LINES]) + (f" and {len(numbers) - MOST_LINES} more" if len(numbers) > MOST_LINES else "")
    return [f"  {name}: {'line' if len(numbers) == 1 else 'lines'} {shown}" if numbers else f"  {name}: shorter"]


def told_anew(known: Before, found: Imported) -> List[str]:
    """The lines of the report that the last one did not have."""
    old = set(known.files.get(REPORT, b"").decode("utf-8", "replace").splitlines())
    new = report_text(found.report).decode("utf-8", "replace").splitlines()
    return [f"  report: {it.strip()}" for it in new if it not in old and it.startswith("  ")]
