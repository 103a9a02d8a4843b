"""Runs of imported cells, and what is expected of them."""
import fnmatch
import os
import re
import subprocess
from dataclasses import dataclass, field
from pathlib import Path

LAUNCHER = Path(__file__).resolve().parent.parent.parent / "rapid_cell"
# The kinds of entries that are compared whole, by their headings in the report.
KINDS = {
    "not kept": "Not kept",
    "to decide": "To decide",
    "missing": "Rows that are missing",
    "computed": "Guessed",
    "unwatched": "Zones that are not watched",
}
# The statuses of a cell that was accepted and ran.
RAN = (0, 1, 8, 9)
TABLES = {"--places": "places.csv", "--joints": "joints.csv", "--add": "add.toml", "--cross": "cross.cfg"}
ENTRY = re.compile(r"  (?:[\w?]+ )?(?:([\w.? ]+?):(\d+): )?(.*)")


@dataclass
class Got:
    """What an import and a run gave."""

    status: int = 0
    said: str = ""
    signals: int = 0
    entries: dict = field(default_factory=lambda: {it: [] for it in KINDS})
    starts: dict = field(default_factory=dict)
    is_accepted: bool = False
    run_status: int = -1
    lines: list = field(default_factory=list)
    places: dict = field(default_factory=dict)


@dataclass
class Expected:
    """One run of a file of expectations; None where nothing is said."""

    changes: list = field(default_factory=list)
    status: int = None
    signals: int = None
    entries: dict = field(default_factory=dict)
    starts: dict = field(default_factory=dict)
    run_status: int = None
    lines: list = field(default_factory=list)
    places: dict = field(default_factory=dict)

    def take(self, line):
        """Takes a line of the file."""
        kind = next((it for it in KINDS if line.startswith(f"{it} ")), None)
        word, _, rest = line.partition(" ")
        if kind:
            module, number = line[len(kind) + 1 :].rsplit(" ", 1)
            self.entries.setdefault(kind, []).append((module, int(number)))
        elif word == "change":
            self.changes.append(re.fullmatch(r'(\S+) "(.*)" => "(.*)"', rest).groups())
        elif word in ("import", "signals", "round"):
            setattr(self, {"import": "status", "signals": "signals", "round": "run_status"}[word], int(rest))
        elif word in ("T", "E"):
            self.lines.append(line)
        elif word == "at":
            task, module, number = rest.split()
            self.places[task] = (module, int(number))
        elif word == "guessed":
            task, _, name = rest.split()
            self.starts[task] = name
        else:
            raise ValueError(f"no line of an expectation: {line}")

    def change(self, backup):
        for name, old, new in self.changes:
            text = (backup / name).read_text(encoding="utf-8")
            assert old in text, f"{old} is not in {name}"
            (backup / name).write_text(text.replace(old, new), encoding="utf-8")

    def differences(self, got):
        if self.status is None:
            return []
        pairs = [("status of import", got.status, self.status), ("accepted", got.is_accepted, True), ("signals", got.signals, self.signals)]
        for kind in KINDS:
            pairs.append((kind, sorted(got.entries[kind]), sorted(self.entries.get(kind, []))))
        pairs += [("starts", got.starts, self.starts), ("status of round", got.run_status, self.run_status)]
        is_same = len(got.lines) == len(self.lines) and all(map(fnmatch.fnmatchcase, got.lines, map(escaped, self.lines)))
        pairs.append(("lines", got.lines if not is_same else self.lines, self.lines))
        pairs += [(f"place of {task}", got.places.get(task), place) for task, place in self.places.items()]
        return [f"{what}: got {one!r}, wanted {other!r} {got.said if what[0] == 's' else ''}".rstrip() for what, one, other in pairs if one != other]


def escaped(pattern):
    return pattern.replace("[", "[[]").replace("?", "[?]")


def read(file):
    """The runs that a file expects."""
    found = []
    for part in re.split(r"\n\s*\n", file.read_text(encoding="utf-8")):
        lines = [it for it in part.splitlines() if it and not it.startswith("#")]
        if lines:
            found.append(Expected())
            for it in lines:
                found[-1].take(it)
    return found


def launch(*words, seconds=600):
    ran = subprocess.run([LAUNCHER, *words], stdin=subprocess.DEVNULL, capture_output=True, timeout=seconds)
    return ran.returncode, ran.stdout.decode(errors="replace"), ran.stderr.decode(errors="replace")


def imported(backup, out):
    """Imports a backup with what stands beside it."""
    given = [word for option, name in TABLES.items() if (backup / name).is_file() for word in (option, backup / name)]
    got = Got()
    got.status, printed, got.said = launch("import", backup, out, *given)
    report = out / "from_abb.txt"
    if report.is_file():
        read_report(got, report.read_text(encoding="utf-8"))
    return got


def read_report(got, text):
    kind = None
    for line in text.splitlines():
        if line and not line.startswith(" "):
            kind = next((it for it, heading in KINDS.items() if line.startswith(heading)), None)
            continue
        found = ENTRY.fullmatch(line) if kind else None
        start = re.match(r"  (\w+): the arm starts at (\w+), the first", line)
        if start:
            got.starts[start[1]] = start[2]
        elif found and (found[1] or kind != "computed"):
            got.entries[kind].append((found[1], int(found[2] or 0)))


def run(got, backup, out, options, needs_places):
    """Checks and runs a cell, and looks where its tasks were last, if that is needed."""
    cell = out / "cell.toml"
    got.signals = len(signals_of(cell.read_text(encoding="utf-8"), backup))
    status, printed, said = launch(*options, "round", cell)
    got.is_accepted = status in RAN
    if not got.is_accepted:
        got.said = said
        return
    got.run_status = status
    got.lines = [it for it in printed.splitlines() if it[:2] in ("T ", "E ")]
    own = {it.name for it in backup.glob("RAPID/**/*") if it.is_file()}
    for line in launch(*options, "trace", cell)[1].splitlines() if needs_places else ():
        words = line.split(" ")
        if words[0] == "M" and os.path.basename(words[2]) in own and words[4:5] == ["Look"]:
            got.places[words[1]] = (os.path.basename(words[2]), int(words[3].split(":")[0]))


def signals_of(script, backup):
    """The signals of a script that EIO.cfg has, a group by its bits."""
    file = backup / "SYSPAR/EIO.cfg"
    text = file.read_text(encoding="utf-8", errors="replace") if file.is_file() else ""
    known = {it.lower() for it in re.findall(r'-Name "(\w+)" -SignalType', text)}
    named = re.findall(r'(?m)^\[\[signal\]\]\nname = "(\w+)"', script)
    return [it for it in named if it.lower() in known or re.sub(r"_\d+$", "", it).lower() in known]
