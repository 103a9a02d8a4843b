"""The text of an import's report."""
from typing import List

from .report import HEADINGS, Entry, Report


def report_text(report: Report) -> bytes:
    lines = list(report.first)
    for kind, heading in HEADINGS.items():
        entries = sorted((it for it in report.entries if it.kind == kind), key=lambda it: (it.task, it.module, it.line))
        if entries:
            lines += ["", f"{heading} ({len(entries)})", *(f"  {line_text(it)}" for it in entries)]
    return ("\n".join(lines) + "\n").encode("utf-8", "replace")


def line_text(entry: Entry) -> str:
    """An entry with its place: the task, the module and the line."""
    place: List[str] = [entry.task] if entry.task else []
    if entry.module:
        place.append(f"{entry.module}:{entry.line}" if entry.line else entry.module)
    return f"{' '.join(place)}: {entry.text}" if place else entry.text
