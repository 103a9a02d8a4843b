"""Reads a backup of a controller: its folder, its configuration files, its tasks with their modules."""
from dataclasses import replace
from pathlib import Path
from typing import Optional

from . import cross as crossed
from .cfg import Cfg, read_cfg
from .folders import child, path_below
from .model import Backup, NotRead
from .report import GUESSED, Report
from .signals import read_signals, system_uses
from .tasks import read_tasks


def read_backup(folder: Path, cross: Optional[Path], report: Report) -> Backup:
    """Reads the backup in a folder, and the rows of cross connections of a file. NotRead at the first thing that is wrong."""
    if not folder.is_dir():
        raise NotRead(str(folder), 1, 1, "the folder of a backup was expected, with RAPID and SYSPAR")
    eio, sys_cfg, moc = (configuration(folder, it) for it in ("EIO.cfg", "SYS.cfg", "MOC.cfg"))
    if not child(folder, "SYSPAR"):
        report.add(GUESSED, "", "SYSPAR", 0, "the folder is missing: signals are inputs or outputs by what the modules do with them")
    signals = read_signals(eio, report)
    rows = crossed.read_rows(eio, signals) + (crossed.read_file(cross, signals) if cross else [])
    for it in rows:
        signal = signals.get(it.result.lower())
        if signal and signal.kind == "DI":
            signals[it.result.lower()] = replace(signal, is_crossed=True)
    return Backup(folder, read_tasks(folder, sys_cfg, moc, report), signals, rows, system_uses(eio))


def configuration(folder: Path, name: str) -> Cfg:
    """A file of SYSPAR; one without sections where it is missing."""
    file = path_below(folder, f"SYSPAR/{name}")
    return read_cfg(file) if file and file.is_file() else Cfg(folder / "SYSPAR" / name)
