"""The folders and the files of a backup, whose names may be in either case, and the texts of its modules."""
import re
from pathlib import Path
from typing import List, Optional

from .cfg import decoded
from .model import Module, NotRead
from .report import LEFT_OUT, TO_DECIDE, Report

ENDINGS = (".mod", ".sys", ".modx", ".sysx", ".prg")
# The module that an import adds to a task.
GENERATED = "from_abb"


def child(folder: Path, name: str) -> Optional[Path]:
    """What a folder has under a name, in whatever case."""
    if not folder.is_dir():
        return None
    found = [it for it in sorted(folder.iterdir()) if it.name.lower() == name.lower()]
    return next((it for it in found if it.name == name), found[0] if found else None)


def path_below(folder: Path, name: str) -> Optional[Path]:
    """A file below a folder by its path with slashes or backslashes, in whatever case."""
    place: Optional[Path] = folder
    for part in re.split(r"[/\\]+", name):
        place = child(place, part) if place else None
    return place


def module_files(folder: Optional[Path]) -> List[Path]:
    """The files of modules of a folder, by their names."""
    if not folder or not folder.is_dir():
        return []
    return sorted(it for it in folder.iterdir() if it.suffix.lower() in ENDINGS and it.is_file())


def program_files(folder: Optional[Path]) -> List[Path]:
    """The modules of a PROGMOD folder, those that its program file names first. NotRead where that names one that is not there."""
    files = module_files(folder)
    if not folder or not folder.is_dir():
        return files
    order: List[Path] = []
    for program in sorted(it for it in folder.iterdir() if it.suffix.lower() == ".pgf"):
        for line, text in enumerate(decoded(program.read_bytes()).splitlines(), 1):
            for name in re.findall(r"<Module>\s*([^<]*?)\s*</Module>", text):
                found = path_below(folder, name)
                if not found:
                    raise NotRead(str(program), line, 1, f"the module {name} is not in the folder")
                order.append(found)
    return order + [it for it in files if it not in order]


def read_module(file: Path, task: str, report: Report) -> Optional[Module]:
    """A module; None, and a line of the report, where its file is empty."""
    text = file.read_bytes()
    if not text.strip():
        report.add(LEFT_OUT, task, file.name, 1, "the file of the module is empty")
        return None
    is_encrypted = not is_text(text)
    if is_encrypted:
        report.add(TO_DECIDE, task, file.name, 1, "the module is encrypted: what it declares is not known here")
    return Module(file.name, file, text, is_encrypted)


def is_text(text: bytes) -> bool:
    """Whether bytes may be a module's text: what is encrypted has control characters, or no word MODULE."""
    shown = decoded(text)
    if any(ord(it) < 32 and it not in "\t\n\f\r\x1a" for it in shown):
        return False
    return "\x7f" not in shown and (re.search(r"\bMODULE\b", shown, re.IGNORECASE) is not None or len(shown) < 4096)
