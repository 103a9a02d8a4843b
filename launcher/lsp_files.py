"""The files of a cell as an editor has them: open buffers stand for the texts of their files."""
import contextlib
import os
from dataclasses import dataclass, field
from pathlib import Path
from typing import Dict, Iterable, List, Optional, Tuple
from urllib.parse import unquote, urlsplit

from .texts import Cell, Module, read, read_cell


@dataclass
class Files:
    """The script of a cell, and the buffers that an editor has open, by their resolved paths: the editor's own name (URI) and the
    text."""

    script: Path
    uris: Dict[Path, str] = field(default_factory=dict)
    changed: Dict[Path, bytes] = field(default_factory=dict)

    def put(self, uri: str, text: str) -> None:
        """Opens a buffer, or changes its text. Buffers that are no files are passed over."""
        file = path_of(uri)
        if file:
            self.uris[file] = uri
            self.changed[file] = text.encode(errors="surrogatepass")

    def close(self, uri: str) -> None:
        file = path_of(uri)
        if file:
            self.uris.pop(file, None)
            self.changed.pop(file, None)

    def snapshot(self) -> Tuple[Optional[Cell], Dict[Path, bytes]]:
        """The cell as it stands, or None if its script cannot be read, and the buffers that differ from their files."""
        changed = {file: text for file, text in list(self.changed.items()) if on_disk(file) != text}
        try:
            return read_cell(self.script, changed), changed
        except (OSError, ValueError):
            return None, changed

    def uri(self, file: Path) -> str:
        """The editor's name of a file."""
        file = resolved(file)
        return self.uris.get(file) or file.as_uri()

    def text(self, file: Path) -> Optional[bytes]:
        try:
            return read(file, self.changed)
        except (OSError, ValueError):
            return None

    def is_script(self, file: Path) -> bool:
        return resolved(self.script) == resolved(file)

    def modules_at(self, cell: Cell, file: Path) -> List[Module]:
        """The modules of the cell that lie in a file: one for each task that has it."""
        return [it for it in cell.modules if resolved(it.file) == resolved(file)]


def path_of(uri: str) -> Optional[Path]:
    """The resolved path that a URI names, or None if it names no file."""
    parts = urlsplit(uri)
    if parts.scheme != "file":
        return None
    return resolved(Path(os.fsdecode(unquote_bytes(parts.path))))


def unquote_bytes(path: str) -> bytes:
    return unquote(path, errors="surrogateescape").encode(errors="surrogateescape")


def resolved(file: Path) -> Path:
    """The path without links. A file need not be there."""
    return Path(os.path.realpath(file))


def on_disk(file: Path) -> Optional[bytes]:
    try:
        return read(file)
    except (OSError, ValueError):
        return None


def stamps(files: Iterable[Path]) -> Dict[Path, Tuple[int, int]]:
    """When each file was changed last on the disk, and its size."""
    found = {}
    for file in files:
        with contextlib.suppress(OSError, ValueError):
            state = os.stat(file)
            found[file] = (state.st_mtime_ns, state.st_size)
    return found
