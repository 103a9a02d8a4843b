"""What a package has: whole folders of the checkout, the program, the record of its proof, the man page and completions."""
import gzip
import io
import tarfile
from pathlib import Path
from typing import Dict, List, NamedTuple, Set

from . import completion, man, proof, record
from .places import CRATE, PROGRAM, TOP
from .record import Record

# Which of the checkout's folders and files are packed, and the place of each.
FOLDERS = {"launcher": "launcher", "docs": "docs", "crates/example_cells/data": "examples"}
FILES = ("rapid_cell", "README.md", "CHANGELOG.md", "VERSION")
MAN = "man/man1/rapid_cell.1"
# The completions by the shell, each named as that shell looks for it.
COMPLETIONS = {"bash": "completion/rapid_cell", "zsh": "completion/_rapid_cell", "fish": "completion/rapid_cell.fish"}


class File(NamedTuple):
    text: bytes
    is_executable: bool = False


def files(found: Record) -> Dict[str, File]:
    """The files of a package, by their paths from its top. ValueError where the program has changed meanwhile."""
    every: Dict[str, File] = {}
    for line in record.git("ls-files", "-s", "-z", "--", *FOLDERS, *FILES).split("\0")[:-1]:
        head, _, name = line.partition("\t")
        every[place_of(name)] = File((TOP / name).read_bytes(), head.startswith("100755"))
    every["PROVED"] = File(found.text().encode())
    every[CRATE] = File(PROGRAM.read_bytes(), True)
    if proof.sum_of(PROGRAM) != found.once["program"]:
        raise ValueError("the program was built anew meanwhile: try again")
    every[MAN] = File(man.page(found.once["version"], found.once["commit"].rpartition(" ")[2]).encode())
    every.update({name: File(completion.script(shell, "rapid_cell").encode()) for shell, name in COMPLETIONS.items()})
    return every


def place_of(name: str) -> str:
    """The place in a package of a file of the checkout."""
    folder = next((it for it in FOLDERS if name.startswith(f"{it}/")), "")
    return FOLDERS[folder] + name[len(folder) :] if folder else name


def write_tar(files: Dict[str, File], top: str, when: int, to: Path) -> None:
    """Writes the files as a folder `top`: the same bytes each time, whoever writes them and when."""
    folders: Set[str] = {top}
    for name in files:
        folders.update(str(it) for it in Path(top, name).parents if str(it) != ".")
    with to.open("wb") as out, gzip.GzipFile("", "wb", 9, out, when) as zipped:
        with tarfile.open(fileobj=zipped, mode="w", format=tarfile.GNU_FORMAT) as tar:
            for folder in sorted(folders):
                tar.addfile(entry(folder, True, when, tarfile.DIRTYPE))
            for name, file in sorted(files.items()):
                info = entry(f"{top}/{name}", file.is_executable, when, tarfile.REGTYPE)
                info.size = len(file.text)
                tar.addfile(info, io.BytesIO(file.text))


def entry(name: str, is_executable: bool, when: int, kind: bytes) -> tarfile.TarInfo:
    found = tarfile.TarInfo(name)
    found.type, found.mtime, found.mode = kind, when, 0o755 if is_executable else 0o644
    found.uname = found.gname = "root"
    return found


def changes() -> List[str]:
    """The sections of CHANGELOG.md, the newest first, each from its version on."""
    text = (TOP / "CHANGELOG.md").read_text(encoding="utf-8")
    return [it.strip() for it in text.split("\n## ")[1:]]
