"""The Debian package: where its files go, and what its control files say. `dpkg-deb` packs it, and `dpkg-shlibdeps` says what it needs."""
import calendar
import email.utils
import gzip
import hashlib
import os
import re
import shutil
import subprocess
import textwrap
import time
from pathlib import Path
from typing import Dict, Mapping, Sequence

from . import packed, record
from .packed import COMPLETIONS, MAN, File
from .places import CRATE

NAME = "rapid-cell"
SHARE = f"usr/share/{NAME}"
DOC = f"usr/share/doc/{NAME}"
# The files that Debian has places of its own for.
PLACES = {
    CRATE: f"usr/lib/{NAME}/{CRATE}",
    MAN: "usr/share/man/man1/rapid_cell.1.gz",
    COMPLETIONS["bash"]: "usr/share/bash-completion/completions/rapid_cell",
    COMPLETIONS["zsh"]: "usr/share/zsh/vendor-completions/_rapid_cell",
    COMPLETIONS["fish"]: "usr/share/fish/vendor_completions.d/rapid_cell.fish",
}
# What leads to them from where they are looked for. The launcher reads the documents, so that they lie in its own folder.
LINKS = {
    "usr/bin/rapid_cell": f"../share/{NAME}/rapid_cell",
    f"{SHARE}/{CRATE}": f"../../lib/{NAME}/{CRATE}",
    **{f"{DOC}/{it}": f"../../{NAME}/{it}" for it in ("README.md", "PROVED", "docs", "examples")},
}
CONTROL = """\
Package: {name}
Version: {version}
Architecture: amd64
Maintainer: {maintainer}
Installed-Size: {size}
Depends: {depends}, python3 (>= 3.8)
Section: science
Priority: optional
Description: checks and runs robot cells programmed in RAPID
 rapid_cell reads a cell script and RAPID modules, ABB's language for robots.
 It reports an error with its line, its cause and what to write instead, or it
 runs the cell and prints every setpoint, before a robot moves.
 .
 The program in this package was proved: the file PROVED has the record.
"""
COPYRIGHT = """\
Format: https://www.debian.org/doc/packaging-manuals/copyright-format/1.0/
Upstream-Name: rapid_cell
Upstream-Contact: {maintainer}

Files: *
Copyright: {year} {maintainer}
License: none-given
 The repository of rapid_cell names no licence. Ask its maintainers before you
 pass it on.
"""
# The record has the checksum of the program as the kit linked it, so it is packed as it is.
OVERRIDES = f"{NAME}: unstripped-binary-or-object [usr/lib/{NAME}/{CRATE}]\n"


def write(files: Mapping[str, File], version: str, when: int, to: Path) -> None:
    """Writes the package. OSError, ValueError."""
    root = to.with_suffix(".root")
    maintainer = record.git("log", "-1", "--format=%an <%ae>").strip()
    every = {PLACES.get(name, f"{SHARE}/{name}"): file for name, file in files.items()}
    every[PLACES[MAN]] = File(zipped(files[MAN].text))
    every[f"{DOC}/changelog.gz"] = File(zipped(changelog(version, maintainer).encode()))
    every[f"{DOC}/copyright"] = File(COPYRIGHT.format(maintainer=maintainer, year=time.gmtime(when).tm_year).encode())
    every[f"usr/share/lintian/overrides/{NAME}"] = File(OVERRIDES.encode())
    size = sum(-(-len(it.text) // 1024) for it in every.values()) + len({Path(it).parent for it in every}) + len(LINKS)
    put(every, root)
    for name, target in LINKS.items():
        (root / name).parent.mkdir(mode=0o755, parents=True, exist_ok=True)
        (root / name).symlink_to(target)
    facts = {"name": NAME, "version": version, "maintainer": maintainer, "size": size, "depends": depends(root / PLACES[CRATE], to.parent)}
    sums = "".join(f"{hashlib.md5(it.text).hexdigest()}  {name}\n" for name, it in sorted(every.items()))
    put({"DEBIAN/control": File(CONTROL.format(**facts).encode()), "DEBIAN/md5sums": File(sums.encode())}, root)
    environment = {**os.environ, "SOURCE_DATE_EPOCH": str(when), "DPKG_DEB_THREADS_MAX": "1"}
    done(["dpkg-deb", "-Zxz", "--root-owner-group", "--build", str(root), str(to)], to.parent, environment)
    shutil.rmtree(root)


def put(every: Mapping[str, File], root: Path) -> None:
    """Writes files below a folder, with rights that do not depend on the caller's mask."""
    for name, file in every.items():
        (root / name).parent.mkdir(parents=True, exist_ok=True)
        (root / name).write_bytes(file.text)
        (root / name).chmod(0o755 if file.is_executable else 0o644)
    for folder, _, _ in os.walk(root):
        os.chmod(folder, 0o755)


def zipped(text: bytes) -> bytes:
    return gzip.compress(text, 9, mtime=0)


def depends(program: Path, room: Path) -> str:
    """The libraries that the program needs, as `dpkg-shlibdeps` finds them."""
    (room / "debian").mkdir()
    (room / "debian/control").write_text(f"Source: {NAME}\n\nPackage: {NAME}\nArchitecture: amd64\n", encoding="utf-8")
    said = done(["dpkg-shlibdeps", "-O", str(program.resolve())], room, dict(os.environ))
    found = re.search(r"^shlibs:Depends=(.+)$", said, re.M)
    if not found:
        raise ValueError("dpkg-shlibdeps does not say which libraries the program needs")
    return found[1]


def done(words: Sequence[str], folder: Path, environment: Dict[str, str]) -> str:
    """What a command of Debian's prints. ValueError if it fails."""
    how = {"stdin": subprocess.DEVNULL, "stdout": subprocess.PIPE, "stderr": subprocess.PIPE, "errors": "replace"}
    ran = subprocess.run(words, cwd=folder, env=environment, **how)
    if ran.returncode:
        raise ValueError(f"{words[0]}: {(ran.stderr.strip().splitlines() or ['it failed'])[-1]}")
    return ran.stdout


def changelog(version: str, maintainer: str) -> str:
    """CHANGELOG.md as Debian wants a changelog. ValueError if it does not start with the version."""
    entries = []
    for section in packed.changes():
        title, _, text = section.partition("\n")
        named, _, day = title.partition(", ")
        at = email.utils.formatdate(calendar.timegm(time.strptime(day.strip(), "%Y-%m-%d"))).replace("-0000", "+0000")
        items = [" ".join(it.split()) for it in f"\n{text}".split("\n- ")[1:]]
        lines = [textwrap.fill(it, 78, initial_indent="  * ", subsequent_indent="    ") for it in items]
        entries.append((named, f"{NAME} ({named}) unstable; urgency=medium\n\n" + "\n".join(lines) + f"\n\n -- {maintainer}  {at}\n"))
    if not entries or entries[0][0] != version:
        raise ValueError(f"CHANGELOG.md does not start with {version}, the version that the file VERSION has")
    return "\n".join(text for _, text in entries)
