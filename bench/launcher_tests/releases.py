"""The proof that `build` keeps, `proved`, and what `package` refuses, in a copy of the frame with a kit that only pretends. The packages
themselves are tried by bench/release_test."""
import fcntl
import os
import shutil
import signal
import subprocess
import sys
import tempfile
from pathlib import Path

from .building import Frame, wait_for
from .common import TOP, compare

# What Debian's tools do here: one says which libraries are needed, the other packs, or only begins to.
SHLIBS = "#!/bin/sh\necho 'shlibs:Depends=libc6 (>= 2.34)'\n"
SLOW = '#!/bin/sh\nfor it; do to=$it; done; echo half > "$to"; sleep 60\n'
NO_PROGRAM = "launcher: there is no proved program of the sources as they stand: ./rapid_cell build proves and builds it\n"
GATE = "rt: b proved\nrt: ok; handles allowed: none\n3 passed, 0 failed\n"


class Release(Frame):
    """The frame as a checkout of git, with what a package has."""

    def __init__(self, folder):
        super().__init__(folder)
        for name in ("README.md", "CHANGELOG.md"):
            shutil.copy2(TOP / name, self.top)
        (self.top / ".gitignore").write_text("out/\nproved\n__pycache__/\n")
        (self.top / "crates/low/src/lib.rt").write_text("// low\n")
        shutil.copytree(TOP / "examples/first_move", self.top / "crates/example_cells/data/first_move")
        tool = self.kit / "dpkg-shlibdeps"
        tool.write_text(SHLIBS)
        tool.chmod(0o755)
        self.git("init", "-q")
        self.commit()

    def git(self, *words):
        named = ["-c", "user.name=A", "-c", "user.email=a@example.org"]
        subprocess.run(["git", *named, *words], cwd=self.top, check=True, stdout=subprocess.DEVNULL)

    def commit(self):
        self.git("add", "-A")
        self.git("commit", "-q", "-m", "all")


def try_proof_is_kept():
    """`build` keeps what the kit says of each crate, and asks again where it says nothing."""
    with tempfile.TemporaryDirectory() as folder:
        frame = Release(folder)
        compare("build", frame.start("build")[0], 0)
        kept = frame.cache / "rapid_cell/proofs"
        lines = sorted(it.partition(" ")[2].rpartition(" ")[0] for it in kept.read_text().splitlines() if "logic=" in it)
        compare("the kit's lines", lines, ["logic=proved functions=1 sum=5eed", "logic=proved functions=2 sum=5eed"])
        first = kept.read_text()
        compare("build again", (frame.start("build")[0], kept.read_text()), (0, first))
        kept.unlink()
        compare("build with nothing kept", frame.start("build")[0], 0)
        compare("the kit was asked again", "functions=2 sum=5eed native=nat incremental=trusted" in kept.read_text(), True)


def try_record():
    """The record that a package has, read from its tar.gz, against the checkout; and records that are none."""
    with tempfile.TemporaryDirectory() as folder:
        frame = Release(folder)
        gate, to = Path(folder, "gate"), Path(folder, "to")
        gate.write_text(GATE)
        to.mkdir()
        frame.start("build")
        status, out, err = frame.start("package", "-o", to.relative_to("/"), "--gate", gate)
        compare("package", (status, out.splitlines(), err), (0, [f"{to}/{it}"[1:] for it in names()], ""))
        record = Path(folder, "PROVED")
        record.write_bytes(subprocess.run(["tar", "-xzOf", to / names()[1], f"rapid-cell-{version()}/PROVED"], stdout=subprocess.PIPE).stdout)
        lines = record.read_text().splitlines()
        compare("the gate in it", [it for it in lines if it.startswith("gate")], ["gate ok; handles allowed: none", "gate 3 passed, 0 failed"])
        compare("the crates in it", [it.split()[1] for it in lines if it.startswith("crate ")], ["low", "controller_program"])
        compare("the files in it", [it.split()[1] for it in lines if it.startswith("file ")], ["crates.txt", "crates/low/src/lib.rt"])
        status, out, err = frame.start("proved", record)
        compare("proved", (status, out.splitlines()[-1], err), (0, "the program that was built here is that of the record", ""))
        try_no_records(frame, record, Path(folder, "other"))
        (frame.top / "crates/low/src/lib.rt").write_text("// changed\n")
        (frame.top / "crates/low/src/more.rt").write_text("// new\n")
        status, out, err = frame.start("proved", record)
        compare("proved, changed", (status, out), (1, "changed crates/low/src/lib.rt\nnew crates/low/src/more.rt\n"))
        compare("proved, changed, in a line", len(err.splitlines()), 1)


def try_no_records(frame, record, other):
    text = record.read_text()
    for what, wrong, said in (
        ("cut", text[: len(text) // 2], "is cut: its last line is missing"),
        ("of another version", text.replace(f"version {version()}", "version 0.9.0"), f"is of version 0.9.0, and this checkout is of {version()}"),
        ("of another form", text.replace("form 1", "form 2", 1), "is a record of another form than this rapid_cell knows: form 2"),
        ("none", "# Changes\n", "is no record of a proof"),
        ("empty", "", "is no record of a proof"),
        ("damaged", text.replace("program ", "program", 1), "is damaged at the line"),
    ):
        other.write_text(wrong)
        status, out, err = frame.start("proved", other)
        compare(f"a record {what}", (status, out, said in err, len(err.splitlines())), (1, "", True, 1))
    other.write_bytes(b"\xff\xfe")
    compare("a record of bytes", frame.start("proved", other), (1, "", f"launcher: {other} is no record of a proof\n"))
    compare("no file", frame.start("proved", f"{other}s"), (1, "", f"launcher: {other}s cannot be read (No such file or directory)\n"))
    compare("no word", frame.start("proved")[:2], (2, ""))


def try_package_refused():
    with tempfile.TemporaryDirectory() as folder:
        frame = Release(folder)
        to = Path(folder, "to")
        to.mkdir()
        compare("package, nothing built", frame.start("package", "-o", to), (123, "", NO_PROGRAM))
        frame.start("build")
        source = frame.top / "crates/low/src/lib.rt"
        source.write_text("// changed\n")
        compare("package, a source changed", frame.start("package", "-o", to), (123, "", NO_PROGRAM))
        source.write_text("// low\n")
        program = frame.top / "crates/controller_program/out/controller_program"
        text = program.read_bytes()
        program.write_bytes(text + b"# changed\n")
        compare("package, the program changed", frame.start("package", "-o", to), (123, "", NO_PROGRAM))
        program.write_bytes(text)
        for words in (("x",), ("-o",), ("-o", to, "-o", to), ("--gate", "")):
            compare(f"package {words}", frame.start("package", *words)[:2], (2, ""))
        for what, words, wanted in (
            ("a folder that is not there", ("-o", f"{to}/none"), 6),
            ("a file for a folder", ("-o", program), 6),
            ("a folder that may not be written", ("-o", "/proc"), 6),
            ("a gate that did not pass", ("-o", to, "--gate", program), 6),
        ):
            status, out, err = frame.start("package", *words)
            compare(f"package, {what}", (status, out, len(err.splitlines())), (wanted, "", 1))
        (frame.top / "README.md").write_text("changed\n")
        status, out, err = frame.start("package", "-o", to)
        compare("package, a change that is not committed", (status, out, "README.md has changes that are not committed" in err), (2, "", True))
        compare("nothing was written", list(to.iterdir()), [])


def try_package_twice():
    """Two runs at once, and one that is stopped: nothing half written is left, nor what a killed run left."""
    with tempfile.TemporaryDirectory() as folder:
        frame = Release(folder)
        to, slow = Path(folder, "to"), frame.kit / "dpkg-deb"
        to.mkdir()
        frame.start("build")
        held = os.open(to, os.O_RDONLY)
        fcntl.flock(held, fcntl.LOCK_EX)
        said = f"launcher: another package is being written into {to}: wait until it is done\n"
        compare("package twice", frame.start("package", "-o", to), (6, "", said))
        os.close(held)
        slow.write_text(SLOW)
        slow.chmod(0o755)
        words = [sys.executable, frame.top / "rapid_cell", "package", "-o", to]
        left = set()
        for sent, status in ((signal.SIGKILL, -9), (signal.SIGTERM, 143), (signal.SIGINT, 130)):
            how = {"stdout": subprocess.PIPE, "stderr": subprocess.PIPE, "start_new_session": True, "env": frame.environment("good")}
            started = subprocess.Popen(words, cwd="/", **how)
            wait_for(lambda: set(to.glob(".rapid-cell-*/*.deb")) - left)
            os.killpg(started.pid, sent) if sent is not signal.SIGTERM else started.send_signal(sent)
            started.communicate(timeout=60)
            left = set(to.glob(".rapid-cell-*/*.deb"))
            compare(f"package, signal {sent}", started.returncode, status)
            if sent is not signal.SIGKILL:
                compare(f"package, signal {sent}, nothing is left", list(to.iterdir()), [])
        slow.unlink()
        compare("package after that", (frame.start("package", "-o", to)[0], sorted(it.name for it in to.iterdir())), (0, sorted(names())))


def names():
    return [f"rapid-cell_{version()}_amd64.deb", f"rapid-cell-{version()}-x86_64.tar.gz"]


def version():
    return (TOP / "VERSION").read_text(encoding="utf-8").strip()
