"""Building, and the unproved program that is kept, in a copy of the repository's frame with a kit that only pretends."""
import os
import re
import shutil
import signal
import subprocess
import sys
import tempfile
import time
from pathlib import Path

from .common import EXAMPLES, TOP, compare, launch

# The program that the kit pretends to make: without words it is refused, else it reads the file that it is given.
PROGRAM = """#!/bin/sh
if [ $# = 0 ]; then echo "rapid_cell: words 0" >&2; exit 2; fi
case "$2" in */cell.toml) cat "$2" > /dev/null;; esac
if [ "$1" = run ]; then sleep 60; fi
echo "ran $*"; exit 4
"""
# A folder named `work`, and how the kit behaves: KIT is one of good, hidden, broken, late, slow, or the name of a crate that fails.
KIT = """#!/bin/sh
echo "$PWD $*" >> "$LOG"
name=$(basename "$PWD")
if [ "$name" = "$KIT" ]; then echo "$name does not hold"; exit 1; fi
case "$1" in
version) echo "pretended kit" ;;
lib) if [ ! -e proved ]; then touch proved; echo "logic=proved functions=2 sum=5eed native=nat"; fi ;;
check) echo "logic=proved functions=2 sum=5eed native=nat incremental=trusted" ;;
run) mkdir -p out; cp "$MADE" out/controller_program
     echo "logic=proved functions=1 sum=5eed native=nat"
     echo "rt: running out/controller_program; to give it other input, run that file yourself"; exit 2 ;;
try) if [ "$KIT" = broken ]; then echo "error: a crate is refused" >&2; exit 1; fi
     if [ "$KIT" = slow ]; then sleep 60; fi
     case "$*" in
     *--steps*) if [ "$KIT" = good ]; then mkdir "$TMPDIR/work"; cp "$MADE" "$TMPDIR/work/program"; "$TMPDIR/work/program" check "$6"
                else cat "$6"; fi; exit 3 ;;
     esac
     if [ "$KIT" = late ]; then echo "checked: no-answer: the program did not end within the time limit" >&2; exit 1; fi
     if [ "$4" = /none.toml ]; then echo "rapid_cell: read $4" >&2; status=5
     else echo "S line"; echo "rapid_cell: script steps Range" >&2; status=3; fi
     echo "checked: ended status=$status" >&2; echo "run=ended status=$status runners=1 proved=no" >&2; exit $status ;;
esac
"""
NOT_PROVED = "launcher: not proved; ./rapid_cell build proves the program, in an hour or more"


class Frame:
    """A checkout with two crates and no program, and a kit."""

    def __init__(self, folder):
        self.top, self.kit, self.cache, self.log = (Path(folder, it) for it in ("top", "kit", "cache", "log"))
        for name in ("low", "controller_program"):
            (self.top / "crates" / name / "src").mkdir(parents=True)
        (self.top / "crates.txt").write_text("# the crates\nlow:\ncontroller_program: low\nother: low\n")
        shutil.copytree(TOP / "launcher", self.top / "launcher", ignore=shutil.ignore_patterns("__pycache__"))
        shutil.copytree(TOP / "docs", self.top / "docs")
        for it in ("rapid_cell", "VERSION"):
            shutil.copy2(TOP / it, self.top)
        self.kit.mkdir()
        self.made = Path(folder, "made")
        for file, text in ((self.made, PROGRAM), (self.kit / "rt", KIT)):
            file.write_text(text)
            file.chmod(0o755)

    def environment(self, kit):
        bare = ":".join(it for it in os.environ["PATH"].split(":") if not Path(it, "rt").exists())
        path = f"{self.kit}:{bare}" if kit else bare
        return {**os.environ, "PATH": path, "LOG": str(self.log), "KIT": kit, "MADE": str(self.made), "XDG_CACHE_HOME": str(self.cache)}

    def start(self, *words, kit="good"):
        self.log.write_text("")
        words = [sys.executable, self.top / "rapid_cell", *words]
        ran = subprocess.run(words, cwd="/", stdout=subprocess.PIPE, stderr=subprocess.PIPE, env=self.environment(kit), universal_newlines=True)
        return ran.returncode, ran.stdout, ran.stderr

    def asked(self):
        """How often the kit was asked."""
        return len(self.log.read_text().splitlines())


def try_proof():
    with tempfile.TemporaryDirectory() as folder:
        frame = Frame(folder)
        status, out, err = frame.start("--proved", "check", "a.toml", kit="")
        compare("no kit", (status, out, "PATH" in err, len(err.splitlines())), (125, "", True, 1))
        status, out, err = frame.start("build", kit="low")
        compare("a crate that fails", (status, out, "low does not hold" in err), (125, "", True))
        compare("a program that fails", frame.start("build", kit="controller_program")[:2], (125, ""))
        status, out, err = frame.start("--proved", "check")
        compare("wrong words before a build", (status, err.splitlines()[0], frame.asked()), (2, "rapid_cell: words 1", 0))
        status, out, err = frame.start("--proved", "check", "a.toml")
        compare("builds and runs", (status, out, NOT_PROVED in err), (4, "ran check a.toml\n", False))
        progress = re.findall(r"^launcher: (\w+) \d+ s, (\d+) left$", err, re.M)
        compare("progress", progress, [("low", "1"), ("controller_program", "0")])
        compare("runs what is built", frame.start("round", "b"), (4, "ran round b\n", ""))
        beside, newer = (frame.top / f"crates/{it}/src/lib.rt" for it in ("other", "low"))
        beside.parent.mkdir(parents=True)
        beside.touch()
        os.utime(beside, (2e9, 2e9))
        compare("a crate beside it", frame.start("round", "b"), (4, "ran round b\n", ""))
        newer.touch()
        os.utime(newer, (2e9, 2e9))
        status, out, err = frame.start("round", "b")
        compare("stale", (status, out, "older than crates/low/src/lib.rt" in err, frame.asked()), (4, "ran round b\n", True, 0))
        compare("stale, plain", frame.start("--plain", "round", "b"), (4, "ran round b\n", ""))
        compare("build", frame.start("build")[:2], (0, ""))


def try_large_pages():
    """The program is started with large pages, unless the user says something else to the C library."""
    with tempfile.TemporaryDirectory() as folder:
        frame = Frame(folder)
        built = frame.top / "crates/controller_program/out/controller_program"
        built.parent.mkdir()
        built.write_text('#!/bin/sh\necho "$GLIBC_TUNABLES"\n')
        built.chmod(0o755)
        bare = {name: value for name, value in frame.environment("good").items() if name != "GLIBC_TUNABLES"}
        large = "glibc.malloc.hugetlb=1:glibc.malloc.top_pad=8388608"
        for said, wanted in (({}, large), ({"GLIBC_TUNABLES": "glibc.malloc.check=0"}, "glibc.malloc.check=0")):
            for plain in ((), ("--plain",)):
                words = [sys.executable, frame.top / "rapid_cell", *plain, "check", "a.toml"]
                ran = subprocess.run(words, stdout=subprocess.PIPE, stderr=subprocess.PIPE, env={**bare, **said})
                compare(f"large pages {said} {plain}", (ran.returncode, ran.stdout), (0, f"{wanted}\n".encode()))


def try_kept():
    """The unproved program is made once for the sources, and answers at once from then on."""
    with tempfile.TemporaryDirectory() as folder:
        frame = Frame(folder)
        compare("no kit and no program", frame.start("check", "a.toml", kit="")[0], 125)
        status, out, err = frame.start("check", "a.toml")
        compare("made and run", (status, out, err.splitlines()[-1], frame.asked()), (4, "ran check a.toml\n", NOT_PROVED, 1))
        compare("made with a word of it", "is made now" in err, True)
        compare("kept", frame.start("check", "a.toml"), (4, "ran check a.toml\n", f"{NOT_PROVED}\n"))
        compare("kept, plain", frame.start("--plain", "check", "a.toml"), (4, "ran check a.toml\n", ""))
        compare("kept, without the kit", (frame.start("check", "a.toml", kit="")[0], frame.asked()), (4, 0))
        compare("other words", frame.start("--unproved", "load", "3")[:2], (4, "ran load 3\n"))
        compare("nothing is left over", sorted(it.name[:9] for it in (frame.cache / "rapid_cell").iterdir()), ["lock", "unproved-"])
        (frame.top / "crates/low/src/lib.rt").write_text("// changed")
        status, out, err = frame.start("check", "a.toml")
        compare("made anew for other sources", (status, "is made now" in err, frame.asked()), (4, True, 1))
        compare("refused by the kit", frame.start("check", "a.toml", kit="broken")[0], 4)
        (frame.top / "crates/low/src/lib.rt").write_text("// changed again")
        status, out, err = frame.start("check", "a.toml", kit="broken")
        compare("refused by the kit", (status, out, "a crate is refused" in err), (125, "", True))


def try_not_kept():
    """A kit that gives no program to keep: each answer is a whole `rt try`."""
    with tempfile.TemporaryDirectory() as folder:
        frame = Frame(folder)
        status, out, err = frame.start("check", "a.toml", kit="hidden")
        said = [it for it in err.splitlines() if not it.startswith("launcher: ")]
        compare("not kept", (status, out, said, frame.asked()), (3, "S line\n", ["rapid_cell: script steps Range"], 2))
        status, out, err = frame.start("check", "none.toml", kit="hidden")
        compare("not kept, no script", (status, out, err.splitlines()[1], frame.asked()), (5, "", "rapid_cell: read none.toml", 1))
        status, out, err = frame.start("check", "a.toml", kit="late")
        compare("not kept, too long", (status, out, "RT_SECONDS=600" in err), (125, "", True))
        frame.cache.joinpath("rapid_cell").rename(Path(folder, "gone"))
        frame.cache.joinpath("rapid_cell").touch()
        status, out, err = frame.start("check", "a.toml", kit="late")
        compare("no place to keep it", (status, "cannot be kept" in err), (125, True))


def try_interrupted():
    """Ctrl-C ends what the launcher started, and leaves nothing over, neither files nor processes."""
    with tempfile.TemporaryDirectory() as folder:
        frame = Frame(folder)
        for words, kit in ((["check", "a.toml"], "slow"), (["run", "a.toml"], "good")):
            words = [sys.executable, frame.top / "rapid_cell", *words]
            how = {"stdout": subprocess.PIPE, "stderr": subprocess.PIPE, "start_new_session": True, "env": frame.environment(kit)}
            frame.log.write_text("")
            started = subprocess.Popen(words, cwd="/", **how)
            wait_for(lambda: frame.asked() and (kit == "slow" or "sleep 60" in processes(started.pid)))
            os.killpg(started.pid, signal.SIGINT)
            out, err = started.communicate(timeout=60)
            compare(f"{kit} interrupted", (started.returncode, err.decode().splitlines()[-1]), (130, "launcher: stopped"))
            compare(f"{kit}: nothing runs on", processes(started.pid), "")
            left = [it.name for it in (frame.cache / "rapid_cell").iterdir() if it.is_dir()]
            compare(f"{kit}: nothing is left over", left, [])


def processes(session):
    ran = subprocess.run(["ps", "-o", "args=", "-g", str(session)], stdout=subprocess.PIPE)
    return ran.stdout.decode()


def wait_for(what):
    until = time.monotonic() + 60
    while not what() and time.monotonic() < until:
        time.sleep(0.1)


def try_real_one():
    """The program that the kit's own `rt try` made is kept, and from then on answers within half a second of processor time."""
    wanted = (EXAMPLES / "first_move/round.txt").read_text().partition("\n")[2]
    status, out, err = launch("--unproved", "round", EXAMPLES / "first_move/cell.toml", timeout=3600)
    compare("--unproved: answer", (status, out, NOT_PROVED in err), (0, wanted, True))
    took = min(seconds_of("--unproved", "check", EXAMPLES / "first_move/cell.toml") for _ in range(3))
    compare("--unproved: half a second", took < 0.5, True)
    print(f"an unproved check takes {took:.2f} processor seconds", flush=True)


def seconds_of(*words):
    """The processor time of an answer."""
    before = sum(os.times()[2:4])
    launch(*words)
    return sum(os.times()[2:4]) - before
