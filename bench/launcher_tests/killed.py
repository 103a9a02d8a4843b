"""What is left when the launcher is killed, which it cannot notice: nothing runs on, and the next start removes its files."""
import os
import shutil
import signal
import subprocess
import sys
import tempfile
from pathlib import Path

from .building import KIT, Frame, wait_for
from .common import EXAMPLES, LAUNCHER, compare, options

# A kit that starts a process of its own and waits for it.
SLOW_KIT = """#!/bin/sh
echo "$PWD $*" >> "$LOG"
sleep 60 &
echo "$$ $!" > "$LOG.pids"
wait
"""


def try_killed_while_it_makes():
    """The kit and what it started end, and the folder in which it worked is removed later."""
    with tempfile.TemporaryDirectory() as folder:
        frame = Frame(folder)
        (frame.kit / "rt").write_text(SLOW_KIT)
        for words in (["check", "a.toml"], ["build"]):
            pids = Path(folder, "log.pids")
            how = {"stdout": subprocess.DEVNULL, "stderr": subprocess.DEVNULL, "env": frame.environment("good"), "cwd": "/"}
            started = subprocess.Popen([sys.executable, frame.top / "rapid_cell", *words], **how)
            wait_for(lambda: pids.exists() and pids.read_text().endswith("\n"))
            started.send_signal(signal.SIGKILL)
            started.wait()
            running = [int(it) for it in pids.read_text().split()]
            wait_for(lambda: not any(map(runs, running)))
            compare(f"{words} killed: what runs on", [it for it in running if runs(it)], [])
            pids.unlink()
        compare("what is left over", len(rooms(frame)), 1)
        (frame.kit / "rt").write_text(KIT)
        compare("the next start answers", frame.start("check", "a.toml")[0], 4)
        compare("and removes it", rooms(frame), [])


def rooms(frame):
    return list((frame.cache / "rapid_cell").glob("rapid-cell-*"))


def runs(pid):
    """Whether a process is there and has not ended."""
    try:
        return Path(f"/proc/{pid}/stat").read_text().rpartition(")")[2].split()[0] != "Z"
    except (FileNotFoundError, ProcessLookupError):
        return False


def try_killed_while_it_answers():
    """The program ends with the launcher: nobody reads a pipe any more that it waits at."""
    with tempfile.TemporaryDirectory() as folder:
        pipe = Path(folder, "cell.toml")
        os.mkfifo(pipe)
        started = subprocess.Popen([LAUNCHER, *options, "check", pipe], stdout=subprocess.DEVNULL, stderr=subprocess.DEVNULL)
        wait_for(lambda: can_write(pipe))
        started.send_signal(signal.SIGKILL)
        started.wait()
        wait_for(lambda: not can_write(pipe))
        compare("a program whose launcher was killed", can_write(pipe), False)


def can_write(pipe):
    """Whether somebody has opened a pipe to read it."""
    try:
        os.close(os.open(pipe, os.O_WRONLY | os.O_NONBLOCK))
    except OSError:
        return False
    return True


def try_page_places():
    """A page takes no other thing's place, whatever stands there; and nothing is opened that would wait."""
    from launcher import page_file

    with tempfile.TemporaryDirectory() as folder:
        pipe, dangling, other, page, link = (Path(folder, it) for it in ("pipe", "dangling", "other", "page", "link"))
        os.mkfifo(pipe)
        dangling.symlink_to(Path(folder, "nothing"))
        other.write_text("mine")
        page.write_bytes(b"<!doctype html>" + page_file.MARK)
        link.symlink_to(page)
        for it, wanted in ((pipe, False), (dangling, False), (other, False), (Path(folder), False), (page, True), (link, True), (Path(folder, "new"), True)):
            compare(f"{it.name}: may be a page", page_file.may_be_put(it), wanted)
        page_file.put(link, "one")
        compare("a page through a link", (link.is_symlink(), page.read_text()), (True, "one"))
        page_file.put(Path(folder, "new"), "two")
        compare("what is written beside it is gone", sorted(it.name for it in Path(folder).iterdir()), ["dangling", "link", "new", "other", "page", "pipe"])
        shutil.copytree(EXAMPLES / "first_move", Path(folder, "first"))
        ran = subprocess.run([LAUNCHER, *options, "--plain", "show", Path(folder, "first/cell.toml"), "-o", pipe], stdin=subprocess.DEVNULL, stderr=subprocess.PIPE, timeout=100)
        compare("show into a pipe", (ran.returncode, b"is no page of show" in ran.stderr), (2, True))
