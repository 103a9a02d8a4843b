"""`watch CELL`."""
import os
import shutil
import signal
import subprocess
import tempfile
import threading
from pathlib import Path

from .common import EXAMPLES, LAUNCHER, ask, compare, options, text_of


def try_watch():
    """Checks again when a module changes, when it is gone, and ends with status 0."""
    with tempfile.TemporaryDirectory() as folder:
        cell = Path(folder, "cell")
        shutil.copytree(EXAMPLES / "first_move", cell)
        started = subprocess.Popen([LAUNCHER, *options, "watch", "cell.toml"], cwd=cell, stdout=subprocess.PIPE, stderr=subprocess.PIPE)
        guard = threading.Timer(120, started.kill)
        guard.start()
        module = cell / "first_move.mod"
        text = module.read_text()
        compare("watch, accepted", answer(started)[-1].split(" ", 1)[1].startswith("accepted"), True)
        put(module, text.replace("fine", "z10", 1))
        lines = answer(started)
        compare("watch, refused", (lines[0].split()[-1], lines[-1].split(" ", 1)[1].startswith("1 error")), ("CornerZone", True))
        put(module, text.replace("tool0", "grip").replace("fine", "z10"))
        compare("watch, several", answer(started)[-1].split(" ", 1)[1].startswith("2 errors") or text.count("fine") > 1, True)
        module.unlink()
        compare("watch, no module", "there is no file first_move.mod" in "".join(answer(started)), True)
        put(module, text)
        compare("watch, mended", answer(started)[-1].split(" ", 1)[1].startswith("accepted"), True)
        started.send_signal(signal.SIGINT)
        out, err = started.communicate(timeout=60)
        guard.cancel()
        compare("watch ends", (started.returncode, text_of(out), text_of(err)), (0, "\n", ""))
    compare("watch without a cell", ask("watch")[:2], (2, ""))


def put(file, text):
    """Writes a file at once, as an editor does."""
    new = file.with_name("new")
    new.write_text(text)
    os.replace(new, file)


def answer(started):
    """The lines of one answer, of which the last one is the status line."""
    lines = []
    while True:
        line = text_of(started.stdout.readline())
        lines.append(line)
        if not line or line.rstrip().endswith("Ctrl-C ends"):
            return lines
