"""Files, names and checkouts that are damaged or strange: one line that says what to do, and a status."""
import errno
import os
import shutil
import signal
import subprocess
import sys
import tempfile
import time
from pathlib import Path

from .building import Frame
from .common import EXAMPLES, TOP, ask, compare, options, text_of

FIRST = EXAMPLES / "first_move"


def try_names():
    """Names with spaces, `..`, and bytes that are no text; a folder, a pipe, a file without the right to read it."""
    with tempfile.TemporaryDirectory() as folder:
        for name in ("with a space", "ünïcode", "a'quote", "-dash"):
            shutil.copytree(FIRST, Path(folder, name))
            given = f"./{name}/cell.toml"
            compare(f"{given}", ask("--plain", *options, "check", given, cwd=folder), (0, "accepted\n", ""))
        given = "with a space/../with a space/cell.toml"
        compare(given, ask("--plain", *options, "check", given, cwd=folder), (0, "accepted\n", ""))
        strange = os.path.join(os.fsencode(folder), b"\xff\xfe")
        shutil.copytree(os.fsencode(str(FIRST)), strange)
        status, out, err = ask(*options, "check", strange + b"/cell.toml", cwd=folder)
        said = "is not valid UTF-8: rename the file or its folder"
        compare("a name that is no text", (status, out, err.splitlines()[0], said in err), (2, "", "rapid_cell: words 1", True))
        compare("the same from within", ask("--plain", *options, "check", "cell.toml", cwd=strange), (0, "accepted\n", ""))
        Path(folder, "one\nline").mkdir()
        status, out, err = ask(*options, "check", "one\nline/none.toml", cwd=folder)
        compare("a name of two lines", (status, out, "there is no file one\\nline/none.toml" in err), (5, "", True))
        compare("an empty name", ask(*options, "check", "", cwd=folder)[0], 5)
        compare("a long name", ask(*options, "check", "x" * 5000, cwd=folder)[0], 5)
        compare("a name with a byte 0", "not a valid file name" in unread("\0"), True)
        try_pipe(folder)


def unread(name):
    from launcher import hints

    return hints.unread(Path(name))


def try_pipe(folder):
    pipe = Path(folder, "with a space/pipe.toml")
    os.mkfifo(pipe)
    text = (FIRST / "cell.toml").read_bytes()
    writer = subprocess.Popen([sys.executable, "-c", f"open({str(pipe)!r}, 'wb').write({text!r})"])
    status, out, err = ask(*options, "check", pipe)
    compare("a pipe", (status, out, "is a pipe: it is read until its writer closes it" in err), (0, "accepted\n", True))
    writer.wait()
    # A refused script that was a pipe is not read a second time, and what is not there is not waited for.
    writer = subprocess.Popen([sys.executable, "-c", f"open({str(pipe)!r}, 'wb').write(b'version 1')"])
    status, out, err = ask(*options, "check", pipe)
    compare("a pipe that is refused", (status, out, "rapid_cell: script - NotToml" in err), (3, "", True))
    writer.wait()
    started = subprocess.Popen([TOP / "rapid_cell", *options, "check", pipe], stderr=subprocess.PIPE, stdout=subprocess.PIPE)
    time.sleep(0.1)
    line = started.stderr.readline()
    started.send_signal(signal.SIGINT)
    out, err = started.communicate(timeout=60)
    compare("a pipe without a writer", (b"is a pipe" in line, started.returncode, text_of(err).splitlines()[-1]), (True, 130, "launcher: stopped"))


def try_signal_at_start():
    """A signal that comes while the program is being started ends it too: nobody reads the pipe any more."""
    with tempfile.TemporaryDirectory() as folder:
        pipe = Path(folder, "pipe.toml")
        os.mkfifo(pipe)
        status, out, err = ask(*options, "check", pipe, before=signal_at_start)
        compare("a signal at the start", (status, out, err.splitlines()[-1]), (130, "", "launcher: stopped"))
        try:
            os.close(os.open(pipe, os.O_WRONLY | os.O_NONBLOCK))
            compare("a signal at the start: nothing runs on", True, False)
        except OSError as error:
            compare("a signal at the start: nothing runs on", error.errno, errno.ENXIO)


def signal_at_start():
    """Sends Ctrl-C to this process right after it has started another one."""
    real = subprocess.Popen

    def start(*words, **how):
        child = real(*words, **how)
        os.kill(os.getpid(), signal.SIGINT)
        return child

    subprocess.Popen = start


def try_rights():
    """What may not be read, as a user without rights sees it."""
    if os.geteuid() != 0:
        print("not root: files without rights are not tried")
        return
    with tempfile.TemporaryDirectory() as folder:
        shutil.copytree(FIRST, Path(folder, "cell"))
        os.chmod(folder, 0o755)
        for file in ("cell.toml", "first_move.mod"):
            Path(folder, "cell", file).chmod(0)
            status, out, err = ask(*options, "check", "cell/cell.toml", cwd=folder, before=lambda: as_nobody(folder))
            compare(f"{file} without rights", (status, "you may not read" in err), (5, True))
            Path(folder, "cell", file).chmod(0o644)


def as_nobody(folder):
    """Goes on as a user without rights, with a program in this folder. All modules are read first, since Python's own files may not be
    that user's."""
    from launcher import kept, program, shown, words

    assert shown and words
    found = program.ready()
    copy = Path(folder, "program")
    shutil.copy2(found.file, copy)
    copy.chmod(0o755)
    program.proved = lambda: None
    kept.find = lambda: copy
    os.setgid(65534)
    os.setuid(65534)


def lose_module(name):
    """Leaves Python without a module, also for the files of the launcher that other tests have loaded."""
    for it in [it for it in sys.modules if it.partition(".")[0] == "launcher"]:
        del sys.modules[it]
    sys.modules[name] = None


def try_checkouts():
    """A checkout that lacks files, or whose files may not be read."""
    with tempfile.TemporaryDirectory() as folder:
        frame = Frame(folder)
        compare("a checkout that is whole", frame.start("check", "a.toml")[0], 4)
        for name, words in (
            ("launcher/words.py", ("check", "a.toml")),
            ("docs/LANGUAGE.md", ("explain", "NoName")),
            ("launcher/manual.txt", ("explain", "SocketSend")),
            ("crates.txt", ("check", "a.toml")),
            ("crates.txt", ("build",)),
        ):
            file = frame.top / name
            aside = file.with_name("aside")
            file.rename(aside)
            status, out, err = frame.start(*words)
            compare(f"without {name}: {words[0]}", (status, out, len(err.splitlines()), "fetch the checkout again" in err), (124, "", 1, True))
            aside.rename(file)
        # Without a module of Python.
        status, out, err = ask("explain", "NoName", before=lambda: lose_module("textwrap"))
        compare("without a module of Python", (status, out, len(err.splitlines()), "textwrap" in err), (124, "", 1, True))
        try_unreadable(frame)
        # What is added to a refusal changes no status.
        (frame.top / "docs/LANGUAGE.md").unlink()
        frame.made.write_text('#!/bin/sh\nif [ $# = 0 ]; then echo "rapid_cell: words 0" >&2; exit 2; fi\n[ -p "$2" ] && cat "$2" >/dev/null\necho "rapid_cell: module m.mod 1:1 NoName" >&2; exit 4\n')
        (frame.top / "crates/low/src/lib.rt").write_text("// changed")
        shutil.copytree(FIRST, Path(folder, "cell"))
        script = Path(folder, "cell/cell.toml")
        script.write_text(script.read_text().replace("first_move.mod", "m.mod"))
        Path(folder, "cell/m.mod").write_text("MODULE M\nENDMODULE\n")
        status, out, err = frame.start("check", script)
        compare("a refusal without the documents", (status, out, err.splitlines()[1]), (4, "", "rapid_cell: module m.mod 1:1 NoName"))
        compare("it says so", "it cannot be explained" in err, True)


def try_unreadable(frame):
    """Files of the checkout that a user without rights may not read."""
    python = shutil.which("python3", path="/usr/bin:/bin")
    if os.geteuid() != 0 or not python:
        print("not root, or no Python for all users: a checkout without rights is not tried")
        return
    frame.top.parent.chmod(0o755)
    environment = {**frame.environment(""), "PATH": "/usr/bin:/bin"}
    for name, words in (("launcher/words.py", ["check", "a.toml"]), ("docs/LANGUAGE.md", ["explain", "NoName"]), ("crates.txt", ["check", "a.toml"]), ("launcher", ["--help"])):
        file = frame.top / name
        rights = file.stat().st_mode
        file.chmod(0)
        how = {"cwd": "/", "stdout": subprocess.PIPE, "stderr": subprocess.PIPE, "env": environment, "universal_newlines": True}
        ran = subprocess.run([python, frame.top / "rapid_cell", *words], preexec_fn=lambda: os.setuid(65534), **how)
        file.chmod(rights)
        advised = "ask its owner for the right to read it" in ran.stderr
        compare(f"{name} without rights", (ran.returncode, ran.stdout, len(ran.stderr.splitlines()), advised), (124, "", 1, True))


def try_pythons():
    """A Python that is too old."""
    old = "import sys; sys.version_info = (3, 7, 1); sys.argv = ['rapid_cell']; exec(open(sys.argv[0]).read())"
    ran = subprocess.run([sys.executable, "-c", old], cwd=TOP, stdout=subprocess.PIPE, stderr=subprocess.PIPE)
    compare("an old Python", (ran.returncode, text_of(ran.stderr)), (124, "launcher: Python 3.8 or later is needed, and this is 3.7\n"))


def try_interrupted_build():
    with tempfile.TemporaryDirectory() as folder:
        frame = Frame(folder)
        (frame.kit / "rt").write_text('#!/bin/sh\necho "$PWD $*" >> "$LOG"\nexec sleep 60\n')
        frame.log.write_text("")
        how = {"stdout": subprocess.PIPE, "stderr": subprocess.PIPE, "start_new_session": True, "env": frame.environment("good")}
        started = subprocess.Popen([sys.executable, frame.top / "rapid_cell", "build"], cwd="/", **how)
        until = time.monotonic() + 60
        while not frame.asked() and time.monotonic() < until:
            time.sleep(0.1)
        os.killpg(started.pid, signal.SIGINT)
        out, err = started.communicate(timeout=60)
        compare("an interrupted build", (started.returncode, text_of(err).splitlines()[-1]), (130, "launcher: stopped"))
