"""The command line, the help, completion, and streams that fail."""
import os
import re
import shutil
import subprocess
import tempfile
from pathlib import Path

from .common import EXAMPLES, LAUNCHER, TOP, ask, compare, launch, options, program, text_of

HINT = "launcher: ./rapid_cell --help lists the words\n"
FIRST = EXAMPLES / "first_move/cell.toml"


def try_words():
    """Words that are refused: the program's line comes first."""
    for words, place in (
        ((b"\xff", b"cell.toml"), 0),
        ((b"check", b"\xff"), 1),
        ((b"--history", b"check", b"\xff.toml"), 2),
        ((b"check", b"\xff", b"-x"), 2),
        ((b"check", b"\xff", b"more"), 2),
        ((b"\xff",), 0),
        ((b"check", b"--history", b"--history", b"\xff"), 2),
        ((b"--unproved", b"walk", b"cell.toml", b"\xff"), 0),
    ):
        status, out, err = ask(*words)
        first = f"rapid_cell: words {place}\n"
        compare(f"words {words}", (status, out, err.startswith(first), err.endswith(HINT)), (2, "", True, True))
        compare(f"words {words}, plain", ask("--plain", *words), (2, "", first))


def try_places():
    """The launcher's rule of refused words against the program's."""
    from launcher.words import refused_place

    for line in ("", "x", "check", "list", "run", "round a b", "run a b", "check a b", "--history --history", "check -x", "-", "check \xff", "\xff a", "check \xff b", "audit", "audit a", "audit a b c", "audit a \xff", "state a", "state a b c", "clearance", "clearance a b", "trace", "trace a b", "migrate", "migrate a b"):
        words = line.encode("latin-1").split()
        ran = subprocess.run([os.fsencode(program().file), *words], stdout=subprocess.PIPE, stderr=subprocess.PIPE)
        place = refused_place(words)
        compare(f"place of {words}", text_of(ran.stderr), f"rapid_cell: words {place}\n")


def try_meant():
    """What was perhaps meant."""
    with tempfile.TemporaryDirectory() as folder:
        shutil.copytree(EXAMPLES / "first_move", Path(folder, "first"))
        for words, said in (
            (("chek", "first/cell.toml"), "there is no action chek: did you mean check?"),
            (("explian", "NoName"), "there is no action explian: did you mean explain?"),
            (("check", "--al", "first/cell.toml"), "there is no option --al: did you mean --all?"),
            (("check", "-o", "first/cell.toml"), "-o does not go with this action"),
            (("first/cell.toml",), "an action comes before the script: ./rapid_cell check first/cell.toml"),
            (("check", "first"), "first is a folder: did you mean first/cell.toml?"),
            (("check", "first/cel.toml"), "there is no file first/cel.toml: did you mean first/cell.toml?"),
            (("check", "frist/cell.toml"), "frist/cell.toml does not exist: there is no folder frist"),
            (("check",), "check takes the script of a cell: ./rapid_cell check examples/first_move/cell.toml"),
            (("audit", "first/cell.toml"), "audit takes a history after the script: ./rapid_cell audit first/cell.toml history.txt"),
            (("check", "my", "cell.toml"), "cell.toml is one word too many: put a name with spaces in quotes"),
            (("completion", "ksh"), "completion takes one of bash, zsh, fish; ./rapid_cell --help lists the words"),
            (("build", "x"), "build takes no other word; ./rapid_cell --help lists the words"),
            (("--all", "round", "first/cell.toml"), "--all goes with check; ./rapid_cell --help lists the words"),
        ):
            status, out, err = ask(*words, cwd=folder)
            compare(f"{words}", (status in (2, 5), out, f"launcher: {said}" in err.splitlines()), (True, "", True))


def try_help():
    page = launch("--help")
    compare("--help", (page[0], page[2]), (0, ""))
    for words in (("-h",), ("help",), ("check", "--help"), ("build", "-h")):
        compare(f"help by {words}", ask(*words), page)
    compare("help has no line too long", max(map(len, page[1].splitlines())) <= 130, True)
    for name in ("check", "round", "run", "list", "load", "audit", "state", "clearance", "trace", "migrate", "table", "show", "why", "lint", "cover", "explain", "build", "package", "proved", "watch", "lsp", "completion", "--history", "--all", "--run", "--source", "--lcov", "--keep", "--watched", "-o", "--gate", "--plain", "--proved"):
        compare(f"help has {name}", name in page[1], True)
    status, out, err = ask()
    compare("no word", (status, out, err.startswith("rapid_cell: words 0\n"), "./rapid_cell check CELL" in err), (2, "", True, True))


def try_version():
    page = launch("--version")
    heads = [line.split()[0] for line in page[1].splitlines()]
    compare("--version", (page[0], heads, page[2]), (0, ["rapid_cell", "program:", "kit:", "python"], ""))
    for words in (("-V",), ("version",)):
        compare(f"version by {words}", ask(*words), page)
    compare("version, proved or not", bool(re.search(r"^program: (proved|not proved|not built)", page[1], re.M)), True)


def try_streams():
    """Standard output that is closed, full or not read; standard error that is."""
    full = os.open("/dev/full", os.O_WRONLY)
    said = "launcher: not everything could be printed (No space left on device): check where standard output goes\n"
    for words in (("--help",), ("explain", "NoName"), ("--version",), ("completion", "bash")):
        compare(f"{words} to a full device", ask(*words, before=lambda: os.dup2(full, 1)), (6, "", said))
        status, out, err = ask(*words, before=lambda: os.close(1))
        compare(f"{words} without standard output", (status, len(err.splitlines())), (6, 1))
        status, out, err = ask(*words, before=lambda: os.close(2))
        compare(f"{words} without standard error", (status, len(out) > 0), (0, True))
    for what, before, wanted in (
        (">&-", lambda: os.close(1), 6),
        (">/dev/full", lambda: os.dup2(full, 1), 6),
        ("2>&-", lambda: os.close(2), 0),
        ("2>/dev/full", lambda: os.dup2(full, 2), 0),
        ("<&-", lambda: os.close(0), 0),
    ):
        status, out, err = ask(*options, "check", FIRST, before=before)
        compare(f"check with {what}", (status, "rapid_cell: write" in err), (wanted, wanted == 6))
    compare("refused words without standard error", ask("zork", before=lambda: os.close(2)), (2, "", ""))
    # The same as a command, in which Python itself meets what is closed.
    for stream, status in ((">/dev/full", 6), (">&-", 6), ("2>&-", 0), ("2>/dev/full", 0)):
        ran = subprocess.run(["sh", "-c", f'exec "$@" {stream}', "", LAUNCHER, "--help"], stdout=subprocess.PIPE, stderr=subprocess.PIPE)
        compare(f"help with {stream}", (ran.returncode, b"Traceback" in ran.stderr), (status, False))
    os.close(full)


def try_completion():
    """The completions, as bash itself makes them; those of zsh if it is installed."""
    cases = (
        (["che"], "check"),
        (["explain", "CornerZ"], "CornerZone"),
        (["--plai"], "--plain"),
        (["check", f"{EXAMPLES}/first_move/"], str(FIRST)),
        (["completion", "z"], "zsh"),
        (["package", "--gate", f"{EXAMPLES}/first_move/ce"], str(FIRST)),
        (["cover", str(FIRST), f"{EXAMPLES}/first_move/"], str(FIRST)),
        (["show", "-o", f"{EXAMPLES}/first_move/first"], f"{EXAMPLES}/first_move/first_move.mod"),
        (["why", f"{EXAMPLES}/first_move/"], str(FIRST)),
        (["--all", "check", f"{EXAMPLES}/first_move/ce"], str(FIRST)),
    )
    lines = f"source <({LAUNCHER} completion bash)\n"
    for words, _ in cases:
        lines += f'COMP_WORDS=(rapid_cell {" ".join(words)}); COMP_CWORD={len(words)}; _rapid_cell; echo "${{COMPREPLY[@]}}"\n'
    ran = subprocess.run(["bash", "-c", lines], stdout=subprocess.PIPE, stderr=subprocess.PIPE)
    compare("bash completes", (text_of(ran.stdout).splitlines(), ran.stderr), ([wanted for _, wanted in cases], b""))
    try:
        lines = f'autoload -U compinit; compinit -u -D; source <({LAUNCHER} completion zsh); whence _rapid_cell; print $_comps[rapid_cell]'
        ran = subprocess.run(["zsh", "-fc", lines], stdout=subprocess.PIPE, stderr=subprocess.PIPE)
        compare("zsh takes the completion", (text_of(ran.stdout).split(), ran.stderr), (["_rapid_cell", "_rapid_cell"], b""))
    except FileNotFoundError:
        print("zsh is not here: its completion is not tried")
    try:
        lines = f"{LAUNCHER} completion fish | source; complete -C 'rapid_cell che'; complete -C 'rapid_cell --gat'"
        ran = subprocess.run(["fish", "--no-config", "-c", lines], stdout=subprocess.PIPE, stderr=subprocess.PIPE)
        compare("fish completes", (text_of(ran.stdout).split()[:2], ran.stderr), (["check", "--gate"], b""))
    except FileNotFoundError:
        print("fish is not here: its completion is not tried")


def try_files():
    """Every file of the launcher and of bench compiles, and pyflakes, if it is installed, finds nothing."""
    scripts = [it for it in (TOP / "bench").iterdir() if it.is_file() and it.read_bytes().startswith(b"#!/usr/bin/env python3")]
    compare("scripts of bench", len(scripts) >= 8, True)
    with tempfile.TemporaryDirectory() as folder:
        for file in [*(TOP / "launcher").glob("*.py"), LAUNCHER, *scripts]:
            compile(file.read_text(encoding="utf-8"), str(file), "exec")
        found = shutil.which("pyflakes3") or shutil.which("pyflakes")
        if found:
            ran = subprocess.run([found, TOP / "launcher", TOP / "bench", LAUNCHER, *scripts], cwd=folder, stdout=subprocess.PIPE)
            compare("pyflakes", text_of(ran.stdout), "")
    longest = max(len(file.read_text(encoding="utf-8").splitlines()) for file in (TOP / "launcher").glob("*.py"))
    compare("files of the launcher are small", longest < 400, True)
    compare("the environment is free", os.environ.get("PYTHONOPTIMIZE"), None)
