"""docs/FROM_ABB.md: the cell is brought here as the page says, and each line that the page reports comes."""
import re
import subprocess
import tempfile
from pathlib import Path

from . import cells, common
from .common import LAUNCHER, compare, document, text_of

# What the page has, in its order: a block, or a sentence that says what to replace.
PIECES = re.compile(r"^```(?P<language>\w+)\n(?P<block>.*?)^```$|^In `(?P<file>[\w.]+)` replace (?P<pairs>[^\n]*)$", re.M | re.S)


def try_from_abb():
    text = document("FROM_ABB")
    counts = {"console": 0, "change": 0}
    with tempfile.TemporaryDirectory() as folder:
        home, end = Path(folder).resolve(), 0
        for found in PIECES.finditer(text):
            named = re.findall(r"`([\w.]+\.(?:mod|toml))`", text[end : found.start()])
            end = found.end()
            if found["file"]:
                replace(home / found["file"], found["pairs"])
            elif found["language"] == "diff":
                change(home, found["block"])
            elif found["language"] == "console":
                ask(home, found["block"])
            else:
                (home / named[-1]).write_text(found["block"], encoding="utf-8")
            counts["console" if found["language"] == "console" else "change"] += 1
    compare("docs/FROM_ABB.md has steps", counts["console"] > 15 and counts["change"] > 15, True)


def replace(file, pairs):
    """Replaces each first one of these pairs of texts by its second, in their order."""
    text = file.read_text(encoding="utf-8")
    found = re.findall(r"`([^`]+)` by `([^`]+)`", pairs)
    compare(f"docs/FROM_ABB.md, {pairs}", bool(found) and all(old in text for old, _ in found[:1]), True)
    for old, new in found:
        text = text.replace(old, new)
    file.write_text(text, encoding="utf-8")


def change(home, block):
    """Makes the changes of a diff, whose first line names the file; each has its old lines in one place of the file."""
    head, _, hunks = block.partition("\n")
    file = home / head[len("--- ") :]
    lines = file.read_text(encoding="utf-8").splitlines()
    for hunk in hunks.rstrip("\n").split("\n@@\n"):
        old = [it[1:] for it in hunk.split("\n") if it[:1] in (" ", "-")]
        new = [it[1:] for it in hunk.split("\n") if it[:1] in (" ", "+")]
        places = [k for k in range(len(lines)) if lines[k : k + len(old)] == old]
        compare(f"docs/FROM_ABB.md, the place of {old}", len(places), 1)
        if places:
            lines[places[0] : places[0] + len(old)] = new
    file.write_text("".join(f"{it}\n" for it in lines), encoding="utf-8")


def ask(home, block):
    """Gives a command, whose lines have to be those of the block: without setpoints, or as many, if its pipe says so."""
    head, _, wanted = block.partition("\n")
    command, _, piped = head[len("$ ./rapid_cell ") :].partition(" | ")
    words = [it for it in command.split() if it != "2>&1"]
    # The launcher is asked if the block has what it adds, or a word of its own.
    starter = LAUNCHER if "\n  " in wanted or "--all" in words else common.program().file
    options = common.options if starter == LAUNCHER else []
    ran = subprocess.run([starter, *words, *options], cwd=home, stdin=subprocess.DEVNULL, stdout=subprocess.PIPE, stderr=subprocess.PIPE)
    lines = (text_of(ran.stdout) + text_of(ran.stderr)).splitlines(True)
    left_out = ("launcher: ", "S ") if piped == "grep -v ^S" else ("launcher: ",)
    got = [it for it in lines if not it.startswith(left_out)]
    if piped == "wc -l":
        compare(f"docs/FROM_ABB.md, {head}", (ran.returncode, f"{len(got)}\n"), (4, wanted))
    else:
        compare(f"docs/FROM_ABB.md, {head}", (ran.returncode, "".join(got)), (status_of(wanted), wanted))


def status_of(wanted):
    for head, status in (("rapid_cell: script", 3), ("rapid_cell: module", 4)):
        if wanted.startswith(head):
            return status
    return cells.status_of(wanted)
