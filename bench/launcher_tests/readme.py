"""README.md: its commands, its length, and the links of all pages; the commands of docs/SEEING.md."""
import re
import shutil
import subprocess
import tempfile
from pathlib import Path

from . import common
from .common import EXAMPLES, LAUNCHER, TOP, compare, document, text_of

# The most words of the page, as `wc -w` counts them.
MOST = 650
NOT_PROVED = "launcher: not proved; ./rapid_cell build proves the program, in an hour or more"
# The words that the program does not answer, and the command that takes an hour.
OWN = ("explain", "--help")
LONG = "./rapid_cell build"


def text():
    return (TOP / "README.md").read_text(encoding="utf-8")


def try_readme():
    """Each command that README.md shows, in a folder of its own: with the lines below it, in which `...` stands for any lines, or
    with its status alone. What breaks and mends the module there is done as it says."""
    with tempfile.TemporaryDirectory() as folder:
        prepare(folder)
        module = Path(folder, "examples/first_move/first_move.mod")
        whole = module.read_text()
        tried = 0
        for block in re.findall(r"(?:^    .*\n)+", text(), re.M):
            module.write_text(whole.replace("fine", "z10", 1) if "CornerZone" in block else whole)
            for command, lines in commands(block):
                try_lines(folder, command, lines)
                tried += 1
        module.write_text(whole)
        for command in re.findall(r"`(\./rapid_cell [^`]*)`", text()):
            if command != LONG:
                ran = start(folder, command)
                compare(f"README.md, {command}", (ran[0], bool(ran[1] + ran[2])), (4 if "/faults/" in command else 0, True))
                tried += 1
        compare("commands of README.md", tried >= 11, True)


def try_seeing():
    with tempfile.TemporaryDirectory() as folder:
        prepare(folder)
        found = list(commands(document("SEEING")))
        for command, lines in found:
            try_lines(folder, command, lines)
        compare("commands of docs/SEEING.md", len(found) >= 2, True)


def prepare(folder):
    shutil.copytree(EXAMPLES, Path(folder, "examples"))
    Path(folder, "rapid_cell").symlink_to(LAUNCHER)


def commands(text):
    """Each command that a page shows, and the lines below it."""
    for command, lines in re.findall(r"^    \$ (.*)\n((?:    (?!\$ ).*\n)*)", text, re.M):
        yield command, re.sub("^    ", "", lines, flags=re.M)


def try_lines(folder, command, lines):
    status, out, err = start(folder, command)
    got = out + "".join(line for line in err.splitlines(True) if not line.startswith("launcher: "))
    wanted = re.escape(lines).replace(re.escape("...\n"), "(?:.*\n)+")
    compare(f"the lines of {command}", (bool(re.fullmatch(wanted, got)), got), (True, got))


def start(folder, command):
    """Gives a command, and sees that the page says right which of the two programs answers."""
    words = command.split()
    ran = subprocess.run(words + common.options, cwd=folder, stdout=subprocess.PIPE, stderr=subprocess.PIPE)
    err = text_of(ran.stderr)
    if words[1] not in OWN:
        compare(f"{command}, proved", err.splitlines()[-1:] == [NOT_PROVED], not common.program().is_proved)
    return ran.returncode, text_of(ran.stdout), err


def try_readme_words():
    words = text().split()
    compare("README.md, its words", len(words) <= MOST, True)
    compare("README.md, the line of the unproved program", NOT_PROVED in text(), True)
    compare("README.md, the test", re.findall(r"^    (rt .*)$", text(), re.M), ["rt ci"])


def try_links():
    """Each link of the pages leads to a file of the repository, and to a heading of it."""
    tried = 0
    for page in (TOP / "README.md", *sorted((TOP / "docs").glob("*.md"))):
        for link in re.findall(r"\]\(([^)\s]+)\)", page.read_text(encoding="utf-8")):
            name, _, heading = link.partition("#")
            file = page.parent / name if name else page
            compare(f"{page.name}, link {link}", file.exists() and (not heading or heading in headings(file)), True)
            tried += 1
    compare("links of README.md", tried >= 10, True)


def headings(file):
    """The headings of a page as links name them."""
    found = re.findall(r"^#+ (.*)$", file.read_text(encoding="utf-8"), re.M)
    return [re.sub(r"[^\w\- ]", "", it).strip().lower().replace(" ", "-") for it in found]
