"""What all tests of the launcher need."""
import os
import re
import subprocess
import sys
import tempfile
import traceback
from pathlib import Path

TOP = Path(__file__).resolve().parent.parent.parent
LAUNCHER = TOP / "rapid_cell"
EXAMPLES = TOP / "examples"
sys.path.insert(0, str(TOP))
# The enumerations whose variants are the names that a refusal or an end can have.
RULES = ("LexRule", "SyntaxRule", "TypeRule", "ScriptRule", "Fault", "Fate")
STATUSES = "0 1 2 3 4 5 6 7 8 9 10 11 12 123 124 125 130".split()
failures = []
# The options that each start of a cell has, as --unproved.
options = []


def compare(what, got, wanted):
    if got != wanted:
        failures.append(what)
        print(f"{what}: got {got!r}, wanted {wanted!r}", flush=True)


def launch(*words, **how):
    """Starts the launcher as a command: its status, its standard output and its standard error."""
    how = {"stdin": subprocess.DEVNULL, "stdout": subprocess.PIPE, "stderr": subprocess.PIPE, "timeout": 100, **how}
    ran = subprocess.run([LAUNCHER, *words], **how)
    return ran.returncode, text_of(ran.stdout), text_of(ran.stderr)


def ask(*words, cwd=None, before=None):
    """The same in a copy of this process, which saves the start of Python. `before` is called in the copy first."""
    with tempfile.TemporaryFile() as out, tempfile.TemporaryFile() as err:
        child = os.fork()
        if not child:
            status = 1
            try:
                null = os.open(os.devnull, os.O_RDONLY)
                for one, other in ((null, 0), (out.fileno(), 1), (err.fileno(), 2)):
                    os.dup2(one, other)
                os.chdir(cwd or TOP)
                if before:
                    before()
                from launcher.words import main

                status = main([os.fsdecode(os.fsencode(it)) for it in words])
            except BaseException:
                traceback.print_exc()
            finally:
                os._exit(status)
        _, status = os.waitpid(child, 0)
        out.seek(0)
        err.seek(0)
        return os.WEXITSTATUS(status) if os.WIFEXITED(status) else -os.WTERMSIG(status), text_of(out.read()), text_of(err.read())


def text_of(given):
    return (given or b"").decode(errors="replace")


def without_launcher(said):
    """The program's own lines of standard error."""
    return "".join(line for line in said.splitlines(True) if not line.startswith(("launcher: ", " ")))


def program():
    """The program that answers."""
    from launcher import program as programs

    return programs.unproved() if "--unproved" in options else programs.ready()


# The documents


def document(name):
    return (TOP / f"docs/{name}.md").read_text(encoding="utf-8")


def tables_of(text):
    """Each row of a document's tables, as a map from its headings to its cells."""
    heads = None
    for line in text.splitlines():
        cells = [it.strip().replace("\\|", "|") for it in re.split(r"(?<!\\)\|", line)[1:-1]]
        if not line.startswith("|"):
            heads = None
        elif heads is None:
            heads = cells
        elif not line.startswith("|---"):
            yield dict(zip(heads, cells))


def pieces(cell):
    """The pieces of code of a cell."""
    return re.findall(r"`([^`]+)`", cell)


def is_code(cell):
    return bool(re.fullmatch(r"(`[^`]+`\s*)+", cell))


def rules():
    """The names that refusals and ends can have, by the sources."""
    sources = "".join(file.read_text(encoding="utf-8") for file in (TOP / "crates").glob("*/src/**/*.rt"))
    names = []
    for name in RULES:
        bodies = re.findall(rf"^pub enum {name} {{(.*?)^}}", sources, re.M | re.S)
        compare(f"enumerations {name}", len(bodies), 1)
        names += re.findall(r"^    (\w+)", re.sub(r"///.*", "", "".join(bodies)), re.M)
    return names
