"""The table of words: the actions of the program and of the launcher, and their options."""
import difflib
from dataclasses import dataclass
from typing import Iterable, List, Optional

from .places import COMMAND, FIRST_CELL, IS_INSTALLED, TOP


@dataclass(frozen=True)
class Action:
    """An action: what it takes, whether it is the program's or the launcher's, and what it does, as the help says it."""

    name: str
    takes: str
    is_programs: bool
    does: str


@dataclass(frozen=True)
class Option:
    """An option: its name, whether it is the program's or the launcher's, what it does, and what its next word is, if it takes one."""

    name: str
    is_programs: bool
    does: str
    takes: str = ""


ACTIONS = (
    Action("check", "CELL", True, "reads the cell script CELL and its modules, and prints `accepted`"),
    Action("round", "CELL", True, "checks the cell, runs its tasks in turn, and prints its setpoints (S), its texts (T) and\nhow each task ended (E)"),
    Action("run", "CELL", True, "the same with a thread for each task: the lines may come in a different order each time"),
    Action("list", "CELL", True, "checks the cell, and prints its persistents (P), signals (D), meetings (G) and the\ncode of its tasks (C)"),
    Action("load", "N", True, "runs a cell of four tasks that make N moves each, to measure the program"),
    Action("audit", "CELL HISTORY", True, "checks the cell, and says whether it can have the history that --history printed to a\nfile, or what is wrong first (A)"),
    Action("state", "CELL HISTORY", True, "checks the history as audit does, and prints where the cell is after it: persistents (P),\nmodule data (V) and the statement that each task has reached (N)"),
    Action("clearance", "CELL", True, "runs the cell as round does, and prints how near each arm came to each of its zones (G, C)"),
    Action("trace", "CELL", True, "runs the cell as round does, and prints every event with the file, the line and the column\nof its statement (M)"),
    Action("migrate", "CELL", True, "reads the cell script alone, and prints it in version 2"),
    Action("import", "BACKUP OUT", False, "reads the backup of an ABB controller in the folder BACKUP, and writes a cell of it into the\nfolder OUT: cell.toml, its modules, and the report from_abb.txt. Positions are places of the\nTCP; with --joints they are joints (docs/FROM_ABB.md)"),
    Action("table", "CELL [HISTORY]", False, "runs the cell as round does, and prints its setpoints, signals and texts as CSV; with a\nhistory, that run's, as show, why and cover do"),
    Action("show", "CELL [HISTORY]", False, "runs the cell as round does, and writes a page of the run for a browser, named as the\nfolder of the cell, or as -o FILE says; with two histories, also where they part"),
    Action("why", "CELL [HISTORY]", False, "runs the cell as round does, and says of each task how it ended, where, and why"),
    Action("cover", "CELL [HISTORY]..", False, "runs one or several cells as round does, and prints how many lines and branches of their\nmodules ran, and which did not"),
    Action("lint", "CELL", False, "checks the cell, and warns of what is allowed and hardly meant; its status is that of list"),
    Action("watch", "CELL", False, "checks again whenever a file of the cell changes; Ctrl-C ends it"),
    Action("explain", "WORD", False, "a rule, a fault, a status, an error's number, or any word of RAPID: its cause, an\nexample, what to write instead"),
    Action("examples", "WORD", False, "the examples that show a word of RAPID or a key of a script; alone, all of them"),
    Action("new", "FOLDER", False, "writes a cell that runs, with comments that teach the keys of its script"),
    Action("build", "", False, "proves every crate of the program and builds it: an hour or more the first time"),
    Action("package", "", False, "packs the proved program as a Debian package and as a tar.gz, in the current folder, or\nin the one that -o FOLDER says"),
    Action("proved", "RECORD", False, "compares the checkout with the record of a proof, PROVED, that an installed program has"),
    Action("lsp", "CELL", False, "a language server on standard input and output (docs/EDITORS.md)"),
    Action("completion", "SHELL", False, f"prints completions for bash, zsh or fish: source <({COMMAND} completion bash)"),
    Action("version", "", False, "what this is: version, commit, kit, proved or not (-V, --version)"),
    Action("help", "", False, "lists all words (-h, --help)"),
)
OPTIONS = (
    Option("--history", True, "prints every event of a run, as a line H, in place of its setpoints and texts"),
    Option("--all", False, "with check: goes on after an error, and shows up to 50 errors at once, or N with --all=N"),
    Option("--abb", False, "with check: says what ABB's controller refuses of a cell that is accepted here\n(docs/TO_ABB.md)"),
    Option("--run", False, "with table, show and why: gives each task a thread, as run does"),
    Option("--keep", False, "with why, before the name of a file: writes the history of the run there", "FILE"),
    Option("--watched", False, "with clearance: adds the least gap of each zone while it was watched (W)"),
    Option("--lcov", False, "with cover: prints the counts as a tracefile of lcov, for editors"),
    Option("--tasks", False, "with new, before a number: how many tasks the cell has, 1 to 16", "N"),
    Option("-o", False, "with show, before the name of a file: writes the page there; with package, before that of\na folder", "NAME"),
    Option("--gate", False, "with package, before the name of a file with what rt ci printed: its last lines go into\nthe record", "FILE"),
    Option("--source", False, "with list: prints each operation below the line of the module that it belongs to"),
    Option("--places", False, "with import, before the name of a table: the places of positions that a backup has as joints", "FILE"),
    Option("--joints", False, "with import, before the name of a table: positions are joints, and the table has them", "FILE"),
    Option("--add", False, "with import, before the name of a file: inputs and answers, which end the script of the cell", "FILE"),
    Option("--cross", False, "with import, before the name of a file: more cross connections, in the form of EIO.cfg", "FILE"),
    Option("--again", False, "with import: imports into a folder that has files, and tells what changed since\nthe last time"),
    Option("--plain", False, "prints only the program's own lines"),
    Option("--proved", False, "waits for the proof if the program is not built yet, instead of giving an unproved answer"),
    Option("--unproved", False, "answers with the unproved program, even if the proved one is built"),
)
SHORT = f"""\
{COMMAND} check CELL      checks a cell: try {FIRST_CELL}
{COMMAND} round CELL      checks and runs it
{COMMAND} explain WORD    explains a rule, a fault, a status or a word of RAPID
{COMMAND} --help          lists all words
"""
# What the help ends with.
OF_CHECKOUT = (
    "Until ./rapid_cell build has proved and built the program, an unproved one answers. It is made in a minute or two.",
    f"A first cell is {FIRST_CELL}. To read: README.md, docs/CELL_SCRIPT.md and docs/LANGUAGE.md.",
)
OF_INSTALLED = (
    f"A first cell is {FIRST_CELL}.",
    f"To read, in {TOP}: README.md, docs/CELL_SCRIPT.md and docs/LANGUAGE.md.",
)
# The column of what a word does.
COLUMN = 36


def help_page() -> str:
    lines = ["rapid_cell checks and runs cells of robots programmed in RAPID.", ""]
    for it in ACTIONS:
        lines += help_lines(f"{COMMAND} {it.name} {it.takes}", it.does)
    lines += ["", "Options, anywhere among the words:", ""]
    for option in OPTIONS:
        lines += help_lines(option.name, option.does)
    lines += ["", *(OF_INSTALLED if IS_INSTALLED else OF_CHECKOUT)]
    return "".join(f"{line}\n" for line in lines)


def help_lines(words: str, does: str) -> List[str]:
    first, *others = does.split("\n")
    return [f"  {words:<{COLUMN}}{first}", *(f"  {'':<{COLUMN}}{it}" for it in others)]


def is_programs_action(word: bytes) -> bool:
    return any(it.is_programs and it.name.encode() == word for it in ACTIONS)


def word_count(word: bytes) -> int:
    """How many words an action of the program has, its own among them."""
    return next((1 + len(it.takes.split()) for it in ACTIONS if it.is_programs and it.name.encode() == word), 2)


def nearest(word: str, names: Iterable[str]) -> Optional[str]:
    """The name that was perhaps meant by a word."""
    by_small = {it.lower(): it for it in names}
    found = difflib.get_close_matches(word.lower(), by_small, 1, 0.6 if len(word) > 3 else 0.75)
    return by_small[found[0]] if found else None
