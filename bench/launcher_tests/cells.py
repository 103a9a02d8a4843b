"""Every example and every module of the documents, with what it has to answer."""
import re
import shutil
import subprocess
import tempfile
from pathlib import Path

from .common import EXAMPLES, TOP, ask, compare, document, is_code, options, pieces, program, rules, tables_of, text_of

STORED = TOP / "crates/controller_program"
SIGNALS = """
[[signal]]
name = "di_part"
kind = "di"

[[signal]]
name = "do_lamp"
kind = "do"
"""
TASK = '\n[[task]]\nname = "{name}"\nmodules = ["m.mod"]\narm = [0, 0, 0, 0, 0, 0]\n'
# A fenced block of a document.
BLOCK = re.compile(r"^```(\w*)\n(.*?)^```$", re.M | re.S)
# What the examples of the tables of docs/LANGUAGE.md are put into: an item of the module, or a statement of its main.
FRAME = """MODULE Frame
CONST jointtarget home := [[0,10,0,0,30,0],[9E9,9E9,9E9,9E9,9E9,9E9]];
CONST tasks all{{1}} := [["A"]];
CONST num most := 1;
PERS num counts{{2}};
VAR num list{{2}};
VAR num n;
VAR bool flag;
VAR string line;
VAR robjoint axes;
VAR jointtarget here;
VAR intnum seen;
VAR shapedata shape;
TRAP part_comes ENDTRAP
{item}
PROC main()
{statement}
ENDPROC
ENDMODULE
"""
ITEM = re.compile(r"\^?(CONST|VAR|PERS|PROC|FUNC|RECORD|ALIAS)\b")


class Case:
    """An action on the cell of a script, and what it has to answer."""

    def __init__(self, what, action, script, wanted):
        self.what, self.action, self.script, self.wanted = what, action, script, wanted

    def words(self):
        """The action's words: `history` is `round` with the whole history."""
        return ("--history", "round") if self.action == "history" else (self.action,)

    def files(self):
        """The script, and for `state` the history beside it."""
        return (self.script, self.script.with_name("so_far")) if self.action == "state" else (self.script,)

    def compare(self, status, lines):
        """Of `run` the status and the E lines, since the order of the others may differ from run to run."""
        if self.action == "run":
            lines = "".join(line for line in lines.splitlines(True) if line.startswith("E "))
        compare(self.what, (status, lines), self.wanted)


def run_all():
    """Runs each case by the program that the launcher starts, from another folder than the repository's, and returns how many there
    are. The examples by topic are too many to be started by the launcher, which hands their words on as they are."""
    started = program().file
    with tempfile.TemporaryDirectory() as folder, tempfile.TemporaryDirectory() as elsewhere:
        cases = [*example_cases(), *document_cases(folder), *seen_cases(folder)]
        for case in cases:
            if "worked" in case.script.parts:
                how = {"cwd": elsewhere, "stdin": subprocess.DEVNULL, "stdout": subprocess.PIPE, "stderr": subprocess.PIPE}
                ran = subprocess.run([started, *case.words(), *case.files()], **how)
                status, out, err = ran.returncode, text_of(ran.stdout), text_of(ran.stderr)
            else:
                status, out, err = ask("--plain", *options, *case.words(), *case.files(), cwd=elsewhere)
            case.compare(status, out + err)
    return len(cases)


def example_cases():
    """Each example's stored answers, and each of its cells by the path of its script."""
    for file in sorted(EXAMPLES.rglob("*.txt")):
        head, _, lines = file.read_text(encoding="utf-8").partition("\n")
        status = int(head[len("status ") :])
        yield Case(str(file.relative_to(TOP)), file.stem, file.with_name("cell.toml"), (status, lines))


def write_cell(folder, name, text, tasks=("A",)):
    """Writes a cell of tasks with one module, and returns its script's path."""
    place = Path(folder, name)
    place.mkdir()
    (place / "m.mod").write_text(text, encoding="utf-8")
    (place / "cell.toml").write_text("version = 1\n" + SIGNALS + "".join(TASK.format(name=it) for it in tasks))
    return place / "cell.toml"


def modules_of(text):
    """Each module of a document, with the script right before it and the lines of its run after it, if they are there."""
    blocks = list(BLOCK.finditer(text))
    for before, it, behind in zip([None, *blocks], blocks, [*blocks[1:], None]):
        if it[1] == "rapid":
            is_its_script = before and before[1] == "toml" and not text[before.end() : it.start()].strip()
            # At most one paragraph stands between.
            has_lines = behind and behind[1] == "text" and "\n\n" not in text[it.end() : behind.start()].strip()
            yield it[2], before[2] if is_its_script else None, behind[2] if has_lines else ""


def document_cases(folder):
    """Each whole module of the documents, which has to be accepted, and to print the lines after it."""
    for name in ("LANGUAGE", "CELL_SCRIPT"):
        found = list(modules_of(document(name)))
        compare(f"docs/{name}.md has modules and lines", bool(found) and any(it[2] for it in found), True)
        for n, (module, own, lines) in enumerate(found):
            title = re.search(r"MODULE (\w+)", module)[1]
            what = f"docs/{name}.md, {title}"
            script = write_cell(folder, f"{name}_{n}", module, re.findall(r"^E (\w+)", lines, re.M) or ["A"])
            if own:
                script.write_text(re.sub(r'\[".*?"\]', '["m.mod"]', own))
            yield Case(what, "check", script, (0, "accepted\n"))
            compare(f"{what} has lines", bool(lines) or name != "LANGUAGE", True)
            if lines:
                yield Case(f"{what}, its run", "round", script, (status_of(lines), lines))


def status_of(lines):
    """The status of a run whose lines these are."""
    ends = re.findall(r"^E \w+ (\w+)", lines, re.M)
    for end, status in (("Cut", 9), ("Held", 8), ("Fault", 1)):
        if end in ends:
            return status
    return 0


def seen_cases(folder):
    """Each example of the tables of docs/LANGUAGE.md that is code with `^` in it: it is refused there, by the row's rule. Where
    a row names as many rules as it has examples, each example has its own, else all have the first."""
    names = rules()
    rows = list(tables_of(document("LANGUAGE")))
    yield free_names(folder, [row for row in rows if "`NoName`" in row.get("What you will see here", "")])
    for row in rows:
        cell = row.get("Example, `^` before the fault", "")
        examples = pieces(cell) if is_code(cell) else []
        first, said = list(row.values())[:2]
        row_rules = [first] if first in names else [it for it in pieces(said) if it in names]
        for n, example in enumerate(examples):
            rule = row_rules[n] if len(row_rules) == len(examples) else row_rules[0]
            is_item = ITEM.match(example)
            text = FRAME.format(item=example if is_item else "", statement="" if is_item else example)
            before, mark, behind = text.encode().partition(b"^")
            place = f"{before.count(10) + 1}:{len(before) - before.rfind(10)}"
            compare(f"mark in {example}", (mark, b"^" in behind), (b"^", False))
            script = write_cell(folder, f"seen_{len(list(Path(folder).iterdir()))}", text.replace("^", "", 1))
            yield Case(example, "check", script, (4, f"rapid_cell: module m.mod {place} {rule}\n"))


def free_names(folder, rows):
    """A module that declares each name of rows of missing words: it is accepted, so none of them means anything by itself."""
    names = [it for row in rows for it in pieces(row["Of RAPID"]) if re.fullmatch(r"\w+", it)]
    compare("missing names", len(names) > 50, True)
    data = "".join(f"VAR num {it};\n" for it in names)
    script = write_cell(folder, "free_names", f"MODULE Free\n{data}PROC main()\nENDPROC\nENDMODULE\n")
    return Case("names that mean nothing", "check", script, (0, "accepted\n"))


def try_migrated():
    """A script in version 2 has the lines of the old one."""
    started = program().file
    with tempfile.TemporaryDirectory() as folder:
        for name in ("first_move", "press_cell", "track"):
            place = Path(folder, name)
            shutil.copytree(EXAMPLES / name, place)
            script = place / "cell.toml"
            how = {"stdin": subprocess.DEVNULL, "stdout": subprocess.PIPE, "stderr": subprocess.PIPE}
            before = subprocess.run([started, "round", script], **how)
            ran = subprocess.run([started, "migrate", script], **how)
            compare(f"migrate {name}", (ran.returncode, b"version = 2\n" in ran.stdout, ran.stderr), (0, True, b""))
            script.write_bytes(ran.stdout)
            after = subprocess.run([started, "round", script], **how)
            compare(f"round of {name} in version 2", (after.returncode, after.stdout, after.stderr), (before.returncode, before.stdout, before.stderr))


def try_stored_runs():
    """The run of the program that the gate tries is the first example, and the gate runs every example that has lines, and audits only
    histories of such runs."""
    listed = (TOP / "crates/example_cells/stdin").read_text().splitlines()
    stored = [f"{file.stem} {file.parent.relative_to(EXAMPLES)}" for file in EXAMPLES.rglob("*.txt")]
    audits = [it for it in listed if it.startswith("audit ")]
    compare("examples in the gate", sorted(set(listed) - set(audits)), sorted(stored))
    compare("audits in the gate", [it for it in audits if it.replace("audit", "round", 1) not in stored], [])
    compare("each as it stands", (TOP / "crates/example_cells/stdout").read_text().splitlines(), listed)
    for file in (EXAMPLES / "first_move").iterdir():
        if file.suffix != ".txt":
            compare(f"stored {file.name}", (STORED / "data" / file.name).read_bytes(), file.read_bytes())
    lines = (EXAMPLES / "first_move/round.txt").read_text().partition("\n")[2]
    compare("stored lines", (STORED / "stdout").read_text(), lines)
    compare("stored words", (STORED / "args").read_text(), "round\ncell.toml\n")
