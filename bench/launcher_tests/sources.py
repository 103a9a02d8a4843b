"""`list --source CELL`, over every example: the code of each task beside the text that it was compiled from."""
import subprocess

from .common import EXAMPLES, TOP, ask, compare, options, program, text_of
from .spreadsheet import is_refused

SUPERVISOR = """
SUP routine 0: PROC main, supervise.mod
     7     WaitDI di_door, 1;
         0 Look
         1 Push 1
         2 Bit
         3 GetSignal 0  ! di_door
         4 Binary Equal
         5 Wait 0
     8     WHILE parts < 12 AND (NOT table_busy{1}) DO
         6 Look
"""
END = """\
     8     WHILE parts < 12 AND (NOT table_busy{1}) DO
        35 Jump 6
    12     Reset do_press;
        36 Look
        37 Push 0
        38 PutSignal 1  ! do_press
"""


def try_sources():
    """Every operation has an owner, every statement has a Look, and what an operation names stands in the lines of its owner."""
    operations = named = 0
    scripts = [file.with_name("cell.toml") for file in sorted(EXAMPLES.rglob("round.txt")) if not is_refused(file)]
    for script in [*scripts, TOP / "bench/every_form/cell.toml"]:
        of_code, of_names = compare_code(script)
        operations += of_code
        named += of_names
    compare("operations, and those with names", (operations > 5000, named > 500), (True, True))


def compare_code(script):
    """Compares the code of a cell's tasks with their modules. Returns how many operations there are, and how many with names."""
    from launcher import listing, texts
    from launcher.code import Walk
    from launcher.statements import LABEL, source_of

    ran = subprocess.run([program().file, "list", script], stdin=subprocess.DEVNULL, stdout=subprocess.PIPE)
    listed, cell = listing.Listing(text_of(ran.stdout).splitlines()), texts.read_cell(script)
    count = named = 0
    for number, (task, ops) in enumerate(listed.code.items()):
        what = f"the code of {task}, {script.parent.relative_to(TOP)}"
        sources = [source_of(it.file.read_bytes()) for it in cell.of_task(number)]
        owners, names = Walk(ops, sources).owners, listing.Names(listed, sources)
        compare(what, None in owners, False)
        routines = [(m, routine) for m, source in enumerate(sources) for routine in source.routines]
        starts = {(m, it.start) for m, routine in routines for it in routine.walk() if it.form != LABEL}
        looks = {(owner.module, owner.first) for op, owner in zip(ops, owners) if op.name == "Look"}
        compare(f"{what}, its statements", looks, starts)
        for op, owner in zip(ops, owners):
            name = names.of(op, owner).split(" of ")[-1]
            shown = [it.text.lower() for it in sources[owner.module].tokens[owner.first : owner.past]]
            compare(f"{what}, {op} {name}", not name or name.lower() in shown, True)
            named += bool(name)
        count += len(ops)
    return count, named


def try_source_command():
    status, out, err = ask("--plain", *options, "list", "--source", EXAMPLES / "press_cell/cell.toml")
    compare("list --source", (status, out.startswith("P0 * num parts\n"), SUPERVISOR in out, END in out, err), (0, True, True, True, ""))
    status, out, err = ask("--plain", *options, "--source", "list", EXAMPLES / "faults/no_name/cell.toml")
    compare("list --source of a refused cell", (status, out, err.startswith("rapid_cell: module ")), (4, "", True))
    for words, place in ((("list", "--source"), 1), (("list", "--source", "a", "b"), 2)):
        status, out, err = ask(*words)
        compare(f"{words}", (status, out, err.startswith(f"rapid_cell: words {place}\n")), (2, "", True))
    compare("--source with check", ask("check", "--source", "a")[:2], (2, ""))
