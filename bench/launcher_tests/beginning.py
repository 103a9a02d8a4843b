"""`new`, `examples`, the index of the examples, and the page of idioms."""
import re
import tempfile
from pathlib import Path

from .common import EXAMPLES, ask, compare, document, options, pieces, tables_of

IDIOMS = EXAMPLES / "worked/idioms"


def try_new():
    """The cell runs, its script has every key, and nothing is written over."""
    with tempfile.TemporaryDirectory() as folder:
        for count, version in ((1, 1), (2, 1), (9, 2), (16, 2)):
            name = f"cell_{count}"
            status, out, err = ask("new", name, "--tasks", str(count), cwd=folder)
            compare(f"new with {count} tasks", (status, out, err), (0, f"{name}/cell.toml\n", ""))
            script = Path(folder, name, "cell.toml").read_text()
            compare(f"new with {count} tasks, version", f"\nversion = {version}\n" in script, True)
            status, out, err = ask("--plain", *options, "round", f"{name}/cell.toml", cwd=folder)
            ends = "".join(f"E ROB{n} Done\n" for n in range(1, count + 1))
            compare(f"new with {count} tasks runs", (status, out.endswith(ends), f"T ROB{count} parts {count}\n" in out, err), (0, True, True, ""))
        keys = {it for row in tables_of(document("CELL_SCRIPT")) for head in row if head.startswith("Key") for it in pieces(row[head])}
        compare("keys that are taught", sorted(it for it in keys if it not in re.findall(r"\w+", script)), [])
        compare("a folder that is there", ask("new", "cell_1", cwd=folder)[0], 2)
        Path(folder, "file").write_text("mine")
        compare("a file that is there", (ask("new", "file", cwd=folder)[0], Path(folder, "file").read_text()), (2, "mine"))
        Path(folder, "empty").mkdir()
        compare("an empty folder", ask("new", "empty", cwd=folder)[0], 0)
        compare("new below a file", ask("new", "file/cell", cwd=folder)[0], 6)
    for words in (("new",), ("new", ""), ("new", "a", "b"), ("new", "a", "--tasks"), ("new", "a", "--tasks", "0"), ("new", "a", "--tasks", "17"), ("new", "-a")):
        compare(f"{words}", ask(*words, cwd=EXAMPLES)[:2], (2, ""))


def try_examples():
    status, page, err = ask("examples")
    compare("docs/EXAMPLES.md is what `examples` prints", (status, document("EXAMPLES") == page), (0, True))
    cells = sorted(it.parent.relative_to(EXAMPLES).as_posix() for it in EXAMPLES.rglob("cell.toml"))
    compare("every cell has its row", sorted(re.findall(r"\]\(\.\./examples/(\S+)\)", page)), cells)
    for word, cell in (("WZDOSet", "worked/zones/sets_an_output"), ("retry", "worked/errors/retry_of_a_move"), ("zone", "shared_table"), ("operator", "operator_stop"), ("lost_update", "worked/cells/lost_update")):
        status, out, err = ask("examples", word)
        compare(f"examples {word}", (status, f"examples/{cell}/cell.toml\n" in out), (0, True))
    status, out, err = ask("examples", "GOTO")
    found = [EXAMPLES.parent / it for it in re.findall(r"^(examples/\S+)/cell.toml$", out, re.M)]
    without = [it for it in found if not any("goto" in text.read_text(errors="replace").lower() for text in it.glob("*.mod")) and "goto" not in it.name]
    compare("examples of GOTO", (len(found) > 3, without), (True, []))
    compare("examples of nothing", ask("examples", "zork")[:2], (2, ""))
    compare("a mistyped word", "did you mean WZDOSet?" in ask("examples", "WZDOSt")[2], True)


def try_idioms():
    """Each module of the page is one of its cell; each cell of idioms is on the page."""
    text = document("IDIOMS")
    sections = text.split("\n## ")[1:]
    compare("idioms", len(sections), 6)
    named = []
    for section in sections:
        cells = re.findall(r"examples/worked/idioms/(\w+)", section)
        compare(f"a cell of {section.splitlines()[0]}", len(set(cells)), 1)
        named += set(cells)
        modules = [it.read_text() for it in (IDIOMS / cells[0]).glob("*.mod")]
        compare(f"the module of {cells[0]}", [it for it in re.findall(r"```rapid\n(.*?)```", section, re.S) if it not in modules], [])
    compare("cells of idioms", sorted(named), sorted(it.name for it in IDIOMS.iterdir()))
