"""`check --abb`, by the table of docs/TO_ABB.md: each row's example is accepted here, and told with its rule and its place."""
import re
import subprocess
import tempfile
from pathlib import Path

from .common import EXAMPLES, TOP, ask, compare, document, options, tables_of

# What stands around an example: its declarations, or a statement with what it needs.
ITEM = 'MODULE M\n{example}\nVAR syncident here;\nPERS tasks list{{1}} := [["A"]];\nPROC main()\nWaitSyncTask here, {name};\nENDPROC\nENDMODULE\n'
STATEMENT = "MODULE M\nVAR wzstationary limits;\nVAR shapedata shape;\nPROC main()\nWZLimJointDef\\Inside, shape, [[1,9E9,9E9,9E9,9E9,9E9],[9E9,9E9,9E9,9E9,9E9,9E9]], [[2,9E9,9E9,9E9,9E9,9E9],[9E9,9E9,9E9,9E9,9E9,9E9]];\n{example}\nENDPROC\nENDMODULE\n"
SCRIPT = 'version = 1\n[[task]]\nname = "A"\nmodules = ["m.mod"]\narm = [0, 0, 0, 0, 0, 0]\n'


def try_abb():
    rows = [it for it in tables_of(document("TO_ABB")) if "Rule" in it]
    compare("rules of the page", [it["Rule"] for it in rows], ["`TaskList`", "`Stationary`", "`Predefined`"])
    with tempfile.TemporaryDirectory() as folder:
        Path(folder, "cell.toml").write_text(SCRIPT)
        for row in rows:
            example, rule = row["Example"].strip("`"), row["Rule"].strip("`")
            frame = STATEMENT if rule == "Stationary" else ITEM
            text = frame.format(example=example, name="both" if rule == "TaskList" else "list")
            before, _, after = text.partition("^")
            Path(folder, "m.mod").write_text(before + after)
            place = f"{before.count(chr(10)) + 1}:{len(before) - before.rfind(chr(10))}"
            status, out, err = ask(*options, "check", "--abb", "cell.toml", cwd=folder)
            told = re.findall(r"^launcher: ABB's controller refuses (.*)$", err, re.M)
            compare(f"{example}", (status, out, told), (0, "accepted\n", [f"m.mod {place} {rule}"]))
        Path(folder, "m.mod").write_text(ITEM.format(example="VAR num n;", name="list"))
        status, out, err = ask(*options, "check", "--abb", "cell.toml", cwd=folder)
        compare("nothing to refuse", (status, "launcher: nothing of what docs/TO_ABB.md lists was found" in err), (0, True))
        Path(folder, "m.mod").write_text("MODULE M\nENDMODULE\n")
        status, out, err = ask(*options, "check", "--abb", "cell.toml", cwd=folder)
        compare("a cell that is refused here", (status, "ABB's controller" in err), (4, False))
    compare("--abb without check", ask("--abb", "round", "a.toml")[0], 2)


def try_abb_on_examples():
    """On the examples, what is told is there: a list that is no PERS, an option `\\Stat`, or a name of the manuals."""
    from launcher import manual, texts, to_abb

    count = 0
    for script in sorted(EXAMPLES.rglob("cell.toml")):
        if "faults" in script.parts or not all(it.file.is_file() for it in texts.read_cell(script).modules):
            continue
        for it in to_abb.findings(texts.read_cell(script)):
            word = it.text[it.at : it.at + it.length].decode()
            line = texts.line_of(it.text, texts.place_of(it.text, it.at)["row"]).decode()
            is_right = {
                to_abb.TASK_LIST: re.search(rf"\b(CONST|VAR) tasks {word}\b", line),
                to_abb.STATIONARY: word.lower() == "\\stat",
                to_abb.PREDEFINED: manual.find(word),
            }[it.rule]
            compare(f"{script.parent.relative_to(EXAMPLES)}: {line}", bool(is_right), True)
            count += 1
    compare("examples that ABB's controller refuses", count > 5, True)


def try_pages_of_readme():
    """The page that README.md has `show` write is none that the checkout takes for a change."""
    shown = re.findall(r"`\./rapid_cell show (\S+)`", (TOP / "README.md").read_text(encoding="utf-8"))
    compare("README.md shows a run", len(shown) > 0, True)
    for script in shown:
        page = f"{Path(script).parent.name}.html"
        ran = subprocess.run(["git", "check-ignore", "-q", page], cwd=TOP)
        compare(f"{page} is ignored", ran.returncode, 0)
