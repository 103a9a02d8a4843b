"""`check --all` on five cells as they are written for ABB's controller: how many of the errors it shows, and no false one."""
import re
import shutil
import tempfile
from pathlib import Path

from .common import ask, compare, options

CELLS = Path(__file__).resolve().parent / "abb"
# What part of the errors has to be shown at once.
PART = 0.9


def try_all_faults():
    for folder in sorted(it for it in CELLS.iterdir() if it.is_dir()):
        try_cell(folder)


def try_cell(folder):
    own, follows = lines_of(folder / "faults.txt")
    status, out, err = ask(*options, "check", "--all", "--plain", folder / "cell.toml")
    told = set(places_of(folder / "cell.toml", err))
    false = sorted(told - own - follows)
    missing = sorted(own - told)
    print(f"{folder.name}: {len(own & told)} of {len(own)} errors at once, {len(false)} false ones", flush=True)
    compare(f"{folder.name}: status and output", (status in (3, 4), out), (True, ""))
    compare(f"{folder.name}: false ones", false, [])
    compare(f"{folder.name}: part of the errors", (len(own & told) >= PART * len(own), missing), (True, missing))
    first = ask(*options, "--plain", "check", folder / "cell.toml")
    compare(f"{folder.name}: the first one is the program's", (first[0], first[2] in err), (status, True))


def lines_of(file):
    """The lines that have an error of their own, and those that follow from one, each with its file."""
    found = {"": set(), "follows": set()}
    for line in file.read_text().splitlines():
        name, kind, lines = re.fullmatch(r"(\S+) (follows)? ?([\d ]+)", line).groups()
        found[kind or ""].update((name, int(it)) for it in lines.split())
    return found[""], found["follows"]


def places_of(script, said):
    """The lines of the errors that were shown: a missing `;` is shown at the first word of the next line."""
    from launcher import texts, toml_places

    text = script.read_bytes()
    for line in said.splitlines():
        module = re.fullmatch(r"rapid_cell: module (.+) (\d+):\d+ (\w+)", line)
        key = re.fullmatch(r"rapid_cell: script (.+) \w+", line)
        if module:
            yield module[1], int(module[2])
            if module[3] == "Syntax" and is_front(script.parent / module[1], line):
                yield module[1], int(module[2]) - 1
        elif key:
            at = toml_places.place_of_key(text, key[1])
            yield script.name, texts.place_of(text, at)["row"]
        else:
            yield line, 0


def is_front(file, line):
    """Whether a place is the first word of its line."""
    row, column = map(int, re.search(r" (\d+):(\d+) ", line).groups())
    return not file.read_text(encoding="utf-8").splitlines()[row - 1].encode()[: column - 1].strip()


def try_whole_paths():
    """Modules that are named by whole paths, and by paths that lead out of the script's folder."""
    with tempfile.TemporaryDirectory() as copy:
        cell = Path(copy, "scripts/deep/cell.toml")
        cell.parent.mkdir(parents=True)
        Path(copy, "mods").mkdir()
        for name in ("a", "b"):
            text = f"MODULE {name}\nPROC p_{name}()\nMoveL 1;\nStop;\nENDPROC\n"
            Path(copy, f"mods/{name}.mod").write_text(text + ("PROC main()\nzork;\nENDPROC\n" if name == "a" else "") + "ENDMODULE\n")
        a, b = f"{copy}/mods/a.mod", "../../mods/b.mod"
        cell.write_text(f'version = 1\n[[task]]\nname = "A"\nmodules = ["{a}", "{b}"]\n')
        status, out, err = ask(*options, "check", "--all", "--plain", cell)
        wanted = [f"{a} 3:1", f"{a} 4:1", f"{a} 7:1", f"{b} 3:1", f"{b} 4:1"]
        compare("whole paths", (status, err), (4, "".join(f"rapid_cell: module {it} NoName\n" for it in wanted)))


def try_shown():
    """What is added to a cell's errors, and how the search ends."""
    folder = CELLS / "welding"
    status, out, err = ask(*options, "check", "--all", folder / "cell.toml")
    compare("errors counted", "launcher: 25 errors; those after the first were found in a copy without the earlier ones" in err, True)
    compare("each with its line", len(re.findall(r"^ +--> ", err, re.M)), 25)
    with tempfile.TemporaryDirectory() as copy:
        script = Path(copy, "cell.toml")
        shutil.copytree(folder, Path(copy, "cell"))
        script = Path(copy, "cell", "cell.toml")
        module = script.with_name("Weld.mod")
        text = module.read_bytes()
        module.write_bytes(text.replace(b"    EXIT;\n  ENDPROC", b"    EXIT;\n", 1))
        status, out, err = ask(*options, "check", "--all", script)
        compare("a form without its end", (status, "Weld.mod was not checked beyond its last error" in err), (4, True))
        module.write_bytes(b"MODULE Weld\n  PROC main()\n" + b"    MoveL p, v10, fine, tool0;\n" * 60 + b"  ENDPROC\nENDMODULE\n")
        status, out, err = ask(*options, "check", "--all", "--plain", script)
        compare("fifty errors at most", (status, len(err.splitlines())), (4, 50))
        status, out, err = ask(*options, "check", "--all=20", script)
        shown = len([it for it in err.splitlines() if it.startswith("rapid_cell: ")])
        compare("twenty of them", (status, shown, "launcher: 40 of them are not shown: 40 NoName; --all=60 shows them too" in err), (4, 20, True))
        status, out, err = ask(*options, "check", "--all=60", script)
        compare("all of them", (status, err.count("rapid_cell: module"), "are not shown" in err), (4, 60, False))
        module.write_bytes(b"MODULE Weld\n  PROC main()\n    EXIT;\n  ENDPROC\nENDMODULE\n")
        compare("no error", ask(*options, "check", "--all", "--plain", script), (0, "accepted\n", ""))
        module.unlink()
        status, out, err = ask(*options, "check", "--all", script)
        compare("no module", (status, "there is no file" in err, "Weld.mod was not checked" in err), (5, True, True))
    for word in ("--all=", "--all=0", "--all=401", "--all=x", "--all=-1"):
        status, out, err = ask(*options, "check", word, CELLS / "welding/cell.toml")
        compare(word, (status, out, "--all= takes how many errors are shown, from 1 to 400" in err), (2, "", True))
    compare("--all without check", ask(*options, "round", "--all=5", "a.toml")[0], 2)


# ERROR parts as ABB's controller has them, with lists and several of them; what is wrong is in these lines.
PARTS = """MODULE M
  PROC main()
    one;
  ERROR (ERR_WAIT_MAXTIME, 4)
    two;
    RETRY;
  ERROR (5)
    three;
    TRYNEXT
  ERROR
    four;
    RAISE;
  ENDPROC
  TRAP other
    five;
  ERROR
    six;
  ERROR
    seven;
  ENDTRAP
ENDMODULE
"""
WRONG = "3:5 NoName,4:9 Syntax,5:5 NoName,7:3 Syntax,8:5 NoName,10:3 Syntax,10:3 Syntax,11:5 NoName,15:5 NoName,17:5 NoName,18:3 Syntax,19:5 NoName"


def try_error_parts():
    """Neither a list of an ERROR part nor a second part ends the search. The script's name begins with a dash."""
    with tempfile.TemporaryDirectory() as folder:
        Path(folder, "-cell.toml").write_text('version = 1\n[[task]]\nname = "A"\nmodules = ["m.mod"]\n')
        Path(folder, "m.mod").write_text(PARTS)
        wanted = "".join(f"rapid_cell: module m.mod {it}\n" for it in WRONG.split(","))
        compare("ERROR parts", ask(*options, "check", "--all", "--plain", "./-cell.toml", cwd=folder), (4, "", wanted))
