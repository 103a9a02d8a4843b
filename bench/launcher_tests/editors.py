"""The patterns and settings of docs/EDITORS.md."""
import importlib
import importlib.util
import json
import re
import subprocess
import tempfile
from pathlib import Path

from .common import compare, document


def try_editors():
    """The patterns on a line of the program: VS Code's as a regular expression, Vim's in Vim."""
    text = document("EDITORS")
    line = "rapid_cell: module load.mod 5:73 CornerZone"
    pattern = re.search(r'"regexp": "(.*)"', text)[1].replace("\\\\", "\\")
    found = re.search(pattern, line)
    compare("VS Code", found and found.groups(), ("load.mod", "5", "73", "CornerZone"))
    compare("VS Code, another line", re.search(pattern, "rapid_cell: script task[0].arm Range"), None)
    try:
        try_vim(re.search(r"^set errorformat=(.*)$", text, re.M)[1], line)
    except FileNotFoundError:
        print("vim is not here: its errorformat is not tried")


def try_settings():
    """The settings of the editors that are not run here: each is whole JSON or TOML, and starts the server with its words."""
    blocks = re.findall(r"^```(json|toml)\n(.*?)^```", document("EDITORS"), re.M | re.S)
    readers = {"json": json.loads}
    if importlib.util.find_spec("tomllib"):
        readers["toml"] = importlib.import_module("tomllib").loads
    package, *tasks = [readers[kind](block) for kind, block in blocks if kind == "json"]
    compare("VS Code, its files", (package["main"], [it["version"] for it in tasks]), ("./extension.js", ["2.0.0"]))
    compare("VS Code, its words", 'args: ["lsp", "cell.toml"]' in document("EDITORS"), True)
    for helix in [readers[kind](block) for kind, block in blocks if kind == "toml" and kind in readers]:
        (name, server), (language,) = *helix["language-server"].items(), helix["language"]
        compare("Helix", (server["args"], language["language-servers"], language["file-types"]), (["lsp", "cell.toml"], [name], ["mod"]))


def try_vim(errorformat, line):
    with tempfile.TemporaryDirectory() as folder:
        given, out = Path(folder, "lines"), Path(folder, "out")
        given.write_text(f"launcher: the program is older than a\n{line}\n  --> load.mod:5:73\nrapid_cell: words 2\n")
        show = "join(map(filter(getqflist(), 'v:val.valid'), 'bufname(v:val.bufnr).\" \".v:val.lnum.\" \".v:val.col.\" \".v:val.text'), \"\\n\")"
        commands = [f"set errorformat={errorformat}", f"cgetfile {given}", f"call writefile([{show}], '{out}')", "qall!"]
        words = [it for command in commands for it in ("-c", command)]
        how = {"stdin": subprocess.DEVNULL, "stdout": subprocess.DEVNULL, "stderr": subprocess.DEVNULL, "timeout": 20}
        subprocess.run(["vim", "-Nu", "NONE", "-es", *words], **how)
        compare("Vim", out.read_text() if out.exists() else None, "load.mod 5 73 CornerZone\n")
