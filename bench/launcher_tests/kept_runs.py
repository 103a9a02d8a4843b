"""Runs that were kept: `why`, `show`, `table` and `cover` of a history say what they say of the run."""
import os
import re
import tempfile
from pathlib import Path

from .common import EXAMPLES, ask, compare, options
from .pages import browsed, has_node
from .whys import bare

CELLS = ("shared_table", "worked/cells/deadlock", "press_cell", "worked/histories/a_trap_in_a_move")
# A history that ends while B waits at its meeting and A has come to it.
OPEN = EXAMPLES / "worked/cells/deadlock"


def history(folder, script, *words):
    file = Path(folder, "run.txt")
    file.write_text(ask("--plain", *options, "--history", *(words or ("round",)), script)[1])
    return file


def try_histories_of_rounds():
    """Of the history of a run by turns each word says what it says of the run itself, with and without the lines of the ends."""
    with tempfile.TemporaryDirectory() as folder:
        for name in CELLS:
            script = EXAMPLES / name / "cell.toml"
            file = history(folder, script)
            for text in (file.read_text(), "".join(it for it in file.read_text().splitlines(True) if not it.startswith("E "))):
                file.write_text(text)
                for word in ("why", "cover"):
                    _, wanted, _ = ask("--plain", *options, word, script)
                    compare(f"{word} {name} by its history", ask("--plain", *options, word, script, file), (0, wanted, ""))
            file = history(folder, script)
            _, wanted, _ = ask("--plain", *options, "table", script)
            compare(f"table {name} by its history", ask("--plain", *options, "table", script, file), (0, wanted, ""))


def try_pages_of_histories():
    """A page of a history, and one of a run with threads, have the places that a page of the run by turns has."""
    if not has_node():
        return
    places = "[page.run.count, [...page.run.places].map((it) => it && page.run.cell.places[it - 1].slice(0, 3))]"
    with tempfile.TemporaryDirectory() as folder:
        for name in CELLS:
            script = EXAMPLES / name / "cell.toml"
            pages = [Path(folder, f"{it}.html") for it in ("round", "history", "run")]
            for page, words in zip(pages, ([script], [script, history(folder, script)], ["--run", script])):
                ask("--plain", *options, "show", "-o", page, *words)
            of_round, of_history = browsed(pages[0], places), browsed(pages[1], places)
            compare(f"places of the history of {name}", of_history == of_round and of_round[0][0] > 0, True)
            counts = "page.run.cell.modules.map((it) => Object.values(it.counts).reduce((sum, it) => sum + it, 0))"
            tasks = name.count("trap") and browsed(pages[2], places, counts) == browsed(pages[0], places, counts)
            compare(f"places of threads of {name}", tasks or 0 not in [len(it) for it in browsed(pages[2], places)[0][1] if it], True)


def try_open_history():
    """A history that ends before the run: who waits there, and who goes on."""
    with tempfile.TemporaryDirectory() as folder:
        script = OPEN / "cell.toml"
        file = history(folder, script)
        lines = file.read_text().splitlines(True)
        file.write_text("".join(lines[:5]))
        status, out, _ = ask("--plain", *options, "why", script, file)
        wanted = ["A goes on where the history ends, after event 4", "a.mod 5:1 waits here", "b is FALSE: nobody has written it since the start"]
        compare("why of an open history", (status, bare(out.splitlines())[:3]), (0, wanted))
        compare("B of an open history", [it for it in bare(out.splitlines()) if it.startswith("B goes")], ["B goes on where the history ends, after event 3"])
        file.write_text("")
        compare("why of an empty history", ask("--plain", *options, "why", script, file)[:2], (0, "A goes on where the history ends\n" + excerpt(script, "a.mod") + "\nB goes on where the history ends\n" + excerpt(script, "b.mod")))
        file.write_text(lines[1] + lines[0].replace("Look", "Hold 0"))
        compare("why of a wrong history", ask("--plain", *options, "why", script, file)[0] in (11, 12), True)


def excerpt(script, module):
    """The first statement of a module of the deadlock, as `why` shows it."""
    row = next(k for k, it in enumerate(script.with_name(module).read_text().splitlines(), 1) if it.startswith("WaitUntil"))
    line = script.with_name(module).read_text().splitlines()[row - 1]
    return f"  --> {script.with_name(module)}:{row}:1\n   |\n {row} | {line}\n   | {'^' * len(line)} is here\n"


def try_kept():
    """`why --run --keep FILE` keeps the history that it explained."""
    with tempfile.TemporaryDirectory() as folder:
        script = EXAMPLES / "shared_table/cell.toml"
        kept = Path(folder, "kept.txt")
        for words in (("--run",), ()):
            status, out, _ = ask("--plain", *options, "why", *words, "--keep", kept, script)
            compare(f"why {words} --keep", (status, ask("--plain", *options, "why", script, kept)[:2]), (1, (0, out)))
            audited = ask("--plain", *options, "audit", script, kept)[1]
            compare(f"why {words} --keep, audited", re.sub(r"\d+", "N", audited), "A legal N whole\n")
        mine = Path(folder, "mine.txt")
        mine.write_text("mine")
        compare("why --keep over another file", (ask(*options, "why", script, "--keep", mine)[:2], mine.read_text()), ((2, ""), "mine"))
        refused = Path(folder, "refused.txt")
        compare("why --keep of a refused cell", (ask(*options, "why", EXAMPLES / "faults/syntax/cell.toml", "--keep", refused)[0], refused.exists()), (4, False))
        os.mkfifo(Path(folder, "pipe"))
        compare("why --keep to a pipe", ask(*options, "why", script, "--keep", Path(folder, "pipe"))[:2], (2, ""))
        compare("nothing is left beside", sorted(it.name for it in Path(folder).iterdir()), ["kept.txt", "mine.txt", "pipe"])


def try_words_of_histories():
    script = EXAMPLES / "shared_table/cell.toml"
    with tempfile.TemporaryDirectory() as folder:
        file = history(folder, script)
        for words in (("why", "--run", script, file), ("why", script, file, "--keep", "a"), ("table", "--run", script, file), ("show", "--run", script, file), ("cover", file, script)):
            compare(f"{words[0]} with too much", ask(*options, *words)[:2], (2, ""))
        for word in ("why", "table", "show"):
            compare(f"{word} of no history", ask("--plain", *options, word, script, Path(folder, "none"), cwd=folder)[0], 5)
        compare("a history of another cell", ask("--plain", *options, "why", OPEN / "cell.toml", file)[0], 11)
        compare("cover of two cells", ask("--plain", *options, "cover", script, file, OPEN / "cell.toml")[0], 0)
