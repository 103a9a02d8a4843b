"""Every word that `explain` has to know."""
import os
import re
import subprocess
from pathlib import Path

from .common import LAUNCHER, STATUSES, ask, compare, document, launch, pieces, rules, tables_of

ABB = Path(__file__).resolve().parent / "abb"
# Words that the five cells have of their own: a RECORD and its components, an optional parameter, a routine that is forgotten, and what
# a controller's configuration names.
OF_CELLS = ("partdata", "program", "length", "good", "report", "STN1")
MORE = "cornerzone Conc edge 101 41 ERR_UNKINO S T E P0 D0 G0 C read module words script long v1000 num rax_3 eax_f taskname history A robax NoEOffs trans Quick"
OWN = "check round run list load audit state clearance trace migrate table show cover watch explain examples new build lsp completion version help --history --all --abb --tasks --run --source --lcov -o --plain --proved --unproved"


def try_explain():
    """Each rule, fault and end that the sources have, each status, each reserved and predefined word, and each name of the manuals.

    They are asked for in one process, and some by the command.
    """
    from launcher import explain, manual, names, tokens

    missing = [row["Of RAPID"] for row in tables_of(document("LANGUAGE")) if "Of RAPID" in row]
    predefined = names.predefined()
    of_manual = [f"\\{it.name}" if it.kind == "option" else it.name for it in manual.read()]
    compare("names of the manuals", len(of_manual) > 1000, True)
    by_themselves = {it.name.lower() for it in manual.read() if it.kind not in manual.PARTS}
    compare("names that are there are not missing", sorted(by_themselves & {it.lower() for it in predefined}), [])
    all_words = [*rules(), *STATUSES, *(it for cell in missing for it in pieces(cell)), *tokens.RESERVED, *predefined, *of_manual, *MORE.split(), *OWN.split()]
    for word in all_words:
        parts = list(explain.parts_for(word))
        lines = [line for _, lines in parts for line in lines]
        compare(f"explain {word}", len(parts) > 0 and len(lines) > 1 and all(it.startswith("  ") for it in lines), True)
    for word in ("of", "an", "the", "at", "by", "on", "off", "file", "I", "or so", "zork", "", "\\"):
        compare(f"explain {word}", len(list(explain.parts_for(word))) > 0, word == "\\")
    of_histories = "Look Flood ReadP WriteP TestSet ReadS WriteS Position Setpoint Given Stopped Hold Rise Arrive Met Apart Connect Already NoMore Order Unknown Sleep Watch Delete Disable Enable Leave ZoneSet ZoneOn ZoneOff ZoneFree Say Input"
    for word in of_histories.split():
        compare(f"explain {word}, of a history", "docs/LANGUAGE.md, Reading a history" in {place for place, _ in explain.parts_for(word)}, True)
    for word in ("AND", "and", "OR", "Do"):
        compare(f"explain {word}", [place for place, _ in explain.parts_for(word)], ["docs/LANGUAGE.md, its grammar"])


def try_words_of_cells():
    """No word of a real module is unknown, except what the cell itself declares or forgets to declare."""
    from launcher import explain, names, texts, tokens, view

    for script in sorted(ABB.glob("*/cell.toml")):
        cell = texts.read_cell(script)
        modules = {it.file: it.file.read_bytes() for it in cell.modules}
        own = {it.name.lower() for text in modules.values() for it in view.declared_in(text)} | {it.lower() for it in OF_CELLS}
        words = set()
        for text in modules.values():
            found = tokens.tokens_of(text)
            for k, token in enumerate(found):
                is_option = k > 0 and found[k - 1].text == "\\"
                if token.kind == tokens.NAME and token.text.lower() not in own:
                    if is_option or names.use_of(found, k) != names.AS_VALUE:
                        words.add(f"\\{token.text}" if is_option else token.text)
        compare(f"{script.parent.name}: words", len(words) > 10, True)
        compare(f"{script.parent.name}: unknown words", sorted(it for it in words if not list(explain.parts_for(it))), [])


def try_names_of_rapid():
    """A name of ABB's manuals has an answer of its own, even if the documents' row only says that it is outside."""
    from launcher import explain

    for word, answer in (("TPReadFK", "`WaitDI` of an input"), ("SocketSend", "a PERS that tasks share"), ("MoveLDO", "`MoveAbsJ` to each place")):
        lines = [line for _, lines in explain.parts_for(word) for line in lines]
        compare(f"explain {word}", answer in "".join(lines), True)


def try_command():
    cause = "docs/LANGUAGE.md, Rules of names and types\n  Rule: CornerZone\n  Cause: a zone other than `fine`\n"
    status, out, err = launch("explain", "CornerZone")
    compare("explain CornerZone", (status, out.startswith(cause), err), (0, True, ""))
    compare("explain nothing known", ask("explain", "zork")[:2], (2, ""))
    for word in ("heartbeat", "deadlock"):
        status, out, err = ask("explain", word)
        compare(f"explain {word}", (status, out, "did you mean" in err), (2, "", False))
    compare("explain, did you mean", "did you mean CornerZone?" in ask("explain", "CornerZon")[2], True)
    compare("explain without a word", ask("explain")[:2], (2, ""))
    # Nobody reads it.
    read, write = os.pipe()
    os.close(read)
    ran = subprocess.run([LAUNCHER, "explain", "NoName"], stdout=write, stderr=subprocess.PIPE)
    os.close(write)
    compare("explain into a closed pipe", (ran.returncode, ran.stderr), (6, b""))


def try_reserved():
    """The reserved words of docs/LANGUAGE.md are those that the launcher has, and each has a form."""
    from launcher import reserved, tokens

    listed = re.search(r"^ALIAS AND .*$", document("LANGUAGE"), re.M)
    compare("reserved words", sorted(tokens.RESERVED), sorted(listed[0].split()))
    compare("meanings", sorted(reserved.meanings()), sorted(tokens.RESERVED))
    left_out = {"ALIAS", "BACKWARD", "RECORD", "ENDRECORD", "UNDO"}
    for word in tokens.RESERVED - left_out:
        compare(f"form of {word}", len(reserved.forms_with(word)) > 0, True)
