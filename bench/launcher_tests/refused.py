"""Refusals, shown with the line, a caret, the cause, and what to write instead."""
import os
import pty
import re
import tempfile
from pathlib import Path

from .common import LAUNCHER, ask, compare, options, program

SCRIPT = """version = 1

[[signal]]
name = "di_part"
kind = "di"

[[signal]]
name = "do_lamp"
kind = "do"

[[task]]
name = "A"
modules = ["m.mod"]
arm = [0, 0, 0, 0, 0, 0]
"""
FRAME = """MODULE M
VAR num counter;
VAR num list{{3}};
CONST num most := 5;
VAR string text;
VAR jointtarget here;
{item}
PROC fetch(num part, VAR num done)
ENDPROC
PROC main()
{statement}
ENDPROC
ENDMODULE
"""
# A statement of main, or an item of the module; the text beside the caret; and notes that have to be there.
STATEMENTS = (
    ("^countr := 1;", "nothing here is named `countr`", ["did you mean `counter` (line 2)?"]),
    ("TPWrite ^txt;", "nothing here is named `txt`", ["did you mean `text` (line 5)?"]),
    ("^TPWrit text;", "nothing here is named `TPWrit`", ["did you mean `TPWrite`?"]),
    ("^fetsh 1, counter;", "nothing here is named `fetsh`", ["did you mean `fetch` (line 8)?"]),
    ("WaitDI ^di_prt, 1;", "nothing here is named `di_prt`", ["did you mean `di_part` (a signal of kind di)?"]),
    ("Set ^do_gripper;", "nothing here is named `do_gripper`", ['a signal is declared in the script: [[signal]] with name = "do_gripper" and kind = "do"']),
    ("^MoveL text, v100, fine, tool0;", "`MoveL` is an instruction of RAPID that is not supported", ["write instead: `MoveAbsJ` to a jointtarget"]),
    ("counter := ^Sqrt(2);", "`Sqrt` is a function of RAPID that is not supported", ["write instead: a table of values"]),
    ("counter := ^ERR_WAIT_MAXTIME;", "`ERR_WAIT_MAXTIME` is a predefined datum of RAPID that is not supported", []),
    ('counter := ^"a";', "this is a string", []),
    ("Reset ^di_part;", "this is a signal of kind di", ["Reset takes signaldo"]),
    ("^most := 1;", "`most` cannot be written", ["`most` is declared on line 4: CONST num"]),
    ("^fetch 1;", "too few or too many arguments, or more than 32", ["fetch(num part, VAR num done) is declared on line 8"]),
    ("^Incr counter, 2;", "too few or too many arguments, or more than 32", ["Incr takes VAR or PERS num"]),
    ("TPWrite text^\\Foo;", "TPWrite does not take `\\Foo` here", ["TPWrite takes string", "write instead: the options"]),
    ("WaitDI di_part, 1^\\MaxTime:=5;", "WaitDI does not take `\\MaxTime` here", ["WaitDI takes signaldi", "write instead: an input of the script that ends"]),
    ("WaitTime^\\InPos, 1;", "WaitTime does not take `\\InPos` here", ["write instead: nothing: leave it out, since each move ends in its place"]),
    ("SetDO^\\SDelay:=1, do_lamp, 1;", "SetDO does not take `\\SDelay` here", ["write instead: nothing: leave it out, since there is no time"]),
    ("^PulseDO do_lamp;", "`PulseDO` is an instruction of RAPID that is not supported", ["write instead: `Set`, a wait for what the pulse brings about, and `Reset`"]),
    ("ISignalDI di_part, ^edge, counter;", "`edge` is a predefined datum of RAPID that is not supported", ["write instead: an order for 1, and another intnum's order for 0"]),
    ("WaitDI di_part, 1^\\Visualize;", "WaitDI does not take `\\Visualize` here", ["write instead: nothing: a wait ends"]),
    ("counter := here.^trans;", "`trans` is a component of types of RAPID that are not supported", ["write instead: a jointtarget"]),
    ("counter := here.^rax_9;", "no type here has a component `rax_9`", ["did you mean `rax_"]),
    ("counter := ^list;", "an array without an index", ["`list` is declared on line 3: VAR num"]),
    ("counter := counter + ^;", "expected a value, found the mark `;`", []),
    ("counter := 1\n^Set do_lamp;", "expected an operator or `;`, found the name `Set`", ["perhaps `;` is missing at the end of line 11, after `1`"]),
    ("IF counter = 1 THEN\ncounter := 2;\n^", "expected a statement, `ELSEIF`, `ELSE` or `ENDIF`, found the word `ENDPROC`", ["perhaps ENDIF is missing: the IF of line 11 is still open here"]),
    ("WHILE TRUE DO\nIF TRUE THEN\ncounter := 2;\n^ENDWHILE", "expected a statement, `ELSEIF`, `ELSE` or `ENDIF`, found the word `ENDWHILE`", ["perhaps ENDIF is missing: the IF of line 12 is still open here"]),
    ("counter := ^<EXP>;", "expected an expression, found the mark `<`", ["write instead:"]),
    ("MoveAbsJ ^*, v100, fine, tool0;", "found the mark `*`", ["write instead:"]),
    ("IF TRUE AND ^NOT FALSE EXIT;", "expected a value or an operator, found the word `NOT`", ["NOT may stand only at the start of an expression: write `(NOT ...)` here"]),
    ("counter := 2 * ^-counter;", "expected a value, found the mark `-`", ["write instead:"]),
    ('TPWrite "caf^é";', "'é' is allowed only in comments", ["write instead: characters from space to `~`"]),
    ("\t\tcounter := ^$1; ! ß", "'$' is allowed only in comments", []),
    ("counter := 1; ! ü\n\tcounter := \t^zork;", "nothing here is named `zork`", []),
)
ITEMS = (
    ("VAR ^robtarget over;", "`robtarget` is a data type of RAPID that is not supported", ["write instead: a jointtarget"]),
    ("VAR ^jointtarge over;", "nothing here is named `jointtarge`", ["did you mean `jointtarget`"]),
    ("VAR num ^counter;", "this name is declared twice", ["`counter` is declared on line 2: VAR num"]),
    ("VAR num ^low;", "`low` is a predefined name (data)", []),
    ("VAR num ^do_lamp;", "`do_lamp` is a signal of the script", []),
    ("^RECORD part num mass; ENDRECORD", "RECORD is not supported", ["write instead:"]),
    ("VAR num places{2^,3};", "expected an operator or `}`, found the mark `,`", ["write instead: one dimension"]),
    ("VAR wzstationary z := ^[0];", "a datum of wzstationary has no first value", ["write instead: `VAR wzstationary z;`"]),
    ("VAR intnum door := ^0;", "a datum of intnum has no first value", ["write instead: `VAR intnum door;`"]),
    ("PROC lamp(num a ^| num b) ENDPROC", "'|' is allowed only in comments", ["write instead: two routines"]),
    ("PROC put(^\\num part) ENDPROC", "found the mark `\\`", ["write instead: two routines"]),
    ("PROC put(num part^{*}) ENDPROC", "expected `,` or `)`, found the mark `{`", ["write instead: an array of the module"]),
    ("PROC put() ERROR ^(1, 2) ENDPROC", "expected a statement or `ENDPROC`, found the mark `(`", ["write instead: IF or TEST"]),
)


def try_modules():
    with tempfile.TemporaryDirectory() as folder:
        Path(folder, "cell.toml").write_text(SCRIPT)
        for given, label, notes in STATEMENTS:
            try_module(folder, given, FRAME.format(item="", statement=given), label, notes)
        for given, label, notes in ITEMS:
            try_module(folder, given, FRAME.format(item=given, statement=""), label, notes)


def try_module(folder, given, text, label, notes):
    before, mark, after = text.encode().partition(b"^")
    if after.strip(b"\n").startswith(b"ENDPROC"):
        before, after = before + b"\n", after.lstrip(b"\n")
    Path(folder, "m.mod").write_bytes(before + after)
    place = f"{before.count(10) + 1}:{len(before) - before.rfind(10)}"
    status, out, err = ask(*options, "check", "cell.toml", cwd=folder)
    lines = err.splitlines()
    compare(f"{given}: place", (status, out, lines[0].split()[:4]), (4, "", ["rapid_cell:", "module", "m.mod", place]))
    compare(f"{given}: arrow", lines[1].strip(), f"--> m.mod:{place}")
    carets = next((it for it in lines if re.match(r" +\| +\^", it)), "")
    compare(f"{given}: label", carets.partition("^")[2].lstrip("^").strip(), label)
    shown = lines[3].partition("| ")[2]
    word = (after.decode().split() or [""])[0]
    at = carets.partition("| ")[2].index("^") if "^" in carets else -1
    compare(f"{given}: caret", shown[at:].startswith(word[:1]), True)
    whole = " ".join(it.strip(" =") for it in lines)
    for note in notes:
        compare(f"{given}: note {note}", note in whole, True)
    compare(f"{given}: one thing to write instead", whole.count("write instead: ") < 2, True)
    if given in (STATEMENTS[0][0], ITEMS[0][0]):
        compare(f"{given}: plain", ask("--plain", *options, "check", "cell.toml", cwd=folder), (4, "", lines[0] + "\n"))


SCRIPTS = (
    ("version = 1", "version 1", "--> cell.toml:1:9", "expected `=` after a key"),
    ('"A"', '"A', "--> cell.toml:12:10", "perhaps a quote is missing"),
    ("[0, 0, 0, 0, 0, 0]", "[0, 0]", "--> cell.toml:14:1", "`arm` is optional: an array of six integers"),
    ('modules = ["m.mod"]', "", "--> cell.toml:11:1", "`modules` is an array of 1 to 16 texts"),
    ("arm = ", "arms = ", "--> cell.toml:14:1", "did you mean `arm`?"),
    ('kind = "do"', 'kind = "go"', "--> cell.toml:9:1", '`kind` is `"di"` for an input'),
    ('name = "A"', 'name = "do"', "--> cell.toml:12:1", "A name is a letter, then letters, digits and `_`"),
    ("[0, 0, 0, 0, 0, 0]", "[0, 0, 0, 0, 0, 0, 0, 0, 0]", "--> cell.toml:14:1", "write instead: `version = 2`"),
    ("[0, 0, 0, 0, 0, 0]", "[0, 0, 0, 0, 0, 0, 0, 0, 0, 0, 0, 0, 0]", "--> cell.toml:14:1", "`arm` is optional: an array of six integers"),
    ("[[task]]", '[[task]]\nname = "B"\nmodules = ["m.mod"]\n' * 8 + "[[task]]", "--> cell.toml:11:1", "write instead: `version = 2`"),
    ("arm = ", '[[zone]]\nname = "z"\ntask = "B"\n#', "--> cell.toml:16:1", "the script's tasks are A"),
)


def try_scripts():
    with tempfile.TemporaryDirectory() as folder:
        Path(folder, "m.mod").write_text(FRAME.format(item="", statement=""))
        script = Path(folder, "cell.toml")
        for one, other, place, said in SCRIPTS:
            script.write_text(SCRIPT.replace(one, other, 1))
            status, out, err = ask(*options, "check", "cell.toml", cwd=folder)
            whole = " ".join(it.strip(" =") for it in err.splitlines())
            compare(f"{other}", (status, out, place in whole, said in whole), (3, "", True, True))
        script.write_bytes(b"version = 1\n# \xff\n")
        status, out, err = ask(*options, "check", "cell.toml", cwd=folder)
        compare("a byte that is no text", (status, "--> cell.toml:2:3" in err, "# <FF>" in err), (3, True, True))
        script.write_text(SCRIPT.replace("m.mod", "n.mod"))
        status, out, err = ask(*options, "check", "cell.toml", cwd=folder)
        compare("a module that is not there", (status, "there is no file n.mod: did you mean m.mod?" in err), (5, True))


def try_long_lines():
    """A long line is cut around the caret, and control characters are shown by their codes."""
    with tempfile.TemporaryDirectory() as folder:
        Path(folder, "cell.toml").write_text(SCRIPT)
        text = FRAME.format(item="", statement="! " + "x" * 20 + "\x07\x1b[31m\ncounter := " + "1 + " * 500 + "zork" + " + 1" * 500 + ";")
        Path(folder, "m.mod").write_text(text)
        status, out, err = ask(*options, "check", "cell.toml", cwd=folder)
        lines = err.splitlines()
        at = lines[4].index("^")
        compare("a long line", (status, max(map(len, lines)) < 140, lines[3][at : at + 4], lines[3].count("...")), (4, True, "zork", 2))
        Path(folder, "m.mod").write_bytes(b"MODULE M\nPROC main() ! \xff\n\x01\nENDPROC\nENDMODULE\n")
        err = ask(*options, "check", "cell.toml", cwd=folder)[2]
        compare("a control character", "<01>" in err and "\x01" not in err, True)


def try_colours():
    """Colours only on a terminal, and not if NO_COLOR is set."""
    with tempfile.TemporaryDirectory() as folder:
        Path(folder, "cell.toml").write_text(SCRIPT)
        Path(folder, "m.mod").write_text(FRAME.format(item="", statement="zork;"))
        for more, wanted in (({}, True), ({"NO_COLOR": "1"}, False), ({"TERM": "dumb"}, False)):
            said = on_terminal(folder, {**os.environ, "TERM": "xterm", "NO_COLOR": "", **more})
            compare(f"colours with {more}", (b"\x1b[" in said, b"nothing here is named" in said), (wanted, True))
        compare("no colours on no terminal", "\x1b[" in ask(*options, "check", "cell.toml", cwd=folder)[2], False)


def on_terminal(folder, environment):
    """What the launcher says on a terminal."""
    child, terminal = pty.fork()
    if not child:
        os.chdir(folder)
        os.execve(LAUNCHER, [str(LAUNCHER), *options, "check", "cell.toml"], environment)
    said = b""
    while True:
        try:
            more = os.read(terminal, 65536)
        except OSError:
            break
        if not more:
            break
        said += more
    os.waitpid(child, 0)
    os.close(terminal)
    return said


def try_grammar():
    """The grammar of docs/LANGUAGE.md, as the launcher reads it, takes each example's modules that are well formed, and no others."""
    from launcher import grammar, tokens

    examples = sorted((Path(LAUNCHER).parent / "examples").rglob("*.mod"))
    for file in examples:
        tree = grammar.parse(tokens.tokens_of(file.read_bytes())).tree
        compare(f"grammar, {file.name}", tree is not None, file.parent.name not in ("syntax",))
    compare("examples of the grammar", len(examples) > 100, True)
    compare("a program answers", program() is not None, True)
