"""A cell for the tests of the language server."""
from pathlib import Path

SCRIPT = """version = 1
signal = [
  { name = "di_part", kind = "di" },
  { name = "do_lamp", kind = "do" },
]

[[task]]
name = "A"
modules = ["main.mod", "parts/tools.mod"]
arm = [0, 0, 0, 0, 0, 0]

[[task]]
name = "B"
modules = ["b.mod"]
"""
MAIN = """MODULE Main
  CONST jointtarget home := [[0,10,0,0,30,0],[9E9,9E9,9E9,9E9,9E9,9E9]];
  LOCAL VAR num tries := 0;
  PERS num parts := 0;

  PROC main()
    VAR num parts := 1;
    MoveAbsJ home\\NoEOffs, v100, fine, tool0;
    WaitDI di_part, 0;
    fetch parts, home.robax.rax_1;
    FOR tries FROM 1 TO 2 DO
      TPWrite "try "\\Num:=tries;
    ENDFOR
    tries := tries + 1;
  done:
    IF tries < 0 GOTO done;
  ENDPROC
ENDMODULE
"""
TOOLS = """MODULE Tools
  ! Fetches a part.
  ! At most twice.
  PROC fetch(INOUT num count, num angle)
    Incr count;
  ENDPROC
ENDMODULE
"""
OTHER = "MODULE B\n  PERS num parts;\n  PROC main()\n    parts := 2;\n  ENDPROC\nENDMODULE\n"


def write_cell(folder):
    home = Path(folder).resolve() / "a cell é"
    (home / "parts").mkdir(parents=True)
    for name, text in (("cell.toml", SCRIPT), ("main.mod", MAIN), ("parts/tools.mod", TOOLS), ("b.mod", OTHER)):
        (home / name).write_text(text, encoding="utf-8")
    return home
