"""What the launcher says of interrupts below the lines of `state`, worked out by hand."""
import tempfile
from pathlib import Path

from .common import ask, compare, options

CELL = """version = 1
[[signal]]
name = "do_lamp"
kind = "do"
[[task]]
name = "A"
modules = ["a.mod"]
"""
MODULE = """MODULE A
  PERS num n := 0;
  VAR intnum lit;
  VAR intnum changed;
  TRAP count
    Incr n;
  ENDTRAP
  PROC main()
    CONNECT lit WITH count;
    CONNECT changed WITH count;
    ISignalDO do_lamp, 1, lit;
    IPers\\Single, n, changed;
    ISleep changed;
    IDisable;
    Set do_lamp;
    Reset do_lamp;
    Set do_lamp;
    IDelete lit;
  ENDPROC
ENDMODULE
"""
ORDER = "A interrupt 1, `lit`: TRAP count, when do_lamp becomes 1"
OTHER = "A interrupt 2, `changed`: TRAP count, when n changes, once"
HELD = "A: IDisable holds all TRAPs back since event 11"
# How many events, and what is said then.
AFTER = (
    (2, ["A interrupt 1, `lit`: TRAP count, no order"]),
    (6, [ORDER, "A interrupt 2, `changed`: TRAP count, no order"]),
    (8, [ORDER, OTHER]),
    (10, [ORDER, f"{OTHER}, asleep"]),
    (12, [ORDER, f"{OTHER}, asleep", HELD]),
    (14, [f"{ORDER}, 1 queued", f"{OTHER}, asleep", HELD]),
    (18, [f"{ORDER}, 2 queued", f"{OTHER}, asleep", HELD]),
    (20, [f"{OTHER}, asleep", HELD]),
)


def try_interrupts_of_states():
    with tempfile.TemporaryDirectory() as folder:
        Path(folder, "cell.toml").write_text(CELL)
        Path(folder, "a.mod").write_text(MODULE)
        lines = ask("--plain", *options, "--history", "round", "cell.toml", cwd=folder)[1].splitlines(True)
        history = Path(folder, "history.txt")
        for count, wanted in AFTER:
            history.write_text("".join(lines[:count]))
            status, out, err = ask(*options, "state", "cell.toml", "history.txt", cwd=folder)
            said = [it[len("launcher: ") :] for it in err.splitlines() if "interrupt" in it or "IDisable" in it]
            compare(f"interrupts after {count} events", (status, said), (0, wanted))
            compare(f"state after {count} events", ask("--plain", *options, "state", "cell.toml", "history.txt", cwd=folder), (0, out, ""))
