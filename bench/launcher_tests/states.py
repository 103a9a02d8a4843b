"""States after parts of a history, each worked out by hand."""
import tempfile
from pathlib import Path

from .common import EXAMPLES, ask, compare

FEEDER = EXAMPLES / "feeder/cell.toml"
PRESS = EXAMPLES / "press_cell"
# How many events, what `total`, `place`, `waiting` and `part_seen` hold, the place, and what is asked there.
AFTER = (
    (0, 0, 1, 0, 0, "42:5", "Look"),
    (1, 0, 1, 0, 0, "42:5", "Connect 0 1"),
    (2, 0, 1, 0, 1, "43:5", "Look"),
    (6, 0, 1, 0, 1, "20:5", "Look"),  # a trap
    (8, 0, 1, 1, 1, "21:5", "Look"),
    (10, 0, 1, 1, 1, "21:5", "Leave"),
    (11, 0, 1, 1, 1, "44:5", "Look"),
    (16, 0, 1, 1, 1, "12:5", "Look"),  # a function
    (20, 0, 1, 1, 1, "29:5", "Setpoint 7 0.5 0 0 30 0"),
    (43, 0, 1, 2, 1, "21:5", "Look"),  # a trap in a called routine
    (67, 0, 2, 2, 1, "31:5", "Look"),
    (70, 0, 2, 1, 1, "32:5", "WriteP P0 1"),
    (71, 1, 2, 1, 1, "44:5", "Look"),
    (107, 2, 3, 1, 1, "34:5", "Look"),  # an ERROR part
    (109, 2, 1, 1, 1, "36:7", "Look"),
    (110, 2, 1, 1, 1, "28:5", "Look"),
    (133, 3, 2, 0, 1, "48:5", "End Done"),
    (135, 3, 2, 0, 1, "48:5", "ended"),
)
CELL = """version = 1
[[signal]]
name = "di1"
kind = "di"
[[task]]
name = "A"
modules = ["a.mod"]
arm = [1, 2, 3, 4, 5, 6]
"""
SORTS = """MODULE M
CONST num three{2} := [1, 2];
CONST num one := 1;
PERS num full{2} := [3, 4.5];
VAR num n := -0.25;
VAR bool b := TRUE;
VAR string s := "a ""b"" \\\\";
VAR robjoint r := [1, 2, 3, 4, 5, 6];
VAR extjoint e := [9E9, 9E9, 9E9, 9E9, 9E9, 9E9];
VAR jointtarget t := [[1, 2, 3, 4, 5, 6.5], [9E9, 9E9, 9E9, 9E9, 9E9, 9E9]];
VAR speeddata v := [5, 500, 5000, 1000];
VAR intnum i{2};
VAR shapedata d;
VAR shapedata undefined;
VAR wztemporary w;
VAR syncident meet;
VAR num each{3} := [7, 8, 9];
PROC main()
VAR num own := 5;
WZLimJointDef \\Inside, d, [[0, 0, 0, 0, 0, 0], [9E9, 9E9, 9E9, 9E9, 9E9, 9E9]], [[10, 20, 30, 40, 50, 60], [9E9, 9E9, 9E9, 9E9, 9E9, 9E9]];
WZLimSup \\Temp, w, d;
each{2} := each{2} + own;
n := one / (own - 5);
ENDPROC
ENDMODULE
"""
EMPTY = "MODULE M\nPROC main()\nENDPROC\nENDMODULE\n"


def try_states():
    """The feeder at eighteen places of its run, forwards and backwards."""
    _, whole, _ = ask("--plain", "--history", "round", FEEDER)
    lines = whole.splitlines(True)
    compare("the feeder's history", len(lines), 135)
    with tempfile.TemporaryDirectory() as folder:
        history = Path(folder, "history.txt")
        for count, total, place, waiting, seen, where, asked in (*AFTER, *reversed(AFTER)):
            history.write_text("".join(lines[:count]))
            data = "".join(f"V ROB1 {name} {value}\n" for name, value in (("place", place), ("waiting", waiting), ("part_seen", seen)))
            wanted = (0, f"P0 * total {total}\n{data}N ROB1 feeder.mod {where} {asked}\n", "")
            compare(f"the feeder after {count} events", ask("--plain", "state", FEEDER, history), wanted)
        history.write_text(lines[0] + lines[2])
        compare("a wrong history", ask("--plain", "state", FEEDER, history), (12, "A event 1 asks Connect 0 1\n", ""))
        history.write_text(lines[0] + "H ROB1 Look\n")
        compare("no history", ask("--plain", "state", FEEDER, history)[:2], (11, ""))
        compare("no file", ask("--plain", "state", FEEDER, Path(folder, "absent"))[:2], (5, ""))


def try_press_cell():
    """The press cell after every tenth of its events: each task stands where the trace, worked out by hand, has its next event."""
    traced = [line.split(" ", 4)[1:] for line in (PRESS / "trace.txt").read_text().splitlines() if line.startswith("M ")]
    with tempfile.TemporaryDirectory() as folder:
        history = Path(folder, "history.txt")
        for count in range(0, len(traced) + 1, 10):
            history.write_text("".join(f"H {task} {said}\n" for task, _file, _spot, said in traced[:count]))
            status, out, _ = ask("--plain", "state", PRESS / "cell.toml", history)
            stands = [line for line in out.splitlines() if line.startswith("N ")]
            wanted = [next_line(task, traced[:count], traced[count:]) for task in ("ROB1", "ROB2", "SUP")]
            compare(f"the press cell after {count} events", (status, stands), (0, wanted))


def next_line(task, before, after):
    """Where a task is by these parts of a trace: at its next event, or behind its last one."""
    for actor, file, spot, said in after:
        if actor == task:
            return f"N {task} {file} {spot} {said.rpartition(' > ')[0]}"
    file, spot = [row[1:3] for row in before if row[0] == task][-1]
    return f"N {task} {file} {spot} ended"


def try_data():
    """Data of each type that a module has, before the first event and after a fault; and a task with an empty `main`."""
    with tempfile.TemporaryDirectory() as folder:
        Path(folder, "cell.toml").write_text(CELL)
        Path(folder, "a.mod").write_text(SORTS)
        compare("every type", state(folder, ""), (0, shown(), ""))
        _, whole, _ = ask("--plain", "--history", "round", "cell.toml", cwd=folder)
        compare("the run ends with a fault", whole.splitlines()[-1], "E A Fault Unhandled 101")
        compare("after a fault", state(folder, whole), (0, shown("1", "Inside 0:10 0:20 0:30 0:40 0:50 0:60 - - - - - -", "13", "23:1 ended"), ""))
        Path(folder, "a.mod").write_text(EMPTY)
        compare("no statement", state(folder, ""), (0, "N A - - End Done\n", ""))


def state(folder, history):
    """The state of the cell in this folder after a history."""
    Path(folder, "history.txt").write_text(history)
    return ask("--plain", "state", "cell.toml", "history.txt", cwd=folder)


def shown(zone="0", shape="-", second="8", place="20:1 Look"):
    """The lines of all its data."""
    return f"""P0 * full{{1}} 3
P0 * full{{2}} 4.5
V A n -0.25
V A b TRUE
V A s "a ""b"" \\\\"
V A r [1,2,3,4,5,6]
V A e [9000000000,9000000000,9000000000,9000000000,9000000000,9000000000]
V A t [[1,2,3,4,5,6.5],[9000000000,9000000000,9000000000,9000000000,9000000000,9000000000]]
V A v [5,500,5000,1000]
V A i{{1}} 0
V A i{{2}} 0
V A d {shape}
V A undefined -
V A w {zone}
V A each{{1}} 7
V A each{{2}} {second}
V A each{{3}} 9
N A a.mod {place}
"""
