"""`new FOLDER`: a cell that runs, with comments that teach the keys of a script."""
import os
from pathlib import Path
from typing import Dict, Optional, Sequence, Tuple

from .say import NOT_PRINTED, put_out, say, wrong

MOST_TASKS = 16
# The most tasks of a script of version 1.
MOST_OF_FIRST = 8
TAKES = f"new takes a folder, and after --tasks how many tasks its cell has, from 1 to {MOST_TASKS}"

SCRIPT = """\
# A cell: its signals, its tasks, and what comes from outside. docs/CELL_SCRIPT.md has every key, and docs/IDIOMS.md ways to write.
# Version 2 allows more: external axes, and up to 16 tasks.
version = {version}

# How many events a run may have. Without this line 100,000.
steps = 20000

# A signal is an input (di) or an output (do). Its value at the start is 0 unless `start` says 1.
[[signal]]
name = "di_start"
kind = "di"
start = 0

[[signal]]
name = "do_ready"
kind = "do"
{tasks}
# The value with which a persistent starts, in place of that of its declaration: one of `num`, `bool` and `text`. `index` is for arrays.
[[pers]]
name = "parts"
num = "0"

# A zone of the cell: while do_ready is 1, no setpoint of ROB1 comes to where axis 1 is from 80 to 100 degrees.
[[zone]]
name = "fence"
task = "ROB1"
kind = "inside"
axes = [1]
low = [80000]
high = [100000]
signal = "do_ready"
value = 1

# Inputs come in this order, each once its gate holds: `when` with `is` for a signal, `task` with `setpoints` for an arm, `after` for the
# events of the run. One without a gate comes at once.
[[input]]
signal = "di_start"
value = 1
when = "do_ready"
is = 1
"""
TASK = """
# A task runs the `main` of its modules once.{arm}
[[task]]
name = "ROB{number}"
modules = ["rob{number}.mod"]
arm = [0, 0, 0, 0, 0, 0]
"""
ARM = " Its arm starts with these angles of its six axes, in thousandths of a\n# degree; a task without `arm` has no robot."
MODULE = """\
MODULE Rob{number}
  ! A persistent is shared by all tasks that declare it.
  PERS num parts := 0;
  PERS bool table_taken := FALSE;
  CONST jointtarget home := [[0,0,0,0,0,0],[9E9,9E9,9E9,9E9,9E9,9E9]];
  CONST jointtarget table := [[10,0,0,0,0,0],[9E9,9E9,9E9,9E9,9E9,9E9]];

  PROC main()
{ready}    WaitDI di_start, 1;
    ! A lock: one task after the other is at the table.
    WaitTestAndSet table_taken;
    MoveAbsJ table\\NoEOffs, v5000, fine, tool0;
    Incr parts;
    TPWrite "parts "\\Num:=parts;
    MoveAbsJ home\\NoEOffs, v5000, fine, tool0;
    table_taken := FALSE;
  ENDPROC
ENDMODULE
"""


def new(words: Sequence[bytes]) -> int:
    asked = taken(words)
    if asked is None:
        return wrong(TAKES)
    folder, count = asked
    if os.path.lexists(folder) and (not folder.is_dir() or any(folder.iterdir())):
        return wrong(f"{folder} is there already, and is no empty folder")
    try:
        folder.mkdir(parents=True, exist_ok=True)
        for name, text in files(count).items():
            (folder / name).write_text(text, encoding="utf-8")
    except OSError as error:
        say(f"{folder} could not be written ({error.strerror})")
        return NOT_PRINTED
    put_out(f"{folder / 'cell.toml'}\n")
    return 0


def taken(words: Sequence[bytes]) -> Optional[Tuple[Path, int]]:
    """The folder, and how many tasks are wanted; None if the words do not say that."""
    given = list(words)
    count = b"1"
    if b"--tasks" in given[:-1]:
        at = given.index(b"--tasks")
        count = given[at + 1]
        del given[at : at + 2]
    if len(given) != 1 or not given[0] or given[0].startswith(b"-") or not count.isdigit() or len(count) > 2:
        return None
    return (Path(os.fsdecode(given[0])), int(count)) if 1 <= int(count) <= MOST_TASKS else None


def files(count: int) -> Dict[str, str]:
    """The files of a cell of so many tasks."""
    tasks = "".join(TASK.format(number=n, arm=ARM if n == 1 else "") for n in range(1, count + 1))
    found = {"cell.toml": SCRIPT.format(version=1 if count <= MOST_OF_FIRST else 2, tasks=tasks)}
    for n in range(1, count + 1):
        found[f"rob{n}.mod"] = MODULE.format(number=n, ready="    Set do_ready;\n" if n == 1 else "")
    return found
