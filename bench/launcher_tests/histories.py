"""The whole history of each example's run, whose setpoints, texts and ends have to be the lines of the run."""
import re
import subprocess
from decimal import Decimal

from .common import EXAMPLES, compare, program, text_of

SETPOINT = re.compile(r"H (\S+) Setpoint ([-0-9. ]+) > Given")
SAY = re.compile(r'H (\S+) Say "((?:[^"\\]|""|\\\\)*)"(?: (\S+))? > Ok')
END = re.compile(r"H (\S+) End (.+) > Ok")
EVENT = re.compile(r"H \S+ \S.* > \S.*")


def try_histories():
    """The stored lines were worked out by hand, so they say of each whole history what it has to have."""
    count = 0
    for file in sorted(EXAMPLES.rglob("round.txt")):
        head, _, lines = file.read_text(encoding="utf-8").partition("\n")
        words = [program().file, "--history", "round", file.with_name("cell.toml")]
        ran = subprocess.run(words, stdin=subprocess.DEVNULL, stdout=subprocess.PIPE, stderr=subprocess.PIPE)
        found = shown(text_of(ran.stdout))
        compare(f"the history of {file.parent.relative_to(EXAMPLES)}", (f"status {ran.returncode}", found, ran.stderr), (head, lines, b""))
        count += 1
    compare("there are histories", count > 200, True)


def shown(history):
    """The lines of a run by those of its history, as far as they fit: a line of another form stays as it is."""
    lines, ends = [], {}
    for line in history.splitlines():
        setpoint, said, end = SETPOINT.fullmatch(line), SAY.fullmatch(line), END.fullmatch(line)
        if setpoint:
            lines.append(" ".join(["S", setpoint[1], *(f"{Decimal(it):.3f}" for it in setpoint[2].split())]))
        elif said:
            lines.append(f"T {said[1]} " + re.sub(r'(["\\])\1', r"\1", said[2]) + (said[3] or ""))
        elif end:
            ends[end[1]] = end[2]
        elif line.startswith("E "):
            _, task, fate = line.split(" ", 2)
            # A task without an end of its own waits, or is cut off.
            fits = fate == ends[task] if task in ends else fate in ("Held", "Cut")
            lines.append(line if fits else f"{line}, but its event says {ends.get(task)}")
        elif not EVENT.fullmatch(line):
            lines.append(line)
    return "".join(f"{line}\n" for line in lines)
