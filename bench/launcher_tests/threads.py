"""A cell whose threads the system refuses."""
import resource
import subprocess
import tempfile

from .cells import write_cell
from .common import compare, launch, options, program

# The tasks of the cell all have this module, and their lines by turns go A, B, C, A, B, C and so on.
SAYING = """MODULE Saying
PROC main()
FOR i FROM 1 TO 50 DO
TPWrite "turn "\\Num:=i;
ENDFOR
ENDPROC
ENDMODULE
"""
SAYERS = ("A", "B", "C")
# What a thread's stack takes of the address space, and what the rest of the program takes at most.
STACK, REST = 512 * 2**20, 256 * 2**20


def try_refused_threads():
    """Runs a cell with room for the stacks of so many threads, from none to one for each task: the system refuses the others. The
    tasks that get no thread, the first ones, take turns, and each of the others has its own lines in order."""
    if not program().is_proved:
        print("the unproved program reserves too much of the address space: refused threads are not tried")
        return
    with tempfile.TemporaryDirectory() as folder:
        script = write_cell(folder, "saying", SAYING, SAYERS)
        by_turns = launch("--plain", *options, "round", script)[1].splitlines()
        compare("lines by turns", len(by_turns), 51 * len(SAYERS))
        for threads in range(len(SAYERS) + 1):
            ran = subprocess.run([program().file, "run", script], capture_output=True, text=True, preexec_fn=limited(threads))
            lines, first = ran.stdout.splitlines(), len(SAYERS) - threads
            compare(f"run with {threads} threads", (ran.returncode, ran.stderr, len(lines)), (0, "", len(by_turns)))
            for names in (SAYERS[:first], *SAYERS[first:]):
                compare(f"{names} with {threads} threads", lines_of(names, lines), lines_of(names, by_turns))
            compare(f"ends with {threads} threads", lines[-len(SAYERS) :], [f"E {name} Done" for name in SAYERS])


def limited(threads):
    """Leaves a started program room for so many threads."""
    room = (REST + threads * STACK,) * 2

    def limit():
        resource.setrlimit(resource.RLIMIT_STACK, (STACK, STACK))
        resource.setrlimit(resource.RLIMIT_AS, room)

    return limit


def lines_of(names, lines):
    """The lines of these tasks."""
    return [line for line in lines if line.split()[1] in names]
