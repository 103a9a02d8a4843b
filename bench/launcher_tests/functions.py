"""The predefined functions: `why` has a rule for each of the program's, and says so where it has none."""
import re

from .common import EXAMPLES, TOP, ask, compare, options

FUNCTIONS = TOP / "crates/rapid_builtins/src/functions.rt"
# The functions that are not done from one value, and the operations that do them.
OTHERS = {"NumToStr": "op_func", "Dim": "op_push", "CJointT": "op_here", "DOutput": "op_getsignal", "TestAndSet": "op_testset"}


def try_functions():
    from launcher.machine import Machine
    from launcher.operations import OF_ONE_VALUE

    names = re.findall(r'^    \(b"\w+", Function::(\w+)\),$', FUNCTIONS.read_text(encoding="utf-8"), re.M)
    count = re.search(r"static FUNCTIONS: \[.*; (\d+)\]", FUNCTIONS.read_text(encoding="utf-8"))
    compare("functions of the program", len(names), int(count[1]))
    compare("functions with a rule", sorted([*OF_ONE_VALUE, *OTHERS]), sorted(names))
    compare("the operations that do them", [it for it in OTHERS.values() if not hasattr(Machine, it)], [])


def forget():
    from launcher.operations import OF_ONE_VALUE

    del OF_ONE_VALUE["Abs"]


def try_unknown_function():
    """What has no rule is not taken for something else."""
    status, out, err = ask(*options, "why", EXAMPLES / "worked/values/functions/cell.toml", before=forget)
    said = "launcher: the launcher does not know the function Abs of the program, so it cannot follow the run: fetch the checkout again"
    compare("a function without a rule", (status, out, said in err.splitlines()), (124, "", True))
