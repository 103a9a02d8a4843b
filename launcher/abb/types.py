"""The data types of a controller, by what becomes of data of the type."""
from typing import Dict, List, Tuple

# Types that a module of a cell has too.
KEPT = frozenset(
    "num bool string errnum dionum intnum syncident shapedata wztemporary wzstationary jointtarget robjoint extjoint speeddata tasks".split()
)
# Types that become another one.
RENAMED: Dict[str, str] = {
    "robtarget": "jointtarget",
    **dict.fromkeys("dnum byte clock triggdata identno btnres icondata buttondata tpnum opcalc opnum errdomain errtype".split(), "num"),
    **dict.fromkeys("event_type exec_level handler_type symnum socketstatus iounit_state busstate tunetype cfgdomain".split(), "num"),
    **dict.fromkeys("loadidnum paridnum paridvalidnum taskid signalorigin triggmode stoppoint".split(), "num"),
    **dict.fromkeys("stringdig".split(), "string"),
}
# Types of signals, which only parameters have. Signals are passed as nums.
SIGNALS: Dict[str, str] = {
    "signaldi": "DI",
    "signaldo": "DO",
    "signalgi": "GI",
    "signalgo": "GO",
    "signalai": "AI",
    "signalao": "AO",
}
# Types of records that become a datum for each component: the type of each component by its name.
RECORDS: Dict[str, List[Tuple[str, str]]] = {
    "pos": [("x", "num"), ("y", "num"), ("z", "num")],
    "orient": [("q1", "num"), ("q2", "num"), ("q3", "num"), ("q4", "num")],
    "pose": [("trans", "pos"), ("rot", "orient")],
    "confdata": [("cf1", "num"), ("cf4", "num"), ("cf6", "num"), ("cfx", "num")],
}
# The components of records that stay records.
COMPONENTS: Dict[str, Dict[str, str]] = {
    "robtarget": {"trans": "pos", "rot": "orient", "robconf": "confdata", "extax": "extjoint"},
    "jointtarget": {"robax": "robjoint", "extax": "extjoint"},
    "robjoint": {f"rax_{n}": "num" for n in range(1, 7)},
    "extjoint": {f"eax_{letter}": "num" for letter in "abcdef"},
    "speeddata": {"v_tcp": "num", "v_ori": "num", "v_leax": "num", "v_reax": "num"},
    "tasks": {"taskname": "string"},
}
# Types that a parameter of a process routine may have, and of which a num remains.
WORK_OBJECT = "wobjdata"


def renamed(name: str) -> str:
    """The type that data of a type have in the cell."""
    return RENAMED.get(name, name)
