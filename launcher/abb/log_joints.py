"""The RAPID module that fills in joints.csv on a controller: it computes the joints of each position, without moving."""
from typing import List, NamedTuple, Sequence

from .rows import COLUMNS

TEMPLATE = '''\
MODULE log_joints_{short}(SYSMODULE)
  ! Fills in joints.csv. Load this module into {task}, call log_joints once (no robot moves), and copy HOME:/joints.csv.
  LOCAL VAR iodev table;
{copies}
  PROC log_joints()
    Open "HOME:"\\File:="joints.csv",table\\Append;
    Write table,"{columns}";
{calls}
    Close table;
  ENDPROC

  LOCAL PROC log_one(string position,string toolname,string wobjname,robtarget p,PERS tooldata t,PERS wobjdata w)
    VAR jointtarget j;
    Write table,"{task},"""+position+""","+toolname+","+wobjname\\NoNewLine;
    j:=CalcJointT(p,t\\WObj:=w);
    Write table,","+NumToStr(j.robax.rax_1,3)+","+NumToStr(j.robax.rax_2,3)+","+NumToStr(j.robax.rax_3,3)\\NoNewLine;
    Write table,","+NumToStr(j.robax.rax_4,3)+","+NumToStr(j.robax.rax_5,3)+","+NumToStr(j.robax.rax_6,3)\\NoNewLine;
    log_axis j.extax.eax_a;
    log_axis j.extax.eax_b;
    log_axis j.extax.eax_c;
    log_axis j.extax.eax_d;
    log_axis j.extax.eax_e;
    log_axis j.extax.eax_f;
    Write table,"";
  ERROR
    ! The position is out of reach: its row stays empty.
    TPWrite "out of reach: "+position;
    Write table,",,,,,,,,,,,,";
    RETURN;
  ENDPROC

  LOCAL PROC log_axis(num value)
    IF value>8E9 THEN
      Write table,","\\NoNewLine;
    ELSE
      Write table,","+NumToStr(value,3)\\NoNewLine;
    ENDIF
  ENDPROC
ENDMODULE
'''


class Wanted(NamedTuple):
    """A row that is needed: its position, tool and work object, and the robtarget as an expression: a name that all modules see, or the
    value of one that they do not."""

    position: str
    tool: str
    wobj: str
    source: str


def log_module(task: str, wanted: Sequence[Wanted]) -> bytes:
    """The module for a task. A position that another module does not see is copied into it."""
    copies: List[str] = []
    calls: List[str] = []
    for it in wanted:
        source = it.source
        start = source.find("[")
        if start >= 0:
            end = source.rfind("]") + 1
            copies.append(f"  LOCAL CONST robtarget copy_{len(copies) + 1}:={source[start:end]};")
            source = f"{source[:start]}copy_{len(copies)}{source[end:]}"
        calls.append(f'    log_one "{it.position}","{it.tool}","{it.wobj}",{rapid(source)},{it.tool},{it.wobj};')
    short = task[2:] if task[:2].upper() == "T_" else task
    values = {"short": short, "task": task, "columns": ",".join(COLUMNS), "copies": "\n".join(copies), "calls": "\n".join(calls)}
    return TEMPLATE.format(**values).encode()


def rapid(source: str) -> str:
    """RelTool with its angles as options."""
    if not source.startswith("RelTool("):
        return source
    base, *numbers = source[len("RelTool(") : -1].split(",")
    turns = [f"\\{name}:={it}" for name, it in zip(("Rx", "Ry", "Rz"), numbers[3:]) if it != "0"]
    return f"RelTool({','.join([base, *numbers[:3]])}{''.join(turns)})"
