"""The tasks of a backup: by SYS.cfg, or else by BACKINFO and the folders; their modules, and their arms' external axes by MOC.cfg."""
import re
from dataclasses import dataclass, field
from pathlib import Path
from typing import Dict, List, Optional

from .cfg import Cfg, Row, decoded
from .folders import child, module_files, path_below, program_files, read_module
from .model import Module, NotRead, Task
from .report import GUESSED, LEFT_OUT, Report

# What only a task with an arm does.
MOVES = re.compile(rb"\b(Move|Trigg|Search|Arc|Spot)(J|L|C|AbsJ|ExtJ|LStart|CStart)\b", re.IGNORECASE)
TASK_LINE = re.compile(r">>(TASK\d+):\s*\(\s*([^,)\s]*)")


@dataclass
class TaskFolder:
    """What BACKINFO says of a task: its folder below RAPID, its name, and the modules that it lists, each with its line."""

    folder: str
    name: str
    modules: Dict[str, int] = field(default_factory=dict)


def read_tasks(folder: Path, sys_cfg: Cfg, moc: Cfg, report: Report) -> List[Task]:
    """The tasks in the order of SYS.cfg, with their modules. NotRead where a row or a file that is named is missing."""
    told = read_backinfo(folder, report)
    rows = sys_cfg.rows("CAB_TASKS")
    tasks = [task_of_row(sys_cfg, row) for row in rows] or guessed_tasks(folder, told, report)
    if not tasks:
        raise NotRead(str(folder), 1, 1, "no task: neither SYSPAR/SYS.cfg nor a folder below RAPID names one")
    places = task_folders(folder, tasks, told)
    for task in tasks:
        task.modules = modules_of(places.get(task.name.lower()), task.name, report)
    for task in tasks:
        task.modules += loaded_modules(folder, sys_cfg, task, report)
        task.has_arm = task.has_arm or not rows and any(MOVES.search(it.text) for it in task.modules)
    kept = [it for it in tasks if any(not module.is_encrypted for module in it.modules)]
    for task in tasks:
        if task not in kept:
            report.add(LEFT_OUT, task.name, "", 0, "the task has no module, and is not in the cell")
    give_external_axes(kept, sys_cfg, moc)
    return kept


def task_of_row(sys_cfg: Cfg, row: Row) -> Task:
    name = row.get("name")
    if not name:
        raise NotRead(str(sys_cfg.file), row.line, 1, "`-Name` with a name was expected in the row of a task")
    return Task(name, has_arm=row.has("motiontask"), kind=row.get("type").upper() or "NORMAL", entry=row.get("entry") or "main")


def read_backinfo(folder: Path, report: Report) -> List[TaskFolder]:
    """The tasks of BACKINFO/backinfo.txt, none where it is missing."""
    found: List[TaskFolder] = []
    file = path_below(folder, "BACKINFO/backinfo.txt")
    for line, text in enumerate(decoded(file.read_bytes()).splitlines() if file else [], 1):
        head = TASK_LINE.match(text)
        if head:
            found.append(TaskFolder(head.group(1), head.group(2)))
        elif text.startswith(">>"):
            found.append(TaskFolder("", ""))
        elif found and found[-1].folder and "@" in text:
            name = text.split("@")[0].strip()
            found[-1].modules[name] = line
            if not path_below(folder, f"RAPID/{found[-1].folder}/{name}"):
                raise NotRead(str(file), line, 1, f"RAPID/{found[-1].folder}/{name} is not in the backup")
    return [it for it in found if it.folder]


def guessed_tasks(folder: Path, told: List[TaskFolder], report: Report) -> List[Task]:
    """The tasks where SYS.cfg names none: those of BACKINFO, or one for each folder; which of them have arms, their moves say."""
    names = [it.name or it.folder for it in told]
    if not names:
        count = len(numbered_folders(folder))
        names = ["T_ROB1", *(f"T_TASK{n}" for n in range(2, count + 1))] if count else []
    for name in names:
        report.add(GUESSED, name, "", 0, "SYS.cfg does not name the task: it has an arm if its modules move one")
    return [Task(it, has_arm=False) for it in names]


def task_folders(folder: Path, tasks: List[Task], told: List[TaskFolder]) -> Dict[str, Path]:
    """The folder of each task, by its name in small letters: as BACKINFO says, or in their order."""
    rapid = child(folder, "RAPID") or folder
    places = {it.name.lower(): child(rapid, it.folder) for it in told}
    if not places:
        places = {task.name.lower(): place for task, place in zip(tasks, numbered_folders(folder))}
    return {name: place for name, place in places.items() if place}


def numbered_folders(folder: Path) -> List[Path]:
    """TASK1, TASK2 and so on below RAPID; without them the folder that has the modules."""
    rapid = child(folder, "RAPID") or folder
    found = [it for it in rapid.iterdir() if it.is_dir() and re.fullmatch(r"TASK\d+", it.name, re.IGNORECASE)]
    found.sort(key=lambda it: int(it.name[4:]))
    return found or [it for it in (rapid,) if module_files(it) or child(it, "PROGMOD") or child(it, "SYSMOD")]


def modules_of(folder: Optional[Path], task: str, report: Report) -> List[Module]:
    """The modules in a task's folder: those of PROGMOD, of SYSMOD, and those beside these."""
    if not folder:
        return []
    files = program_files(child(folder, "PROGMOD")) + module_files(child(folder, "SYSMOD")) + program_files(folder)
    found = [read_module(it, task, report) for it in files]
    return [it for it in found if it]


def loaded_modules(folder: Path, sys_cfg: Cfg, task: Task, report: Report) -> List[Module]:
    """The modules that SYS.cfg loads into the task and that are in the backup's HOME, but not in its folder."""
    found: List[Module] = []
    for row in sys_cfg.rows("CAB_TASK_MODULES"):
        if row.get("task").lower() != task.name.lower() and not row.has("alltask") and not row.has("shared"):
            continue
        path = row.get("file")
        name = re.split(r"[/\\:]+", path)[-1]
        if not name or any(it.name.lower() == name.lower() for it in task.modules + found):
            continue
        file = path_below(folder, "HOME/" + re.sub(r"^[^:]*:[/\\]*", "", path)) if path.upper().startswith("HOME:") else None
        module = read_module(file, task.name, report) if file and file.is_file() else None
        if module:
            found.append(module)
        elif not file:
            report.add(LEFT_OUT, task.name, sys_cfg.file.name, row.line, f"the module {path} is not in the backup")
    return found


def give_external_axes(tasks: List[Task], sys_cfg: Cfg, moc: Cfg) -> None:
    """Gives the tasks with arms the external axes that MOC.cfg names: each joint with a logical axis from 7 on, of the units that the
    task's mechanical unit group has, or all of them where one task alone has an arm."""
    arms = [it for it in tasks if it.has_arm]
    groups = {it.get("name").lower(): it for it in sys_cfg.rows("MECHANICAL_UNIT_GROUP")}
    used = {it.get("name").lower(): it.get("usemechanicalunitgroup").lower() for it in sys_cfg.rows("CAB_TASKS")}
    for task in arms:
        group = groups.get(used.get(task.name.lower(), ""))
        units = [value for key, value in group.values.items() if key.startswith("mechanicalunit")] if group else []
        axes = [axis for unit in units for axis in axes_of(moc, unit)] if group else all_axes(moc) if len(arms) == 1 else []
        task.external_axes = max([it - 6 for it in axes if 7 <= it <= 12], default=0)


def all_axes(moc: Cfg) -> List[int]:
    return [int(it.get("logical_axis")) for it in moc.rows("JOINT") if it.get("logical_axis").isdigit()]


def axes_of(moc: Cfg, unit: str) -> List[int]:
    """The logical axes of a mechanical unit: those of its singles' joints."""
    joints = {it.get("name").lower(): it for it in moc.rows("JOINT")}
    singles = {it.get("name").lower(): it for it in moc.rows("SINGLE")}
    found: List[int] = []
    for row in moc.rows("MECHANICAL_UNIT", "MECH_UNIT"):
        if row.get("name").lower() == unit.lower():
            names = [value.lower() for key, value in row.values.items() if key.startswith("use_single")] or [unit.lower()]
            used = [singles[it].get("use_joint").lower() for it in names if it in singles]
            found += [int(joints[it].get("logical_axis") or 0) for it in used if it in joints]
    return found
