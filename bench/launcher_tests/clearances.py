"""Clearances that the program printed, against a second computation from the script and the history."""
import itertools
import tomllib
from fractions import Fraction

from .common import EXAMPLES, ask, compare

CELLS = (EXAMPLES / "shared_table/cell.toml", *sorted(EXAMPLES.glob("worked/zones/a_zone_of_the_cell*/cell.toml")))


def try_clearances():
    """Each cell of the examples that has zones: its lines, and the sides of each gap."""
    for cell in CELLS:
        script = tomllib.loads(cell.read_text())
        status, whole, _ = ask("--plain", "--history", "round", cell)
        found, out, err = ask("--plain", "clearance", cell)
        wanted, proofs = [], []
        for zone in script.get("zone", []):
            gaps = [(*move, least(zone, *move[1:])) for move in moves(script, whole, zone["task"])]
            wanted += [gap_words(zone, number, gap) for number, _, _, gap in gaps]
            number, _, _, gap = min(gaps, key=lambda it: it[3][0])
            wanted.append(" ".join(gap_words(zone, number, gap).replace("G ", "C ", 1).split()[:4]))
            proofs += [(zone, start, end, gap[0]) for _, start, end, gap in gaps]
        lines = out.splitlines()
        name = cell.parent.name
        compare(f"clearance of {name}", (found, [" ".join(it.split()[:5]) for it in lines if it[0] in "GC"], err), (status, wanted, ""))
        compare(f"the ends of {name}", [it for it in lines if it[0] == "E"], [it for it in whole.splitlines() if it[0] == "E"])
        for line, proof in zip((it for it in lines if it[0] == "G"), proofs):
            compare(f"the sides of {name}: {line}", proves(*proof, line.split()[5:]), True)


def moves(script, history, name):
    """The moves of a task's arm, in thousandths: the number of the event, and where the move starts and ends."""
    at = next(it for it in script["task"] if it["name"] == name)["arm"]
    start, found = at, []
    for number, line in enumerate(it for it in history.splitlines() if it[0] == "H"):
        words = line.split()
        if words[1:3] == [name, "Setpoint"] and words[-1] == "Given":
            to = [round(float(it) * 1000) for it in words[3:-2]]
            found.append((str(number), at, to))
            at = to
    return found or [("start", start, start)]


def lines_of(zone, start, end):
    """The line of each side of a zone, by its name: its value at the start of a move and at the end."""
    inside = zone["kind"] == "inside"
    found = {"zero": (0, 0)} if inside else {}
    for axis, low, high in zip(zone["axes"], zone["low"], zone["high"]):
        ends = start[axis - 1], end[axis - 1]
        found[f"{axis}low"] = tuple((low - it) * (1 if inside else -1) for it in ends)
        found[f"{axis}high"] = tuple((it - high) * (1 if inside else -1) for it in ends)
    return found


def at_part(line, part):
    return line[0] + (line[1] - line[0]) * part


def crossing(one, two):
    """The part of the way at which two lines meet, if they meet between the ends."""
    more = (one[1] - one[0]) - (two[1] - two[0])
    part = Fraction(two[0] - one[0], more) if more else None
    return [part] if part is not None and 0 <= part <= 1 else []


def least(zone, start, end):
    """The least distance of a move, and the first part of the way that has it: one of the ends, or a place where lines meet."""
    lines = list(lines_of(zone, start, end).values())
    parts = {Fraction(0), Fraction(1), *(it for pair in itertools.combinations([*lines, (0, 0)], 2) for it in crossing(*pair))}
    return min((distance(zone, lines, part), part) for part in parts)


def distance(zone, lines, part):
    values = [at_part(it, part) for it in lines]
    return Fraction(max(values) if zone["kind"] == "inside" else max(0, min(values)))


def proves(zone, start, end, gap, sides):
    """Whether these sides prove that no point of a move is nearer."""
    lines = lines_of(zone, start, end)
    if zone["kind"] != "inside":
        return sides[1] == "-" and sides[0] in lines and (gap == 0 or all(min(it) >= gap for it in lines.values()))
    one, two = (lines[it] for it in sides)
    return all(max(at_part(one, part), at_part(two, part)) >= gap for part in (0, 1, *crossing(one, two)))


def gap_words(zone, number, gap):
    return " ".join(["G", zone["name"], number, *(f"{it.numerator}/{it.denominator}" for it in gap)])


def try_watched_clearances():
    """The least gap of each zone over the moves that were given while it was watched, by the script and the history."""
    count = 0
    for cell in CELLS:
        script = tomllib.loads(cell.read_text())
        status, whole, _ = ask("--plain", "--history", "round", cell)
        wanted = []
        for zone in script.get("zone", []):
            watched = watched_events(script, whole, zone)
            gaps = [(least(zone, *move[1:])[0], int(move[0])) for move in moves(script, whole, zone["task"]) if move[0] in watched]
            gap = min(gaps, default=None)
            wanted.append(f"W {zone['name']} {gap[1]} {gap[0].numerator}/{gap[0].denominator}" if gap else f"W {zone['name']} - -")
        found, out, err = ask("--plain", "clearance", "--watched", cell)
        lines = out.splitlines()
        compare(f"watched gaps of {cell.parent.name}", (found, [it for it in lines if it[0] == "W"], err), (status, wanted, ""))
        plain = ask("--plain", "clearance", cell)[1].splitlines()
        compare(f"the other lines of {cell.parent.name}", [it for it in lines if it[0] != "W"], plain)
        count += sum(not it.endswith("- -") for it in wanted)
    compare("zones that were watched", count > 2, True)
    compare("--watched without clearance", ask("--watched", "check", CELLS[0])[:2], (2, ""))


def watched_events(script, history, zone):
    """The numbers of the events before which the signal of a zone had its value; no arm's zone sets it here."""
    names = [it["name"] for it in script["signal"]]
    values = {it["name"]: it.get("start", 0) for it in script["signal"]}
    found = set()
    for number, line in enumerate(it for it in history.splitlines() if it[0] == "H"):
        if values[zone["signal"]] == zone["value"]:
            found.add(str(number))
        words = line.split()
        if words[2] == "WriteS":
            values[names[int(words[3][1:])]] = int(words[4])
        elif words[2] == "Input":
            given = script["input"][int(words[3])]
            values[given["signal"]] = given["value"]
    return found
