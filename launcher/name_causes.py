"""Why a name, a type or an argument is refused, as far as the text around the place shows."""
from typing import Callable, Dict, List, Optional

from . import manual, names, tables
from .hints import shown_path
from .own_cause import Own
from .tokens import NAME, NUMBER, STRING
from .view import View, declared_in

# The rules for which the arguments that an instruction takes help.
OF_CALLS = ("ArgCount", "ArgName", "TypeClash", "BadRef", "NotThis", "SyncName")
# The rules for which the declaration of the name at the place helps.
OF_DECLARED = ("NameTwice", "ReadOnly", "ConstOrder", "NotThis", "WholeArray", "BadRef", "PersType", "TypeClash")


def of(rule: str, seen: View) -> Optional[Own]:
    own = RULES.get(rule)
    if own:
        return own(seen)
    notes = of_declaration(seen) if rule in OF_DECLARED else []
    notes += of_call(seen) if rule in OF_CALLS else []
    return Own("", notes)


def is_at_type(seen: View) -> bool:
    """Whether the place is a declared name, or the name of its type."""
    if names.use_of(seen.tokens, seen.k) == names.AS_TYPE:
        return True
    return any(it.at == seen.at for it in declared_in(seen.text))


# Unknown names


def of_no_name(seen: View) -> Own:
    use = names.use_of(seen.tokens, seen.k)
    if use == names.AS_COMPONENT:
        return of_component(seen)
    known = manual.find(seen.word)
    if known:
        return Own(f"`{seen.word}` is {known.called} of RAPID that is not supported", manual.notes_on(seen.word), True)
    kind = names.OF_SIGNALS.get(called(seen).lower(), "") if use == names.AS_VALUE else ""
    near = nearest(seen, use, kind)
    notes = [f"did you mean {' or '.join(near)}?"] if near else []
    if kind:
        notes.append(f'a signal is declared in the script: [[signal]] with name = "{seen.word}" and kind = "{kind}"')
    elif not near:
        notes.append("declare it; or, if another module of the controller does, name that module in the script's `modules`")
    return Own(f"nothing here is named `{seen.word}`", notes, True)


def nearest(seen: View, use: str, signal: str) -> List[str]:
    """The nearest names that are declared or predefined, each with where it is declared; only signals, if one of a kind is needed."""
    if signal:
        alike = [it for it, kind in seen.signals().items() if kind == signal]
        return [f"`{it}` (a signal of kind {signal})" for it in names.nearest(seen.word, alike)]
    places: Dict[str, str] = {it: "" for it in names.suited(use, names.predefined())}
    if use == names.AS_VALUE:
        places.update({it: f" (a signal of kind {kind})" for it, kind in seen.signals().items()})
    for module, text in seen.others():
        for it in names.suited_declared(use, [it for it in declared_in(text) if it.start is None], 0):
            places[it.name] = f" (line {text.count(10, 0, it.at) + 1} of {module.name})"
    for it in names.suited_declared(use, declared_in(seen.text), seen.at):
        places[it.name] = f" (line {seen.row(it.at)})"
    return [f"`{it}`{places[it]}" for it in names.nearest(seen.word, places)]


def of_component(seen: View) -> Own:
    known = manual.find_part(seen.word, "component")
    if known:
        return Own(f"`{seen.word}` is {known.called} of types of RAPID that are not supported", [f"write instead: {known.write}"], True)
    label = f"no type here has a component `{seen.word}`"
    near = names.nearest(seen.word, [it for parts in names.COMPONENTS.values() for it in parts], 1)
    if near:
        return Own(label, [f"did you mean `{near[0]}`?"])
    listed = [f"a {name} has {', '.join(parts)}" for name, parts in names.COMPONENTS.items()]
    return Own(label, ["; ".join(listed)], True)


# Other rules


def of_type_clash(seen: View) -> Own:
    valueless = of_valueless(seen)
    if valueless:
        return valueless
    kind = type_at(seen)
    return Own(f"this is {kind}" if kind else "", [*of_declaration(seen), *of_call(seen)])


def of_valueless(seen: View) -> Optional[Own]:
    """The first value of a datum whose type has no values, as ABB's controller takes it: `VAR wzstationary z := [0];`."""
    start = next((n for n in range(min(seen.k, len(seen.tokens)) - 1, -1, -1) if seen.tokens[n].text in ("VAR", ";")), 0)
    if seen.k < start + 3 or seen.tokens[start].text != "VAR" or seen.tokens[start + 1].text.lower() not in names.VALUELESS:
        return None
    kind, name = seen.tokens[start + 1].text, seen.tokens[start + 2].text
    return Own(f"a datum of {kind} has no first value", [f"write instead: `VAR {kind} {name};`"], True)


def type_at(seen: View) -> str:
    """The type of the value at the place, if it is a literal or the name of a signal."""
    token = seen.token
    if not token or token.at != seen.at:
        return ""
    kinds = {name.lower(): kind for name, kind in seen.signals().items()}
    if token.kind == NAME and token.text.lower() in kinds:
        return f"a signal of kind {kinds[token.text.lower()]}"
    after = seen.tokens[seen.k + 1].text if seen.k + 1 < len(seen.tokens) else ""
    if after not in (";", ",", ")", "\\", "]"):
        return ""
    return {NUMBER: "a num", STRING: "a string"}.get(token.kind, "a bool" if token.text in ("TRUE", "FALSE") else "")


def of_option(seen: View) -> Own:
    name = called(seen)
    option = seen.tokens[seen.k + 1].text if seen.word == "\\" and seen.k + 1 < len(seen.tokens) else ""
    known = manual.notes_on(f"\\{option}") if option else []
    return Own(f"{name} does not take `\\{option}` here" if name and option else "", [*of_call(seen), *known], bool(known))


def of_taken(seen: View) -> Own:
    kind = {name.lower(): kind for name, kind in names.predefined().items()}.get(seen.word.lower())
    return Own(f"`{seen.word}` is a predefined name ({kind})" if kind else f"`{seen.word}` is a signal of the script")


def of_twice(seen: View) -> Own:
    return Own("this name is declared twice", of_declaration(seen))


def of_written(seen: View) -> Own:
    return Own(f"`{seen.word}` cannot be written", of_declaration(seen))


def of_no_arm(seen: View) -> Own:
    numbers = sorted({it.task for it in seen.cell.modules if it.name == seen.module.name})
    tasks = " and ".join(f"task[{it}]" for it in numbers)
    return Own("", [f"in {shown_path(seen.cell.script)} {tasks} has no `arm`"] if numbers else [])


def of_no_main(seen: View) -> Own:
    """A main that is LOCAL, has parameters, or is spelled otherwise."""
    notes = []
    for name, text in [(seen.module.name, seen.text), *((module.name, text) for module, text in seen.others())]:
        for it in declared_in(text):
            row = text.count(10, 0, it.at) + 1
            if it.kind == "PROC" and it.name.lower() == "main":
                notes.append(f"{name} has a main on line {row}, which is LOCAL or has parameters")
            elif it.kind == "PROC" and names.nearest("main", [it.name]):
                notes.append(f"{name} has `{it.name}` on line {row}: did you mean `main`?")
    return Own("no module of the task has a `PROC main()`", notes)


RULES: Dict[str, Callable[[View], Own]] = {
    "NoName": of_no_name,
    "TypeClash": of_type_clash,
    "ArgName": of_option,
    "NameTaken": of_taken,
    "NameTwice": of_twice,
    "ReadOnly": of_written,
    "NoArm": of_no_arm,
    "NoMain": of_no_main,
}


# The text around the place


def of_declaration(seen: View) -> List[str]:
    """Where the name at the place is declared, in the module itself or in another one."""
    if not seen.token or seen.token.kind != NAME:
        return []
    for it in declared_in(seen.text):
        if seen.token.is_name(it.name) and it.at != seen.at and (it.start is None or it.start <= seen.at <= (it.end or 0)):
            return [f"`{it.name}` is declared on line {seen.row(it.at)}: {kind_of(it)}"]
    for module, text in seen.others():
        for it in declared_in(text):
            if seen.token.is_name(it.name) and it.start is None:
                return [f"`{it.name}` is declared on line {text.count(10, 0, it.at) + 1} of {module.name}: {kind_of(it)}"]
    return []


def kind_of(it: names.Declared) -> str:
    special = {"PARAM": f"a parameter, {it.type}", "FOR": "the variable of a FOR", "LABEL": "a label"}
    return special.get(it.kind, f"{it.kind} {it.type}".strip())


def of_call(seen: View) -> List[str]:
    """What the instruction or function takes in whose call the place lies."""
    word = called(seen)
    for row in tables.rows():
        head, cell = row.cells[0]
        if head in ("Instruction", "Function") and word.lower() in (it.lower() for it in cell.split(", ")):
            return [f"{word} takes {row.get('Arguments')}"]
    for text, where in [(seen.text, ""), *((text, f" of {module.name}") for module, text in seen.others())]:
        for it in declared_in(text):
            if it.kind in ("PROC", "FUNC") and it.name.lower() == word.lower():
                head = text[it.at :].split(b")")[0].decode("utf-8", "replace")
                return [f"{' '.join(head.split())}) is declared on line {text.count(10, 0, it.at) + 1}{where}"]
    return []


def called(seen: View) -> str:
    """The name of what is called where the place lies, or nothing."""
    for form in reversed(seen.forms()):
        first = seen.tokens[form.start]
        after = seen.tokens[form.start + 1].text if form.start + 1 < len(seen.tokens) else ""
        if form.rule == "primary" and first.kind == NAME and after == "(" and seen.k != form.start:
            return first.text
        if form.rule == "simple" and first.kind == NAME and after not in (":=", "{", "."):
            return first.text
    return ""
