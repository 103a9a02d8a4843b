"""Scripts as the launcher reads them, beside what the program accepts: the forms of TOML, every script of the repository, and 5,000
scripts that are damaged."""
import importlib.util
import random
import subprocess
import tempfile
from concurrent.futures import ThreadPoolExecutor
from pathlib import Path

from .common import EXAMPLES, TOP, compare, program, text_of

# The texts of forms, and what they are by TOML 1.0; what only TOML 1.1 has, and the program takes, stands below.
TEXTS = (
    ('"a"', "a"),
    ("'a'", "a"),
    ('"""a"""', "a"),
    ("'''a'''", "a"),
    ('"""\na"""', "a"),
    ('"""\r\na"""', "a"),
    ('"""\n\na"""', "\na"),
    ("'''\na'''", "a"),
    ("'''\n\na'''", "\na"),
    ('"""a\\\n   b"""', "ab"),
    ('"""a \\  \n\n \t b"""', "a b"),
    ('"""a\\\r\n  b"""', "ab"),
    ("'''a\\\n b'''", "a\\\n b"),
    ('"""a""b"""', 'a""b'),
    ('""""a"""', '"a'),
    ('"""""a"""""', '""a""'),
    ("'''''a'''''", "''a''"),
    ("'''a\"\"\"b'''", 'a"""b'),
    ('"""a\\"""b"""', 'a"""b'),
    ("'a\\b'", "a\\b"),
    ("'\"'", '"'),
    ('"\'"', "'"),
    ('"#"', "#"),
    ('"\\b\\t\\n\\f\\r\\"\\\\"', '\b\t\n\f\r"\\'),
    ('"\\u0041\\u00e9\\u20AC"', "Aé€"),
    ('"\\U0001F916"', "\U0001f916"),
    ('"é\t"', "é\t"),
    ('"\\e\\x41\\xe9"', "\x1bAé"),
    ('"""a\r\nb"""', "a\r\nb"),
    ("'''a\r\nb'''", "a\r\nb"),
)
NUMBERS = (
    ("100", 100),
    ("+1_000", 1000),
    ("0xFf", 255),
    ("0x0_f", 15),
    ("0o17", 15),
    ("0b1_01", 5),
)
# Scripts of which each is the smallest one, with its keys written otherwise.
LAYOUTS = (
    'version = 1\ntask = [{ name = "A", modules = ["m"] }]',
    'version = 1 # one\ntask = [\n  # two\n  { "name" = "A", modules = [ "m" ] }, # three\n]',
    "version=1\n[[task]]\n\"name\" = 'A'\n'modules' = [\n'm', ]\n",
    '\ufeffversion\t=\t1\r\n\r\n[[ task ]]\r\nname = "A"\r\nmodules = ["m"]\r\n',
    '"\\u0076ersion" = 1\n[["task"]] # here\nname = "A"\n\tmodules = ["m"]',
    'version = 1\ntask = [{\n  name = "A",\n  modules = ["m"],\n}]',
    'version = 1\n[[task]]\nmodules = ["m"]\nname = "A"\n[[input]]\nsignal = "d"\nvalue = 0\n[[signal]]\nname = "d"\nkind = "di"\n',
)
# What is no TOML, and where it ends to be.
FAULTS = (
    ('name = "a', 9),
    ('name = "a\nb"', 9),
    ("name = 'a\n", 9),
    ('name = """a"', 12),
    ('name = """a""""""', 11),
    ('name = "\\q"', 8),
    ('name = "\\u12"', 8),
    ('name = "\\uD800"', 8),
    ('name = "\\U00110000"', 8),
    ('name = "\x01"', 8),
    ('name = "\x7f"', 8),
    ('name = """a\rb"""', 11),
    ("name = 1 2", 7),
    ("name = 01", 7),
    ("name = 1__0", 7),
    ("name = _1", 7),
    ("name = 1.", 7),
    ("name = .1", 7),
    ("name = +0x1", 7),
    ("name = 9223372036854775808", 7),
    ("name = 1e999", 7),
    ("name = 1979-02-29", 7),
    ("name = 24:00:00", 7),
    ("name = tru", 7),
    ("name = [1, 2", 12),
    ("name = [1 2]", 8),
    ("name = [,]", 8),
    ("name = { a = 1 b = 2 }", 15),
    ("name = { a\n= 1 }", 10),
    ("name =\n1", 6),
    ("name", 4),
    ("= 1", 0),
    ("a..b = 1", 2),
    ('"""a""" = 1', 2),
    ("[a", 2),
    ("[[a]\n", 3),
    ("[]", 1),
    ("[a] b = 1", 4),
    ("a = 1\na = 2", 6),
    ("a = 1\n[a]", 6),
    ("[a]\n[a]", 4),
    ("[a]\n[[a]]", 4),
    ("[[a]]\n[a]", 6),
    ("a.b = 1\n[a]", 8),
    ("a = []\n[[a]]", 7),
    ("[a.b]\n[a]\nb.c = 1", 10),
    ("a = { b = 1 }\n[a.c]", 14),
    ("a = { b = 1, b = 2 }", 13),
    ("a = 1 # \x01", 8),
    ("a = 1 \r b = 1", 6),
    ("a = " + "[" * 81 + "]" * 81, 84),
)
# Two texts that TOML takes, though they look like those above.
TAKEN = ("a = " + "[" * 80 + "]" * 80, "[a.b]\n[a]\nc = 1", "a = 1979-02-28 07:32Z\nb = 00:00\nc = -0.0e0\nd = -inf", "a.b = 1\na.c = 2", ".".join("a" * 80) + " = 1")
PUT = [b'"', b"'", b'"""', b"'''", b"\\", b"[", b"]", b"{", b"}", b"=", b",", b".", b"#", b"\n", b"\r", b"\r\n", b" ", b"\t", b"_", b"-", b"0", b"9e9", b"0x", b"\\u", b"\x00", b"\x7f", b"\xff", b"\xc3\xa9"]
DAMAGED = 5_000


# How many runs of the program there are at once.
AT_ONCE = 8


def asked_all(texts):
    """What the program says of scripts: whether each is TOML, and what it prints of it."""
    with tempfile.TemporaryDirectory() as folder, ThreadPoolExecutor(AT_ONCE) as pool:
        return list(pool.map(asked, texts, (Path(folder, f"{n}.toml") for n in range(len(texts)))))


def asked(text, file):
    file.write_bytes(text)
    ran = subprocess.run([program().file, "migrate", file], stdin=subprocess.DEVNULL, stdout=subprocess.PIPE, stderr=subprocess.PIPE)
    file.unlink()
    return ran.stderr != b"rapid_cell: script - NotToml\n", text_of(ran.stdout) if ran.returncode == 0 else None


def leaves(value, path=()):
    """The values of a table, by their paths, with the numbers of elements."""
    if isinstance(value, dict):
        return {key: it for name, inner in value.items() for key, it in leaves(inner, (*path, name)).items()}
    if isinstance(value, list) and any(isinstance(it, dict) for it in value):
        return leaves({str(n): it for n, it in enumerate(value)}, path)
    return {path: value}


def read(text):
    """The values of a script by the launcher, and its fault."""
    from launcher import toml_faults, toml_places

    keys = toml_places.keys_of(text)
    has = {it.path: it.value for it in keys if it.value is not None and not (isinstance(it.value, list) and None in it.value)}
    fault = toml_faults.find(text)
    return has, fault if "accepts this script" not in fault.cause else None


def try_texts(what, texts):
    """Compares the launcher's reading of scripts with the program's. Returns for each whether the program accepted it."""
    accepted = []
    for text, (is_toml, printed) in zip(texts, asked_all(texts)):
        has, fault = read(text)
        compare(f"{what} is TOML: {text!r}", fault is None, is_toml)
        if printed is not None and importlib.util.find_spec("tomllib"):
            import tomllib

            compare(f"{what}: {text!r}", {**has, ("version",): 2}, leaves(tomllib.loads(printed)))
        accepted.append(printed is not None)
    return accepted


def try_toml_forms():
    texts = [f'version = 1\n[[task]]\nname = "A"\nmodules = ["x", {form}]\n'.encode() for form, _ in TEXTS]
    numbers = [f'version = 1\nsteps = {form}\n[[task]]\nname = "A"\nmodules = ["m"]\n'.encode() for form, _ in NUMBERS]
    for text, (form, wanted) in zip(texts, TEXTS):
        compare(form, read(text)[0][("task", "0", "modules")], ["x", wanted])
    for text, (form, wanted) in zip(numbers, NUMBERS):
        compare(form, read(text)[0][("steps",)], wanted)
    compare("forms that are accepted", set(try_texts("a form", texts + numbers)), {True})


def try_toml_layouts():
    texts = [layout.encode() for layout in LAYOUTS]
    for text in texts:
        compare(f"{text!r}", [read(text)[0][("task", "0", it)] for it in ("name", "modules")], ["A", ["m"]])
    compare("layouts that are accepted", try_texts("a layout", texts), [True] * len(texts))
    for form, at in FAULTS:
        compare(f"{form!r}: place", getattr(read(form.encode())[1], "at", None), at)
    for form in TAKEN:
        compare(f"{form!r}: TOML", read(form.encode())[1], None)
    compare("what lacks a task", any(try_texts("a text", [it.encode() for it in (*(form for form, _ in FAULTS), *TAKEN)])), False)


def scripts():
    """Every script of a cell in the repository."""
    found = [*EXAMPLES.rglob("*.toml"), *(TOP / "crates/example_cells/data").rglob("*.toml"), *(TOP / "bench").rglob("*.toml")]
    return [it.read_bytes() for it in sorted(found)]


def try_toml_scripts():
    texts = scripts()
    compare("scripts of the repository", len(texts) > 300, True)
    compare("most of them are accepted", sum(try_texts("a script", texts)) > 0.9 * len(texts), True)


def try_toml_damaged():
    """Scripts with one to three damages. The seed is fixed, so that what is found can be found again."""
    chosen = random.Random(68)
    texts = sorted(set(scripts())) + [layout.encode() for layout in LAYOUTS * 20]
    texts += [f'version = 1\n[[task]]\nname = "A"\nmodules = [{form}, {other}]\n'.encode() for form, _ in TEXTS for other, _ in TEXTS[:3]]
    accepted = sum(try_texts("a damaged script", [damaged(chosen.choice(texts), chosen) for _ in range(DAMAGED)]))
    print(f"{accepted} damaged scripts were accepted, {DAMAGED - accepted} refused", flush=True)
    compare("damaged scripts of either kind", min(accepted, DAMAGED - accepted) > DAMAGED // 10, True)


def damaged(text, chosen):
    for _ in range(chosen.randint(1, 3)):
        at = chosen.randint(0, len(text))
        end = min(len(text), at + chosen.choice((1, 1, 2, 5, 30)))
        lines = text.split(b"\n")
        lines.insert(chosen.randrange(len(lines)), chosen.choice(lines))
        put = chosen.choice(PUT)
        text = chosen.choice(
            (
                text[:at] + text[end:],
                text[:at] + text[at:end] * 2 + text[end:],
                text[:at] + put + text[at:],
                text[:at] + put + text[end:],
                b"\n".join(lines),
            )
        )
    return text
