"""The command line: takes the launcher's words, and passes the others to the program."""
import os
import signal
from pathlib import Path
from typing import Callable, Dict, List, Optional, Sequence

from . import actions, build, hints, kept, program
from .asked import Asked, ended, found_program, helped, made_program, misplaced, taken_apart
from .places import IS_INSTALLED
from .program import Program
from .run_words import OF_RUNS, clearance, listed
from .say import NO_PROGRAM, NOT_PRINTED, REFUSED, STOPPED, NotPrinted, broken, open_closed_streams, put_err, put_out, say, wrong


def main(given: Sequence[str]) -> int:
    """Does what the words ask, and returns the status."""
    open_closed_streams()
    for it in (signal.SIGTERM, signal.SIGHUP):
        # `nohup` has SIGHUP ignored.
        if signal.getsignal(it) != signal.SIG_IGN:
            signal.signal(it, end)
    try:
        return ask([os.fsencode(word) for word in given])
    except NotPrinted as failed:
        if str(failed):
            say(f"not everything could be printed ({failed}): check where standard output goes")
        return NOT_PRINTED
    except KeyboardInterrupt:
        put_err(b"\n")
        say("stopped")
        return STOPPED
    except Ended as ended:
        return ended.status
    except (OSError, ImportError) as error:
        return broken(error)


class Ended(BaseException):
    """The launcher was ended by a signal."""

    def __init__(self, status: int) -> None:
        self.status = status


def end(number: int, _: object) -> None:
    raise Ended(128 + number)


def ask(given: List[bytes]) -> int:
    asked = taken_apart(given)
    if any(it in (b"-h", b"--help") for it in given):
        return answered(actions.help_page())
    if given in ([b"-V"], [b"--version"]):
        return version([])
    words = asked.words
    if asked.has_proved and asked.has_unproved:
        return wrong("--proved and --unproved exclude each other")
    own = OWN.get(words[0]) if words else None
    if own:
        return own(words[1:])
    if words[:1] == [b"watch"]:
        return watch(asked)
    if words[:1] == [b"lsp"]:
        return serve(words[1:])
    misplaced_option = misplaced(asked)
    if misplaced_option:
        return wrong(misplaced_option)
    of_run = OF_RUNS.get(words[0]) if words else None
    if of_run:
        return of_run(asked)
    if asked.has_source and refused_place(words) is None:
        return listed(asked)
    if asked.has_watched and refused_place(words) is None:
        return clearance(asked)
    return of_program(asked)


# The launcher's own words


def answered(text: str) -> int:
    put_out(text)
    return 0


def help_of(words: Sequence[bytes]) -> int:
    return answered(actions.help_page())


def version(words: Sequence[bytes]) -> int:
    from .version import page

    return wrong("version takes no other word") if words else answered(page())


def explain(words: Sequence[bytes]) -> int:
    from .explain import explain

    return explain(words)


def build_all(words: Sequence[bytes]) -> int:
    return wrong("build takes no other word") if words else build.build()


def package(words: Sequence[bytes]) -> int:
    from .package import package

    return package(words)


def proved(words: Sequence[bytes]) -> int:
    if len(words) != 1:
        return wrong("proved takes a record of a proof, PROVED")
    if IS_INSTALLED:
        say("proved compares a record with a checkout, and this is an installed program: --version says if it is the record's")
        return NO_PROGRAM
    from .record import compare

    return compare(Path(os.fsdecode(words[0])))


def completion(words: Sequence[bytes]) -> int:
    from .completion import SHELLS, script

    shell = words[0].decode(errors="replace") if len(words) == 1 else ""
    return answered(script(shell)) if shell in SHELLS else wrong(f"completion takes one of {', '.join(SHELLS)}")


def import_backup(words: Sequence[bytes]) -> int:
    from .abb.command import import_words

    return import_words(words)


def watch(asked: Asked) -> int:
    if len(asked.words) != 2:
        return wrong("watch takes the script of a cell")
    found = found_program(asked) or (made_program(asked) if build.has_kit() else None)
    if not found:
        return NO_PROGRAM
    from .watch import watch

    return watch(found, Path(os.fsdecode(asked.words[1])))


def serve(words: Sequence[bytes]) -> int:
    if len(words) != 1:
        return wrong("lsp takes the script of a cell")
    from .lsp import serve

    return serve(Path(os.fsdecode(words[0])))


def examples(words: Sequence[bytes]) -> int:
    from .examples import examples

    return examples(words)


def new(words: Sequence[bytes]) -> int:
    from .new import new

    return new(words)


OWN: Dict[bytes, Callable[[Sequence[bytes]], int]] = {
    b"help": help_of,
    b"version": version,
    b"explain": explain,
    b"build": build_all,
    b"package": package,
    b"proved": proved,
    b"completion": completion,
    b"import": import_backup,
    b"examples": examples,
    b"new": new,
}


# The program's words


def of_program(asked: Asked) -> int:
    """Passes the words to the program, and adds what helps to its answer."""
    words = asked.words
    place = refused_place(words)
    found = found_program(asked)
    if place is not None and not found:
        # Wrong words are reported at once, and not after a long build.
        put_err(b"rapid_cell: words %d\n" % place)
        return helped(asked, REFUSED, b"rapid_cell: words %d\n" % place)
    if not found and not build.has_kit():
        return NO_PROGRAM
    found = found or made_program(asked)
    if not found:
        return NO_PROGRAM if asked.has_proved or kept.is_kept_by_kit() else kept.try_once(words)
    if asked.is_plain and not asked.has_all and not asked.has_abb:
        return program.become(found, words)
    if found.is_proved and not asked.is_plain:
        build.say_where_stale()
    status = all_checked(asked, found) if asked.has_all else run(asked, found)
    if asked.has_abb and status == 0:
        from .to_abb import tell

        tell(Path(os.fsdecode(words[1])))
    return ended(asked, found, status)


def run(asked: Asked, found: Program) -> int:
    for word in asked.words[1:]:
        if hints.is_pipe(word):
            say(f"{hints.shown_word(word)} is a pipe: it is read until its writer closes it")
    ran = program.run(found, asked.words)
    if b"state" in asked.words[:2] and ran.status == 0:
        add_notes(asked, found)
    return helped(asked, ran.status, ran.err)


def add_notes(asked: Asked, found: Program) -> None:
    """Says below a state how the interrupts are."""
    from .state_notes import notes

    try:
        for it in notes(found, asked.words):
            say(it)
    except (OSError, ValueError, LookupError) as error:
        say(f"the interrupts are not shown ({error})")


def all_checked(asked: Asked, found: Program) -> int:
    from .check_all import check_all
    from .shown import script_of

    script = script_of(asked.words)
    return check_all(found, asked, script) if script else run(asked, found)


def refused_place(words: Sequence[bytes]) -> Optional[int]:
    """The place of the first cause by which the words are refused, in the order of docs/CELL_SCRIPT.md, or None."""
    places = range(len(words))
    history = [k for k in places if words[k] == hints.HISTORY]
    others = [k for k in places if words[k] != hints.HISTORY]
    options = [k for k in others if words[k].startswith(b"-")]
    if options:
        return options[0]
    if history[1:]:
        return history[1]
    if others and not actions.is_programs_action(words[others[0]]):
        return others[0]
    count = actions.word_count(words[others[0]]) if others else 2
    if len(others) < count:
        return len(words)
    if others[count:]:
        return others[count]
    return next((k for k in others[1:] if not hints.is_utf8(words[k])), None)
