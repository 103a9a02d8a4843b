"""A child process that does not outlive the launcher, however the launcher ends.

The kernel ends a child whose launcher is gone (`with_parent`). What the kit starts has children of its own, so it gets a group, which
a shell watches (`watched`): it ends the group when its pipe from the launcher is closed and nothing was written there before.
"""
import contextlib
import os
import signal
import subprocess
from typing import Any, Callable, Dict, Iterator, List, Optional, Sequence

ENDING = (signal.SIGINT, signal.SIGTERM, signal.SIGHUP)
# The option of prctl that has a signal sent to a process when its parent ends.
PR_SET_PDEATHSIG = 1
WATCH = 'read -r line || { kill -TERM "-$1"; sleep 10; kill -KILL "-$1"; }'


@contextlib.contextmanager
def started(
    words: Sequence[Any], end: Callable[["subprocess.Popen[bytes]", BaseException], None], **how: Any
) -> Iterator["subprocess.Popen[bytes]"]:
    """Starts a child. What ends the launcher while this lasts ends the child first, by `end`; a signal that comes while the child is
    being started is held back until it is there. OSError if it does not start."""
    came: List[int] = []
    handlers = {it: signal.getsignal(it) for it in ENDING}
    # What is ignored stays so, for the child too.
    held = {it: handler for it, handler in handlers.items() if handler not in (signal.SIG_IGN, None)}
    for it in held:
        signal.signal(it, lambda number, _: came.append(number))
    try:
        child = subprocess.Popen(words, preexec_fn=with_parent(), **how)
    except BaseException:
        restore(held, came)
        raise
    try:
        restore(held, came)
        yield child
    except BaseException as ended:
        end(child, ended)
        raise


@contextlib.contextmanager
def started_group(words: Sequence[Any], **how: Any) -> Iterator["subprocess.Popen[bytes]"]:
    """Starts a child of which all that it starts ends with the launcher, and at the latest when this ends."""
    with started(words, end_group, start_new_session=True, **how) as child, watched(child.pid):
        yield child
        end_group(child)


@contextlib.contextmanager
def watched(group: int) -> Iterator[None]:
    """Has a group of processes ended if the launcher is killed while this lasts."""
    how: Dict[str, Any] = {"stdin": subprocess.PIPE, "stdout": subprocess.DEVNULL, "stderr": subprocess.DEVNULL}
    with subprocess.Popen(["/bin/sh", "-c", WATCH, "watch", str(group)], start_new_session=True, **how) as watch:
        try:
            yield
        finally:
            watch.communicate(b"done\n")


def end_group(child: "subprocess.Popen[bytes]", ended: Optional[BaseException] = None) -> None:
    """Ends a child and what it started, which are a group of their own."""
    for sent in (signal.SIGTERM, signal.SIGKILL):
        with contextlib.suppress(ProcessLookupError):
            os.killpg(child.pid, sent)
        with contextlib.suppress(subprocess.TimeoutExpired):
            child.wait(10)
            break


def with_parent() -> Optional[Callable[[], None]]:
    """What a child does before all else, so that it ends when this process does. Nothing where Python has no ctypes."""
    try:
        import ctypes
    except ImportError:
        return None
    parent, library = os.getpid(), ctypes.CDLL(None)

    def bind() -> None:
        library.prctl(PR_SET_PDEATHSIG, signal.SIGKILL)
        if os.getppid() != parent:
            os._exit(128 + signal.SIGKILL)

    return bind


def restore(held: Dict[signal.Signals, Any], came: Sequence[int]) -> None:
    """Puts the handlers back, and passes on what came meanwhile."""
    for it, handler in held.items():
        signal.signal(it, handler)
    for number in came:
        signal.raise_signal(number)
