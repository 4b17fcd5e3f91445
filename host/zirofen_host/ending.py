"""From files, folders and programs that aren't finished to nothing that is left of them, however a helper ends."""
import contextlib
import os
import signal
import subprocess
import time
from types import FrameType
from typing import Callable, Dict, Iterator, List, Optional, Sequence, Set

from zirofen_host import progress

SIGNALS = (signal.SIGINT, signal.SIGTERM, signal.SIGHUP)
STANDARD_ERROR = 2

_left: Dict[object, Callable[[], None]] = {}
# what is being started, and signals that came meanwhile
_starting: Set[object] = set()
_came: List[int] = []


@contextlib.contextmanager
def undone(undo: Callable[[], None]) -> Iterator[None]:
    """Has something undone behind a `with`, and where a signal ends the helper meanwhile. It may come to be undone twice."""
    key = object()
    _left[key] = undo
    try:
        yield
    finally:
        undo()
        del _left[key]


@contextlib.contextmanager
def started() -> Iterator[None]:
    """A signal that comes meanwhile ends the helper behind it, when it is known how to undo what was started. Behind a signal nothing
    is started."""
    key = object()
    _starting.add(key)
    try:
        while _came:
            _starting.discard(key)
            end_by_what_came()
            time.sleep(1)
        yield
    finally:
        _starting.discard(key)
        end_by_what_came()


def end_by_what_came() -> None:
    if _came and not _starting:
        os.kill(os.getpid(), _came[0])


def run(words: Sequence[str], seconds: Optional[float] = None) -> "subprocess.CompletedProcess[str]":
    """Runs a program to its end, or cuts it off where it takes longer. Python ignores SIGXFSZ, and so does the program: a file that
    gets too large is its fault line."""
    with contextlib.ExitStack() as running:
        with started():
            child = running.enter_context(subprocess.Popen(
                words, stdin=subprocess.DEVNULL, stdout=subprocess.PIPE, stderr=subprocess.PIPE, text=True, errors="replace",
                restore_signals=False))
            running.enter_context(undone(child.terminate))
        try:
            stdout, stderr = child.communicate(timeout=seconds)
        except subprocess.TimeoutExpired:
            child.kill()
            raise
    return subprocess.CompletedProcess(words, child.returncode, stdout, stderr)


@contextlib.contextmanager
def uninterrupted() -> Iterator[None]:
    """Leaves an interrupt at the terminal to the program that is shown there."""
    before = signal.signal(signal.SIGINT, signal.SIG_IGN)
    try:
        yield
    finally:
        signal.signal(signal.SIGINT, before)


def take_signals(name: str) -> None:
    """Has a signal that ends the helper undo what it hasn't finished, and tell so; what is ignored stays so."""
    is_ending = False

    def end(number: int, _: Optional[FrameType]) -> None:
        nonlocal is_ending
        _came.append(number)
        if _starting or is_ending:
            return
        is_ending = True
        for undo in list(_left.values()):
            # whatever can't be undone keeps nothing else
            with contextlib.suppress(Exception):
                undo()
        with contextlib.suppress(Exception):
            progress.end()
        with contextlib.suppress(OSError):
            # a line may be on its way through the stream
            os.write(STANDARD_ERROR, f"{name}: ended by {signal.Signals(number).name}, and this is no answer\n".encode())
        signal.signal(number, signal.SIG_DFL)
        os.kill(os.getpid(), number)

    for number in SIGNALS:
        if signal.getsignal(number) != signal.SIG_IGN:
            signal.signal(number, end)
