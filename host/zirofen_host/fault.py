"""From why a helper can't give what was asked of it to a status, and to lines that harm no terminal."""
import argparse
import os
import signal
import sys
import time
from typing import Callable, Iterable, List, NoReturn, Optional

from zirofen_host import ending, progress
from zirofen_host.parsing import StableParser

FAULT = 3


class Fault(Exception):
    """One line for the user, and lines of help that stand below it."""

    def __init__(self, line: str, help_lines: Iterable[str] = ()) -> None:
        super().__init__(line)
        self.help_lines = tuple(help_lines)


class OutOfTime(BaseException):
    """The run as a whole took longer than it may; no look at a part of the host keeps this to itself."""


class _Clock:
    """When the run has to have ended, where there is a bound."""
    end: Optional[float] = None
    # when the program has to have been asked, so that what it answered is still reported
    end_of_asking: Optional[float] = None
    seconds: Optional[int] = None
    message = ""


# the part of the time in which the program is asked
ASKING = 0.8


def bound(seconds: Optional[int]) -> None:
    """Ends the run with a fault where it takes longer than so many seconds."""
    if seconds:
        def end_run(*_: object) -> NoReturn:
            raise out_of_time()
        _Clock.end, _Clock.end_of_asking = time.monotonic() + seconds, time.monotonic() + ASKING * seconds
        _Clock.message = f"it took longer than {seconds} seconds, and this is no answer"
        _Clock.seconds = seconds
        signal.signal(signal.SIGALRM, end_run)
        signal.alarm(seconds)


def bound_anew(seconds: int) -> Optional[int]:
    """Gives what is left to be written so many seconds more, once a run has come to the end of its time; how many that was."""
    if _Clock.end is None:
        return None
    signal.alarm(seconds)
    return _Clock.seconds


def unbound() -> None:
    """Has this process run for as long as it likes; what it starts may have a bound."""
    signal.alarm(0)
    _Clock.end = _Clock.end_of_asking = _Clock.seconds = None


def seconds_left() -> Optional[float]:
    """The seconds that what is started now may take, where there is a bound."""
    return None if _Clock.end is None else max(_Clock.end - time.monotonic(), 0.0)


def seconds_to_ask() -> Optional[float]:
    """The seconds in which the program may still be asked, where there is a bound."""
    return None if _Clock.end_of_asking is None else max(_Clock.end_of_asking - time.monotonic(), 0.0)


def out_of_time() -> OutOfTime:
    """What ends a run of which a part took too long."""
    return OutOfTime(_Clock.message)


def plain(text: str) -> str:
    """A text with nothing in it that a terminal would act on: what isn't printable ASCII is written as Python does."""
    if text.isascii() and text.isprintable():
        return text
    return "".join(each if each.isascii() and each.isprintable() else ascii(each)[1:-1] for each in text)


def nearest(word: str, names: Iterable[str]) -> str:
    """What tells the name that a word is near to, where one is."""
    import difflib
    return "".join(f" ({name} is near)" for name in difflib.get_close_matches(word, list(names), 1))


class Parser(StableParser):
    """Options of a helper; wrong ones are a fault like others."""

    def error(self, message: str) -> NoReturn:
        raise Fault(f"{message}; --help lists the options")

    def given(self, words: List[str]) -> argparse.Namespace:
        """What the words of a command line give; of those that are none the first is told the nearest option."""
        found, unknown = self.parse_known_args(words)
        if unknown:
            near = nearest(unknown[0].partition("=")[0], self._option_string_actions)
            self.error(f"unrecognized arguments: {' '.join(unknown)}{near}")
        return found


def warn(line: str) -> None:
    """A line on standard error, as far as there is one."""
    progress.end()
    try:
        print(plain(line), file=sys.stderr)
    except (OSError, ValueError):
        pass


def write(parts: Iterable[str]) -> None:
    """Parts of a text on standard output, all of it or a fault."""
    progress.end()
    if sys.stdout is None:
        raise Fault("standard output is closed")
    try:
        sys.stdout.writelines(parts)
        sys.stdout.flush()
    except BrokenPipeError:
        raise Fault("what reads the output has ended") from None
    except OSError as error:
        raise Fault(f"can't write the output: {error.strerror}") from None


def write_lines(lines: Iterable[str]) -> None:
    """Lines on standard output, which harm no terminal."""
    write(f"{plain(line)}\n" for line in lines)


def run(name: str, main: Callable[[], int]) -> NoReturn:
    """Runs a command's main; a fault is one line on standard error, with status 3."""
    ending.take_signals(name)
    status = FAULT
    try:
        status = main()
    except SystemExit as ended:
        # argparse ends with 2 where the options are wrong, and this is another answer's status
        status = FAULT if ended.code else 0
    except Fault as fault:
        for line in (f"{name}: {fault}", *fault.help_lines):
            warn(line)
    except (OutOfTime, OSError) as error:
        warn(f"{name}: {error}")
    except Exception as error:
        # a traceback would end with 1, which is another answer's status
        warn(f"{name}: a fault of this helper: {error!r}")
    end(status)


def end(status: int) -> NoReturn:
    """Ends with a status, also where what is left in the buffers can't be written."""
    for stream in (sys.stdout, sys.stderr):
        try:
            if stream is not None:
                stream.flush()
        except (OSError, ValueError):
            # Python would end with a status of its own
            status = status or FAULT
            os._exit(status)
    sys.exit(status)
