"""From what a helper is at to a line for whoever waits for it at a terminal."""
import sys
import time

SECONDS = 0.3


class _Line:
    """One line of a terminal that is written over."""

    def __init__(self) -> None:
        self.next = time.monotonic() + 2 * SECONDS
        self.width = 0


_line = _Line()


def tell(text: str) -> None:
    """Shows what is at work now, a few times a second, where standard error is a terminal."""
    now = time.monotonic()
    if now < _line.next or not (sys.stderr and sys.stderr.isatty()):
        return
    _line.next = now + SECONDS
    sys.stderr.write("\r" + text.ljust(_line.width))
    sys.stderr.flush()
    _line.width = len(text)


def end() -> None:
    """Takes the line away."""
    if _line.width:
        sys.stderr.write("\r" + " " * _line.width + "\r")
        sys.stderr.flush()
        _line.width = 0
