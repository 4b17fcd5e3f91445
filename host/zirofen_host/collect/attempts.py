"""From calls that may fail to what they give: of each that fails a note says which and why, and all others stand."""
from typing import Callable, Iterable, List, Tuple, TypeVar

from zirofen_host.collect.notes import Failed
from zirofen_host.fault import Fault

Item = TypeVar("Item")
Made = TypeVar("Made")


def why_of(error: Exception) -> str:
    """Why something failed, in one line."""
    if isinstance(error, Fault):
        return str(error)
    if isinstance(error, OSError) and error.strerror:
        return f"{error.filename}: {error.strerror}" if error.filename is not None else error.strerror
    return repr(error)


class Attempts:
    """What failed so far."""

    def __init__(self) -> None:
        self.failed: List[Failed] = []

    def at(self, what: str, attempt: Callable[[], Made], instead: Made, is_asked_for: bool = False) -> Made:
        """What a call gives, or something instead where it fails. A fault of what was asked for isn't kept back."""
        try:
            return attempt()
        except Exception as error:
            if is_asked_for and isinstance(error, Fault):
                raise
            self.failed.append(Failed(what, why_of(error)))
            return instead

    def all(self, what: str, attempt: Callable[[], Iterable[Made]]) -> Tuple[Made, ...]:
        """All that a call gives, as far as it gets."""
        found: List[Made] = []

        def gather() -> None:
            for each in attempt():
                found.append(each)
        self.at(what, gather, None)
        return tuple(found)

    def each(self, what: str, items: Iterable[Item], make: Callable[[Item], Made]) -> Tuple[Made, ...]:
        """What is made of each of some items; those of which none can be are one note, with why the first can't."""
        made, wrong = [], []
        for item in items:
            try:
                made.append(make(item))
            except Exception as error:
                wrong.append(why_of(error))
        if wrong:
            self.failed.append(Failed(what, wrong[0], len(wrong) - 1))
        return tuple(made)
