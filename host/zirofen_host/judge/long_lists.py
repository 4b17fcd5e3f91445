"""From a list of operations that may be long to what a report keeps of it, and what is shown."""
import re
from typing import Iterator, Sequence, Tuple

from zirofen_host.judge.finding_lines import asking

# operations of a list
KEPT, SHOWN = 64, 12
_MORE = re.compile(r"# ([0-9]+) more: ")


def kept(lines: Sequence[str], user: int, subtree: str, given: Sequence[str]) -> Tuple[str, ...]:
    """An answer's lines as a report keeps them: behind so many operations stands how many more there are, and the command that prints
    them."""
    more = len(lines) - 1 - KEPT
    if more <= 0:
        return tuple(lines)
    return (*lines[:1 + KEPT], f"# {more} more: {asking(user, subtree, given)}")


def shown(lines: Sequence[str]) -> Iterator[str]:
    """The operations of an answer's lines that are shown, and how many more there are."""
    operations = lines[1:]
    yield from operations[:SHOWN]
    last = _MORE.match(operations[-1]) if operations else None
    more = len(operations) - SHOWN + (int(last[1]) - 1 if last else 0)
    if more > 0:
        yield f".. and {more} more operations"


def is_whole(lines: Sequence[str]) -> bool:
    """Whether a report has all of a list."""
    return not lines or not _MORE.match(lines[-1])
