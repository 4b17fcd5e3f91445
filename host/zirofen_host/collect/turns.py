"""From whose turn it is in a run to the seconds that went to each person.

What is read or asked of no one goes to the host.
"""
import time
from typing import Dict, List, NamedTuple, Tuple

HOST = 0
# how many persons are named
NAMED = 3


class Share(NamedTuple):
    """A person by their uid, and the seconds that went to them."""
    person: int
    seconds: int


class _Turns:
    """Whose turn it is, since when, and what went to each so far."""
    person = HOST
    since = time.monotonic()
    went: Dict[int, float] = {}


def turn_to(person: int) -> None:
    """From now on time goes to a person."""
    if person != _Turns.person:
        now = time.monotonic()
        _Turns.went[_Turns.person] = _Turns.went.get(_Turns.person, 0.0) + now - _Turns.since
        _Turns.person, _Turns.since = person, now


def begin() -> None:
    """Forgets what went to whom."""
    _Turns.person, _Turns.since, _Turns.went = HOST, time.monotonic(), {}


def shares() -> Tuple[Share, ...]:
    """The persons to whom the most went, a second at least."""
    went = {**_Turns.went, _Turns.person: _Turns.went.get(_Turns.person, 0.0) + time.monotonic() - _Turns.since}
    found: List[Share] = [Share(person, round(seconds)) for person, seconds in went.items() if person != HOST and seconds >= 1]
    return tuple(sorted(found, key=lambda share: (-share.seconds, share.person))[:NAMED])


def shares_text() -> str:
    """With whom the time went to, as it stands behind `of N seconds`."""
    found = shares()
    return ", ".join(f"{share.seconds} went to what uid {share.person} holds" for share in found) or "none went to what one user holds"
