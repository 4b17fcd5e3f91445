"""From what differs while a host is watched to messages of it: as lines, and as fields with names."""
import time
from typing import Dict, Iterable, Iterator, List, Mapping, NamedTuple, Optional, Tuple

from zirofen_host.collect import bounded
from zirofen_host.judge.host_model import Absent
from zirofen_host.judge.rules import HELD, PREMISES, ROOT_INSIDE, RUNS
from zirofen_host.profile import path_of
from zirofen_host.show.lines import difference_lines
from zirofen_host.watch.doers import Doer
from zirofen_host.watch.known import NEW, WORSE, Change, is_counted
from zirofen_host.watch.lanes import DIRECTORY, Place, Touched, Touches

# what happened to entries that wait to be asked of
Waiting = Mapping[Place, Touched]
# what opened and closed between two checks, what narrows the answers, and how the watch itself goes
BACK, LIMIT, WATCH = "back", "limit", "watch"
# lines of a holder's own making in an hour, beside those of one check
IN_AN_HOUR = 256
# letters of one line
LONGEST = 2048
# what rests on processes and mounts, which no event of what is further inside explains
OF_PROCESSES = {ROOT_INSIDE, RUNS, HELD, *PREMISES}


class Message(NamedTuple):
    """One thing that is reported."""
    kind: str
    line: str
    when: float
    more: Tuple[str, ...] = ()
    doers: Tuple[Doer, ...] = ()
    what: str = ""
    path: str = ""
    entry: str = ""
    # what it would end a check with
    status: int = 0
    # it is new or worse, and counts
    is_counted: bool = False
    # what it was found by, where no event names it
    by: str = ""


def stamp(when: float) -> str:
    return time.strftime("%Y-%m-%dT%H:%M:%S", time.gmtime(when)) + f".{int(when * 1000) % 1000:03d}Z"


def lines_of(message: Message) -> Iterator[str]:
    """The lines that are printed."""
    yield f"{stamp(message.when)} {message.kind}: {message.line}"[:LONGEST]
    yield from (f"    by {doer.text}" for doer in message.doers)
    if message.by:
        yield f"    no event reported it: {message.by}"
    yield from (line[:LONGEST] for line in message.more)


def fields_of(message: Message) -> Mapping[str, str]:
    """The same by names; of several who did it, of the first."""
    fields = {"KIND": message.kind, "LINE": message.line[:LONGEST], "TIME": stamp(message.when), "WHAT": message.what,
              "CGROUP": message.path, "ENTRY": message.entry, "STATUS": str(message.status), "FOUND_BY": message.by}
    if message.doers:
        doer = message.doers[0]
        fields.update({"DOER_PID": str(doer.pid), "DOER_UID": "" if doer.uid is None else str(doer.uid),
                       "DOER_PROGRAM": doer.program, "DOER_UNIT": doer.unit})
    return {name: value for name, value in fields.items() if value}


def of_change(change: Change, touched: Optional[Touched], when: float, by: str) -> Message:
    """The message of what differs; `when` it was found where no event names it."""
    difference = change.difference
    _, *more = difference_lines(change.kind, difference)
    return Message(change.kind, difference.line, touched.last if touched else when, tuple(more), touched.doers if touched else (),
                   difference.what, change.path, change.entry, difference.status if change.kind in (NEW, WORSE) else 0, is_counted(change),
                   "" if touched else by)


class Folding:
    """How much is reported of what persons made inside of their own: so much of one check, and so much in an hour."""

    def __init__(self) -> None:
        self.reported: Dict[int, int] = {}

    def begin_hour(self) -> None:
        self.reported.clear()

    def kept(self, changes: Iterable[Change]) -> Tuple[List[Change], Mapping[int, int]]:
        """The changes that are reported, and by person how many more there are."""
        kept: List[Change] = []
        here: Dict[int, int] = {}
        more: Dict[int, int] = {}
        for change in changes:
            person = change.difference.within
            if isinstance(person, Absent):
                kept.append(change)
                continue
            here[person] = here.get(person, 0) + 1
            if here[person] <= bounded.LINES.most and self.reported.get(person, 0) < IN_AN_HOUR:
                self.reported[person] = self.reported.get(person, 0) + 1
                kept.append(change)
            else:
                more[person] = more.get(person, 0) + 1
        return kept, more


def touched_of(asked: Touches, change: Change, waiting: Touches, began: float, after: float) -> Optional[Touched]:
    """What events say of where something differs, of those after a time: those that it was asked of by, else one that waits to be asked
    of, which a check that was on its way has found: of that very entry, since before the check began, or the only one after that time."""
    if not change.path.startswith("/"):
        return None
    place = path_of(change.path), change.entry.split(" ")[0] if change.entry else DIRECTORY
    has_inside = change.difference.what not in OF_PROCESSES
    mine, others = asked.touched, waiting.touched
    here, there = asked.near(*place, has_inside, after), waiting.near(*place, has_inside, after)
    if there is None:
        return mine[here] if here else None
    # a subtree's row rests on entries of its cgroup
    is_of_it = there == place or not change.entry and there[0] == place[0]
    if here is None:
        return others[there] if is_of_it or asked.near(*place, has_inside) else None
    is_nearer = is_of_it and here[0] != place[0] or there == place != here
    return others[there] if is_nearer or there == here and others[there].first <= began else mine[here]
