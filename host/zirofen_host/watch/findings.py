"""From what each check found to messages of what differs from what was known, when that happened and by whom."""
import time
from collections import Counter
from typing import Callable, Dict, List, NamedTuple, Optional, Set, Tuple

from zirofen_host.profile import CgroupPath, path_of
from zirofen_host.watch import known, lanes, messages
from zirofen_host.watch.backs import Entries, backs
from zirofen_host.watch.checks import Result
from zirofen_host.watch.lanes import Asked, Touches
from zirofen_host.watch.messages import WATCH, Message

# things that were reported, of which it is known when they were, and seconds within which two times are one
MOST_REPORTED, SAME = 4096, 0.001


class Then(NamedTuple):
    """Whether it takes a check of the whole host to say more, whether anything was reported, and which cgroups went."""
    needs_whole: bool
    has_reported: bool
    gone: List[CgroupPath]


class Findings:
    """All that is known to stand, with what was reported so far."""

    def __init__(self, tell: Callable[[Message], None], baseline: Optional[known.Items]) -> None:
        self.known: known.Items = baseline or {}
        self.has_baseline = baseline is not None
        self.out = tell
        self.entries, self.folding = Entries(), messages.Folding()
        self.counts: "Counter[str]" = Counter()
        # when what happened that was reported last, by what it is of, and whether that opened it
        self.reported: Dict[Tuple[str, str, str], Tuple[float, bool]] = {}

    def begin_hour(self) -> None:
        self.folding.begin_hour()

    def tell(self, each: Message) -> None:
        self.counts[each.kind] += 1
        self.out(each)

    def touched(self, asked: Touches, change: known.Change, waiting: Touches, began: float) -> Optional[lanes.Touched]:
        """What events say of a change, and keeps when that was: what opened something doesn't mend it, nor the other way round."""
        key, is_open = (change.difference.what, change.path, change.entry), change.kind in known.OPEN
        when, was_open = self.reported.pop(key, (0.0, is_open))
        touched = messages.touched_of(asked, change, waiting, began, when if is_open != was_open else when - SAME)
        if touched:
            self.reported[key] = touched.last, is_open
            if len(self.reported) > MOST_REPORTED:
                del self.reported[next(iter(self.reported))]
        return touched

    def take(self, asked: Asked, made: Result, is_first: bool, waiting: messages.Waiting, began: float) -> Then:
        """Tells what differs from what was known; the check began at that time."""
        compared = known.compared(self.known, made.items, made.part)
        self.known = compared.known
        # what is there at first, where nobody has seen it before
        is_reported = self.has_baseline or not is_first
        kept, more = self.folding.kept(each for each in compared.changes if is_reported or known.is_counted(each))
        by = "it was there at the first check" if is_first else f"it was found by {asked.why or 'a check of what is beside it'}"
        said: Set[lanes.Place] = set()
        mine, others = Touches(asked.touched), Touches(waiting)
        for change in kept:
            touched = self.touched(mine, change, others, began)
            if change.path.startswith("/"):
                said.add((path_of(change.path), change.entry.split(" ")[0] or lanes.DIRECTORY))
            self.tell(messages.of_change(change, touched, time.time(), by))
        for person, number in more.items():
            self.out(Message(WATCH, f"{number} more differ inside of what uid {person} holds, of their own making", time.time()))
        if asked.person == lanes.HOST and not is_first:
            for each in backs(self.entries, made, asked, said):
                self.tell(each)
        return Then(compared.needs_whole, bool(kept), self.entries.take(made))
