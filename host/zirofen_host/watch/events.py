"""From what a kernel tells, read as it comes, to the lane of whose folder it is in."""
import time
from typing import Dict, Iterable, List, Mapping, NamedTuple, Optional

from zirofen_host.profile import CgroupPath
from zirofen_host.watch import lanes
from zirofen_host.watch.doers import Doer, doer_of
from zirofen_host.watch.kernel import CREATE, DELETE, IS_FOLDER, Event, Record, Source

# seconds from one read of events to the next, so that alike ones are one; and parts that are read at once
BETWEEN_READS, PARTS = 0.05, 64
# processes that are looked up after one read
LOOKED_UP = 32
# events in folders that aren't known yet, and the seconds for which they are kept
MOST_UNKNOWN, KEPT = 4096, 60.0


class Unknown(NamedTuple):
    """What happened in a folder that isn't known yet."""
    record: Record
    number: int
    doer: Optional[Doer]
    when: float


class Taken(NamedTuple):
    """Whether events were lost, and whether more of them lie in folders that nobody knows than are kept."""
    is_lost: bool
    is_short: bool


class Events:
    """Events of a hierarchy, on their way to lanes."""

    def __init__(self, source: Source, proc: str, to: lanes.Lanes, owners: lanes.Owners) -> None:
        self.source, self.proc, self.lanes, self.owners = source, proc, to, owners
        self.unknown: List[Unknown] = []
        self.next_read, self.last = 0.0, 0.0
        # who did what is read now
        self.doers: Dict[int, Optional[Doer]] = {}

    def take(self, now: float) -> Taken:
        """Reads what there is of events, each of which goes to the lane of whose folder it is in."""
        is_lost = is_short = False
        self.doers = {}
        self.source.begin_turn()
        for _ in range(PARTS):
            read = self.source.take()
            is_lost |= read.is_lost
            if not read.counts and not read.unknown:
                break
            self.next_read, self.last = now + BETWEEN_READS, time.time()
            for event, count in read.counts.items():
                self.happened(event, count, now)
            for record, count in read.unknown.items():
                made = self.source.event_of(record)
                if made is not None:
                    # a folder that was made within the same read
                    self.happened(made, count, now)
                elif len(self.unknown) < MOST_UNKNOWN:
                    self.unknown.append(Unknown(record, count, self.doer(record[3]), now))
                elif self.source.is_full:
                    is_lost = True
                else:
                    is_short = True
        return Taken(is_lost, is_short)

    def happened(self, event: Event, count: int, now: float) -> None:
        """Has what an event concerns asked."""
        if event.mask & DELETE and event.mask & IS_FOLDER and event.name:
            self.source.went(lanes.place_of(event)[0])
        lane = self.lanes.of(self.owners.of(event.folder), now)
        if lane.has_enough(event.folder):
            lane.go_on(count, now)
            return
        part = lanes.concerned(event)
        if part is None:
            return
        lane.touch(event, count, time.time() - (time.monotonic() - now), self.doer(event.pid))
        lane.add(part, now)
        if event.mask & CREATE and event.mask & IS_FOLDER and lane.person == lanes.HOST:
            self.source.watch(part)

    def know(self, inodes: Mapping[CgroupPath, int], gone: Iterable[CgroupPath], began: float) -> None:
        """Knows the folders that a check found, and so what happened there before they were known: what came before it began is asked."""
        self.owners.forget()
        for path in gone:
            self.source.forget(path)
        self.source.know(inodes)
        left, now = [], time.monotonic()
        self.source.end_turn()
        for each in self.unknown:
            event = self.source.event_of(each.record)
            if event is not None:
                self.was_there(event, each, began)
            elif now - each.when < KEPT:
                left.append(each)
        self.unknown = left

    def was_there(self, event: Event, then: Unknown, began: float) -> None:
        """What happened in a folder before that was known, and is asked where a check began before it."""
        part = lanes.concerned(event)
        if part is None:
            return
        lane = self.lanes.of(self.owners.of(event.folder), then.when)
        lane.touch(event, then.number, time.time() - (time.monotonic() - then.when), then.doer)
        if then.when >= began:
            lane.add(part, then.when)

    def doer(self, pid: Optional[int]) -> Optional[Doer]:
        """Who did something, looked up once for each read."""
        if not pid:
            return None
        if pid not in self.doers:
            self.doers[pid] = doer_of(self.proc, pid) if len(self.doers) < LOOKED_UP else Doer(pid)
        return self.doers[pid]
