"""From a watch to its metrics, behind those of the last check of the whole host."""
from collections import Counter
from typing import Iterator, NamedTuple

from zirofen_host.show.metrics import ALONE, Gauge, lines_of
from zirofen_host.watch.known import KINDS


class Numbers(NamedTuple):
    """When something happened last, and what was reported since the watch began: seconds since 1970."""
    reported: "Counter[str]"
    standing: int
    last_event: float
    last_check: float
    began: float
    has_pids: bool
    lost: int
    waiting: int


def gauges(numbers: Numbers) -> Iterator[Gauge]:
    yield Gauge("zirofen_watch_told", "What was reported since the watch began, by kind.",
                {(("kind", kind),): numbers.reported[kind] for kind in (*KINDS, "back")})
    yield Gauge("zirofen_watch_standing", "Findings that are open and aren't accepted, by the watch.", {ALONE: numbers.standing})
    yield Gauge("zirofen_watch_last_event_timestamp_seconds", "When a kernel reported an event last; 0 before the first.",
                {ALONE: round(numbers.last_event)})
    yield Gauge("zirofen_watch_last_check_timestamp_seconds", "When a check of the host or of a part of it ended last.",
                {ALONE: round(numbers.last_check)})
    yield Gauge("zirofen_watch_start_timestamp_seconds", "When the watch began.", {ALONE: round(numbers.began)})
    yield Gauge("zirofen_watch_names_processes", "Whether events name who did it.", {ALONE: int(numbers.has_pids)})
    yield Gauge("zirofen_watch_lost", "How often events were lost since the watch began.", {ALONE: numbers.lost})
    yield Gauge("zirofen_watch_waiting", "Persons who change more than is asked of.", {ALONE: numbers.waiting})


def parts_of(whole: str, numbers: Numbers) -> Iterator[str]:
    yield whole
    for gauge in gauges(numbers):
        yield from lines_of(gauge)
