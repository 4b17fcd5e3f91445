"""From containers to lines of a report: root's that are alike are one, and what root alone holds is one row."""
from typing import Dict, Hashable, List, Sequence, Set

from zirofen_host.judge.finding_lines import SHOWN, inside_count, inside_line, inside_text, some
from zirofen_host.judge.host_model import ABSENT
from zirofen_host.judge.model import Report, RootInside
from zirofen_host.profile import ancestors

OWN = "its own cgroup"
# containers that are alike and named in one line; --each has all
NAMED = 64


class Labels:
    """Places by their containers' names, or by their engines and ids, or by their paths."""

    def __init__(self, report: Report) -> None:
        self.names, self.scopes = report.names, report.scopes_by_path

    def of(self, path: str) -> str:
        place = next((place for place in (path, *ancestors(path)) if place in self.scopes), None)
        if place is None or self.names.scope(path) is not None:
            return self.names.of(path) or path
        return f"{self.scopes[place].engine}:{self.scopes[place].id}" + (f":{path[len(place):]}" if path != place else "")


def own_of(each: RootInside, text: str) -> str:
    """A text of a container, without the name of its cgroup."""
    return text.replace(each.path, OWN)


def in_common(each: RootInside) -> Hashable:
    return own_of(each, inside_text(each)), each.by, each.changes, each.setting and own_of(each, each.setting)


def alike_containers(report: Report, is_each: bool) -> List[List[RootInside]]:
    """Containers of root's that weren't accepted, in lists of those that are alike."""
    found: Dict[Hashable, List[RootInside]] = {}
    for each in report.containers:
        if each.accepted is ABSENT:
            found.setdefault(each.path if is_each else in_common(each), []).append(each)
    return list(found.values())


def line_of(labels: Labels, of: Sequence[RootInside], beside: str) -> str:
    """The line of some that are alike."""
    if len(of) == 1:
        return f"{inside_line(of[0])} ({inside_count(of[0])}){beside}"
    processes = sum(each.processes for each in of)
    more = f" and {len(of) - NAMED} more" if len(of) > NAMED else ""
    names = " ".join(labels.of(each.path) for each in of[:NAMED]) + more
    return (f"root-inside {names}: {own_of(of[0], inside_text(of[0]))} ({len(of)} alike, {processes} processes, by "
            f"{' and '.join(of[0].by)})")


def roots_alone(report: Report, paths: Sequence[str]) -> str:
    """What root alone holds, in few words: containers by their names before what else there is; what has a container of root's has a
    line of its own."""
    above: Set[str] = {place for each in report.containers if each.accepted is ABSENT for place in (each.path, *ancestors(each.path))}
    labels = Labels(report)
    others = sorted((path for path in paths if path not in above), key=lambda path: path not in labels.scopes)
    count = len(paths) - len(others)
    most = max(SHOWN, min(NAMED, sum(path in labels.scopes for path in others)))
    parts = [some([labels.of(path) for path in others], most)] if others else []
    if count:
        parts.append(f"{count} with a container of root's, listed below")
    return f"{len(paths)} cgroups: {', and '.join(parts)}"
