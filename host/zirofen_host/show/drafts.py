"""From a report to a file of acceptances of what it has, a block for each cause: a draft, to be read before it is used."""
import datetime
import json
from typing import Dict, Iterable, Iterator, List, NamedTuple, Optional, Sequence, Tuple

from zirofen_host.collect.model import GROUP, OTHERS
from zirofen_host.judge.host_model import Absent
from zirofen_host.judge.model import Report, Whom
from zirofen_host.judge.rules import ACCEPTABLE, HELD, PREMISES, ROOT_INSIDE, RUNS, Finding, findings_of
from zirofen_host.profile import is_inside, is_root, path_of


class Wanted(NamedTuple):
    """What a draft says of each block: why, until when, and of which host alone, where it is of one."""
    reason: str
    until: datetime.date
    host: Optional[str] = None


def quoted(text: str) -> str:
    """A text as TOML has it."""
    return json.dumps(text, ensure_ascii=False).replace("\x7f", "\\u007f")


def name_of(whom: Whom) -> str:
    """Somebody as an acceptance names them: of a group whoever is in it."""
    return "everybody" if whom.by == OTHERS else whom.name.partition(": ")[0] if whom.by == GROUP else whom.name


def list_of(texts: Iterable[str]) -> str:
    return f"[{', '.join(map(quoted, texts))}]"


def names_of(found: Finding) -> Tuple[str, ...]:
    return tuple(map(name_of, found.whom))


def rows_of(found: Sequence[Finding]) -> Iterator[str]:
    """Findings as a block lists them, those of one kind at one cgroup together."""
    entries: Dict[Tuple[str, str], List[str]] = {}
    for each in found:
        entries.setdefault((each.rule.id, each.place), []).append(each.entry)
    for (what, path), names in entries.items():
        entry = quoted(names[0]) if len(names) == 1 else list_of(names)
        yield f"{{what = {quoted(what)}, path = {quoted(path)}, entry = {entry}}},"


def block_of(found: Sequence[Finding], wanted: Wanted) -> Iterator[str]:
    """The lines of one block, below its findings' own."""
    yield from dict.fromkeys(f"# {each.line}" for each in found)
    yield "[[accept]]"
    if len(found) == 1:
        for key, text in (("what", found[0].rule.id), ("path", found[0].place), ("entry", found[0].entry)):
            yield f"{key} = {quoted(text)}"
    else:
        yield "findings = ["
        yield from (f"    {row}" for row in rows_of(found))
        yield "]"
    yield f"whom = {list_of(names_of(found[0]))}"
    if wanted.host:
        yield f"host = {quoted(wanted.host)}"
    yield f"reason = {quoted(wanted.reason)}"
    yield f"until = {wanted.until}"


def cause_of(found: Finding, tops: Iterable[str]) -> Tuple[object, ...]:
    """What findings of one cause have in common: whom they let in, with the lines of root's files that give them away, where these were
    found; else what processes do by their kind, containers by what lets them out, and entries by the outermost cgroup that they are in."""
    whom = names_of(found)
    if found.rule.word in (RUNS, HELD, *PREMISES):
        return found.rule.id, whom
    if found.rule.word == ROOT_INSIDE:
        return found.rule.id, found.entry
    if found.causes and not isinstance(found.causes, Absent):
        return "causes", whom, found.causes
    return "place", whom, next((top for top in tops if is_inside(found.path, top)), found.path)


def by_cause(found: Sequence[Finding]) -> Iterator[List[Finding]]:
    """Findings in lists, each of one cause, in the order of their first ones."""
    tops: Dict[Tuple[str, ...], List[str]] = {}
    for each in sorted(found, key=lambda one: len(one.path)):
        # what is open at the root says nothing of what is below it
        if each.path and not is_root(each.path):
            tops.setdefault(names_of(each), []).append(each.path)
    alike: Dict[Tuple[object, ...], List[Finding]] = {}
    for each in found:
        alike.setdefault(cause_of(each, tops.get(names_of(each), ())), []).append(each)
    yield from alike.values()


def is_wanted(found: Finding, only: Iterable[str]) -> bool:
    places = list(only)
    return not places or found.name in places or any(is_inside(path_of(found.path), path_of(each)) for each in places if each[:1] == "/")


def drafts(report: Report, wanted: Wanted, only: Iterable[str] = ()) -> List[str]:
    """The lines of a file that accepts each finding that counts and can be accepted, of these places or of all."""
    found = [each for each in findings_of(report) if each.is_counted and each.rule.id in ACCEPTABLE and is_wanted(each, only)]
    lines = [line for alike in by_cause(found) for line in (*block_of(alike, wanted), "")]
    return lines[:-1] or ["# nothing of this report is to be accepted"]
