"""From a file of findings that somebody accepts, and a report, to the report in which these don't count.

Each is named by its place and whom it lets in, with a reason and an end; one block may have several findings, of one cause.
"""
import datetime
import errno
import os
import re
import stat
from dataclasses import dataclass, replace
from typing import (Callable, Dict, FrozenSet, Iterable, Iterator, List, Mapping, NamedTuple, NoReturn, Optional, Sequence, Tuple,
                    Union)

from zirofen_host.collect import bounded
from zirofen_host.collect.model import GROUP, OTHERS, OWNER
from zirofen_host.collect.tree import parts_in, table_in, text_in, texts_in, toml_reader
from zirofen_host.fault import Fault
from zirofen_host.judge.host_model import ABSENT, Absent
from zirofen_host.judge.severity import ACCEPTED
from zirofen_host.judge.model import Acceptance, EntryFinding, OpenedFinding, Report, RootInside, Whom
from zirofen_host.judge.finding_lines import CAPABILITY, MOUNT_OPTIONS
from zirofen_host.judge.rules import (ACCEPTABLE, HELD, OPENED, PREMISES, ROOT_INSIDE, RULES, RUNS, Finding, Rule, findings_of, of_held,
                                      of_premise, of_running)
from zirofen_host.judge.standing import severity_of
from zirofen_host.output import opened_back, refused
from zirofen_host.profile import ANYBODY, shown

# of a finding, of a block of one or several, and of a block for some hosts alone
PLACE, KEYS = ("what", "path", "entry"), ("whom", "reason", "until")
FINDINGS, HOST = "findings", "host"
OVER, UNMET, WORSE = "over", "unmet", "worse"
# somebody as a line tells of them
_GROUP = re.compile(r"group (?:.+\(([0-9]+)\)|([0-9]+))\Z")
_USER = re.compile(r"(?:.+\(([0-9]+)\)|uid ([0-9]+)|([0-9]+))\Z")
_MEMBER = re.compile(r"\(([0-9]+)\)(?= |\Z)|(?:(?<= )|^)uid ([0-9]+)|members (unknown)")
_AND_MORE = re.compile(r" and [0-9]+ more\Z")


class Named(NamedTuple):
    """Somebody that an entry may let in; of a group its members, or None for whoever is in it."""
    by: str
    id: Optional[int]
    members: Optional[FrozenSet[int]]

    def covers(self, whom: Whom) -> bool:
        return (self.by, self.id) == (whom.by, whom.id) and (
            self.members is None or whom.members is not None and whom.members <= self.members)


@dataclass(frozen=True)
class Given:
    """What a file accepts."""
    what: str
    path: str
    entry: str
    whom: Tuple[str, ...]
    named: Tuple[Named, ...]
    reason: str
    until: datetime.date
    # the hosts that it is for, where it isn't for all
    hosts: Tuple[str, ...] = ()

    def is_met_by(self, found: Finding) -> bool:
        """Whether a finding is what was accepted: at the same entry, no graver, and letting in nobody else."""
        given = RULES[self.what]
        is_graver = found.rule.severity.rank < given.severity.rank
        # of a container each thing that lets it out is accepted by itself, and so is each option that is missing and each capability
        is_list = found.rule.word in (ROOT_INSIDE, MOUNT_OPTIONS, CAPABILITY)
        is_entry = set(found.entry.split()) <= set(self.entry.split()) if is_list else found.entry == self.entry
        same = self.path in (found.path, found.name) and found.rule.at == given.at and is_entry and kind_of(found.rule) == kind_of(given)
        return same and not is_graver and all(any(each.covers(whom) for each in self.named) for whom in found.whom)


def members_in(text: str) -> FrozenSet[int]:
    return frozenset(ANYBODY if unknown else int(one or other) for one, other, unknown in _MEMBER.findall(text))


def somebody_in(word: str) -> Named:
    """Somebody, as a line tells of them: NAME(UID), uid N, group NAME(N) with or without its members, or everybody."""
    if word == "everybody":
        return Named(OTHERS, None, None)
    name, _, members = word.partition(": ")
    group, user = _GROUP.match(name), _USER.match(word)
    if group and not _AND_MORE.search(members):
        return Named(GROUP, int(group[1] or group[2]), members_in(members) if members else None)
    if group:
        raise ValueError("names all members of a group, or none of them")
    if user is None:
        raise ValueError(f"{word!a} is nobody as a line names them: NAME(UID), uid N, group N, everybody")
    return Named(OWNER, int(user[1] or user[2] or user[3]), None)


def read(file: str) -> Optional[Tuple[Given, ...]]:
    """What a file accepts, or None where there is no such file. Root reads one that root alone can have written."""
    source = f"the acceptances {shown(file)}"
    try:
        text = bytes_of(file).text()
    except FileNotFoundError:
        return None
    except OSError as error:
        raise Fault(f"can't read {source}: {error.strerror}") from None
    except UnicodeDecodeError:
        raise Fault(f"{source} aren't UTF-8") from None
    reader = toml_reader("a file of acceptances")
    try:
        document = reader(text)
        rows = [table_in(each) for each in parts_in(document.get("accept", []))]
        if set(document) - {"accept"}:
            raise ValueError
    except (AttributeError, TypeError, ValueError, RecursionError):
        raise Fault(f"{source} are no TOML with tables [[accept]] alone") from None
    return tuple(each for number, row in enumerate(rows, 1) for each in given_in(row, f"{source}: [[accept]] {number}"))


def bytes_of(file: str) -> bounded.Read:
    with opened_back(file) as opened:
        if not stat.S_ISREG(os.fstat(opened).st_mode):
            raise refused("it is no file")
        found = bounded.read_opened(opened, bounded.ACCEPTANCES)
    if found.is_cut:
        raise OSError(errno.EFBIG, f"it is longer than {bounded.ACCEPTANCES} bytes")
    return found


def given_in(row: Mapping[str, object], place: str) -> Iterator[Given]:
    """What one block accepts, or the fault of its first key that is wrong."""
    def wrong(why: str) -> NoReturn:
        raise Fault(f"{place}: {why}") from None
    wanted = (FINDINGS,) if FINDINGS in row else PLACE
    check_keys(row, (*wanted, *KEYS), (HOST,), wrong)
    try:
        whom, until, reason = texts_of(row["whom"]), day_in(row["until"]), text_in(row["reason"])
        hosts = texts_of(row.get(HOST, []))
        tables = [table_in(each) for each in parts_in(row[FINDINGS])] if FINDINGS in row else [{key: row[key] for key in PLACE}]
        for each in tables:
            check_keys(each, PLACE, (), wrong)
        places = [(text_in(each["what"]), text_in(each["path"]), entry) for each in tables for entry in entries_of(each["entry"])]
    except (TypeError, ValueError):
        wrong("until is a day, as 2027-01-31, whom a text or a list of texts, and each other a text")
    unknown = next((what for what, _, _ in places if what not in ACCEPTABLE), None)
    if unknown is not None:
        wrong(f"{unknown!a} is nothing that can be accepted: {', '.join(ACCEPTABLE)}")
    if not reason.strip():
        wrong("reason is empty")
    try:
        named = tuple(map(somebody_in, whom))
    except ValueError as error:
        wrong(f"whom {error}")
    for what, path, entry in places:
        yield Given(what, path, entry, whom, named, reason, until, hosts)


def check_keys(row: Mapping[str, object], wanted: Sequence[str], more: Sequence[str], wrong: Callable[[str], NoReturn]) -> None:
    missing, unknown = [key for key in wanted if key not in row], sorted(set(row) - {*wanted, *more})
    if missing or unknown:
        wrong(f"{missing[0]} isn't there" if missing else f"{unknown[0]!a} isn't known")


def entries_of(value: object) -> Tuple[str, ...]:
    """The entries of one finding or of several, each as it has it."""
    return (value,) if isinstance(value, str) else texts_in(value)


def texts_of(value: object) -> Tuple[str, ...]:
    """Texts of a list, or the parts of one text as a line has them."""
    return tuple(value.split(", ")) if isinstance(value, str) else texts_in(value)


def day_in(value: object) -> datetime.date:
    if isinstance(value, datetime.datetime) or not isinstance(value, (str, datetime.date)):
        raise TypeError
    return datetime.date.fromisoformat(value) if isinstance(value, str) else value


def applied(report: Report, given: Iterable[Given], today: datetime.date) -> Report:
    """A report with what was accepted, which isn't counted, and with each acceptance as it stands."""
    of_host = [each for each in given if not each.hosts or report.host and report.host in each.hosts]
    by_path: Dict[str, List[Finding]] = {}
    for found in findings_of(report):
        if found.rule.id in ACCEPTABLE:
            for place in {found.path, found.place}:
                by_path.setdefault(place, []).append(found)
    met = [(each, next((found for found in by_path.get(each.path, ()) if each.is_met_by(found)), None)) for each in of_host]
    why = {(found.path, entry_key(found), kind_of(found.rule)): f"{each.reason}, until {each.until}"
           for each, found in met if found and today <= each.until}
    report = replace(report, entries=tuple(accepted_entry(each, why) for each in report.entries),
                     opened=tuple(accepted_opened(each, why) for each in report.opened),
                     root_inside=tuple(accepted_inside(each, why) for each in report.containers) or ABSENT,
                     runs_elsewhere=tuple(replace(each, accepted=why_of(of_running(each), why)) for each in report.running) or ABSENT,
                     held_entries=tuple(replace(each, accepted=why_of(of_held(each), why)) for each in report.held) or ABSENT,
                     premises=tuple(replace(each, accepted=why_of(of_premise(each), why)) for each in report.broken) or ABSENT,
                     acceptances=tuple(standing(each, found, by_path.get(each.path, ()), why, today) for each, found in met))
    return replace(report, status=severity_of(report).status)


Why = Mapping[Tuple[str, str, str], str]


def accepted_entry(each: EntryFinding, why: Why) -> EntryFinding:
    return replace(each, accepted=why.get((each.path, each.entry, ""), ABSENT))


def accepted_opened(each: OpenedFinding, why: Why) -> OpenedFinding:
    return replace(each, accepted=why.get((each.path, each.file, OPENED), ABSENT))


def accepted_inside(each: RootInside, why: Why) -> RootInside:
    return replace(each, accepted=why.get((each.path, " ".join(each.ways), ROOT_INSIDE), ABSENT))


def why_of(found: Finding, granted: Why) -> Union[str, Absent]:
    """Why a finding of a program was accepted, which is one of somebody's by itself."""
    return granted.get((found.path, entry_key(found), kind_of(found.rule)), ABSENT)


def entry_key(found: Finding) -> str:
    """By what findings at one place differ; programs of several users by whose they are too."""
    return f"{found.entry} {found.whom[0].id}" if found.rule.word in (RUNS, HELD, *PREMISES) else found.entry


def standing(each: Given, found: Optional[Finding], beside: Iterable[Finding], granted: Why, today: datetime.date) -> Acceptance:
    """How an acceptance stands: where nothing is what was accepted, what stands there and nobody accepted is what got worse."""
    others = [other for other in beside if (other.path, entry_key(other), kind_of(other.rule)) not in granted]
    # the same entry first
    others.sort(key=lambda other: other.entry != each.entry)
    state = OVER if today > each.until else ACCEPTED if found else WORSE if others else UNMET
    nearest = found or (others[0] if others else None)
    name: Union[str, Absent] = nearest.name if nearest and nearest.name and each.path == nearest.path else ABSENT
    return Acceptance(each.what, each.path, each.entry, each.whom, each.reason, str(each.until), state,
                      nearest.line if nearest else None, name)


def kind_of(rule: Rule) -> str:
    """What findings at one place may be beside one another: an entry's, one that is opened, a container, or a program's."""
    return rule.word if rule.word in (OPENED, ROOT_INSIDE, RUNS, HELD, *PREMISES) else ""
