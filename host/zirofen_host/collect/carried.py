"""From what a tree has no place for to comments of a text, and back: one schema of records, read by name.

A comment that begins with `#= ` and is an object of JSON with one key of this schema is a record; any other is a comment. The first
record names the version of this form. Version 1, of 0.2.0, had none, and its records were lists in the order of this schema.
"""
import json
import re
from dataclasses import dataclass
from operator import attrgetter
from typing import Any, Callable, Dict, Generic, Iterable, Iterator, List, Mapping, NamedTuple, Optional, Sequence, Tuple, TypeVar

from zirofen_host.collect.accounts import is_id
from zirofen_host.collect.model import (Account, CgroupMount, Covered, DescriptorKind, Entry, FurtherMount, Group, HeldEntry, Inside,
                                        PrivateMount, Process, Range, Scope, Unheld, User)
from zirofen_host.collect.notes import CarriedNote, Note
from zirofen_host.collect.reasons import CHANGED, CarriedOfSomebody, CarriedReason, Reason
from zirofen_host.collect.tree import number_in, parts_in, table_in, text_in, typed
from zirofen_host.options import Options
from zirofen_host.profile import TEXT_FORMATS, CgroupPath, path_of, text_of

MARK = "#= "
# the version of this form
VERSION = 2
# of a text that tells where threads run and what processes hold
DESCRIPTORS = "threads and descriptors"
_ENTRY = re.compile(r"([0-9]{1,10}):([0-9]{1,10}):([0-7]{3,4})\Z")

Of = TypeVar("Of")


@dataclass(frozen=True)
class Value(Generic[Of]):
    """A kind of values: how one is written, and how it is read. What is none is a TypeError or a ValueError."""
    to_json: Callable[[Of], object]
    from_json: Callable[[object], Of]


class Field(NamedTuple):
    """What stands in a record under a name, and which attribute of what is written it is, where that is called otherwise."""
    name: str
    value: Value[Any]
    attribute: str = ""


class Record(Generic[Of]):
    """A kind of records, by the key of each."""

    def __init__(self, key: str, make: Callable[..., Of], *fields: Field) -> None:
        self.key, self.fields = key, fields
        self.make: Callable[..., Of] = make

    def to_json(self, each: Any) -> object:
        return {name: value.to_json(attrgetter(attribute or name)(each)) for name, value, attribute in self.fields}

    def from_json(self, value: object) -> Of:
        """What is made of a record; what has further names is of a later version, and a list is of version 1."""
        found = self.named(value)
        return self.make(*(field.value.from_json(found[field.name]) for field in self.fields))

    def named(self, value: object) -> Mapping[str, object]:
        if isinstance(value, dict):
            return value
        if len(parts_in(value)) != len(self.fields):
            raise ValueError
        return dict(zip((field.name for field in self.fields), parts_in(value)))

    def line(self, each: Any) -> str:
        return f"{MARK}{json.dumps({self.key: self.to_json(each)}, separators=(',', ':'))}\n"


class Single(Record[Of]):
    """A kind of records that have one value, without a name."""

    def __init__(self, key: str, value: Value[Of]) -> None:
        super().__init__(key, value.from_json)
        self.value = value

    def to_json(self, each: Any) -> object:
        return self.value.to_json(each)

    def from_json(self, value: object) -> Of:
        return self.make(value)


class Host(NamedTuple):
    """The host itself, of which all else that is carried is."""
    host: Optional[str]
    kernel: Optional[str]
    time: Optional[str]
    mount: str
    options: Tuple[str, ...]
    delegate: Tuple[str, ...]


class CarriedCgroup(NamedTuple):
    """What the tree has no place for of a cgroup: other files, other limits, and marks."""
    path: CgroupPath
    files: Mapping[str, Entry]
    values: Mapping[str, str]
    marks: Mapping[str, bytes]


class Changing(NamedTuple):
    """What changed all the time or can't be read."""
    path: CgroupPath
    why: Reason


class Runs(NamedTuple):
    """What a process that runs elsewhere tells beside the others."""
    pid: int
    program: str
    threads: int
    is_headless: bool
    threads_left: int
    places: Tuple[CgroupPath, ...]


def id_of(number: object) -> int:
    if not is_id(str(number)) or isinstance(number, bool):
        raise ValueError
    return int(str(number))


def entry_of(word: object) -> Entry:
    found = _ENTRY.match(text_in(word))
    if found is None:
        raise ValueError
    uid, gid, mode = found.groups()
    return Entry(id_of(int(uid)), id_of(int(gid)), int(mode, 8))


def reason_of(sentence: object) -> Reason:
    """A reason, of which a text carries the sentence, which says of whom it is."""
    if str(sentence) == str(CHANGED):
        return CHANGED
    return (CarriedOfSomebody if str(sentence).startswith("uid ") else CarriedReason)(str(sentence))


def note_of(kind: str, place: str, text: str) -> Note:
    # a place is a path, or one as it is shown
    path_of(place)
    return CarriedNote(place, kind, text)


def process_of(pid: int, uid: int, effective: int, gids: Tuple[int, ...], name: str, capabilities: Tuple[str, ...]) -> Process:
    return Process(pid, uid, User(effective, gids), False, name, capabilities)


def options_of(only: Optional[CgroupPath], no_processes: bool, tree_format: int, plain_folder: bool) -> Options:
    return Options(only=only, no_processes=no_processes, tree_format=TEXT_FORMATS[tree_format].number, plain_folder=plain_folder)


def perhaps(value: Value[Of]) -> Value[Optional[Of]]:
    return Value(lambda each: None if each is None else value.to_json(each), lambda each: None if each is None else value.from_json(each))


def many(value: Value[Of]) -> Value[Tuple[Of, ...]]:
    return Value(lambda each: list(map(value.to_json, each)), lambda each: tuple(map(value.from_json, parts_in(each))))


def by_name(value: Value[Of]) -> Value[Mapping[str, Of]]:
    return Value(lambda each: {name: value.to_json(of) for name, of in each.items()},
                 lambda each: {name: value.from_json(of) for name, of in table_in(each).items()})


NUMBER, ID, TEXT = Value[int](int, number_in), Value[int](int, id_of), Value[str](str, text_in)
# a text of which another value is taken for what stands for it
ANY_TEXT = Value[str](str, str)
FLAG = Value[bool](bool, lambda each: typed(bool, each))
PATH = Value[CgroupPath](text_of, lambda each: path_of(text_in(each)))
ENTRY = Value[Entry](lambda each: f"{each.uid}:{each.gid}:{each.mode:03o}", entry_of)
COUNT = Value[int](int, lambda each: id_of(number_in(each) - 1) + 1)
BYTES = Value[bytes](lambda each: each.decode("latin-1"), lambda each: text_in(each).encode("latin-1"))
REASON = Value[Reason](str, reason_of)
MOUNT_INSIDE = Record("", CgroupMount, Field("place", TEXT), Field("top", PATH), Field("is_writable", FLAG), Field("is_above", FLAG))

FORM = Single("zirofen-host", NUMBER)
LOOKED, SHARING = Single("looked", many(TEXT)), Single("sharing", PATH)
HOST = Record("about", Host, *(Field(name, perhaps(TEXT)) for name in ("host", "kernel", "time")), Field("mount", TEXT),
              Field("options", many(TEXT)), Field("delegate", Value[Tuple[str, ...]](list, lambda each: many(TEXT).from_json(each or []))))
CGROUP = Record("cgroup", CarriedCgroup, Field("path", PATH), Field("files", by_name(ENTRY)), Field("values", by_name(ANY_TEXT)),
                Field("marks", by_name(BYTES)))
ACCOUNT = Record("account", Account, Field("name", ANY_TEXT), Field("uid", ID), Field("gid", ID))
GROUP = Record("group", Group, Field("gid", ID), Field("members", many(ANY_TEXT)), Field("name", ANY_TEXT))
CHANGING = Record("changing", Changing, Field("path", PATH), Field("why", REASON))
COVERED = Record("covered", Covered, Field("path", PATH), Field("file", TEXT), Field("type", TEXT))
HELD = Record("held", HeldEntry, Field("uid", ID), Field("path", PATH), Field("file", TEXT), Field("pid", NUMBER), Field("program", TEXT),
              Field("holding", Value[DescriptorKind](lambda each: each.value, lambda each: DescriptorKind(text_in(each)))))
UNHELD = Record("unheld", Unheld, Field("uid", ID), Field("path", perhaps(PATH)),
                Field("why", Value[Reason](str, lambda each: CarriedReason(text_in(each)))))
INSIDE = Record("inside", Inside, Field("path", PATH), Field("processes", NUMBER), Field("by", many(TEXT)),
                Field("mounts", many(Value(MOUNT_INSIDE.to_json, MOUNT_INSIDE.from_json))), Field("capabilities", many(TEXT)),
                Field("own_namespace", FLAG, "has_own_namespace"), Field("host_pids", FLAG, "has_host_pids"), Field("is_cut", FLAG))
MOUNT = Record("mount", FurtherMount, Field("place", TEXT), Field("top", PATH), Field("folders", many(ENTRY)), Field("is_known", FLAG))
NOTE = Record("note", note_of, Field("kind", ANY_TEXT), Field("place", ANY_TEXT), Field("text", ANY_TEXT))
OPTIONS = Record("options", options_of, Field("only", perhaps(PATH)), Field("no_processes", FLAG),
                 Field("tree_format", NUMBER, "text_format.number"), Field("plain_folder", FLAG))
PRIVATE = Record("private", PrivateMount, Field("uid", ID), Field("place", TEXT), Field("top", PATH))
PROCESS = Record("process", process_of, Field("pid", NUMBER), Field("uid", NUMBER), Field("effective_uid", NUMBER, "user.uid"),
                 Field("groups", many(NUMBER), "user.gids"), Field("name", TEXT), Field("capabilities", many(TEXT)))
RUNS = Record("runs", Runs, Field("pid", NUMBER), Field("program", TEXT), Field("threads", NUMBER), Field("is_headless", FLAG),
              Field("threads_left", NUMBER), Field("places", many(PATH)))
SCOPE = Record("scope", Scope, Field("path", PATH), Field("engine", TEXT), Field("id", TEXT), Field("name", perhaps(TEXT)),
               Field("holder", perhaps(NUMBER)))
RANGE = Field("owner", ANY_TEXT), Field("first", ID), Field("count", COUNT)
SUBUID, SUBGID = Record("subuid", Range, *RANGE), Record("subgid", Range, *RANGE)
RECORDS: Tuple[Record[Any], ...] = (FORM, HOST, CGROUP, LOOKED, SHARING, ACCOUNT, CHANGING, COVERED, GROUP, HELD, INSIDE, MOUNT, NOTE,
                                    OPTIONS, PRIVATE, PROCESS, RUNS, SCOPE, SUBGID, SUBUID, UNHELD)
SCHEMA = {record.key: record for record in RECORDS}


def text_of_lines(lines: Iterable[str]) -> str:
    """Records behind one with the version; nothing where there are none."""
    found = "".join(lines)
    return f"\n{FORM.line(VERSION)}{found}" if found else ""


class Line(NamedTuple):
    """A record of a text: the number of its line, its kind, or None where that is a later version's, and its value."""
    number: int
    record: Optional[Record[Any]]
    value: object


def records_in(text: str) -> Iterator[Line]:
    """The records of a text. What isn't the helper's is a comment."""
    for number, line in enumerate(text.split("\n"), 1):
        if line.startswith(MARK):
            try:
                found = json.loads(line[len(MARK):])
            except (ValueError, RecursionError):
                continue
            if isinstance(found, dict) and len(found) == 1:
                ((key, value),) = found.items()
                yield Line(number, SCHEMA.get(key), value)


class Records:
    """The records of a text, each read by its kind; those of later versions, which aren't known here, are counted."""

    def __init__(self) -> None:
        self.found: Dict[str, List[Any]] = {}
        self.unknown = 0

    def take(self, line: Line) -> Any:
        """Reads a record, and gives what is made of it."""
        if line.record is None:
            self.unknown += 1
            return None
        made = line.record.from_json(line.value)
        self.found.setdefault(line.record.key, []).append(made)
        return made

    def all(self, record: Record[Of]) -> Sequence[Of]:
        """All that is made of the records of a kind, in their order."""
        return self.found.get(record.key, ())

    def last(self, record: Record[Of]) -> Optional[Of]:
        return self.all(record)[-1] if self.all(record) else None
