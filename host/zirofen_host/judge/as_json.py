"""From a report's dataclasses to JSON, and back: one key for each field, in their order."""
import dataclasses
import functools
import json
import re
import typing
from typing import Annotated, Dict, Iterator, List, Mapping, Tuple, Type, TypeVar, Union, cast

from zirofen_host.judge.host_model import ABSENT, NO_KEY, Absent
from zirofen_host.judge.model import Report

Json = Union[None, bool, int, str, List["Json"], Dict[str, "Json"]]
Made = TypeVar("Made")
# in JSON a pair of surrogates, one alone (a byte that is in no UTF-8, which strict readers refuse), and what else is escaped
_ESCAPED = re.compile(r"\\u[dD][89abAB]..\\u[dD][c-fC-F]..|(\\u[dD][89a-fA-F]..)|\\.")
# by class and field, what stands in the place of a key that isn't there
Lacking = Mapping[Tuple[type, str], object]


class Wrong(Exception):
    """A place where a value isn't of the type that it should have."""


def parts_of(report: Report) -> Iterator[str]:
    """The JSON of a report, a part after another. What is frozen holds no circle, and looking for one costs a third."""
    for part in json.JSONEncoder(indent=1, default=keys_of, check_circular=False).iterencode(report):
        yield _ESCAPED.sub(with_surrogate_shown, part) if "\\ud" in part else part


def with_surrogate_shown(found: "re.Match[str]") -> str:
    """What is escaped in JSON, but for a surrogate alone, which is written as a text can be."""
    return f"\\{found[0]}" if found[1] else found[0]


def keys_of(made: object) -> Dict[str, object]:
    """The keys of a dataclass, of which those that are ABSENT have none."""
    if not dataclasses.is_dataclass(made):
        raise TypeError(f"a report has no {type(made).__name__}")
    kind: type = type(made)
    values = vars(made)
    return {name: values[name] for name, _, _ in fields_of(kind) if values[name] is not ABSENT}


@functools.lru_cache(maxsize=None)
def fields_of(kind: type) -> Tuple[Tuple[str, object, bool], ...]:
    """The name and the type of each field that has a key, and whether that has to be there."""
    hints = typing.get_type_hints(kind, include_extras=True)
    return tuple((each.name, hints[each.name], each.default is dataclasses.MISSING) for each in dataclasses.fields(kind)
                 if each.metadata != NO_KEY)


def made_of(kind: Type[Made], value: Json, place: str, lacking: Lacking) -> Made:
    """A dataclass by its value; what isn't one is Wrong. Keys that it has no field for are passed over."""
    if not isinstance(value, dict):
        raise Wrong(place)
    found, made = {}, cast(type, kind)
    for name, hint, is_wanted in fields_of(made):
        if name in value:
            found[name] = part_of(hint, value[name], f"{place}.{name}", lacking)
        elif (kind, name) in lacking:
            found[name] = lacking[kind, name]
        elif is_wanted:
            raise Wrong(f"{place}.{name}")
    return kind(**found)


def part_of(hint: object, value: Json, place: str, lacking: Lacking) -> object:
    """What is in a dataclass, by its type."""
    origin, within = typing.get_origin(hint), typing.get_args(hint)
    if origin is Annotated:
        part = part_of(within[0], value, place, lacking)
        if not within[1].admits(part):
            raise Wrong(place)
        return part
    if origin is Union:
        return one_of(within, value, place, lacking)
    if origin is tuple and isinstance(value, list):
        return tuple(part_of(within[0], each, f"{place}[{at}]", lacking) for at, each in enumerate(value))
    if isinstance(origin, type) and issubclass(origin, Mapping) and isinstance(value, dict):
        return {key: part_of(within[1], each, f"{place}.*", lacking) for key, each in value.items()}
    if isinstance(hint, type) and dataclasses.is_dataclass(hint):
        return made_of(hint, value, place, lacking)
    if isinstance(hint, type) and type(value) is hint:
        return value
    raise Wrong(place)


def one_of(hints: Tuple[object, ...], value: Json, place: str, lacking: Lacking) -> object:
    """The first of some types that a value has; the fault of the first is raised where it has none."""
    wrong = []
    for hint in hints:
        if hint is not Absent:
            try:
                return part_of(hint, value, place, lacking)
            except Wrong as each:
                wrong.append(each)
    raise wrong[0]
