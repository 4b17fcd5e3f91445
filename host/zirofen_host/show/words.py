"""From a report's words to what they mean, in sentences: answers, guards, and whom an entry lets in."""
import os
import re
from typing import Iterable, List, Mapping, Optional, Sequence, Union

from zirofen_host.ask.guards import GUARDS
from zirofen_host.collect.model import Value
from zirofen_host.files import OF_BYTES
from zirofen_host.judge import limits
from zirofen_host.judge.host_model import Absent
from zirofen_host.judge.model import Report, Whom
from zirofen_host.judge.severity import Severity
from zirofen_host.profile import parent_of

# the gravest first
STANDINGS = (FAULT, ESCAPES, OPENED, UNSETTLED, OWN_FAULT, NOTHING_ASKED, NOT_LOOKED_AT, STALE, LIMITED, ACCEPTED, NOT_ASKED, ABOVE,
             CONTAINED) = tuple(each.value for each in Severity)
# what counts
COUNTED = tuple(each.value for each in Severity if each.status)
# of which nothing is to be shown but where they stand
QUIET = (LIMITED, NOT_ASKED, ABOVE, CONTAINED)
# each with a sign of UTF-8 and one of ASCII
SIGNS = {FAULT: ("∅", "0"), ESCAPES: ("✗", "X"), OPENED: ("!", "!"), UNSETTLED: ("?", "?"), OWN_FAULT: ("∅", "0"),
         NOTHING_ASKED: ("·", "-"), NOT_LOOKED_AT: ("?", "?"), STALE: ("!", "!"), LIMITED: ("~", "~"), ACCEPTED: ("=", "="),
         NOT_ASKED: ("·", "-"), ABOVE: ("↑", "^"), CONTAINED: ("✓", "+")}
MEANINGS = {
    OWN_FAULT: "there is no answer, which is the making of those alone who hold it",
    LIMITED: "nothing was found that breaks it, in an answer that doesn't look at all: its limits are listed here",
    ESCAPES: "operations were found by which somebody breaks it",
    OPENED: "a limit, or where a manager makes what it starts, is open to somebody; seen, and not proved",
    UNSETTLED: "an entry above or at it is open to somebody, and nothing was found that breaks it",
    FAULT: "there is no answer for somebody",
    ACCEPTED: "what lets somebody in was accepted, for a reason and until a day, and isn't counted",
    NOT_ASKED: "nothing was asked of it",
    ABOVE: "it lies in what was handed to the same person, and isn't counted",
    CONTAINED: "nobody who was asked can break it, whatever they do",
}
SHOWN_USERS = 8
SIZES = (("T", 2**40), ("G", 2**30), ("M", 2**20), ("K", 2**10))


def in_order(path: str) -> List[List[Union[str, int]]]:
    """By what cgroups are put in order: name by name, with numbers in them as numbers."""
    return [[int(part) if at % 2 else part for at, part in enumerate(re.split("([0-9]+)", name))] for name in path.split("/")]


def standing_text(kind: str, report: Report) -> str:
    """How something stands, as it is shown: what a limited answer holds to be contained, with its mark."""
    return CONTAINED + limits.mark_of(report) if kind == LIMITED else kind


def name_of(report: Report) -> str:
    """What a report is of: a host, or a text that doesn't name its own, by its file where that has a name."""
    file = next((value for option, value in zip(report.given, report.given[1:]) if option == "--tree" and value != "-"), "")
    return report.host or os.path.basename(file) or "a tree text"


def makers(report: Report) -> Mapping[str, str]:
    """What made a report, as far as it is known: the program, and the helper."""
    found = {"program": report.program, "helper": None if isinstance(report.helper, Absent) else report.helper}
    return {name: line for name, line in found.items() if line}


def made_by(report: Report) -> Iterable[str]:
    return makers(report).values()


def visible(text: str) -> str:
    """A text in which every character can be seen: what has no shape of its own is written as its number."""
    return "".join(each if each.isprintable() else f"\\u{ord(each):04x}" for each in text)


def size(file: str, value: Optional[Value]) -> str:
    """A limit's value, bytes in the largest unit that has it whole."""
    text = " ".join(str(value).split())
    if file.startswith(OF_BYTES) and text.isdigit():
        unit, many = next(((unit, many) for unit, many in SIZES if int(text) and not int(text) % many), ("", 1))
        return f"{int(text) // many}{unit}"
    return text


def noun(number: int, one: str, many: str = "") -> str:
    return one if number == 1 else many or one + "s"


def count(number: int, one: str, many: str = "") -> str:
    return f"{number} {noun(number, one, many)}"


def listed(words: Iterable[str]) -> str:
    """Words as a sentence lists them."""
    words = list(words)
    return " and ".join([", ".join(words[:-1]), words[-1]] if len(words) > 1 else words)


def some(words: Sequence[str], most: int) -> List[str]:
    """The first of some words, and how many more there are."""
    return [*words[:most], f"{len(words) - most} more"] if len(words) > most + 1 else list(words)


def who(whom: Iterable[Whom]) -> str:
    """Whom an entry lets in, in few words."""
    return listed(dict.fromkeys("everybody" if each.by == "others" else f"members of {each.name}" if each.by == "group"
                                else each.name for each in whom))


def is_one(whom: Sequence[Whom]) -> bool:
    """Whether whom an entry lets in is one subject of a sentence."""
    return len(whom) == 1 and whom[0].by != "group"


def verb(whom: Sequence[Whom], one: str, many: str) -> str:
    return one if is_one(whom) else many


def how(each: Whom, most: int = SHOWN_USERS) -> str:
    """By what an entry lets somebody in: subject and verb."""
    if each.by == "others":
        return "everybody writes"
    if each.by == "group":
        users = f" ({', '.join(some(each.users, most))})" if each.users else ""
        return f"members of {each.name}{users} write"
    return f"{each.name} owns"


def where(path: str, subtrees: Sequence[str]) -> str:
    """How a cgroup stands to the subtrees that an entry of it opens."""
    if len(subtrees) > 1:
        return "is theirs or above them" if path in subtrees else "is above them"
    if path == subtrees[0]:
        return "is the subtree's top"
    return "is its parent" if parent_of(subtrees[0]) == path else "is above it"


def named(entry: str) -> str:
    return "the directory" if entry == "dir" else entry


def guard(line: str) -> str:
    """What the guard means that an unsettled answer names."""
    words = line.split(" ")
    found = GUARDS.get(words[1]) if len(words) == 3 else None
    return found.answer.format(path=words[2]) if found and found.answer else line


def operation(line: str) -> str:
    """What an operation, or an answer's first line, does, without the names that it does it with."""
    return " ".join(word for word in line.split(" ") if "/" not in word and not word.isdigit())
