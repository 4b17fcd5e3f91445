"""From an escape's operations to sentences, one for each, and to what the escape breaks.

The operations are carried out as far as the sentences need it.
"""
from dataclasses import dataclass
from typing import Callable, Dict, List, Mapping, NamedTuple, Optional, Sequence, Tuple, Union

from zirofen_host.collect.model import Value
from zirofen_host.files import NUMBER_FILES
from zirofen_host.profile import is_inside, parent_of
from zirofen_host.show.view import Host
from zirofen_host.show.words import listed, size

CROSSED, LIMITS, GONE, OVER, UNKNOWN = "crossed", "limits", "gone", "over", "unknown"
# a verb in front of the subtree's path
VERBS = {CROSSED: "moves a process over the edge of", LIMITS: "changes a limit of", GONE: "removes"}
# plain words and, as pairs, what is set in another type
Word = Union[str, Tuple[str, str]]
Sentence = List[Word]


class Move(NamedTuple):
    pid: int
    before: str
    behind: str


class Change(NamedTuple):
    """A limit that comes has no value before, and one that goes has none behind."""
    file: str
    before: Optional[Value]
    behind: Optional[Value]


@dataclass(frozen=True)
class Breaks:
    """What an escape does to a subtree: over its edge goes a process, or its limits change."""
    kind: str
    move: Optional[Move] = None
    changes: Tuple[Change, ...] = ()

    @property
    def verb(self) -> str:
        return VERBS.get(self.kind, "breaks")


@dataclass(frozen=True)
class Steps:
    breaks: Breaks
    sentences: Tuple[Sentence, ...]


class Describer:
    """Where processes stand and what is broken, while operations are described."""

    def __init__(self, host: Host, subtree: str) -> None:
        self.host, self.subtree = host, subtree
        self.at: Dict[int, str] = {}
        self.breaks = Breaks(UNKNOWN)

    def describe(self, words: List[str]) -> Sentence:
        """One operation; what is none stands as it is."""
        describe = DESCRIPTIONS.get(words[0])
        try:
            return describe(self, words[1:]) if describe else [("code", " ".join(words))]
        except (ValueError, IndexError):
            return [("code", " ".join(words))]

    def chmod(self, words: Sequence[str]) -> Sentence:
        path, entry, mode = words
        name: Word = "the directory" if entry == "dir" else ("code", entry)
        return ["give ", name, " of ", ("code", path), f" the mode {mode}, which lets its owner write it"]

    def move(self, words: Sequence[str]) -> Sentence:
        pid, path = words
        process = self.host.processes.get(int(pid))
        before = self.at.get(int(pid), process.at if process else None)
        self.at[int(pid)] = path
        name = f" ({process.name})" if process else ""
        start: Sentence = [" from ", ("code", before)] if before else []
        sentence: Sentence = [f"move process {pid}{name}", *start, " to ", ("code", path)]
        if before and is_inside(before, self.subtree) != is_inside(path, self.subtree):
            self.breaks = Breaks(CROSSED, Move(int(pid), before, path))
            sentence.append(f": it goes {'into' if is_inside(path, self.subtree) else 'out of'} the subtree")
        return sentence

    def set(self, words: Sequence[str]) -> Sentence:
        path, file, *parts = words
        value = " ".join(parts)
        before = self.host.value(path, file)
        if path == self.subtree:
            self.breaks = Breaks(LIMITS, changes=(Change(file, before, value),))
        is_now = [f" from {size(file, before)}"] if before not in (None, "") else []
        return ["set ", ("code", file), " of ", ("code", path), *is_now, f" to {size(file, value)}"]

    def control(self, words: Sequence[str]) -> Sentence:
        path, *changes = words
        names = {each[1:] for each in changes}
        if path == parent_of(self.subtree):
            self.breaks = Breaks(LIMITS, changes=tuple(
                Change(file, self.host.value(self.subtree, file), None if f"-{limit.controller}" in changes else limit.usual)
                for file, limit in NUMBER_FILES.items() if limit.controller in names))
        on = listed(each[1:] for each in changes if each[0] == "+")
        off = listed(each[1:] for each in changes if each[0] == "-")
        changed = listed([*([f"enable {on}"] if on else []), *([f"disable {off}"] if off else [])])
        return [changed, " in ", ("code", path), ": limits of what is below come or go"]

    def make(self, words: Sequence[str]) -> Sentence:
        path, = words
        return ["make the cgroup ", ("code", path)]

    def remove(self, words: Sequence[str]) -> Sentence:
        path, = words
        if path == self.subtree:
            self.breaks = Breaks(GONE)
        return ["remove the cgroup ", ("code", path)]

    def fork(self, words: Sequence[str]) -> Sentence:
        parent, child = words
        return [f"have process {parent} start another, {child}"]

    def exit(self, words: Sequence[str]) -> Sentence:
        pid, = words
        return [f"end process {pid}"]


DESCRIPTIONS: Mapping[str, Callable[[Describer, Sequence[str]], Sentence]] = {
    "chmod": Describer.chmod, "move": Describer.move, "set": Describer.set, "control": Describer.control, "mkdir": Describer.make,
    "rmdir": Describer.remove, "fork": Describer.fork, "exit": Describer.exit}


def steps_of(host: Host, subtree: str, lines: Sequence[str]) -> Steps:
    """The operations by which a subtree is broken; without any it is over its own limits."""
    describer = Describer(host, subtree)
    sentences = tuple(describer.describe(line.split(" ")) for line in lines)
    return Steps(describer.breaks if lines else Breaks(OVER), sentences)
