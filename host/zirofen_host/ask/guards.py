"""From a guard's word or an entry's name to its row: on which entries it stands, and what it means where it fails."""
from dataclasses import dataclass
from typing import Dict, Tuple

from zirofen_host.files import CONTROL, DIRECTORY, LIMIT_FILES, PROCS


@dataclass(frozen=True)
class Guard:
    """A guard, or what stands for one where no entry is open."""
    word: str
    # the entries on which it stands, and where there is none what is said in the place of one
    entries: Tuple[str, ...]
    no_entry: str
    # what it lets happen, as a finding says it
    finding: str
    # what whoever writes its entry does, as it is said of one user
    deed: str
    # what an answer says that names it and the path of its entry
    answer: str


COMMON_ANCESTOR = Guard(
    "common-ancestor", (PROCS,), "", "somebody writes cgroup.procs above a subtree, and so moves processes over its edge",
    "moves processes over the subtree's edge, into what else they write cgroup.procs of",
    "by cgroup.procs of {path} processes are moved into and out of the subtree")
LIMIT_FILE = Guard(
    "limit-file", tuple(LIMIT_FILES), "", "somebody writes a limit file of a subtree, and so lifts the limit",
    "sets this limit", "by a limit file of the subtree its limit is set")
PARENT_CONTROL = Guard(
    "parent-control", (CONTROL,), "", "somebody writes cgroup.subtree_control above a subtree, and so takes its limit files away",
    "takes limit files of the subtree away, and brings them", "by cgroup.subtree_control of {path} the subtree's limits come and go")
PARENT_DIRECTORY = Guard(
    "parent-dir", (DIRECTORY,), "", "somebody writes the directory above a subtree, and so removes it or makes others beside it",
    "removes the subtree where it is empty, and makes others beside it",
    "by the directory of {path} the subtree is removed, or others are made beside it")
ALREADY_OVER = Guard(
    "already-over", (), "The subtree is over its own limits already",
    "a subtree has more cgroups or levels than its own limits let it have", "",
    "the subtree has more cgroups, or more levels, than its own limits allow")
UNKNOWN_GUARD = Guard(
    "unknown", (), "This helper finds no entry for what the program said",
    "the program says it, and this helper finds no entry that it rests on", "", "")
GUARDS: Dict[str, Guard] = {
    guard.word: guard for guard in (COMMON_ANCESTOR, LIMIT_FILE, PARENT_CONTROL, PARENT_DIRECTORY, ALREADY_OVER, UNKNOWN_GUARD)}
# what lets somebody in where no entry does
OVER, UNKNOWN = ALREADY_OVER.word, UNKNOWN_GUARD.word
# the guard that stands on an entry, by the entry's name; what is no entry has its own word
GUARD_AT: Dict[str, Guard] = {entry: guard for guard in GUARDS.values() for entry in guard.entries or (guard.word,)}
# what whoever writes an entry of a subtree itself does by it
IN_SUBTREE = {DIRECTORY: "makes and removes cgroups here", PROCS: "moves processes into it",
              CONTROL: "enables and disables controllers here, and so limit files below"}
