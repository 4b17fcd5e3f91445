"""From processes of root's in a container to whether cgroup files are kept from them, by what, and what lets them out.

Seen on the host, and not proved. It speaks of cgroup files alone, and of nothing else that such a process gets at.
"""
from typing import Iterable, Iterator, NamedTuple, Optional, Sequence, Tuple

from zirofen_host.collect.inside import ADMIN, MODULE, RAWIO, SEARCH
from zirofen_host.collect.model import CgroupMount, Inside
from zirofen_host.judge import hierarchy
from zirofen_host.judge.checked import Checked
from zirofen_host.judge.finding_lines import NSDELEGATE
from zirofen_host.judge.model import RootInside
from zirofen_host.profile import shown, text_of

ALL_CAPABILITIES = "it has all capabilities that let one out (as --privileged gives)"
NOTHING_TO_WRITE = "it writes no mount of cgroups, and has no CAP_SYS_ADMIN"


class Way(NamedTuple):
    """What lets a container out, or would if nothing else held it: a word for it, what it is, and what to set."""
    word: str
    sentence: str
    # a command on the host, or else what its manager sets for the container: a capability that it goes without, or another thing
    change: Optional[str] = None
    capability: Optional[str] = None
    setting: Optional[str] = None


def by_capability(name: str, sentence: str) -> Way:
    return Way(f"CAP_{name}", f"{sentence} (CAP_{name})", capability=f"CAP_{name}")


def beside(found: Inside) -> Iterator[Way]:
    """What lets it out whatever holds its cgroup files."""
    if found.is_cut:
        yield Way("unknown", "not all of it was looked at", setting="fewer mounts or fewer cgroups")
    if MODULE in found.capabilities:
        yield by_capability(MODULE, "it loads code into the kernel")
    if RAWIO in found.capabilities:
        yield by_capability(RAWIO, "it writes the machine's memory")
    if ADMIN in found.capabilities:
        # nsdelegate keeps the limits of the innermost cgroup namespace's root alone: of one inside of its own
        yield by_capability(ADMIN, "it mounts cgroups and makes cgroup namespaces as it likes")
    if found.has_host_pids:
        # by the root of one that has no capability which it hasn't, as root or as whoever it becomes
        yield Way("host-pids", "it gets at what the host's processes see (the host's PIDs)", setting="a PID namespace of its own")


def by_mounts(found: Inside) -> Iterator[Way]:
    """What is missing for it to have nothing that it writes by."""
    writable = [mount for mount in found.mounts if mount.is_writable]
    if writable:
        yield Way("mount", f"it writes {tops_of(writable)}", setting=f"{places_of(writable)} read-only")


def by_namespace(found: Inside, remount: Optional[str]) -> Iterator[Way]:
    """What is missing for nsdelegate to hold it; where that is off, how it is brought back."""
    if remount:
        yield Way(NSDELEGATE, "nsdelegate is off", change=remount)
    if not found.has_own_namespace:
        yield Way("namespace", "its cgroup namespace is the host's", setting="a cgroup namespace of its own")
    above = [each for each in found.mounts if each.is_above]
    if above:
        yield Way("above", f"it sees what is above its cgroup namespace: {tops_of(above)}", setting=f"no mount at {places_of(above)}")
    if SEARCH in found.capabilities:
        yield by_capability(SEARCH, "it opens what is above by a handle")


def places_of(mounts: Iterable[CgroupMount]) -> str:
    return ", ".join(shown(each.place) for each in mounts)


def tops_of(mounts: Iterable[CgroupMount]) -> str:
    """Which cgroup stands where."""
    return ", ".join(f"{shown(text_of(each.top))} at {shown(each.place)}" for each in mounts)


def judged(found: Inside, remount: Optional[str]) -> RootInside:
    """A container, with what holds it or else what lets it out. To set is what lets it out in any case, and the less of what either
    of the two that could hold it is missing."""
    free, mounts, spaces = list(beside(found)), list(by_mounts(found)), list(by_namespace(found, remount))
    kept = [*([] if spaces else [NSDELEGATE]), *([] if mounts else [NOTHING_TO_WRITE])]
    if kept and not free:
        return RootInside(text_of(found.path), found.processes, found.by, True, tuple(kept), (), (), None)
    ways = [*free, *([] if kept else [*mounts, *spaces])]
    wanted = [*free, *([] if kept else min(spaces, mounts, key=len))]
    return RootInside(text_of(found.path), found.processes, found.by, False, tuple(sentences_of(ways)),
                      tuple(way.word for way in ways), tuple(way.change for way in wanted if way.change), setting_of(wanted))


def has_all(ways: Iterable[Way]) -> bool:
    """Whether each capability that lets a container out is among what does."""
    return {f"CAP_{name}" for name in (MODULE, RAWIO, ADMIN, SEARCH)} <= {way.capability for way in ways}


def sentences_of(ways: Sequence[Way]) -> Iterator[str]:
    """What lets a container out; all capabilities that do are one thing."""
    if has_all(ways):
        yield ALL_CAPABILITIES
    yield from (way.sentence for way in ways if not way.capability or not has_all(ways))


def setting_of(wanted: Sequence[Way]) -> Optional[str]:
    """What a container's manager sets."""
    capabilities = [way.capability for way in wanted if way.capability]
    without = f"without {'--privileged, which gives it ' if has_all(wanted) else ''}{', '.join(capabilities)}"
    found = [*([without] if capabilities else []),
             *dict.fromkeys(way.setting for way in wanted if way.setting)]
    return "; ".join(found) or None


def findings(checked: Checked) -> Tuple[RootInside, ...]:
    snapshot = checked.snapshot
    remount = None if NSDELEGATE in snapshot.mount_options else hierarchy.remount(snapshot)
    return tuple(judged(each, remount) for each in snapshot.inside)
