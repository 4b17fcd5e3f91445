"""From the mounts of the hierarchy to findings: its options, where else it is mounted, and what covers its files.

Seen on the host, and not proved.
"""
import re
import shlex
from typing import Iterator, Sequence, Tuple

from zirofen_host.collect.model import OTHERS, Entry, FurtherMount, Snapshot, User
from zirofen_host.judge.checked import Checked
from zirofen_host.judge.finding_lines import MOUNT_OPTIONS, MOUNTED_OVER, NSDELEGATE, some
from zirofen_host.judge.model import PremiseFinding, Whom
from zirofen_host.profile import ANYBODY, is_root, path_of, shown, text_of

RECURSIVE = "memory_recursiveprot"
# what a mount without an option lets happen
WITHOUT = {NSDELEGATE: "who has a cgroup namespace sets the limits at its top and moves processes over it",
           RECURSIVE: "memory.low and memory.min of a cgroup don't reach what is below it"}
CAUSES = ("docker run --cgroupns=host of anything takes both off the whole host, and so does any mount -t cgroup2 in its cgroup "
          "namespace")
EFFECT = ("containers run on: from then on none sets a limit at the top of its cgroup namespace or moves a process over it, what it has "
          "set stays, and memory.low protects what is below it again")
# whose cgroup the service manager of a host runs in
MANAGERS = path_of("/init.scope")
# the first kernel with that option, and one that no older manager runs on, which mounts without it
KNOWS_RECURSIVE, EXPECTS_RECURSIVE = (5, 7), (6, 0)
_RELEASE = re.compile(r"([0-9]{1,4})\.([0-9]{1,4})")
EVERYBODY = Whom(OTHERS, None, "everybody", ())


def is_since(snapshot: Snapshot, version: Tuple[int, int]) -> bool:
    """Whether a kernel is of a version or later, or isn't known."""
    found = _RELEASE.search(snapshot.about.kernel or "")
    return found is None or (int(found[1]), int(found[2])) >= version


def is_systemds(snapshot: Snapshot) -> bool:
    """Whether the manager of a host is systemd, which runs in a cgroup of its own."""
    return MANAGERS in snapshot.cgroups


def missing_options(snapshot: Snapshot) -> Sequence[str]:
    """The options with which the manager mounts the hierarchy, and that it hasn't; none where they aren't known."""
    if not snapshot.mount_options or not is_systemds(snapshot):
        return ()
    has_one = NSDELEGATE in snapshot.mount_options
    wanted = [NSDELEGATE, *([RECURSIVE] if is_since(snapshot, EXPECTS_RECURSIVE if has_one else KNOWS_RECURSIVE) else [])]
    return [option for option in wanted if option not in snapshot.mount_options]


def remount(snapshot: Snapshot) -> str:
    """The command that brings the options back in one remount: one that names a part of them may take the others off."""
    is_recursive = RECURSIVE in snapshot.mount_options or is_systemds(snapshot) and is_since(snapshot, KNOWS_RECURSIVE)
    return f"mount -o remount,{','.join([NSDELEGATE, *([RECURSIVE] if is_recursive else [])])} {shlex.quote(snapshot.mount)}"


def findings(checked: Checked) -> Iterator[PremiseFinding]:
    snapshot = checked.snapshot
    missing = missing_options(snapshot)
    if missing:
        sharing = [checked.container_text(path) for path in snapshot.in_hosts_namespace]
        lets = "; ".join(WITHOUT[each] for each in missing)
        sentences = [f"{' and '.join(missing)} {'are' if len(missing) > 1 else 'is'} off, so that {lets}", CAUSES,
                     *([f"{some(sharing)} {'has' if len(sharing) == 1 else 'have'} that namespace now"] if sharing else [])]
        yield PremiseFinding(MOUNT_OPTIONS, "/", " ".join(missing), (EVERYBODY,), ". ".join(sentences), (), (remount(snapshot),), EFFECT)
    for each in snapshot.covered:
        place = f"{'' if is_root(each.path) else text_of(each.path)}/{each.file}"
        of_type = f" ({each.type})" if each.type else ""
        yield PremiseFinding(
            MOUNTED_OVER, text_of(each.path), each.file, (EVERYBODY,),
            f"something is mounted over {shown(snapshot.mount + place)}{of_type}: what the cgroup has there isn't known", (),
            (f"umount {shlex.quote(snapshot.mount + place)}",), None, checked.within(each.path))


def reached_by(checked: Checked, mount: FurtherMount) -> str:
    """Who gets to a mount by the folders on the way, as far as users are known."""
    if not mount.is_known:
        return "whomever the file systems on the way let in"
    if not mount.folders:
        return "everybody"
    delegations = checked.questions.delegations
    users = {user for folder in mount.folders for user in (*delegations.users("uid", folder.uid), *delegations.users("gid", folder.gid),
                                                           User(folder.uid, ()))}
    found = sorted({user.uid for user in users if user.uid not in (0, ANYBODY) and all(searches(user, folder) for folder in mount.folders)})
    return some([checked.names.user(uid) for uid in found]) if found else "root alone"


def searches(user: User, directory: Entry) -> bool:
    return bool(directory.mode >> {"owner": 6, "group": 3}.get(user.class_of(directory), 0) & 0o1)


def around(checked: Checked, place: str, uid: int) -> Tuple[str, ...]:
    """Where else what is inside of a cgroup is mounted, also by somebody themselves."""
    person = checked.makers.charged_user(uid)
    found = [(each.top, shown(each.place)) for each in checked.snapshot.mounts]
    found += [(each.top, f"{shown(each.place)} in a mount namespace of theirs") for each in checked.snapshot.private if each.uid == person]
    prefix = place.rstrip("/") + "/"
    return tuple(at for top, at in found if (text_of(top).rstrip("/") + "/").startswith(prefix))
