"""From a part of a host to a check of it, in a process of its own.

What it costs is known, nothing is left of it, and nothing waits for it.
"""
import contextlib
import dataclasses
import gc
import hashlib
import os
import pickle
import resource
import signal
import sys
import time
from datetime import datetime, timezone
from typing import Callable, Dict, Generic, Iterable, NamedTuple, Optional, Sequence, Tuple, TypeVar, Union

from zirofen_host import ending, fault, output
from zirofen_host.ask import accepted
from zirofen_host.ask.questions import subtrees_by
from zirofen_host.collect import bounded, turns
from zirofen_host.collect.accounts import accounts_here, charged_user_of
from zirofen_host.collect.attempts import Attempts, why_of
from zirofen_host.collect.model import Cgroup, Snapshot
from zirofen_host.collect.mount import mounts_of_folder, mounts_of_host
from zirofen_host.collect.processes import Reader
from zirofen_host.files import CONTROL_FILES, KINDS
from zirofen_host.installed import NAME
from zirofen_host.judge import acceptances, check, settings
from zirofen_host.judge.model import Report
from zirofen_host.judge.standing import status_text
from zirofen_host.options import EVERYBODY, WatchOptions
from zirofen_host.profile import CgroupPath, is_root, text_of
from zirofen_host.show import metrics
from zirofen_host.show.run import Run
from zirofen_host.watch.known import Items, Part, items_of

Made = TypeVar("Made")
# an entry's name, its owner, its group and its mode
Guarded = Tuple[str, int, int, int]
# what a guard may stand on
ENTRIES = {*CONTROL_FILES, *KINDS}
# bytes of what a check leaves
RESULT = 1 << 30
# by how much a check of whoever changes much is nicer than others
LATER = 10


class Result(NamedTuple):
    """What a check found: what stands, of which part, the owners and modes of its cgroups, and of a whole host its numbers."""
    items: Items
    part: Part
    entries: Dict[CgroupPath, Tuple[Guarded, ...]]
    inodes: Dict[CgroupPath, int]
    has_containers: bool
    status: int
    sum_line: str
    metrics: str


class Failed(NamedTuple):
    """Why there is none."""
    why: str


def guarded_of(found: Cgroup) -> Tuple[Guarded, ...]:
    """Owners and modes of what guards may stand on at a cgroup."""
    directory = found.directory
    files = ((name, each.uid, each.gid, each.mode) for name, each in found.files.items() if name in ENTRIES)
    return ("dir", directory.uid, directory.gid, directory.mode), *files


def inodes_of(mount: str, paths: Iterable[CgroupPath]) -> Dict[CgroupPath, int]:
    """The numbers of folders, of those that are still there."""
    found = {}
    for path in paths:
        with contextlib.suppress(OSError):
            found[path] = os.lstat(os.fsencode(mount) + path).st_ino
    return found


def left_out(snapshot: Snapshot, options: WatchOptions) -> Iterable[str]:
    """The cgroups of those inside of which nothing was read."""
    if not options.shallow:
        return ()
    charged_user = charged_user_of(options.accounts)
    return (text_of(path) for path, found in snapshot.cgroups.items()
            if found.directory.uid and {charged_user(found.directory.uid), EVERYBODY}.intersection(options.shallow))


def report_of(options: WatchOptions, taken: Snapshot, is_full: bool, before: settings.Settings) -> Report:
    """The report on what was found, with what somebody accepts."""
    report = check.report(taken, options, is_full, before)
    granted = acceptances.read(options.accept) if options.accept else None
    return report if granted is None else acceptances.applied(report, granted, datetime.now(timezone.utc).date())


def look(options: WatchOptions, part: CgroupPath, shallow: Sequence[int], write: Optional[Callable[[Report, float], None]],
         is_full: bool) -> Result:
    """A check of a part of the host; of what inside some persons hold nothing is read. The report of a whole one may be written."""
    turns.begin()
    began, is_whole = time.monotonic(), is_root(part)
    options = dataclasses.replace(options, only=None if is_whole else part, shallow=tuple(shallow))
    attempts = Attempts()
    before = attempts.at(settings.ATTEMPT, lambda: settings.read(settings.systemctl_of(options)), check.NO_SETTINGS) if is_whole else {}
    taken = accepted.take(options, subtrees_by(options))
    taken = dataclasses.replace(taken, notes=(*taken.notes, *attempts.failed))
    report = report_of(options, taken, is_full, before)
    seconds = time.monotonic() - began
    if write:
        write(report, seconds)
    asked = Part(text_of(part), frozenset(left_out(taken, options)), frozenset(map(text_of, taken.cgroups)))
    run = Run(report, report.status, None, None, seconds, time.time(), options.help_uri)
    return Result(items_of(report), asked, {path: guarded_of(found) for path, found in taken.cgroups.items()},
                  inodes_of(options.mount, taken.cgroups), bool(taken.scopes), report.status, status_text(report),
                  "".join(metrics.parts_of(run)) if asked.is_whole else "")


def sum_of_processes(options: WatchOptions) -> str:
    """A sum over as whom processes act, where their threads run, and who is in which group."""
    reader = Reader(options.proc, charged_user_of(options.accounts)).look()
    users = sorted({each.user for each in reader.found.values()})
    elsewhere = sorted((each.pid, each.places) for each in reader.found.values() if each.places)
    lists = accounts_here(options.accounts, ()).lists
    return hashlib.sha256(repr((users, elsewhere, lists)).encode()).hexdigest()


def mounts_seen(options: WatchOptions) -> Tuple[object, ...]:
    """What of a host's mounts an answer or a look rests on."""
    mounts = mounts_of_folder(options.proc) if options.plain_folder else mounts_of_host()
    return (tuple(mounts.further(options.mount)), tuple(sorted(mounts.below(options.mount).items())),
            tuple(mounts.options(options.mount)), mounts.limits_of_version_1())


class Child(Generic[Made]):
    """A process that makes something."""

    def __init__(self, make: Callable[[], Made], seconds: int, is_urgent: bool = True) -> None:
        self.left = os.memfd_create("zirofen-watch")
        # a signal to a process that has just begun waits until it is taken there, and isn't one for the watch
        before = signal.pthread_sigmask(signal.SIG_BLOCK, ending.SIGNALS)
        self.pid = os.fork()
        if not self.pid:
            end_with(self.left, make, seconds, 0 if is_urgent else LATER, before)
        signal.pthread_sigmask(signal.SIG_SETMASK, before)
        self.opened = os.pidfd_open(self.pid)
        # of a processor, once it has ended
        self.seconds = 0.0

    def fileno(self) -> int:
        return self.opened

    def ask_to_end(self) -> None:
        os.kill(self.pid, signal.SIGTERM)

    def made(self) -> Union[Made, Failed]:
        """What it made; it has to have ended."""
        _, status, used = os.wait4(self.pid, 0)
        os.close(self.opened)
        self.seconds = used.ru_utime + used.ru_stime
        try:
            os.lseek(self.left, 0, os.SEEK_SET)
            found = bounded.read_opened(self.left, RESULT)
        finally:
            os.close(self.left)
        if os.waitstatus_to_exitcode(status) or found.is_cut or not found.data:
            return Failed(f"a check ended with {os.waitstatus_to_exitcode(status)}")
        try:
            made: Union[Made, Failed] = pickle.loads(found.data)
        except Exception as error:
            return Failed(why_of(error))
        return made


def end_with(number: int, make: Callable[[], Made], seconds: int, later: int, mask: Iterable[int]) -> None:
    """Makes it, by that much later than others, leaves it, and ends this process. Signals are kept back until it takes them."""
    status = fault.FAULT
    try:
        gc.disable()
        with contextlib.suppress(OSError):
            os.nice(later)
        for each in (signal.SIGUSR1, signal.SIGHUP):
            signal.signal(each, signal.SIG_IGN)
        signal.set_wakeup_fd(-1)
        os.dup2(output.nowhere(), ending.STANDARD_ERROR)
        ending.take_signals(f"{NAME} watch")
        signal.pthread_sigmask(signal.SIG_SETMASK, mask)
        fault.bound(seconds)
        output.leave(number, pickle.dumps(found_by(make), pickle.HIGHEST_PROTOCOL))
        status = 0
    finally:
        with contextlib.suppress(Exception):
            sys.stdout.flush()
        os._exit(status)


def found_by(make: Callable[[], Made]) -> Union[Made, Failed]:
    try:
        return make()
    except (Exception, fault.OutOfTime) as error:
        return Failed(why_of(error) if isinstance(error, Exception) else str(error))


def seconds_used() -> float:
    """What this process took of a processor, without its children."""
    used = resource.getrusage(resource.RUSAGE_SELF)
    return used.ru_utime + used.ru_stime
