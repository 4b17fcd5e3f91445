#!/usr/bin/env python3
"""What a check costs where one user has N cgroups with files that everybody writes, beside two others: runs of the program, bytes
that are read, lines, and seconds of processor. Run by hand:

    tests/host/scaling.py PROGRAM [N ..]
    tests/host/scaling.py PROGRAM rows [NAME ..]    for each thing that a user may make: seconds of processor, best of 3, at N and 2 N
"""
import contextlib
import datetime
import os
import resource
import sys
import tempfile
from unittest import mock

from made_up import MEMORY, MadeUp
from zirofen_host.ask import program as asking
from zirofen_host.ask.questions import subtrees_by
from zirofen_host.collect import bounded
from zirofen_host.judge import acceptances, check
from zirofen_host.options import CheckOptions
from zirofen_host.show.lines import lines_of

HANDED = ("dir", "cgroup.procs", "cgroup.subtree_control")
FILES = ("cgroup.procs", "cgroup.subtree_control", "cgroup.max.descendants", "cgroup.max.depth", "memory.min", "memory.low",
         "memory.high", "memory.max", "pids.max")


class Counted:
    """Runs of the program, and bytes that are read."""

    def __init__(self):
        self.runs = self.bytes = 0

    @contextlib.contextmanager
    def counting(self):
        start, read = asking.Program.start, os.read

        def started(of, words):
            self.runs += 1
            return start(of, words)

        def reading(opened, most):
            data = read(opened, most)
            self.bytes += len(data)
            return data
        with mock.patch.object(asking.Program, "start", started), mock.patch.object(bounded.os, "read", reading):
            yield self


def host_with(folder, count):
    """A host on which one user has so many cgroups that are open to everybody, and two others have one each."""
    host = MadeUp(folder)
    host.accounts(passwd="".join(f"u{uid}:x:{uid}:{uid}::/:\n" for uid in (1000, 1001, 1002)), group="u:x:1000:\n")
    host.cgroup("/", enabled="cpu memory pids")
    for uid, name in ((1000, "hostile"), (1001, "quiet"), (1002, "open")):
        more = {"memory.max": (uid, uid)} if name == "open" else {}
        host.cgroup(f"/{name}", owners={**{file: (uid, uid) for file in HANDED}, **more}, enabled="memory pids")
    for number in range(count):
        host.cgroup(f"/hostile/c{number}", owners={file: (1000, 1000) for file in ("dir", *FILES)}, modes={file: 0o666 for file in FILES})
    return host


def with_processes(folder, count):
    host = host_with(folder, 0)
    for number in range(count):
        host.process(10 + number, uid=1000, gid=1000)
    return host


def with_threads(folder, count):
    host = host_with(folder, 0)
    host.process(10, uid=1000, gid=1000, threads=(0,) * count)
    return host


def with_groups(folder, count):
    """Processes of 1,000 groups each, of which each cgroup has one."""
    host = host_with(folder, 0)
    for number in range(count // 1000):
        host.process(10 + number, uid=1000, gid=1000, groups=range(100000, 101000))
    for number in range(100):
        host.cgroup(f"/hostile/g{number}", owners={file: (1000, 100000 + number) for file in HANDED}, modes={"cgroup.procs": 0o664})
    return host


def with_lists(folder, count):
    """Processes whose lists of groups differ, all of them in the group of one cgroup."""
    host = host_with(folder, 0)
    for number in range(count):
        host.process(10 + number, uid=1000, gid=1000, groups=(99999, 100000 + number))
        host.cgroup(f"/hostile/g{number}", owners={"dir": (1000, 100000 + number)})
    return host


def with_levels(folder, count):
    """Chains of 60 levels."""
    host = host_with(folder, 0)
    for number in range(count // 60):
        path = f"/hostile/chain{number}"
        for _ in range(60):
            host.cgroup(path, owners={file: (1000, 1000) for file in HANDED})
            path += "/c"
    return host


def with_marks(folder, count):
    host = host_with(folder, 0)
    for number in range(count):
        host.cgroup(f"/hostile/m{number}", owners={file: (1000, 1000) for file in HANDED}, marks=("user.delegate",))
    return host


def with_descriptors(folder, count):
    host = host_with(folder, 0)
    host.process(10, uid=1000, gid=1000)
    for number in range(count):
        host.opens(10, 3 + number, "/hostile/cgroup.procs", 1)
    return host


def with_mounts(folder, count):
    """Processes in a mount namespace of their own, with so many mounts in all."""
    host = host_with(folder, 0)
    host.opens(10, 3, "/hostile/cgroup.procs", 1)
    for number in range(count // 1000):
        host.process(10 + number, uid=1000, gid=1000)
        host.mounts(10 + number, "".join(f"{1000 * number + each} 1 0:30 / /mnt/{each} rw - tmpfs tmpfs rw\n" for each in range(1, 1001)),
                    f"mnt:[{1000 + number}]")
    return host


def with_findings(folder, count):
    """Limits that root left open at cgroups of its own, each one finding."""
    host = host_with(folder, 0)
    for number in range(count):
        host.cgroup(f"/f{number}", owners={"memory.max": (1000, 1000)})
    return host


def with_delegations(folder, count):
    """Subtrees of many users below one mode of root's that is wrong: what is left of it is the program's."""
    host = host_with(folder, 0)
    host.cgroup("/wrong", modes={"cgroup.procs": 0o646})
    for number in range(count):
        host.cgroup(f"/wrong/d{number}", owners={file: (2000 + number, 0) for file in HANDED})
    return host


# of lists and of delegations each is asked of each, so that twice of both is four times
ROWS = {"cgroups": (host_with, 1000), "processes": (with_processes, 4000), "threads": (with_threads, 2000),
        "groups": (with_groups, 200_000), "lists": (with_lists, 200), "levels": (with_levels, 1200), "marks": (with_marks, 1000),
        "descriptors": (with_descriptors, 2000), "mounts": (with_mounts, 20_000), "findings": (with_findings, 500),
        "acceptances": (with_findings, 500), "delegations": (with_delegations, 25)}
# each finding of these is accepted by itself
ACCEPTED = ("acceptances",)


def tell_rows(program, names):
    for name in names or ROWS:
        make, count = ROWS[name]
        once, twice = (min(cost(program, each, make, name in ACCEPTED)[3] for _ in range(3)) for each in (count, 2 * count))
        print(f"{name}: {count}: {once:.2f} s, {2 * count}: {twice:.2f} s of processor, {twice / once:.2f} times", flush=True)


def all_accepted(report):
    """A report with an acceptance of each of its findings, as a file of root's has them."""
    today = datetime.date(2026, 1, 1)
    rows = [{"what": "escapes/limit-file", "path": each.path, "entry": each.entry, "reason": "known", "whom": f"uid {each.whom[0].id}",
             "until": "2027-01-01"} for each in report.entries]
    given = tuple(one for row in rows for one in acceptances.given_in(row, "a row"))
    found = acceptances.applied(report, given, today)
    if not given or {each.state for each in found.acceptances} != {"accepted"}:
        raise RuntimeError("they aren't met")
    return found


def cost(program, count, make=host_with, is_accepted=False):
    """What a check costs: runs, bytes, lines, seconds of processor of it and of the program, and its lines."""
    with tempfile.TemporaryDirectory(dir=MEMORY) as folder:
        host = make(folder, count)
        options = CheckOptions(mount=host.mount, proc=host.proc, accounts=host.etc, program=program, plain_folder=True)
        before = used()
        with Counted().counting() as counted:
            report = check.report(host.take(subtrees_by(options), accounts=host.etc), options, False)
            lines = list(lines_of(all_accepted(report) if is_accepted else report))
        return counted.runs, counted.bytes, len(lines), used() - before, lines


def used():
    return sum(sum(resource.getrusage(who)[:2]) for who in (resource.RUSAGE_SELF, resource.RUSAGE_CHILDREN))


def main():
    if sys.argv[2:3] == ["rows"]:
        tell_rows(sys.argv[1], sys.argv[3:])
        return
    counts = list(map(int, sys.argv[2:])) or [500, 1000, 2000, 4000]
    for count in counts:
        runs, size, lines, seconds, _ = cost(sys.argv[1], count)
        print(f"{count}: {runs} runs, {size} bytes, {lines} lines, {seconds:.2f} s of processor", flush=True)


if __name__ == "__main__":
    main()
