"""Hosts that are made up by chance, each with a hierarchy, processes, accounts and containers to walk over, and what is accepted of it."""
import contextlib
import datetime
import os
import random
from unittest import mock

from check_test import owned
from zirofen_host.collect import bounded, snapshot
from zirofen_host.collect.bounded import Budget
from zirofen_host.judge.acceptances import Given, Named
from zirofen_host.judge.rules import ACCEPTABLE, findings_of

USERS = (1000, 1001, 1002)
TODAY = datetime.date(2026, 11, 29)
BOTH = ("rw", "nsdelegate", "memory_recursiveprot")
# of a quiet host the one thing that there is
ONES = ("nothing", "limit", "above", "fault", "opened", "held", "elsewhere", "capability", "own fault", "v1", "options", "failed", "only",
        "container", "held container", "accepted", "stale")
# of a container of root's what it sees, and how it is held
NAMESPACES = (("cgroup", "cgroup:[4026532500]"), ("pid", "pid:[4026532501]"), ("mnt", "mnt:[4026532502]"))
OF_FIRST = (("cgroup", "cgroup:[4026531835]"), ("pid", "pid:[4026531836]"), ("mnt", "mnt:[4026531841]"))
IMAGE = "400 300 0:50 / / rw,relatime - overlay overlay rw\n401 400 0:26 {} /sys/fs/cgroup rw,nosuid - cgroup2 cgroup rw\n"
OWN_ROOT = "25 1 8:1 / / rw,relatime - ext4 /dev/sda1 rw\n30 25 0:26 / /sys/fs/cgroup rw,nosuid - cgroup2 cgroup2 rw,nsdelegate\n"
MEMORY_OF_V1 = "31 25 0:30 / /sys/fs/cgroup/memory rw - cgroup cgroup rw,memory\n"
ADMIN, CHOWN, FOWNER = 1 << 21, 1, 1 << 3


class DrawnHost:
    """A host in which things are drawn by chance: a loud one has several that count, a quiet one nothing but one thing."""

    def __init__(self, seed, host):
        self.host, self.chance = host, random.Random(seed)
        self.odds = self.chance.choice((0.0, 0.0, 0.1, 0.3))
        self.one = None if self.odds else (None, *ONES)[seed % (len(ONES) + 1)]
        self.pids, self.options = iter(range(100, 1000)), {}
        self.paths = []

    def is_there(self, what):
        return self.one == what or self.chance.random() < self.odds

    def write(self):
        """The host as files, and what its helper is asked with."""
        self.host.cgroup("/", enabled="memory")
        self.host.cgroup("/init.scope", pids=(1,))
        self.host.process_of_root(1, OF_FIRST, OWN_ROOT)
        without = ("nothing", "container", "held container")
        for number in range(0 if self.one in without else self.chance.choice((1, 1, 2, 4))):
            self.subtree(f"/s{number}", self.chance.choice(USERS))
        if self.is_there("opened"):
            self.host.cgroup("/x", more=("cgroup.kill",), modes={"cgroup.kill": 0o666})
        for what, capabilities in (("container", ADMIN), ("held container", CHOWN)):
            if self.is_there(what):
                self.container(f"/system.slice/{what.replace(' ', '-')}.service", capabilities)
        for path in self.paths:
            self.processes_at(path)
        if self.is_there("v1"):
            os.makedirs(f"{self.host.proc}/self", exist_ok=True)
            with open(f"{self.host.proc}/self/mountinfo", "w", encoding="ascii") as out:
                out.write(MEMORY_OF_V1)
        if self.paths and (self.one == "only" or self.chance.random() < self.odds / 2):
            self.options["only"] = os.fsencode("/" + self.paths[0].split("/")[1])

    def subtree(self, path, uid):
        """What is handed to a user, in some of which something is wrong."""
        if self.is_there("above"):
            self.host.cgroup(path, owners={"dir": self.chance.choice(USERS)})
            path = f"{path}/in"
        if self.is_there("fault"):
            self.host.cgroup(path)
            path = f"{path}/odd"
        if self.is_there("limit") or self.one in ("accepted", "stale") and not self.paths:
            self.host.cgroup(path, owners={**owned(uid), "memory.max": self.chance.choice((uid, *USERS))}, modes={"memory.max": 0o664})
        else:
            self.host.cgroup(path, owners=owned(uid))
        if self.is_there("own fault"):
            for number in range(9):
                self.host.cgroup(f"{path}/own{number}", owners=owned(uid))
        self.paths.append(path)

    def processes_at(self, path):
        if self.is_there("held"):
            pid = next(self.pids)
            self.host.process(pid, uid=self.chance.choice(USERS))
            self.host.opens(pid, 3, f"{path}/memory.max", os.O_WRONLY)
        if self.is_there("capability"):
            pid = next(self.pids)
            self.host.process(pid, uid=self.chance.choice(USERS), capabilities=FOWNER)
            self.listed(path, pid)
        if self.is_there("elsewhere"):
            self.apart(path, next(self.pids))

    def listed(self, path, pid):
        with open(f"{self.host.mount}{path}/cgroup.procs", "a", encoding="ascii") as out:
            out.write(f"{pid}\n")

    def apart(self, path, pid):
        """A process of which a thread runs elsewhere than it is listed."""
        self.host.process(pid, uid=self.chance.choice(USERS), threads=(0,))
        next(self.pids)
        for number, place in enumerate((path, self.chance.choice(("/init.scope", *self.paths)))):
            with open(f"{self.host.proc}/{pid}/task/{pid + number}/status", "a", encoding="ascii") as out:
                out.write("State:\tS (made up)\n")
            with open(f"{self.host.proc}/{pid}/task/{pid + number}/cgroup", "w", encoding="ascii") as out:
                out.write(f"0::{place}\n")
        with open(f"{self.host.proc}/{pid}/status", "a", encoding="ascii") as out:
            out.write("State:\tS (made up)\n")
        self.listed(path, pid)

    def container(self, path, capabilities):
        pid = next(self.pids)
        self.host.cgroup("/system.slice")
        self.host.cgroup(path, pids=(pid,))
        self.host.process_of_root(pid, NAMESPACES, IMAGE.format(path), capabilities)

    @contextlib.contextmanager
    def seen(self):
        """As a helper sees it whose looks may fail, and for whom what one user makes may be too much."""
        with contextlib.ExitStack() as stack:
            stack.enter_context(mock.patch.object(bounded, "CGROUPS", Budget("cgroups", 8)))
            if self.is_there("failed"):
                stack.enter_context(mock.patch.object(snapshot, "further_mounts", self.fails))
            yield BOTH if not self.is_there("options") else BOTH[:1]

    @staticmethod
    def fails(*_):
        raise OSError("a look that fails")

    def accepted(self, report):
        """Some of what was found, which somebody accepts: what isn't so any more too; or nothing that anybody wrote."""
        share = 1.0 if self.one in ("accepted", "stale") else self.odds
        found = [each for each in findings_of(report) if each.rule.id in ACCEPTABLE and self.chance.random() < share]
        given = [self.given(each.rule.id, each.path, each.entry, each.whom) for each in found]
        if self.is_there("stale"):
            given.append(self.given("opened", "/gone", "memory.max", ()))
        return tuple(given)

    @staticmethod
    def given(what, path, entry, whom):
        return Given(what, path, entry, tuple(each.name for each in whom), tuple(Named(each.by, each.id, None) for each in whom),
                     "a reason", datetime.date(2099, 1, 1))
