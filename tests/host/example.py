"""The host of the docs' pictures: made up, with one of each that a report can have. What was answered is kept in data/.

    tests/host/example.py PROGRAM               writes it anew
    tests/host/example.py PROGRAM TREE OUT      the same of a tree text, as OUT.json.gz in data/
"""
import gzip
import json
import os
import sys
import tempfile
from unittest import mock

from made_up import HERE, MadeUp
from zirofen_host.judge import as_json, check, limits
from zirofen_host.collect.tree import read_tree
from zirofen_host.options import Options

KEPT = f"{HERE}/data/web1.json"
MARK = "trusted.delegate"
PASSWD = {"root": 0, "alice": 1000, "bob": 1001, "carol": 1002, "web": 33, "build": 990}
GROUP = "team:x:50:carol\n"
SUBORDINATE = "bob:165536:65536\n"
SERVICES = ("cron", "dbus", "postgresql", "rsyslog", "systemd-journald", "systemd-logind", "systemd-udevd",
            "unattended-upgrades")
SIZE = 2**30


def owned(uid, *more):
    """Owners of what is handed over, and of further files."""
    return {name: (uid, uid) for name in ("dir", "cgroup.procs", "cgroup.subtree_control", *more)}


class Example:
    """Writes the host."""

    def __init__(self, folder):
        self.host = MadeUp(folder)
        self.host.accounts(passwd="".join(f"{name}:x:{uid}:{uid}::/:/bin/sh\n" for name, uid in PASSWD.items()),
                           group=GROUP, subuid=SUBORDINATE, subgid=SUBORDINATE)
        self.host.cgroup("/", enabled="cpu memory pids")
        self.runs("/init.scope", 1, "systemd")
        self.services()
        self.users()
        self.batch()

    def runs(self, path, pid, name, uid=0, **more):
        """A cgroup with a process."""
        self.host.cgroup(path, pids=(pid,), **more)
        self.host.process(pid, uid=uid, gid=uid)
        status = f"{self.host.proc}/{pid}/status"
        with open(status, encoding="ascii") as told:
            text = told.read()
        with open(status, "w", encoding="ascii") as out:
            out.write(text.replace("made up", name))

    def services(self):
        self.host.cgroup("/system.slice", enabled="cpu memory pids")
        self.runs("/system.slice/ssh.service", 712, "sshd")
        for pid, name in enumerate(SERVICES, 400):
            self.runs(f"/system.slice/{name}.service", pid, name)
        self.runs("/system.slice/web.service", 850, "nginx", 33, owners=owned(33), marks=(MARK,),
                  values={"memory.max": 2 * SIZE, "pids.max": 500})
        self.runs("/system.slice/build.service", 860, "make", 990, owners=owned(990, "memory.max"), marks=(MARK,),
                  values={"memory.max": 4 * SIZE})
        self.runs("/system.slice/backup.service", 870, "borg", more=("cpu.max",), values={"cpu.max": "20000 100000"},
                  modes={"cpu.max": 0o666})

    def users(self):
        self.host.cgroup("/user.slice", enabled="memory pids")
        for uid, owners in ((1000, owned(1000)), (1001, {})):
            of_user = f"/user.slice/user-{uid}.slice"
            manager = f"{of_user}/user@{uid}.service"
            self.host.cgroup(of_user, owners=owners, enabled="memory pids")
            self.host.cgroup(manager, owners=owned(uid), marks=(MARK,), enabled="memory pids", values={"memory.max": 2 * SIZE})
            self.runs(f"{of_user}/session-2.scope", uid + 1000, "bash", uid)
            self.runs(f"{manager}/init.scope", uid + 500, "systemd", uid, owners=owned(uid))
        container = "/user.slice/user-1001.slice/user@1001.service/user.slice/libpod-4fb08751.scope"
        self.host.cgroup(os.path.dirname(container), owners=owned(1001))
        self.host.cgroup(container, owners=owned(1001), marks=("user.delegate",))
        self.runs(f"{container}/container", 2600, "postgres", 165536, owners=owned(165536))

    def batch(self):
        self.host.cgroup("/batch.slice", owners={"cgroup.procs": (0, 50)}, modes={"cgroup.procs": 0o664}, enabled="memory pids")
        self.runs("/batch.slice/nightly.service", 900, "cp", 990, owners=owned(990), marks=(MARK,),
                  values={"memory.max": SIZE, "pids.max": 64})

    def report(self, program):
        return report_of(self.host, program, "web1", "Linux 6.12.9")


def report_of(host, program, name, kernel):
    """What a program answers of a made-up host, as of one with a name and of a day."""
    options = Options(mount=host.mount, proc=host.proc, accounts=host.etc, program=program, plain_folder=True)
    # as if the folder were a host
    with mock.patch.object(limits, "of_options", lambda _: ()):
        text = "".join(as_json.parts_of(check.report(host.snapshot(), options, True)))
    found = json.loads(text.replace(host.mount, "/sys/fs/cgroup"))
    del found["helper"]
    # of the program its version alone, so that what is kept doesn't change with each build
    return {**found, "program": found["program"].partition(" (")[0], "host": name, "kernel": kernel, "time": "2026-11-25T08:00:00Z",
            "options": []}


def kept():
    with open(KEPT, encoding="ascii") as opened:
        return json.load(opened)


def write_example(folder, program):
    with open(KEPT, "w", encoding="ascii") as out:
        json.dump(Example(folder).report(program), out, separators=(",", ":"))
        out.write("\n")


def write_report_of_tree(folder, program, tree, name):
    host = MadeUp(folder)
    with open(tree, encoding="ascii") as text:
        host.tree(read_tree(text.read()))
    host.accounts(passwd="alice:x:1000:1000::/:\nbob:x:1001:1001::/:\n", group="", subuid="alice:100000:65536\n",
                  subgid="alice:100000:65536\n")
    text = json.dumps(report_of(host, program, name, "Linux"), separators=(",", ":"))
    with open(f"{HERE}/data/{name}.json.gz", "wb") as out:
        # the same bytes each time
        out.write(gzip.compress(text.encode("ascii"), mtime=0))


if __name__ == "__main__":
    with tempfile.TemporaryDirectory() as room:
        sys.exit((write_example if len(sys.argv) == 2 else write_report_of_tree)(f"{room}/host", *sys.argv[1:]))
