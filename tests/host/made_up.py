"""A hierarchy of plain files and folders, with a /proc and account files, to hold the helpers against."""
import contextlib
import os
import sys
import tempfile
import unittest
from unittest import mock

HERE = os.path.dirname(os.path.abspath(__file__))
TOP = os.path.dirname(os.path.dirname(HERE))
COMMAND = os.path.join(TOP, "host", "zirofen-host")
sys.path.insert(0, os.path.join(TOP, "host"))

from zirofen_host.collect import walk  # noqa: E402
from zirofen_host.collect.bounded import Attributes  # noqa: E402
from zirofen_host.collect.accounts import Accounts, accounts_here  # noqa: E402
from zirofen_host.collect.processes import read_processes  # noqa: E402
from zirofen_host.files import NUMBER_FILES, standing  # noqa: E402
from zirofen_host.options import Options  # noqa: E402
from zirofen_host.profile import TEXT_FORMATS, parent_of, path_of, text_of  # noqa: E402
from zirofen_host.collect.snapshot import all_that_changes, take  # noqa: E402
from zirofen_host.collect.model import AccountLists, Entry  # noqa: E402

STATUS = ("Name:\t{name}\nUid:\t{uid}\t{uid}\t{uid}\t{uid}\nGid:\t{gid}\t{gid}\t{gid}\t{gid}\nGroups:\t{groups}\n"
          "CapPrm:\t{permitted:016x}\nCapEff:\t{capabilities:016x}\nThreads:\t{threads}\n")
STAT = "{pid} (made) up) S 1 1 1 0 -1 {flags} 0 0 0\n"
KERNEL_THREAD = 0x00200040
# where many files are made soonest
MEMORY = "/dev/shm" if os.access("/dev/shm", os.W_OK | os.X_OK) else None
DELEGATED = {"dir": 1000, "cgroup.procs": 1000, "cgroup.subtree_control": 1000}


def path(text):
    """A cgroup's path as a snapshot has it."""
    return path_of(text)


def accounts_with(accounts=(), groups=(), uids=(), gids=(), running=()):
    """Accounts and groups, ranges of subordinate ids, and users of running processes."""
    return Accounts(AccountLists(tuple(accounts), tuple(groups), tuple(uids), tuple(gids)), running)


def small_texts(rows=1000, processes=1000, longest=1000000, formats=(2, 4)):
    """Has texts of some formats take no more than this."""
    most = {"most_rows": rows, "most_processes": processes, "longest": longest}
    return mock.patch.dict(TEXT_FORMATS, {number: TEXT_FORMATS[number]._replace(**most) for number in formats})


class MadeUp:
    """Writes cgroups, processes and accounts into a folder. As root it sets owners too; they are always kept beside."""

    def __init__(self, folder):
        self.folder = folder
        self.mount = os.path.join(folder, "mount")
        self.proc = os.path.join(folder, "proc")
        self.etc = os.path.join(folder, "etc")
        self.enabled = {}
        self.owners = {}
        self.marks = {}
        for each in (self.mount, self.proc, self.etc):
            os.makedirs(each)

    def cgroup(self, path, owners=None, modes=None, values=None, enabled="", pids=(), kind="domain", more=(), without=(),
               marks=()):
        """A cgroup. Owners are a uid or a pair of uid and gid by file; the directory's name is dir."""
        place = self.mount if path == "/" else self.mount + path
        os.makedirs(place, exist_ok=True)
        self.enabled[path] = enabled.split()
        above = self.enabled[parent_of(path)] if path != "/" else []
        texts = {"cgroup.procs": "".join(f"{pid}\n" for pid in pids), "cgroup.subtree_control": enabled + "\n",
                 "cgroup.controllers": (enabled + " io" if path == "/" else " ".join(above)) + "\n"}
        if path != "/":
            texts["cgroup.type"] = kind + "\n"
        texts.update({file: f"{NUMBER_FILES[file].usual}\n" for file in standing(above)})
        texts.update({file: "" for file in more})
        texts.update({file: f"{value}\n" for file, value in (values or {}).items()})
        for file in set(texts) - set(without):
            with open(f"{place}/{file}", "w", encoding="ascii") as out:
                out.write(texts[file])
            self.own(f"{place}/{file}", (owners or {}).get(file, 0), (modes or {}).get(file, 0o644))
        self.own(place, (owners or {}).get("dir", 0), (modes or {}).get("dir", 0o755))
        self.marks[os.lstat(place).st_ino] = {name: b"1" for name in marks}

    def own(self, path, owner, mode):
        uid, gid = owner if isinstance(owner, tuple) else (owner, 0)
        if os.geteuid() == 0:
            os.chown(path, uid, gid)
        os.chmod(path, mode)
        self.owners[os.lstat(path).st_ino] = Entry(uid, gid, mode)

    def process(self, pid, uid=0, gid=0, groups=(), flags=0x400000, capabilities=0, permitted=None, namespace=None,
                name="made up", threads=()):
        """A process. Its capabilities are those that are effective, and permitted where no others are; threads are the
        permitted ones of each beside the first."""
        permitted = capabilities if permitted is None else permitted
        told = {"uid": uid, "gid": gid, "groups": " ".join(map(str, groups)), "capabilities": capabilities, "name": name,
                "threads": 1 + len(threads)}
        folders = [f"{self.proc}/{pid}", *(f"{self.proc}/{pid}/task/{pid + number}" for number in range(1 + len(threads)))]
        for folder, each in zip(folders, (permitted, permitted, *threads)):
            os.makedirs(folder, exist_ok=True)
            with open(f"{folder}/status", "w", encoding="ascii") as out:
                out.write(STATUS.format(permitted=each, **told))
        if namespace:
            os.makedirs(f"{self.proc}/{pid}/ns", exist_ok=True)
            os.symlink(f"user:[{namespace}]", f"{self.proc}/{pid}/ns/user")
        with open(f"{self.proc}/{pid}/stat", "w", encoding="ascii") as out:
            out.write(STAT.format(pid=pid, flags=flags))

    def process_of_root(self, pid, namespaces, mounts, capabilities=(1 << 41) - 1):
        """A process of root's with its namespaces, what it sees mounted and its bounding set."""
        self.process(pid, namespace=4026531837)
        with open(f"{self.proc}/{pid}/status", "a", encoding="ascii") as out:
            out.write(f"CapBnd:\t{capabilities:016x}\n")
        for kind, name in namespaces:
            os.symlink(name, f"{self.proc}/{pid}/ns/{kind}")
        self.mounts(pid, mounts)

    def opens(self, pid, number, path, flags, mount=3, has_inode=True, more=""):
        for folder in ("fd", "fdinfo"):
            os.makedirs(f"{self.proc}/{pid}/{folder}", exist_ok=True)
        os.symlink(self.mount + path, f"{self.proc}/{pid}/fd/{number}")
        with open(f"{self.proc}/{pid}/fdinfo/{number}", "w", encoding="ascii") as out:
            is_there = has_inode and os.path.exists(self.mount + path)
            inode = f"ino:\t{os.stat(self.mount + path).st_ino if is_there else 1}\n" if has_inode else ""
            out.write(f"pos:\t0\nflags:\t0{flags:o}\nmnt_id:\t{mount}\n{inode}{more}")
        if not os.path.exists(f"{self.proc}/{pid}/mountinfo"):
            self.mounts(pid, "3 1 0:29 / /sys/fs/cgroup rw - cgroup2 cgroup2 rw\n")

    def replaced(self, pid, number, link):
        """Has a descriptor lead elsewhere."""
        os.remove(f"{self.proc}/{pid}/fd/{number}")
        os.symlink(link, f"{self.proc}/{pid}/fd/{number}")

    def mounts(self, pid, text, namespace=None):
        """The mounts that a process sees, and maybe in which namespace."""
        os.makedirs(f"{self.proc}/{pid}/ns", exist_ok=True)
        if namespace:
            os.symlink(f"mnt:[{namespace}]", f"{self.proc}/{pid}/ns/mnt")
        with open(f"{self.proc}/{pid}/mountinfo", "w", encoding="ascii") as out:
            out.write(text)

    def accounts(self, **files):
        for name, text in files.items():
            with open(f"{self.etc}/{name}", "w", encoding="utf-8") as out:
                out.write(text)

    def tree(self, tree):
        """The cgroups and processes of a tree text, as plain files."""
        at = {}
        for pid, uid, path in tree.processes:
            at.setdefault(text_of(path), []).append(pid)
            self.process(pid, uid, gid=uid)
        for row in sorted(tree.rows.values(), key=lambda row: len(row.path)):
            path = text_of(row.path)
            names = ("dir", "cgroup.procs", "cgroup.subtree_control", *tree.limit_files(row.path))
            self.cgroup(path, owners={name: (row.entry(name).uid, row.entry(name).gid) for name in names},
                        modes={name: row.entry(name).mode for name in names}, values=row.values,
                        enabled=" ".join(tree.controllers if path == "/" and not row.enabled else row.enabled),
                        pids=at.get(path, ()))
            if path == "/":
                self.root(tree, row)

    def root(self, tree, row):
        """The root has its controllers whether it enables them or not."""
        for file, names in (("cgroup.controllers", tree.controllers), ("cgroup.subtree_control", row.enabled)):
            with open(f"{self.mount}/{file}", "w", encoding="ascii") as out:
                out.write(" ".join(names) + "\n")
        self.enabled["/"] = list(row.enabled)

    def owned_of(self, status):
        entry = self.owners[status.st_ino]
        return entry.uid, entry.gid, entry.mode

    def marks_of(self, folder):
        marks = self.marks.get(os.stat(folder).st_ino, {})
        return Attributes(marks, sum(map(len, marks.values())))

    @contextlib.contextmanager
    def owned(self):
        """Owners and marks as they are kept beside."""
        with mock.patch.object(walk, "owned_of", self.owned_of), mock.patch.object(walk, "marks_of", self.marks_of):
            yield

    def take(self, subtrees_of=all_that_changes, only=None, **more):
        """A snapshot as the helpers take it."""
        etc = self.etc if os.path.exists(f"{self.etc}/passwd") else None
        options = Options(**{"mount": self.mount, "only": only, "proc": self.proc, "plain_folder": True, "accounts": etc, **more})
        with self.owned():
            return take(options, subtrees_of)

    def snapshot(self, only=None, **more):
        return self.take(only=only, **more)

    def read_accounts(self):
        return accounts_here(self.etc, read_processes(self.proc).values())


class MadeUpTest(unittest.TestCase):
    """A test with a made-up host of its own."""

    maxDiff = None
    # where the host is made
    folder = None

    def setUp(self):
        folder = tempfile.TemporaryDirectory(dir=self.folder)
        self.addCleanup(folder.cleanup)
        self.host = MadeUp(folder.name)
