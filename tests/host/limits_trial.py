#!/usr/bin/env python3
"""Hands limit files of format 4 over by hand, one at the top of each of some services and of a user's manager, carries out as that user
what `zirofen-host check` prints, makes what it advises, and tries once more. Run by hand, as root, in a machine with systemd that may
be thrown away:

    tests/host/limits_trial.py HOST_FOLDER

HOST_FOLDER has zirofen-host. There are two rounds: before the first root makes each file tighter, and the second begins with what the
first left. A line each says what was seen; status 1 says that one is otherwise than it is to be:

- before files are handed over, and when what is advised is made, the check's status is 0, and each of these subtrees is contained;
- between them the check and the program print one operation for each, a set of the file that was handed over;
- the kernel carries it out, and the file has another value afterwards; but it refuses a text with a CPU or a node that the machine
  hasn't, and of a file with a line for each device one that begins with none of its lines' first words;
- after what is advised it refuses the same for want of access, and the value stays.
"""
import argparse
import errno
import json
import os
import pwd
import re
import subprocess
import sys
import tempfile
import time
from dataclasses import dataclass

MOUNT, UNITS = "/sys/fs/cgroup", "/run/systemd/system"
OF_SERVICES, OF_MANAGER = "zirofen-one", "zirofen-two"
PREFIX, TOP = "zl-", "/zl.slice"
# the file that is handed over at the top of the user's manager
MANAGERS = "cpu.max"
# what root sets of each before the first round: DEVICE is a disk's numbers, and KEY the first word that the file has
TIGHTER = {
    "cgroup.freeze": "1", "cpu.idle": "1", "cpu.max": "20000 100000", "cpu.max.burst": "1000", "cpu.uclamp.max": "20",
    "cpu.uclamp.min": "20", "cpu.weight.nice": "10", "cpuset.cpus": "0", "cpuset.cpus.exclusive": "0",
    "cpuset.cpus.partition": "isolated", "cpuset.mems": "0",
    "dmem.low": "KEY 0", "dmem.max": "KEY 0", "dmem.min": "KEY 0", "hugetlb.SIZE.max": "0", "hugetlb.SIZE.rsvd.max": "0",
    "io.bfq.weight": "50", "io.latency": "DEVICE target=1000", "io.max": "DEVICE rbps=1048576 wiops=120", "io.prio.class": "idle",
    "io.weight": "default 50", "memory.swap.high": "1048576", "memory.swap.max": "1048576", "memory.zswap.max": "1048576",
    "memory.zswap.writeback": "0", "misc.max": "KEY 0", "rdma.max": "KEY hca_handle=2 hca_object=20"}
KEYED = ("dmem.low", "dmem.max", "dmem.min", "io.latency", "io.max", "misc.max", "rdma.max")


@dataclass(frozen=True)
class Place:
    """The top of a subtree, whose it is, and the limit file that they are handed."""
    path: str
    file: str
    user: str

    @property
    def name(self):
        return f"{MOUNT}{self.path}/{self.file}"

    @property
    def uid(self):
        return pwd.getpwnam(self.user).pw_uid

    @property
    def gid(self):
        return pwd.getpwnam(self.user).pw_gid


def said(*words, check=True, text=None):
    return subprocess.run(words, input=text or "", capture_output=True, text=True, check=check).stdout.strip()


def read(path):
    with open(path, encoding="utf-8") as there:
        return "\n".join(line.strip() for line in there)


def write(path, text):
    with open(path, "w", encoding="ascii") as out:
        out.write(text)


def shown(value):
    return "; ".join(value.split("\n")) or "nothing"


# what is made


def above(path):
    """The cgroups above a path, from the root on."""
    names = path.strip("/").split("/")[:-1]
    return ["/".join(["", *names[:count]]) for count in range(len(names) + 1)]


def enable_above(path, enabled):
    """Enables every controller that a kernel lets there in each cgroup above a path, and keeps what wasn't."""
    for folder in above(path):
        control = f"{MOUNT}{folder}/cgroup.subtree_control"
        for controller in read(f"{MOUNT}{folder}/cgroup.controllers").split():
            if controller not in read(control).split():
                write(control, f"+{controller}")
                enabled.append((control, controller))


def files_here(enabled):
    """The files of the table that a cgroup has here."""
    enable_above("/zl-probe", enabled)
    os.mkdir(f"{MOUNT}/zl-probe")
    there = sorted(os.listdir(f"{MOUNT}/zl-probe"))
    os.rmdir(f"{MOUNT}/zl-probe")
    return [file for file in there if tighter(file)]


def tighter(file):
    return TIGHTER.get(re.sub(r"^hugetlb\.\w+\.", "hugetlb.SIZE.", file))


def make_services(files):
    """A service of the first account for each file, each in a slice of its own."""
    for file in files:
        write(f"{UNITS}/{PREFIX}{file}.slice", "[Slice]\n")
        write(f"{UNITS}/{PREFIX}{file}.service", f"[Service]\nUser={OF_SERVICES}\nDelegate=yes\nSlice={PREFIX}{file}.slice\n"
                                                 "ExecStart=/bin/sleep infinity\n")
    said("systemctl", "daemon-reload")
    said("systemctl", "start", *(f"{PREFIX}{file}.service" for file in files))
    return [Place(f"{TOP}/{PREFIX}{file}.slice/{PREFIX}{file}.service", file, OF_SERVICES) for file in files]


def make_manager():
    """A user's manager by linger; on a slow machine logind may answer too late to tell that it did."""
    said("loginctl", "enable-linger", OF_MANAGER, check=False)
    uid = pwd.getpwnam(OF_MANAGER).pw_uid
    said("systemctl", "start", f"user@{uid}.service")
    return Place(f"/user.slice/user-{uid}.slice/user@{uid}.service", MANAGERS, OF_MANAGER)


def make(enabled):
    for name in (OF_SERVICES, OF_MANAGER):
        said("useradd", "--system", "--user-group", "--create-home", name)
    places = [*make_services(files_here(enabled)), make_manager()]
    for place in places:
        enable_above(place.path, enabled)
    return places


def remove(enabled):
    made = sorted(name for name in os.listdir(UNITS) if name.startswith(PREFIX))
    for folder in made:
        freeze = f"{MOUNT}{TOP}/{folder.rpartition('.')[0]}.slice/{folder}/cgroup.freeze"
        if os.path.exists(freeze):
            write(freeze, "0")
    said("systemctl", "stop", *made, TOP.strip("/"), check=False)
    for name in made:
        os.remove(f"{UNITS}/{name}")
    said("systemctl", "daemon-reload")
    said("loginctl", "disable-linger", OF_MANAGER, check=False)
    said("systemctl", "stop", f"user@{said('id', '--user', OF_MANAGER, check=False)}.service", check=False)
    for control, controller in reversed(enabled):
        try:
            if os.path.exists(control):
                write(control, f"-{controller}")
        except OSError as error:
            print(f"{control}: {controller} stays: {error.strerror}", file=sys.stderr)
    for name in (OF_SERVICES, OF_MANAGER):
        said("userdel", "--remove", name, check=False)


def make_tighter(place):
    """What root sets before the first round; of a file for whose lines nothing is there it sets nothing."""
    text = tighter(place.file).replace("DEVICE", device())
    if "KEY" in text:
        keys = [line.split()[0] for line in read(place.name).split("\n") if line]
        text = text.replace("KEY", keys[0]) if keys else ""
    if text:
        write(place.name, text)


def device():
    """The numbers of a disk."""
    disks = sorted(name for name in os.listdir("/sys/block") if not re.match("loop|ram|zram|sr|fd", name))
    return read(f"/sys/block/{disks[0]}/dev").strip()


# what is asked and done


class Checked:
    """What a check of this host says, and the program of its text."""

    def __init__(self, options, what):
        start = time.monotonic()
        self.text = options.text
        words = [f"{options.folder}/zirofen-host", "check", "--json", "--keep", self.text]
        ended = subprocess.run(words, stdin=subprocess.DEVNULL, capture_output=True, text=True)
        if not ended.stdout:
            raise RuntimeError(f"the check: {ended.stderr}")
        self.report = json.loads(ended.stdout)
        self.program = os.environ.get("ZIROFEN", f"{options.folder}/../zirofen")
        print(f"{what}: {time.monotonic() - start:.1f} s, status {ended.returncode}, {len(self.report['subtrees'])} asked",
              file=sys.stderr, flush=True)

    def answer(self, place):
        """The lines of whose a subtree is."""
        found = [answer["lines"] for each in self.report["subtrees"] if each["path"] == place.path
                 for answer in each["answers"] if place.uid in answer["uids"]]
        return found[0] if len(found) == 1 else [f"{len(found)} answers"]

    def text_of(self, place):
        """What an answer sets, where it is one operation on the file that was handed over."""
        lines, start = self.answer(place), f"set {place.path} {place.file} "
        return lines[1][len(start):] if len(lines) == 2 and lines[0] == "escapes" and lines[1].startswith(start) else None

    def own_answer(self, place):
        return said(self.program, "check", "--tree", self.text, "--uid", str(place.uid), "--gid", str(place.gid), "--subtree", place.path,
                    check=False).split("\n")

    def changes(self, place):
        return [change for each in self.report["entries"] if (each["path"], each["entry"]) == (place.path, place.file)
                for change in each["changes"]]

    def is_good(self, places):
        """Whether all is as before a file was handed over."""
        return self.report["status"] == 0 and all(self.answer(place) == ["contained"] for place in places)


def commands_of(places, checked, options):
    """The command of each place's operation, as that user."""
    found = {}
    for user in {place.user: place for place in places}.values():
        mine = [place for place in places if place.user == user.user and checked.text_of(place)]
        lines = said(f"{options.folder}/zirofen-host", "commands", "--uid", str(user.uid), "--gid", str(user.gid),
                     text="".join(f"{checked.answer(place)[-1]}\n" for place in mine)).split("\n")
        found.update(zip(mine, lines))
    return found


def carried_out(place, command, text):
    """The name of the error by which a user's set ends, and nothing where it doesn't: a shell doesn't tell which, so that where
    it is refused this writes the same as that user."""
    if not subprocess.run(["sh", "-c", command], stdin=subprocess.DEVNULL, capture_output=True).returncode:
        return ""
    return written_as(place.uid, place.gid, place.name, f"{text}\n") or "a write without a shell is carried out"


def written_as(uid, gid, path, text):
    """The name of the error by which a write of a user's ends, and nothing where it doesn't."""
    child = os.fork()
    if not child:
        try:
            os.setgroups([])
            os.setgid(gid)
            os.setuid(uid)
            write(path, text)
        except OSError as error:
            os._exit(error.errno)
        os._exit(0)
    ended = os.waitstatus_to_exitcode(os.waitpid(child, 0)[1])
    return errno.errorcode.get(ended, str(ended)) if ended else ""


def is_taken(place, text, before):
    """Whether a kernel takes a text, as far as devices, CPUs and nodes tell."""
    if place.file in KEYED:
        return text.split()[0] in [line.split()[0] for line in before.split("\n") if line]
    if place.file in ("cpuset.cpus", "cpuset.cpus.exclusive", "cpuset.mems"):
        most = re.findall(r"\d+", read(f"{MOUNT}/{place.file.replace('.exclusive', '')}.effective"))[-1]
        return int(re.findall(r"\d+", text)[-1]) <= int(most)
    return True


def row_of(place, checked, command):
    """A line of the table, and what is otherwise than it is to be."""
    lines, text, before = checked.answer(place), checked.text_of(place), read(place.name)
    unit = place.path.rpartition("/")[2]
    if not text:
        return f"| {unit} | {place.file} | {shown(before)} | {'; '.join(lines)} | - | - | - |", ["not its set alone"]
    refused = carried_out(place, command, text)
    after, changes = read(place.name), checked.changes(place)
    for change in changes:
        said("sh", "-c", change)
    again, last = carried_out(place, command, text), read(place.name)
    wrong = {
        "the program says otherwise": checked.own_answer(place) != lines,
        "not as a kernel takes it": is_taken(place, text, before) != (not refused),
        "no other value": not refused and before == after,
        "no change is advised": not changes,
        "not kept afterwards": again not in ("EACCES", "EPERM") or last != after}
    row = (f"| {unit} | {place.file} | {shown(before)} | `{text}` | {refused or 'carried out'} | {shown(after)} | "
           f"{again or 'carried out'} |")
    return row, [what for what, is_so in wrong.items() if is_so]


def play_round(name, places, options):
    """Hands the files over, carries out what is printed and makes what is advised; how many lines are otherwise."""
    for place in places:
        os.chown(place.name, place.uid, place.gid)
    checked, failed = Checked(options, f"{name}, handed over"), 0
    commands = commands_of(places, checked, options)
    print(f"\n{name}:\n\n| Top | File | Value | Printed | The kernel | Value then | After what is advised | |\n"
          "|---|---|---|---|---|---|---|---|", flush=True)
    for place in places:
        row, wrong = row_of(place, checked, commands.get(place))
        failed += bool(wrong)
        print(f"{row} {'**OTHERWISE**: ' + ', '.join(wrong) if wrong else 'as it is to be'} |", flush=True)
    failed += checked.report["status"] != 1
    return failed + (not Checked(options, f"{name}, mended").is_good(places))


def play(places, options):
    failed = not Checked(options, "as the manager hands over").is_good(places)
    for place in places:
        make_tighter(place)
    return failed + sum(play_round(name, places, options) for name in ("Tighter", "As the first round left it"))


def main():
    parser = argparse.ArgumentParser(description=__doc__, formatter_class=argparse.RawDescriptionHelpFormatter)
    parser.add_argument("folder", metavar="HOST_FOLDER")
    options = parser.parse_args()
    enabled = []
    print(f"Linux {os.uname().release}, {said('systemctl', '--version').split(chr(10), 1)[0]}", flush=True)
    with tempfile.TemporaryDirectory() as folder:
        options.text = f"{folder}/tree.toml"
        try:
            failed = play(make(enabled), options)
        finally:
            remove(enabled)
    print(f"\n{failed} otherwise", flush=True)
    return 1 if failed else 0


if __name__ == "__main__":
    sys.exit(main())
