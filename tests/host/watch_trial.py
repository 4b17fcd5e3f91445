#!/usr/bin/env python3
"""Opens entries of this machine's hierarchy in many ways while it is watched, and says how soon each is told, as what, and by whom. By
hand, as root, on a machine that may be thrown away:

  watch_trial.py HOST_FOLDER [--rounds N] [--within SECONDS] [--pause SECONDS] [--service] [--hostile] [--only WORD]
  watch_trial.py HOST_FOLDER --churn MINUTES [--service] [--settle SECONDS]
  watch_trial.py HOST_FOLDER --idle MINUTES [--service]

Each takes --program PROGRAM for zirofen itself.

With --service it is zirofen-watch.service that watches, as installed, and what it writes to the journal is read. With --hostile a user
makes and removes cgroups and toggles modes in a loop meanwhile. A pause between any two has root's part of a processor fill again, which an
emulated machine needs; on a busy host it needs a clock that goes by instructions, too (`machine.py boot --by-instructions`). With --churn
services are started and ended in a loop, and the memory after the first thousand changes is held against that after the last, and what
stands then against a check. With --idle nothing happens in 300 cgroups, 20 of them handed over: the watch may take 0.2 % of a processor,
and start the reading of each minute alone. The last line is 'N passed, M failed'.
"""
import argparse
import contextlib
import os
import queue
import re
import shutil
import signal
import subprocess
import sys
import tempfile
import threading
import time

from elsewhere_trial import image_of

TOP = "zirofen-trial"
HOLDER, OTHER, HOSTILE = 61001, 61002, 61003
# what is made inside of others' is told beside; a fault, or what stands above, names of what it is behind its head
OTHERS = re.compile(f"/({TOP}-hostile|zirofen-test-)")
NAMED_BEHIND = re.compile("(fault|above): [^:]*")
TOLD = re.compile(r" (new|worse|mended|gone): (.*?)(, by pid .*)?$")
HANDED = ("", "/cgroup.procs", "/cgroup.subtree_control")
# cgroups of an idle host, of which one in so many is handed over, and the share of a processor that a watch of it may take
IDLE, ONE_IN, IDLE_SHARE = 300, 15, 0.002


def mount_here():
    with open("/proc/self/mounts", encoding="ascii") as text:
        return next(line.split()[1] for line in text if line.split()[2] == "cgroup2")


def head_of(line):
    """What a line is of; others may be named behind it."""
    named = NAMED_BEHIND.match(line)
    return named[0] if named else re.split(r" \(|: ", line)[0]


def run(*words):
    """Does something as another process, whose PID is told."""
    child = subprocess.Popen(words, stdout=subprocess.DEVNULL)
    if child.wait():
        raise SystemExit(f"{words} ended with {child.returncode}")
    return child.pid


class Watch:
    """A watch that runs, and the lines that it says."""

    def __init__(self, words, word):
        self.lines = queue.Queue()
        # events name who did it
        self.has_pids = True
        # what was new or worse, and wasn't mended or gone since, by what it is of
        self.standing = {}
        self.start(words)
        threading.Thread(target=self.read, daemon=True).start()
        self.said = self.wait(lambda line: " watch: " in line and word in line, 600)

    def start(self, words):
        self.reader = self.process = subprocess.Popen(words, text=True, stdout=subprocess.PIPE)

    def read(self):
        for line in self.reader.stdout:
            self.has_pids &= "without who does it" not in line
            if re.search(" (limit|watch): ", line):
                print(f"  {line.rstrip()}", flush=True)
            found = TOLD.search(line.rstrip("\n"))
            if found:
                head = head_of(found[2])
                self.standing.pop(head, None)
                if found[1] in ("new", "worse"):
                    self.standing[head] = found[2]
            self.lines.put((time.monotonic(), line.rstrip("\n")))

    def wait(self, is_it, seconds):
        """The line that is waited for, when it came, and those behind it; or None."""
        until = time.monotonic() + seconds
        while time.monotonic() < until:
            try:
                when, line = self.lines.get(timeout=max(until - time.monotonic(), 0.01))
            except queue.Empty:
                return None
            if is_it(line):
                return when, line, self.behind()
        return None

    def behind(self):
        """The lines behind one that belong to it; on a busy host they come late."""
        more, until = [], time.monotonic() + 0.3
        while time.monotonic() < until:
            if self.lines.empty():
                time.sleep(0.01)
            elif self.lines.queue[0][1].startswith("    "):
                more.append(self.lines.get()[1])
            else:
                break
        return more

    def drain(self):
        while not self.lines.empty():
            self.lines.get()

    @property
    def pid(self):
        return self.process.pid

    def memory(self):
        with open(f"/proc/{self.pid}/status", encoding="ascii") as text:
            return next(int(line.split()[1]) for line in text if line.startswith("VmRSS"))

    def end(self):
        self.process.send_signal(signal.SIGTERM)
        return self.process.wait(30)


class Service(Watch):
    """The packaged unit, by what it writes to the journal."""
    unit = "zirofen-watch.service"

    def start(self, words):
        self.reader = subprocess.Popen(["journalctl", "--follow", "--lines=0", "--output=short-iso", "--unit", self.unit], text=True,
                                       stdout=subprocess.PIPE)
        subprocess.run(["systemctl", "restart", self.unit], check=True)

    def shown(self, name):
        return subprocess.run(["systemctl", "show", f"--property={name}", "--value", self.unit], capture_output=True, text=True,
                              check=True).stdout.strip()

    @property
    def pid(self):
        return self.shown("MainPID")

    def end(self):
        restarts = self.shown("NRestarts")
        subprocess.run(["systemctl", "stop", self.unit], check=True)
        self.reader.terminate()
        return f"{self.shown('ExecMainStatus')} ({self.shown('Result')}, {restarts} restarts)"


class Ways:
    """Ways to open what somebody holds, each with how it is mended: pairs of words, or of functions."""

    def __init__(self, mount, room):
        self.mount, self.room = mount, room
        self.top = f"{mount}/{TOP}"
        self.held = f"{self.top}/part/held"
        with open("/proc/self/mounts", encoding="ascii") as text:
            words = next(line.split()[3] for line in text if line.split()[1] == mount)
        self.options = [word for word in words.split(",") if word in ("nsdelegate", "memory_recursiveprot")]

    def make(self):
        os.makedirs(f"{self.held}/inside", exist_ok=True)
        os.makedirs(f"{self.top}/part/other", exist_ok=True)
        for each in HANDED:
            os.chown(self.held + each, HOLDER, HOLDER)
            os.chown(f"{self.top}/part/other{each}", OTHER, OTHER)
        os.chown(f"{self.top}/part/other/cgroup.max.depth", 0, 61050)
        os.chmod(f"{self.top}/part/other/cgroup.max.depth", 0o664)

    def fill(self):
        for number in range(IDLE):
            place = f"{self.top}-idle/{number}"
            os.makedirs(place)
            for each in HANDED if number % ONE_IN == 0 else ():
                os.chown(place + each, HOLDER + number, HOLDER + number)

    def remove(self):
        for top in (self.top, f"{self.top}-hostile", f"{self.top}-idle"):
            for place, _, _ in os.walk(top, topdown=False):
                os.rmdir(place)

    def all(self):
        part, held = f"{self.top}/part", self.held
        for name, file in (("procs-above", f"{part}/cgroup.procs"), ("procs-at-the-top", f"{self.mount}/cgroup.procs"),
                           ("control-above", f"{part}/cgroup.subtree_control"), ("directory-above", part)):
            mode = oct(os.stat(file).st_mode & 0o777)[2:]
            yield f"chmod-{name}", ("chmod", "a+w", file), ("chmod", mode, file)
            yield f"chown-{name}", ("chown", str(HOLDER), file), ("chown", "0", file)
        yield "chgrp-procs-above", ("sh", "-c", f"chgrp {HOLDER} {part}/cgroup.procs && chmod 664 {part}/cgroup.procs"), (
            "sh", "-c", f"chmod 644 {part}/cgroup.procs && chgrp 0 {part}/cgroup.procs")
        for file in ("cgroup.max.depth", "cgroup.max.descendants", "cgroup.freeze", "cgroup.type", "cgroup.kill"):
            if os.path.exists(f"{held}/{file}"):
                yield f"chown-{file}", ("chown", str(HOLDER), f"{held}/{file}"), ("chown", "0", f"{held}/{file}")
        yield "chmod-limit", ("chmod", "666", f"{held}/cgroup.max.depth"), ("chmod", "644", f"{held}/cgroup.max.depth")
        yield "made", ("sh", "-c", f"mkdir {part}/made && chown -R {HOLDER} {part}/made"), ("rmdir", f"{part}/made")
        yield "over", ("sh", "-c", f"echo 0 > {held}/cgroup.max.descendants"), ("sh", "-c", f"echo max > {held}/cgroup.max.descendants")
        second = f"{self.room}/second"
        os.makedirs(second, exist_ok=True)
        back = f"umount {second}"
        if self.options:
            back += f" && mount -o remount,{','.join(self.options)} {self.mount}"
        # this takes the options off the whole hierarchy
        yield "second-mount", ("mount", "-t", "cgroup2", "none", second), ("sh", "-c", back)
        file = f"{held}/cgroup.max.depth"
        yield "mounted-over", ("mount", "--bind", "/dev/null", file), ("umount", file)
        yield "group", self.group, self.group_back
        if os.path.isdir("/run/systemd/system"):
            yield "unit-started", self.unit_started, ("systemctl", "stop", f"{TOP}.service")
        if shutil.which("podman"):
            yield "container-started", ("podman", "run", "--detach", "--privileged", "--network", "none", "--name", TOP, "--rootfs",
                                        image_of(self.room, "root"), "sleep", "100000"), ("podman", "rm", "-f", "-t", "0", TOP)

    def unit_started(self):
        """A unit whose own hook opens a limit; the PID of the hook."""
        kept, file = f"{self.room}/pid", f"{self.mount}/system.slice/{TOP}.service/memory.max"
        subprocess.run(["systemd-run", "--quiet", f"--unit={TOP}", "--property=User=daemon", "--property=MemoryMax=100M",
                        f"--property=ExecStartPost=+/bin/sh -c 'echo $$$$ >{kept} && exec chmod 666 {file}'", "sleep", "1d"], check=True)
        with open(kept, encoding="ascii") as text:
            return int(text.read())

    def group(self):
        """Somebody gets into a group that has an entry."""
        os.chmod(f"{self.top}/part/other/cgroup.max.depth", 0o664)
        shutil.copy("/etc/group", f"{self.room}/group")
        with open("/etc/group", "a", encoding="ascii") as out:
            out.write("zirofentrial:x:61050:daemon\n")

    def group_back(self):
        """The entry is the group's no more: that a group has fewer members is told by no line."""
        shutil.copy(f"{self.room}/group", "/etc/group")
        os.chmod(f"{self.top}/part/other/cgroup.max.depth", 0o644)


def do(what):
    """The PID of what did it, where that is one process alone."""
    if callable(what):
        return what()
    pid = run(*what)
    return pid if what[0].startswith("ch") or what[0] == "rmdir" else None


def hostile(mount):
    """A user in a loop: cgroups made and removed, and modes toggled."""
    place = f"{mount}/{TOP}-hostile"
    os.makedirs(place, exist_ok=True)
    for each in HANDED:
        os.chown(place + each, HOSTILE, HOSTILE)
    pid = os.fork()
    if pid:
        return pid
    signal.signal(signal.SIGTERM, signal.SIG_DFL)
    os.setgid(HOSTILE)
    os.setuid(HOSTILE)
    for number in range(10000):
        with contextlib.suppress(OSError):
            os.rmdir(f"{place}/{number}")
    while True:
        for number in range(10000):
            os.mkdir(f"{place}/{number}")
        for number in range(10000):
            for mode in (0o777, 0o755):
                os.chmod(f"{place}/{number}", mode)
            os.chmod(f"{place}/{number}/cgroup.procs", 0o666)
        for number in range(10000):
            os.rmdir(f"{place}/{number}")


def told(watch, pid, name, kinds, within):
    """Whether something that was done is told as that in time, with whom, and says it."""
    def is_it(line):
        found = TOLD.search(line)
        if not found or found[1] not in kinds:
            return False
        return not OTHERS.search(head_of(found[2]))
    began = time.monotonic()
    found = watch.wait(is_it, within)
    if not found:
        print(f"{name}: not told within {within} s", flush=True)
        return False
    doer = next(iter(re.findall("by pid .*", "\n".join((found[1], *found[2])))), "")
    is_right = pid is None or not watch.has_pids or f"pid {pid}" in doer
    whom = f"{doer or 'no doer'}{'' if is_right else f', not {pid}'}"
    print(f"{name}: {max(found[0] - began, 0):.2f} s, {found[1][25:110]}, {whom}", flush=True)
    return is_right


CHURNED = """[Unit]
StartLimitIntervalSec=0
[Service]
User=daemon
Delegate=yes
MemoryMax=100M
ExecStart=/bin/sleep infinity
"""


class Units:
    """Services that the system's manager starts and ends, and with podman a container for each ten."""

    def __init__(self, mount, room):
        self.mount, self.room, self.has_podman = mount, room, bool(shutil.which("podman"))
        self.names = [f"zirofen-churn@{number}.service" for number in range(10)]
        with open("/run/systemd/system/zirofen-churn@.service", "w", encoding="ascii") as out:
            out.write(CHURNED)
        subprocess.run(["systemctl", "daemon-reload"], check=True)

    def restart(self):
        """Ends all and starts them; how many changes that were."""
        subprocess.run(["systemctl", "restart", *self.names], check=True)
        if self.has_podman:
            run("podman", "run", "--rm", "--network", "none", "--rootfs", image_of(self.room, "churn"), "sh", "-c", ":")
        return 2 * (len(self.names) + self.has_podman)

    def end(self, names):
        subprocess.run(["systemctl", "stop", *names], check=True)

    def entry(self, name):
        return f"{self.mount}/system.slice/system-zirofen\\x2dchurn.slice/{name}/memory.max"


class ByHand(Units):
    """The same without a manager: what one makes for a service, and for a container in a scope."""

    def __init__(self, mount, room):
        self.mount = mount
        self.names = [f"{TOP}/churn-{number}.service" for number in range(9)] + [f"{TOP}/libpod-{7:064x}.scope"]
        self.inside = {}

    def restart(self):
        self.end(self.names)
        for name in self.names:
            place = f"{self.mount}/{name}"
            folders = [place, f"{place}/container"] if name.endswith("scope") else [place]
            for each in folders:
                os.mkdir(each)
                os.setxattr(each, "trusted.delegate", b"1")
                for entry in HANDED:
                    os.chown(each + entry, 1, 1)
            self.inside[name] = subprocess.Popen(["sleep", "infinity"], user=1, group=1)
            with open(f"{folders[-1]}/cgroup.procs", "w", encoding="ascii") as out:
                out.write(str(self.inside[name].pid))
        time.sleep(0.5)
        return 2 * len(self.names)

    def end(self, names):
        for name in names:
            if name in self.inside:
                self.inside[name].kill()
                self.inside.pop(name).wait()
                for place, _, _ in os.walk(f"{self.mount}/{name}", topdown=False):
                    remove_empty(place)

    def entry(self, name):
        return f"{self.mount}/{name}/cgroup.max.depth"


def remove_empty(place):
    """Removes a cgroup; one whose process has just ended may be busy for a moment."""
    for _ in range(100):
        try:
            os.rmdir(place)
            return
        except OSError:
            time.sleep(0.01)
    raise SystemExit(f"{place} stays")


def check(given, mount, *words):
    return subprocess.run([*words_of(given, mount, "check"), *words], capture_output=True, text=True).stdout


def churn(watch, given, room):
    """Starts and ends services in a loop; whether the watch takes no more memory after the last thousand changes than after the first, and
    says of what is left what a check says."""
    mount, base = mount_here(), f"{room}/base"
    services = (Units if os.path.isdir("/run/systemd/system") else ByHand)(mount, room)
    check(given, mount, "--baseline-update", base)
    at_first = set(watch.standing.values())
    try:
        seen = churned(watch, services, 60 * given.churn)
        services.end(services.names[5:])
        os.chmod(services.entry(services.names[0]), 0o666)
        time.sleep(given.settle)
        lines, stands = check(given, mount, "--baseline", base).splitlines(), findings(watch.standing.values()) - at_first
    finally:
        services.end(services.names)
    found = findings(line.partition(": ")[2] for line in lines if line.startswith(("new: ", "worse: ")))
    print(f"what stands of it: {len(found)} lines of a check, {len(stands)} of the watch", flush=True)
    for line in sorted(found ^ stands):
        print(f"  the {'check' if line in found else 'watch'} alone: {line}")
    return seen[-1] <= 1.05 * seen[0] and found == stands


def findings(lines):
    """What is told of this trial's, but for rows of subtrees: what those rest on is told in their place."""
    return {line for line in lines if not re.match(r"\S+: (contained|escapes|unsettled), by ", line) and not OTHERS.search(head_of(line))}


def churned(watch, services, seconds):
    """The memory after each thousand changes, at least two."""
    until, changes, seen = time.monotonic() + seconds, 0, []
    while time.monotonic() < until or changes < 2000:
        changes += services.restart()
        if changes // 1000 > len(seen):
            seen.append(watch.memory())
            print(f"{changes} changes: {seen[-1]} KiB", flush=True)
    print(f"{changes} changes, {seen[-1] / seen[0]:.3f} of the memory after the first thousand", flush=True)
    return seen


def processor_of(pid):
    """Seconds of a processor that a process and those that it waited for have taken."""
    with open(f"/proc/{pid}/stat", encoding="ascii") as text:
        return sum(map(int, text.read().rpartition(")")[2].split()[11:15])) / os.sysconf("SC_CLK_TCK")


def idle(watch, given):
    """Whether a watch of what stays as it is takes next to nothing, and starts but a reading of processes in each minute."""
    time.sleep(min(given.settle, 60))
    watch.drain()
    pid, began, started = watch.pid, time.monotonic(), set()
    used = processor_of(pid)
    while time.monotonic() - began < 60 * given.idle:
        with open(f"/proc/{pid}/task/{pid}/children", encoding="ascii") as text:
            started.update(text.read().split())
        time.sleep(0.05)
    used, lines = processor_of(pid) - used, watch.lines.qsize()
    share = used / (time.monotonic() - began)
    print(f"{used:.2f} seconds of a processor in {given.idle:g} minutes, {100 * share:.3f} %; "
          f"{len(started)} processes started, {lines} lines", flush=True)
    return share <= IDLE_SHARE and len(started) <= given.idle + 1 and not lines


def openings(watch, ways, given):
    """Opens and mends in each way, so many times; how many were told in time and how many weren't."""
    counts = [0, 0]
    for name, opened, mended in [way for _ in range(given.rounds) for way in ways.all() if given.only in way[0]]:
        for what, kinds in ((opened, ("new", "worse")), (mended, ("mended", "gone"))):
            watch.drain()
            pid = do(what)
            counts[not told(watch, pid, f"{name} {kinds[0]}", kinds, given.within)] += 1
            time.sleep(given.pause)
    return counts


def words_of(given, mount, command="watch"):
    program = ("--zirofen", given.program) if given.program else ()
    return [sys.executable, f"{given.host}/zirofen-host", command, "--mount", mount, *program]


def arguments():
    parser = argparse.ArgumentParser()
    parser.add_argument("host")
    parser.add_argument("--rounds", type=int, default=1)
    parser.add_argument("--within", type=float, default=2.0)
    parser.add_argument("--pause", type=float, default=0.5)
    parser.add_argument("--churn", type=float, metavar="MINUTES", default=0.0)
    parser.add_argument("--idle", type=float, metavar="MINUTES", default=0.0)
    parser.add_argument("--service", action="store_true")
    parser.add_argument("--hostile", action="store_true")
    parser.add_argument("--only", default="")
    parser.add_argument("--program")
    parser.add_argument("--settle", type=float, default=120.0)
    return parser.parse_args()


def main():
    given, mount = arguments(), mount_here()
    signal.signal(signal.SIGTERM, lambda *_: sys.exit(1))
    with tempfile.TemporaryDirectory() as room:
        ways = Ways(mount, room)
        ways.make()
        if given.idle:
            ways.fill()
        enemy = hostile(mount) if given.hostile else None
        kind = Service if given.service else Watch
        watch = kind(words_of(given, mount), "were asked of")
        counts = [0, 1]
        try:
            if given.churn or given.idle:
                is_right = churn(watch, given, room) if given.churn else idle(watch, given)
                counts = [1, 0] if is_right else [0, 1]
            else:
                counts = openings(watch, ways, given)
        finally:
            print(f"memory: {watch.memory()} KiB; ended with {watch.end()}")
            if enemy:
                os.kill(enemy, signal.SIGKILL)
                os.waitpid(enemy, 0)
            ways.remove()
    print(f"{counts[0]} passed, {counts[1]} failed")
    return 1 if counts[1] else 0


if __name__ == "__main__":
    sys.exit(main())
