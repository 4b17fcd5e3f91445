#!/usr/bin/env python3
"""Plays one hostile user of three on a real mount of cgroups, live, and counts how often the other two get their lines. Run by hand,
as root, on a machine that may be loaded for minutes:

    tests/host/live_trial.py HOST_FOLDER [--mount FOLDER] [--runs 20] [--only ROW,ROW] [--cgroups 1000] [--seconds 300] [--each]

HOST_FOLDER has zirofen-host. The users have uids without an account, and all that is made is removed again.
"""
import argparse
import contextlib
import ctypes
import os
import random
import re
import resource
import select
import shutil
import signal
import stat
import subprocess
import sys
import tempfile
import time

HOSTILE, QUIET, OPEN = 61001, 61002, 61003
NAMES = {HOSTILE: "hostile", QUIET: "quiet", OPEN: "open"}
HANDED = ("", "/cgroup.procs", "/cgroup.subtree_control", "/cgroup.threads")
CONTROLLERS = ("memory", "pids", "cpu", "io", "cpuset", "hugetlb")
LIBC = ctypes.CDLL(None, use_errno=True)
NEW_USER, NEW_MOUNTS, BIND, PRIVATE, REC = 0x10000000, 0x00020000, 4096, 1 << 18, 16384
IN_OPEN, SET_DUMPABLE = 0x20, 4
COPIES = 400
SECRET = "of root alone\n"
# what is written, by its option
WRITTEN = {"--html": "page.html", "--keep": "tree.toml", "--baseline-update": "base.json"}
# folders that files are written to: the hostile user's, and one of root's that everybody writes, as /tmp
THEIRS, STICKY = "theirs", "sticky"


def write(path, text):
    with open(path, "w", encoding="ascii") as out:
        out.write(text)


def call(name, *words):
    if getattr(LIBC, name)(*words) < 0:
        raise OSError(ctypes.get_errno(), f"{name}: {os.strerror(ctypes.get_errno())}")


class Place:
    """Three delegations on a mount: one whose user is hostile, one that is well handed over, and one with a limit left open; and a
    folder of files, with one that is root's alone."""

    def __init__(self, mount, name):
        self.mount, self.top, self.path = mount, f"/{name}", f"{mount}/{name}"
        self.enabled_here = []
        self.controllers = []
        self.files = f"/tmp/{name}"
        self.secret = f"{self.files}/secret"

    def of(self, uid):
        return f"{self.path}/{NAMES[uid]}"

    def make(self):
        os.mkdir(self.path)
        with open(f"{self.mount}/cgroup.controllers", encoding="ascii") as names:
            there = names.read().split()
        with open(f"{self.mount}/cgroup.subtree_control", encoding="ascii") as names:
            enabled = names.read().split()
        self.controllers = [name for name in CONTROLLERS if name in there]
        for name in self.controllers:
            if name not in enabled:
                write(f"{self.mount}/cgroup.subtree_control", f"+{name}")
                self.enabled_here.append(name)
            write(f"{self.path}/cgroup.subtree_control", f"+{name}")
        for uid in NAMES:
            os.mkdir(self.of(uid))
            for file in HANDED:
                if os.path.exists(self.of(uid) + file):
                    os.chown(self.of(uid) + file, uid, uid)
        os.chown(f"{self.of(OPEN)}/cgroup.max.depth", OPEN, OPEN)
        os.mkdir(self.files, 0o755)
        write(self.secret, SECRET)
        os.chmod(self.secret, 0o600)
        for folder, uid, mode in ((THEIRS, HOSTILE, 0o755), (STICKY, 0, 0o1777)):
            os.mkdir(f"{self.files}/{folder}")
            os.chmod(f"{self.files}/{folder}", mode)
            os.chown(f"{self.files}/{folder}", uid, uid)

    def remove(self):
        shutil.rmtree(self.files, ignore_errors=True)
        for folder in reversed(folders_in(self.path)):
            for _ in range(50):
                try:
                    os.rmdir(folder)
                    break
                except OSError:
                    time.sleep(0.02)
        for name in self.enabled_here:
            # another trial may be at work beside
            with contextlib.suppress(OSError):
                write(f"{self.mount}/cgroup.subtree_control", f"-{name}")


def folders_in(top):
    """A folder and all below it, each before what is inside it."""
    found, left = [], [top]
    while left:
        found.append(left.pop())
        with os.scandir(found[-1]) as entries:
            left += [entry.path for entry in entries if entry.is_dir(follow_symlinks=False)]
    return found


def made(place, count):
    """So many cgroups of the hostile user's own."""
    for number in range(count):
        os.makedirs(f"{place.of(HOSTILE)}/c{number}", exist_ok=True)


def enable_all(place, folder):
    """Gives what is below a folder the files of all controllers."""
    write(f"{folder}/cgroup.subtree_control", " ".join(f"+{name}" for name in place.controllers))


# what the hostile user does; each says when it is ready, and goes on until it is ended


def walks(place, ready):
    """Each walk over what the hostile user made, told by inotify and counted anew behind half a second without one."""
    made(place, 50)
    inotify = LIBC.inotify_init()
    LIBC.inotify_add_watch(inotify, f"{place.of(HOSTILE)}/c49/cgroup.subtree_control".encode(), IN_OPEN)
    ready()
    turn = 0
    while True:
        if not select.select([inotify], [], [], 0.5)[0]:
            turn = 0
            continue
        os.read(inotify, 4096)
        turn += 1
        yield turn


def toggles(place, ready, options):
    """Enables a controller behind the first walk and disables it behind the second."""
    for turn in walks(place, ready):
        try:
            write(f"{place.of(HOSTILE)}/cgroup.subtree_control", f"{'+' if turn % 2 else '-'}{place.controllers[0]}")
        except OSError:
            pass


def toggles_once(place, ready, options):
    """The same, but is quiet from the third walk on."""
    for turn in walks(place, ready):
        if turn <= 2:
            write(f"{place.of(HOSTILE)}/cgroup.subtree_control", f"{'+' if turn == 1 else '-'}{place.controllers[0]}")


def toggles_held(place, ready, options):
    """The same, and holds the files open that were there between the two walks."""
    folder, kept = f"{place.of(HOSTILE)}/c49", []
    for turn in walks(place, ready):
        if turn == 1:
            write(f"{place.of(HOSTILE)}/cgroup.subtree_control", f"+{place.controllers[0]}")
            for file in os.listdir(folder):
                if file.startswith(f"{place.controllers[0]}."):
                    with contextlib.suppress(OSError):
                        kept.append(os.open(f"{folder}/{file}", os.O_WRONLY))
        elif turn == 2:
            write(f"{place.of(HOSTILE)}/cgroup.subtree_control", f"-{place.controllers[0]}")


def comes_and_goes(place, ready, options):
    """Makes and removes cgroups."""
    ready()
    while True:
        os.makedirs(f"{place.of(HOSTILE)}/a/b/c", exist_ok=True)
        for below in ("a/b/c", "a/b", "a"):
            os.rmdir(f"{place.of(HOSTILE)}/{below}")


def own_namespaces():
    """A user and a mount namespace of one's own."""
    uid, gid = os.getuid(), os.getgid()
    call("unshare", NEW_USER | NEW_MOUNTS)
    write("/proc/self/setgroups", "deny")
    write("/proc/self/uid_map", f"0 {uid} 1")
    write("/proc/self/gid_map", f"0 {gid} 1")


def mounts(place, ready, options):
    """Many long mounts in a namespace of one's own, and many processes in it."""
    own_namespaces()
    call("mount", b"none", b"/", None, PRIVATE | REC, None)
    call("mount", b"none", b"/tmp", b"tmpfs", 0, None)
    folder = "/tmp" + "".join(f"/{'n' * 250}" for _ in range(10))
    os.makedirs(folder)
    for _ in range(options.mounts):
        call("mount", folder.encode(), folder.encode(), None, BIND, None)
    for _ in range(40):
        if not os.fork():
            signal.pause()
    ready()
    signal.pause()


def epolls(place, ready, options):
    """One epoll with many files, and many copies of it: what /proc tells of each copy is long."""
    epoll = select.epoll()
    for _ in range(options.files):
        epoll.register(os.eventfd(0) if hasattr(os, "eventfd") else os.pipe()[0])
    copies = [os.dup(epoll.fileno()) for _ in range(COPIES)]
    ready()
    select.select([], [], [], None if copies else 0)
    signal.pause()


def many_with(place, ready, options, mode_of):
    """Many cgroups of one's own, with a mode for each file by its place in a cgroup, and by that cgroup's."""
    enable_all(place, place.of(HOSTILE))
    made(place, options.cgroups)
    for number in range(options.cgroups):
        folder = f"{place.of(HOSTILE)}/c{number}"
        for at, file in enumerate(sorted(os.listdir(folder))):
            os.chmod(f"{folder}/{file}", mode_of(number, at))
    ready()
    signal.pause()


def many_at_0666(place, ready, options):
    """Many cgroups, each with all its files open to everybody."""
    many_with(place, ready, options, lambda number, at: 0o666)


def a_chain_at_0666(place, ready, options):
    """The same, one inside another."""
    folder = place.of(HOSTILE)
    for _ in range(min(options.cgroups, 1200)):
        enable_all(place, folder)
        folder += "/c"
        os.mkdir(folder)
        for file in os.listdir(folder):
            os.chmod(f"{folder}/{file}", 0o666)
    ready()
    signal.pause()


def modes(place, ready, options):
    """Many cgroups, each open in another way, so that none are alike."""
    many_with(place, ready, options, lambda number, at: (number * 7 + at) % 512 | 0o602)


def marks(place, ready, options):
    """Long marks in many cgroups."""
    made(place, options.cgroups)
    for number in range(options.cgroups):
        os.setxattr(f"{place.of(HOSTILE)}/c{number}", "user.delegate", b"1" * 60000)
    ready()
    signal.pause()


def hides_a_descriptor(place, ready, options):
    """Holds a limit file open that was taken away again, from within namespaces of one's own."""
    held = os.open(f"{place.of(HOSTILE)}/cgroup.max.depth", os.O_WRONLY)
    own_namespaces()
    call("mount", b"none", b"/", None, PRIVATE | REC, None)
    LIBC.umount2(place.mount.encode(), 2)
    ready()
    while held:
        signal.pause()


def over_a_text(place, ready, options):
    """More cgroups than a text takes."""
    made(place, 4100)
    ready()
    signal.pause()


def over_the_budget(place, ready, options):
    """More cgroups than are read of one person."""
    for number in range(330):
        for below in range(100):
            os.makedirs(f"{place.of(HOSTILE)}/c{number}/d{below}", exist_ok=True)
    ready()
    signal.pause()


def processes(place, ready, options):
    """Many processes that come and go."""
    def reap(*_):
        try:
            while os.waitpid(-1, os.WNOHANG)[0]:
                pass
        except ChildProcessError:
            pass
    signal.signal(signal.SIGCHLD, reap)
    ready()
    while True:
        try:
            if not os.fork():
                time.sleep(0.2)
                os._exit(0)
        except OSError:
            time.sleep(0.05)


def plants(folder, place, ready):
    """Puts a link to a file of root's, a FIFO and a file of one's own in turn where a file is to be written, and such a link in the
    place of all else that stands there for a while."""
    mine = [file + end for file in WRITTEN.values() for end in ("", ".new")]
    kinds = [lambda at: os.symlink(place.secret, at), lambda at: os.mkfifo(at, 0o666), lambda at: write(at, "mine")]
    ready()
    turn = 0
    while True:
        for name in mine:
            put(f"{folder}/{name}", kinds[turn % len(kinds)])
        turn, end = turn + 1, time.monotonic() + random.random()
        while time.monotonic() < end:
            for name in set(os.listdir(folder)) - set(mine):
                put(f"{folder}/{name}", kinds[0])


def put(at, make):
    for act in (os.unlink, make):
        with contextlib.suppress(OSError):
            act(at)


def plants_in_theirs(place, ready, options):
    """Plants files in a folder of one's own, in which root is asked to write."""
    plants(f"{place.files}/{THEIRS}", place, ready)


def plants_in_sticky(place, ready, options):
    """Plants files in a folder that everybody writes, in which root is asked to write."""
    plants(f"{place.files}/{STICKY}", place, ready)


ROWS = {"toggles": toggles, "toggles-once": toggles_once, "toggles-held": toggles_held, "comes-and-goes": comes_and_goes,
        "mounts": mounts, "epolls": epolls,
        "many-0666": many_at_0666, "chain-0666": a_chain_at_0666, "modes": modes, "marks": marks, "descriptor": hides_a_descriptor,
        "over-a-text": over_a_text, "over-the-budget": over_the_budget, "processes": processes,
        "writes-theirs": plants_in_theirs, "writes-sticky": plants_in_sticky}
# these take a minute and much memory of the kernel's
LARGE = {"over-the-budget"}
# of the package's unit, so where that is
TIMER, UNIT, BASELINE = "timer", "zirofen-check.service", "/var/lib/zirofen/baseline.json"
# to which folder a check writes meanwhile
FOLDERS = {"writes-theirs": THEIRS, "writes-sticky": STICKY}
# what has to be told of the hostile user
TOLD = {"descriptor": rf"descriptor: uid {HOSTILE}: cgroup.max.depth", "over-the-budget": rf"uid {HOSTILE} has over 32768 cgroups"}


class Hostile:
    """The hostile user at work, as long as the runs take."""

    def __init__(self, act, place, options):
        told, tell = os.pipe()
        self.pid = os.fork()
        if not self.pid:
            os.close(told)
            status = 1
            try:
                os.setsid()
                resource.setrlimit(resource.RLIMIT_NOFILE, (options.files + 2 * COPIES,) * 2)
                resource.setrlimit(resource.RLIMIT_NPROC, (400, 400))
                os.setgroups([])
                os.setresgid(HOSTILE, HOSTILE, HOSTILE)
                os.setresuid(HOSTILE, HOSTILE, HOSTILE)
                # else /proc/self is root's from now on
                LIBC.prctl(SET_DUMPABLE, 1, 0, 0, 0)
                act(place, lambda: os.write(tell, b"+"), options)
            except OSError as error:
                print(f"{act.__name__}: {error}", file=sys.stderr)
            finally:
                os._exit(status)
        os.close(tell)
        is_told = bool(select.select([told], [], [], options.seconds)[0])
        self.is_ready = is_told and os.read(told, 1) == b"+"
        os.close(told)

    def end(self):
        # all that it started has its session
        try:
            os.killpg(self.pid, signal.SIGKILL)
        except ProcessLookupError:
            pass
        os.waitpid(self.pid, 0)


class Ran:
    """A run of the helper: what it wrote, how it ended, and what it took."""

    def __init__(self, words, seconds):
        with tempfile.TemporaryFile() as out, tempfile.TemporaryFile() as err:
            start = time.monotonic()
            process = subprocess.Popen(words, stdin=subprocess.DEVNULL, stdout=out, stderr=err)
            self.is_late = not wait_for(process, seconds)
            _, status, used = os.wait4(process.pid, 0)
            process.returncode = os.waitstatus_to_exitcode(status)
            self.status, self.seconds = process.returncode, time.monotonic() - start
            self.memory = used.ru_maxrss // 1024
            self.processor = used.ru_utime + used.ru_stime
            out.seek(0)
            err.seek(0)
            self.out, self.err = out.read().decode("utf-8", "replace"), err.read().decode("utf-8", "replace")


class UnitRan:
    """A run of the package's unit: what its journal has of it, and how it ended."""

    def __init__(self, seconds):
        start, self.err, self.is_late = time.monotonic(), "", False
        try:
            subprocess.run(["systemctl", "start", UNIT], stdin=subprocess.DEVNULL, stderr=subprocess.DEVNULL, timeout=seconds)
        except subprocess.TimeoutExpired:
            self.is_late = True
        self.seconds = time.monotonic() - start
        self.status = int(said("systemctl", "show", "--property=ExecMainStatus", "--value", UNIT))
        invocation = said("systemctl", "show", "--property=InvocationID", "--value", UNIT).strip()
        subprocess.run(["journalctl", "--sync"], check=True)
        self.out = said("journalctl", "--output=cat", f"_SYSTEMD_INVOCATION_ID={invocation}")


def said(*words):
    return subprocess.run(words, stdin=subprocess.DEVNULL, capture_output=True, text=True, errors="replace", check=True).stdout


def wait_for(process, seconds):
    end = time.monotonic() + seconds
    while time.monotonic() < end:
        if os.waitid(os.P_PID, process.pid, os.WEXITED | os.WNOHANG | os.WNOWAIT):
            return True
        time.sleep(0.02)
    process.kill()
    return False


def missing(place, ran):
    """Which lines of the two others aren't there."""
    wanted = {"the quiet one's row": rf"^{QUIET}\s.*contained.*\s{place.top}/quiet$",
              "the open one's row": rf"^{OPEN}\s.*escapes.*\s{place.top}/open$",
              "the open one's entry": rf"^{place.top}/open cgroup.max.depth .*escapes, by uid {OPEN}",
              "what to change of it": rf"change: .*{place.top}/open/cgroup.max.depth"}
    found = [name for name, pattern in wanted.items() if not re.search(pattern, ran.out, re.M)]
    bad = [word for word in ("Traceback", "a fault of this helper", "Error(") if word in ran.out + ran.err]
    return found + bad + (["it took too long"] if ran.is_late else [])


def helper(options, place, *words):
    """A run of the helper on the three delegations."""
    return Ran([f"{options.folder}/zirofen-host", *words, "--mount", place.mount, "--only", place.top], options.seconds)


def checked(name, place, options):
    """A check while the hostile user acts, and what of it isn't as it has to be."""
    folder = FOLDERS.get(name)
    words = []
    if folder:
        for file in os.listdir(f"{place.files}/{folder}"):
            put(f"{place.files}/{folder}/{file}", lambda _: None)
        # until the hostile user was there
        time.sleep(random.random())
        words = [word for option, file in WRITTEN.items() for word in (option, f"{place.files}/{folder}/{file}")]
    ran = helper(options, place, "check", *words)
    lacks = missing(place, ran) + (wrong_files(place, folder, ran) if folder else [])
    if name in TOLD and not re.search(TOLD[name], ran.out, re.M):
        lacks.append("what is told of the hostile one")
    if lacks and options.verbose:
        print(ran.out[-3000:], ran.err[-1000:], file=sys.stderr)
    return ran, lacks


def told_at_once(number, ran, lacks, options):
    """A run and what of it isn't as it has to be, with a line where each is told as it ends."""
    if options.each:
        print(f"run {number + 1}: {', '.join(lacks) or 'both answered'}, status {ran.status}, {ran.seconds:.1f} s, {ran.memory} MB, "
              f"{ran.out.count(chr(10))} lines", flush=True)
    return ran, lacks


def wrong_files(place, folder, ran):
    """What is wrong with the files that were to be written: each is root's alone to write, and whole, or a line says why it isn't
    there; and root's own file is as it was."""
    with open(place.secret, encoding="ascii") as there:
        is_kept = there.read() == SECRET
    status = os.lstat(place.secret)
    wrong = [] if is_kept and (status.st_mode, status.st_uid, status.st_nlink) == (stat.S_IFREG | 0o600, 0, 1) else ["root's file"]
    for file in WRITTEN.values():
        try:
            status = os.lstat(f"{place.files}/{folder}/{file}")
        except FileNotFoundError:
            status = None
        is_written = status and status.st_uid == 0 and stat.S_ISREG(status.st_mode) and status.st_size > 0
        if is_written and (folder == THEIRS or status.st_mode & 0o022):
            wrong.append(f"{file} is theirs to write")
        if bool(is_written) == (f"/{folder}/{file}" in re.sub("^.*is a baseline.*$", "", ran.err + ran.out, flags=re.M)):
            wrong.append(f"{file} is written and refused" if is_written else f"{file} is lost without a word")
    return wrong


def play(name, place, options):
    """A row: the two others' lines in so many runs, and the most that a run took."""
    if name == "descriptor":
        os.chown(f"{place.of(HOSTILE)}/cgroup.max.depth", HOSTILE, HOSTILE)
    hostile = Hostile(ROWS[name], place, options)
    if name == "descriptor":
        os.chown(f"{place.of(HOSTILE)}/cgroup.max.depth", 0, 0)
    try:
        if not hostile.is_ready:
            return f"{name}: not played: it wasn't ready"
        ran, lacking = zip(*(told_at_once(number, *checked(name, place, options), options) for number in range(options.runs)))
        told = "; ".join(sorted({each for lacks in lacking for each in lacks}))
        return (f"{name}: {lacking.count([])} of {len(ran)}, status {'/'.join(map(str, sorted({each.status for each in ran})))}, at most "
                f"{max(each.seconds for each in ran):.1f} s, {max(each.processor for each in ran):.1f} s of processor, "
                f"{max(each.memory for each in ran)} MB, {max(each.out.count(chr(10)) for each in ran)} lines"
                + (f"; lacking: {told}" if told else "") + also(name, place, options))
    finally:
        hostile.end()


def play_timer(place, options):
    """The first run of the package's unit where the hostile user has more cgroups than a text takes, and a second one: what stands
    is told again, and the unit fails again. Plays where the unit is, and has no baseline."""
    if os.path.exists(BASELINE):
        return f"timer: not played: {BASELINE} is there"
    hostile = Hostile(over_a_text, place, options)
    try:
        if not hostile.is_ready:
            return "timer: not played: it wasn't ready"
        first, second = UnitRan(options.seconds), UnitRan(options.seconds)
        lacks = missing(place, first)
        lacks += [f"the {number} run's fault" for number, ran in (("first", first), ("second", second))
                  if f"fault: everybody of {place.top}/hostile: " not in ran.out]
        if not re.search(rf"^[0-9]+ findings are open since .*{place.top}/open cgroup.max.depth", second.out, re.M):
            lacks.append("what stands")
        if 0 in (first.status, second.status):
            lacks.append("that the unit failed")
        return (f"timer: {'lacking: ' + '; '.join(lacks) if lacks else 'all told'}, status {first.status} then {second.status}, "
                f"{first.seconds:.1f} s and {second.seconds:.1f} s, {os.path.getsize(BASELINE)} bytes")
    finally:
        hostile.end()
        with contextlib.suppress(FileNotFoundError):
            os.unlink(BASELINE)


def also(name, place, options):
    """What else is tried where somebody has more than a text takes: a text of it all, judged elsewhere, and a baseline."""
    if name not in ("over-a-text", "over-the-budget", "marks"):
        return ""
    with tempfile.TemporaryDirectory() as folder:
        file = f"{folder}/tree.toml"
        taken = helper(options, place, "snapshot", "--with-host")
        write_text(file, taken.out)
        judged = Ran([f"{options.folder}/zirofen-host", "check", "--tree", file], options.seconds)
        told = [line for line in missing(place, judged) if "change" not in line]
        first, second = (helper(options, place, "check", "--baseline", f"{folder}/base") for _ in range(2))
        size = os.path.getsize(f"{folder}/base") if os.path.exists(f"{folder}/base") else 0
        return (f"; snapshot: status {taken.status}, {len(taken.out)} bytes; its check: status {judged.status}, "
                f"{'; '.join(told) or 'both answered'}; baseline: status {first.status} then {second.status}, {size} bytes")


def write_text(file, text):
    with open(file, "w", encoding="utf-8") as out:
        out.write(text)


def mount_here():
    """The mount of version 2."""
    with open("/proc/self/mountinfo", encoding="utf-8", errors="surrogateescape") as lines:
        return next(line.split(" ")[4] for line in lines if " - cgroup2 " in line)


def main():
    parser = argparse.ArgumentParser(description=__doc__, formatter_class=argparse.RawDescriptionHelpFormatter)
    parser.add_argument("folder", metavar="HOST_FOLDER")
    parser.add_argument("--mount", default=None)
    parser.add_argument("--runs", type=int, default=20)
    parser.add_argument("--only", default=",".join(name for name in ROWS if name not in LARGE), help=f"of {' '.join(ROWS)} {TIMER}")
    parser.add_argument("--cgroups", type=int, default=1000)
    parser.add_argument("--mounts", type=int, default=2000)
    parser.add_argument("--files", type=int, default=15000)
    parser.add_argument("--seconds", type=int, default=300, help="that the hostile user, and a run, may take")
    parser.add_argument("--each", action="store_true", help="a line for each run as it ends")
    parser.add_argument("--verbose", action="store_true", help="what a run wrote in which something is lacking")
    options = parser.parse_args()
    failed = 0
    for name in options.only.split(","):
        place = Place(options.mount or mount_here(), f"zirofen-live-{os.getpid()}")
        try:
            place.make()
            line = play_timer(place, options) if name == TIMER else play(name, place, options)
        finally:
            place.remove()
        failed += f": {options.runs} of {options.runs}," not in line and ": all told," not in line
        print(line, flush=True)
    return 1 if failed else 0


if __name__ == "__main__":
    sys.exit(main())
