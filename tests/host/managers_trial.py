#!/usr/bin/env python3
"""Starts containers of every engine that is installed, mounts over the hierarchy and takes its options, plants causes, and writes what
`zirofen-host` tells of each. Run by hand, as root, in a machine with systemd that may be thrown away:

    tests/host/managers_trial.py HOST_FOLDER [--only PART,PART] [--times 10]

HOST_FOLDER has zirofen-host. Containers are made of busybox, since no image can be fetched; Docker, podman (root's and a user's), LXC,
systemd-nspawn, libvirt's LXC and Slurm are used as far as they are there; podman's pods need the package catatonit. Parts: names in each
form and command; what is tried inside of whatever runs then; the lines of a host of default containers; acceptances of what is made again;
options of the hierarchy; what is mounted over; causes; plans; a capability. Status 1 says that something is otherwise.
"""
import argparse
import contextlib
import json
import os
import re
import shutil
import subprocess
import sys
import tempfile
import time
from dataclasses import dataclass

import entered
from elsewhere_trial import ROOTLESS, image_of, ready_docker, ready_rootless, rootless, uid_of
from inside_trial import words_of
from limits_trial import MOUNT, read, said, write

FOLDER, USER = "/srv/zirofen-managers", "zirofen-one"
UNITS = "/run/systemd/system"
SLEEP = ("sleep", "100000")
PODMAN = ("podman", "run", "-d", "--network", "none")
DOCKER = ("docker", "run", "-d", "--network", "none")


@dataclass(frozen=True)
class Container:
    """A container by the word that it is to be named by: what starts it and what ends it, whether root in it is held (None: it isn't
    asked of root), and how many of the like are started."""
    word: str
    start: tuple
    end: tuple = ()
    held: object = None


def of_docker(name, *options, held=True):
    return Container(f"docker:{name}", (*DOCKER, "--name", name, *options, "busy", *SLEEP), ("docker", "rm", "-f", name), held)


def of_podman(name, *options, held=True):
    return Container(f"podman:{name}", (*PODMAN, "--name", name, *options, "busy", *SLEEP), ("podman", "rm", "-f", "-t", "0", name), held)


DOCKERS = (
    of_docker("web"), of_docker("limited", "--memory", "64m", "--cpus", "0.5", "--pids-limit", "50"),
    of_docker("priv", "--privileged", held=False), of_docker("boundrw", "-v", "/sys/fs/cgroup:/sys/fs/cgroup:rw", held=False),
    of_docker("pidhost", "--pid=host", held=False), of_docker("userd", "--user", "1001:1001", held=None))
IN_POD = ("podman", "run", "-d", "--pod", "rpod", "--name", "member", "busy", *SLEEP)
PODMANS = (
    of_podman("rootpod", "--memory", "64m"), of_podman("rpriv", "--privileged", held=False),
    of_podman("rauto", "--userns=auto:size=4096", held=None), Container("podman:member", IN_POD, held=True))
ROOTLESSES = tuple(
    Container(f"podman:{ROOTLESS}/{name}", ("podman", "run", "-d", "--network", "none", "--name", name, *more, "busy", *SLEEP))
    for name, more in (("app", ("--memory", "64m", "--pids-limit", "50")), ("plain", ())))


# starting


def subordinate(owner, first, count):
    """A range of ids of somebody's."""
    for file in ("/etc/subuid", "/etc/subgid"):
        if f"{owner}:{first}" not in read(file):
            with open(file, "a", encoding="ascii") as out:
                out.write(f"{owner}:{first}:{count}\n")


def start_docker():
    ready_docker(FOLDER)
    yield from run(DOCKERS, said)


def ready_podman():
    subprocess.run(f"tar -C {image_of(FOLDER, 'podman')} -c . | podman import - busy", shell=True, check=True, capture_output=True)


def start_podman():
    subordinate("containers", 700000, 300000)
    ready_podman()
    said("podman", "pod", "rm", "-f", "-t", "0", "rpod", check=False)
    said("podman", "pod", "create", "--name", "rpod", "--network", "none")
    yield from run(PODMANS, said)


def start_rootless():
    root = ready_rootless()
    rootless("sh", "-c", f"tar -C {root} -c . | podman import - busy")
    for each in ROOTLESSES:
        rootless("podman", "rm", "-f", "-t", "0", "-i", each.start[6])
    yield from run(ROOTLESSES, rootless)


def run(containers, act):
    for each in containers:
        if each.end:
            said(*each.end, check=False)
        act(*each.start)
        yield each


LXC = ("lxc.uts.name = {0}\nlxc.net.0.type = empty\nlxc.mount.auto = proc:mixed sys:mixed cgroup:mixed\nlxc.init.cmd = /bin/sleep 100000\n"
       "lxc.apparmor.profile = unconfined\nlxc.rootfs.path = dir:{1}\n")


def start_lxc():
    subordinate("root", 300000, 65536)
    for name, first in (("lroot", 0), ("lmapped", 300000)):
        root = image_of(FOLDER, name)
        said("chown", "-R", f"{first}:{first}", root)
        idmap = "".join(f"lxc.idmap = {kind} 0 {first} 65536\n" for kind in "ug") if first else ""
        write(f"{FOLDER}/{name}.conf", LXC.format(name, root) + idmap)
        said("lxc-stop", "-k", "-n", name, check=False)
        said("lxc-start", "-n", name, "-f", f"{FOLDER}/{name}.conf")
        yield Container(f"lxc:{name}", (), held=None if first else False)


def start_nspawn():
    for name, more in (("nbox", ()), ("nrange", ("-U", "--private-users-ownership=chown"))):
        said("systemctl", "stop", f"zm-{name}.service", f"machine-{name}.scope", check=False)
        said("systemctl", "reset-failed", check=False)
        said("systemd-run", "--quiet", f"--unit=zm-{name}", "systemd-nspawn", "-q", "-D", image_of(FOLDER, name), "-M", name, *more,
             "--link-journal=no", "--console=pipe", "/bin/sleep", "100000")
        yield Container(f"machine:{name}", (), held=None if more else False)


DOMAIN = """<domain type='lxc'><name>vbox</name><memory unit='MiB'>128</memory><vcpu>1</vcpu>
<os><type>exe</type><init>/bin/sleep</init><initarg>100000</initarg></os><devices><filesystem type='mount'><source dir='{0}'/>
<target dir='/'/></filesystem><console type='pty'/></devices></domain>
"""


def start_libvirt():
    # it doesn't start where it is to answer by TLS and has no certificate
    said("systemctl", "stop", "libvirtd-tls.socket", "libvirtd-tcp.socket", "libvirtd.service", check=False)
    said("systemctl", "start", "libvirtd.socket", "virtlogd.socket", check=False)
    write(f"{FOLDER}/vbox.xml", DOMAIN.format(image_of(FOLDER, "vbox")))
    said("virsh", "-c", "lxc:///", "destroy", "vbox", check=False)
    said("virsh", "-c", "lxc:///", "create", f"{FOLDER}/vbox.xml")
    yield Container("libvirt:vbox", (), held=False)


SLURM = """ClusterName=t
SlurmctldHost={0}
AuthType=auth/munge
ProctrackType=proctrack/cgroup
TaskPlugin=task/cgroup
SlurmUser=slurm
SlurmdUser=root
StateSaveLocation=/var/spool/slurmctld
SlurmdSpoolDir=/var/spool/slurmd
SelectType=select/cons_tres
SelectTypeParameters=CR_Core_Memory
ReturnToService=2
NodeName={0} CPUs={1} RealMemory=1000 State=UNKNOWN
PartitionName=debug Nodes=ALL Default=YES MaxTime=INFINITE State=UP
"""


def start_slurm():
    for folder in ("/etc/slurm", "/var/spool/slurmd", "/var/spool/slurmctld"):
        os.makedirs(folder, exist_ok=True)
    said("chown", "slurm", "/var/spool/slurmctld")
    write("/etc/slurm/slurm.conf", SLURM.format(os.uname().nodename, os.cpu_count()))
    write("/etc/slurm/cgroup.conf", "CgroupPlugin=cgroup/v2\nConstrainCores=yes\nConstrainRAMSpace=yes\nConstrainSwapSpace=no\n")
    said("systemctl", "restart", "munge", "slurmctld", "slurmd")
    time.sleep(10)
    said("runuser", "-u", ROOTLESS, "--", "env", "-C", f"/home/{ROOTLESS}", "sbatch", "--mem=100", "-c1", "--wrap", "sleep 100000")
    for _ in range(60):
        job = re.search(r"^ *([0-9]+) .* R ", said("squeue"), re.M)
        if job:
            yield Container(f"slurm:{job[1]}", ())
            return
        time.sleep(2)
    raise RuntimeError(f"no job runs: {said('squeue')}")


ENGINES = {"docker": ("dockerd", start_docker), "podman": ("podman", start_podman), "rootless": ("podman", start_rootless),
           "lxc": ("lxc-start", start_lxc), "nspawn": ("systemd-nspawn", start_nspawn), "libvirt": ("virsh", start_libvirt),
           "slurm": ("slurmctld", start_slurm)}


def started(options):
    """What was started of each engine; what doesn't start is told."""
    for engine, (program, start) in ENGINES.items():
        if engine not in options.engines.split(",") or not shutil.which(program):
            continue
        try:
            yield from start()
        except (OSError, RuntimeError, subprocess.SubprocessError) as error:
            print(f"{engine}: {error} {getattr(error, 'stderr', '') or ''}", file=sys.stderr, flush=True)
            yield Container(f"{engine}:**not started**", ())


# asking


class Checked:
    """A check in each form."""

    FORMS = "text", "json", "sarif", "junit"

    def __init__(self, options, *words):
        with tempfile.TemporaryDirectory() as folder:
            start = time.monotonic()
            forms = [word for form in self.FORMS for word in ("--format", f"{form}={folder}/{form}")]
            ended = run_host(options, "check", *forms, *words)
            if not os.path.exists(f"{folder}/json"):
                raise RuntimeError(f"the check: {ended.stderr}")
            self.forms = {form: open(f"{folder}/{form}", encoding="utf-8").read() for form in self.FORMS}
        self.status, self.errors, self.seconds = ended.returncode, ended.stderr, time.monotonic() - start
        self.report, self.text = json.loads(self.forms["json"]), self.forms["text"]
        print(f"check {' '.join(words)}: {self.seconds:.1f} s, status {self.status}", file=sys.stderr, flush=True)

    def lines(self, pattern):
        return [line for line in self.text.splitlines() if re.search(pattern, line)]

    @property
    def size(self):
        lines, words, size = len(self.text.splitlines()), len(self.text.split()), len(self.text.encode())
        return f"status {self.status}, {lines} lines, {words} words, {size} bytes, {self.seconds:.0f} s"

    def path_of(self, word):
        return next((each["path"] for each in self.report.get("scopes", ()) if each.get("word") == word), None)

    def inside(self, word):
        """The rows of root's in a container."""
        path = self.path_of(word)
        return [each for each in self.report.get("root_inside", ()) if path and f"{each['path']}/".startswith(f"{path}/")]

    def premise(self, what):
        return [each for each in self.report.get("premises", ()) if each["what"] == what]


def run_host(options, *words):
    return subprocess.run([f"{options.folder}/zirofen-host", *words], stdin=subprocess.DEVNULL, capture_output=True, text=True)


def lacking(otherwise):
    """What is otherwise of some things, each of which is told or not."""
    return [what for what, is_so in otherwise if is_so]


# parts: each yields what it is about, what was seen, and what of that is otherwise


def names(options):
    containers = list(started(options))
    time.sleep(5)
    checked = Checked(options)
    write("/var/tmp/zirofen-managers.txt", checked.text.encode("ascii", "replace").decode())
    for each in containers:
        inside = checked.inside(each.word)
        # what has no finding is no result, and a user's own are theirs
        forms = [form for form in checked.FORMS if inside or form in ("text", "json")]
        lacks = [form for form in forms if each.word not in checked.forms[form]]
        held = {row["held"] for row in inside}
        wrong = [f"no name in {' '.join(lacks)}"] if lacks else []
        wrong += [] if each.held is None or held == {each.held} else [f"held is {held or 'not told'} and not {each.held}"]
        yield each.word, f"{len(inside)} of root's, {'; '.join(sorted({why for row in inside for why in row['why']})) or '-'}", wrong
    yield "its report", checked.size, []
    yield from by_name(options, containers, checked)


def by_name(options, containers, checked):
    """--only and ask of some."""
    for each in [next(iter(of), None) for of in by_engine(containers).values()]:
        path = checked.path_of(each.word)
        if path is None:
            continue
        only = run_host(options, "check", "--only", each.word)
        asked = run_host(options, "ask", "1", each.word, "--only", each.word)
        wrong = [f"--only: {only.stderr.strip()}"] if path not in only.stdout and each.word not in only.stdout else []
        wrong += [f"ask: {asked.stdout} {asked.stderr}"] if asked.returncode not in (0, 1, 2) else []
        yield f"--only, ask {each.word}", f"status {only.returncode}, {asked.returncode}", wrong


def by_engine(containers):
    found = {}
    for each in containers:
        found.setdefault(each.word.partition(":")[0] + ("/" if "/" in each.word else ""), []).append(each)
    return found


def inside(options):
    """What processes in each container that runs, and in each subtree that is contained, come by."""
    for place, done, refused, why in entered.trials(Checked(options).report):
        wrong = [f"nothing could be tried: {why}"] if why else ["it isn't held"] if place.is_held and done else []
        yield place.name, f"{place.told}; {len(refused)} refused; done: {words_of(done)}", wrong


def default(options):
    """Containers as engines make them by default."""
    plain = tuple(of_docker(f"d{number}") for number in range(3)), tuple(of_podman(f"p{number}") for number in range(3))
    for containers, program, ready in zip(plain, ("dockerd", "podman"), (lambda: ready_docker(FOLDER), ready_podman)):
        if shutil.which(program):
            ready()
            yield from ((each.word, "started", []) for each in run(containers, said))
    yield from ((each.word, "started", []) for each in start_rootless())
    time.sleep(5)
    checked = Checked(options)
    write("/var/tmp/zirofen-default.txt", checked.text.encode("ascii", "replace").decode())
    yield "its report", checked.size, [] if len(checked.text.splitlines()) <= 20 else ["over 20 lines"]
    for each in (*plain[0], *plain[1]):
        if shutil.which(each.end[0]):
            said(*each.end, check=False)


POD = """apiVersion: v1
kind: Pod
metadata:
  name: shop
spec:
  containers:
  - name: front
    image: localhost/busy:latest
    imagePullPolicy: Never
    command: ["sleep", "100000"]
    securityContext:
      {0}
"""


def played(is_worse):
    write(f"{FOLDER}/shop.yaml", POD.format("privileged: true" if is_worse else 'capabilities: {add: ["SYS_ADMIN"]}'))
    said("podman", "play", "kube", "--network", "none", "--replace", f"{FOLDER}/shop.yaml")


def pod_made(is_worse):
    said("podman", "pod", "rm", "-f", "-t", "0", "again", check=False)
    said("podman", "pod", "create", "--name", "again", "--network", "none")
    privileged = ("--privileged",) if is_worse else ("-v", "/sys/fs/cgroup:/sys/fs/cgroup:rw")
    said("podman", "run", "-d", "--pod", "again", "--name", "again-one", *privileged, "busy", *SLEEP)


def docker_made(is_worse):
    said("docker", "rm", "-f", "ci", check=False)
    said(*DOCKER, "--name", "ci", *(("--privileged",) if is_worse else ("--cap-add", "SYS_ADMIN")), "busy", *SLEEP)


# by what is done the word, what does it, the program, and whether there is one that is worse
AGAIN = {"docker run": ("docker:ci", docker_made, "dockerd", True),
         "podman play kube": ("podman:shop-front", played, "podman", True),
         "a pod made again": ("podman:again-one", pod_made, "podman", True)}


def accepted_of(checked, word, is_by_path=False):
    """An acceptance of each container of root's that isn't held, by its name or by its path."""
    path = checked.path_of(word)
    rows = [each for each in checked.inside(word) if not each["held"]]
    names = {each["path"]: word if each["path"] == path else f"{word}:{each['path'][len(path):]}" for each in rows}
    return "".join(f'[[accept]]\nwhat = "root-inside"\npath = "{each["path"] if is_by_path else names[each["path"]]}"\n'
                   f'entry = "{" ".join(each["ways"])}"\nwhom = "root(0)"\nreason = "a trial"\nuntil = 2099-12-31\n' for each in rows)


def again(options):
    for name, (word, make, program, has_worse) in AGAIN.items():
        if name in options.again.split(";") and shutil.which(program):
            yield from made_again(options, name, word, make, has_worse)


def made_again(options, name, word, make, has_worse):
    make(False)
    time.sleep(2)
    file, base = f"{FOLDER}/accept.toml", f"{FOLDER}/base.json"
    first = Checked(options, "--only", word, "--baseline-update", base)
    write(file, accepted_of(first, word))
    states, told, ids = [], [], {first.path_of(word)}
    for _ in range(options.times):
        make(False)
        time.sleep(2)
        checked = Checked(options, "--only", word, "--accept", file, "--baseline", base)
        states += [each["state"] for each in checked.report["acceptances"]]
        told.append((checked.status, *(len(checked.report["baseline"][kind]) for kind in ("new", "worse", "gone"))))
        ids.add(checked.path_of(word))
    is_so = {*states} == {"accepted"} and {*told} == {(0, 0, 0, 0)} and len(ids) == options.times + 1
    yield name, (f"{word}: accepted {states.count('accepted')} of {len(states)}, nothing new, worse or gone {told.count((0, 0, 0, 0))} of "
                 f"{len(told)}, {len(ids)} ids"), [] if is_so else [f"states {states}, {told}"]
    yield by_path(options, name, word, first)
    if has_worse:
        make(True)
        time.sleep(2)
        checked = Checked(options, "--only", word, "--accept", file, "--baseline", base)
        states = [each["state"] for each in checked.report["acceptances"]]
        worse = [each["line"] for kind in ("new", "worse") for each in checked.report["baseline"][kind]]
        wrong = (("accepted", "accepted" in states), ("status", checked.status != 1), ("not worse", not worse))
        yield f"{name}, worse", f"{states}, status {checked.status}, new or worse {len(worse)}", lacking(wrong)


def by_path(options, name, word, first):
    """Acceptances of the one that is there now and of the first one, which is gone, by their paths."""
    file = f"{FOLDER}/by-path.toml"
    there = Checked(options, "--only", word)
    write(file, accepted_of(there, word, True) + accepted_of(first, word, True))
    checked = Checked(options, "--only", word, "--accept", file)
    states = [each["state"] for each in checked.report["acceptances"]]
    half = len(states) // 2
    told = [line.rpartition("; ")[2] for line in checked.lines("^accepted: ") if f'path = "{word}' in line]
    wrong = lacking((("not accepted", {*states[:half]} != {"accepted"}), ("accepted where it is gone", "accepted" in states[half:]),
                     ("no name to write instead", not told)))
    return f"{name}, by path", f"{states}, status {checked.status}; {'; '.join(told)}", wrong


# the hierarchy


def options_here():
    return {word for word in read("/proc/self/mountinfo").split(f" {MOUNT} ")[1].split("\n")[0].split(" - ")[1].split(" ")[2].split(",")
            if word in ("nsdelegate", "memory_recursiveprot")}


def of_docker_run():
    """One that ends at once takes them; one that goes on is to be named."""
    said("docker", "rm", "-f", "hostns", check=False)
    said(*DOCKER, "--name", "hostns", "--cgroupns=host", "busy", *SLEEP)
    said("mount", "-o", "remount,nsdelegate,memory_recursiveprot", MOUNT)
    said("docker", "run", "--rm", "--network", "none", "--cgroupns=host", "busy", "cat", "/etc/passwd")


def of_mount():
    said("mount", "-t", "cgroup2", "none", "/mnt")


def hierarchy(options):
    base = f"{FOLDER}/options.json"
    if shutil.which("dockerd"):
        ready_docker(FOLDER)
    first = Checked(options, "--baseline-update", base)
    yield "as it was booted", f"{sorted(options_here())}, status {first.status}", [] if not first.premise("mount-options") else ["found"]
    takes = (("docker run --rm --cgroupns=host", of_docker_run, "dockerd", "docker:hostns"),
             ("mount -t cgroup2 none /mnt", of_mount, "sh", "/mnt"))
    for name, take, program, word in takes:
        if shutil.which(program):
            take()
            yield from without_options(options, name, base, word)
    said("umount", "/mnt", check=False)


def without_options(options, name, base, word):
    """What is told of options that are gone: with whom they went, or where the hierarchy is mounted once more."""
    gone = options_here()
    checked = Checked(options, "--baseline", base)
    found = checked.premise("mount-options")
    told = [each for kind in ("new", "worse") for each in checked.report["baseline"][kind] if each["what"] == "mount-options"]
    texts = (*(each["told"] for each in found), *(" ".join((each["place"], each["text"])) for each in checked.report["unseen"]))
    beside = [text for text in texts if word in text]
    wrong = lacking((("still there", bool(gone)), ("no finding", not found), ("status", checked.status not in (1, 2)),
                     ("not in the baseline's", not told), (f"no {word}", not beside)))
    yield name, f"left {sorted(gone) or 'neither'}, {[each['entry'] for each in found]}, status {checked.status}, " \
                f"{', '.join(kind for kind in ('new', 'worse') if checked.report['baseline'][kind])}; {'; '.join(beside)[:600]}", wrong
    for command in [command for each in found for command in each["changes"]]:
        said("sh", "-c", command)
        after = Checked(options, "--baseline", base)
        is_so = options_here() == {"nsdelegate", "memory_recursiveprot"} and not after.premise("mount-options")
        yield command, f"{sorted(options_here())}, status {after.status}", [] if is_so else ["not restored"]


def service(name, text):
    """A service of root's trial, started."""
    write(f"{UNITS}/{name}.service", f"[Service]\nExecStart=/bin/sleep infinity\n{text}")
    said("systemctl", "daemon-reload")
    said("systemctl", "restart", f"{name}.service")
    time.sleep(1)
    return f"/system.slice/{name}.service"


def over(options):
    """A file of theirs and /dev/null over limits, and then a tmpfs over a cgroup of theirs that stands open."""
    path = service("zm-over", f"User={USER}\nDelegate=yes\nMemoryMax=50M\nTasksMax=40\n")
    hidden = f"{MOUNT}{path}/hidden"
    os.makedirs(hidden, exist_ok=True)
    os.chmod(f"{hidden}/cgroup.procs", 0o666)
    write(f"{FOLDER}/fake", "123\n")
    os.chown(f"{FOLDER}/fake", uid_of(USER), 0)
    with contextlib.ExitStack() as mounted:
        mounted.callback(os.rmdir, hidden)
        for words in ((("--bind", f"{FOLDER}/fake", f"{MOUNT}{path}/memory.max"), ("--bind", "/dev/null", f"{MOUNT}{path}/pids.max"))):
            said("mount", *words)
            mounted.callback(said, "umount", words[-1], check=False)
        yield from over_limits(Checked(options), path)
        said("mount", "-t", "tmpfs", "none", hidden)
        mounted.callback(said, "umount", hidden, check=False)
        checked = Checked(options)
        told = [line for line in checked.lines("mounted over") if "hidden" in line]
        contained = [line for line in checked.lines(rf" {re.escape(path)}( |$)") if "  contained  " in line]
        wrong = lacking((("not told", not told), ("a yes", bool(contained)), ("status", checked.status not in (1, 2, 3))))
        yield "a tmpfs over a cgroup", f"{'; '.join(checked.lines('hidden|^fault'))[:400]}, status {checked.status}", wrong


def over_limits(checked, path):
    found = {f"{each['path']} {each['entry']}" for each in checked.premise("mounted-over")}
    for entry in (f"{path} memory.max", f"{path} pids.max"):
        yield f"mounted over {entry}", "told" if entry in found else f"{sorted(found)}", [] if entry in found else ["not told"]
    row = checked.lines(rf"  {re.escape(path)}( |$)")
    read_as = [each for each in checked.report["entries"] if each["path"] == path and each["entry"] in ("memory.max", "pids.max")]
    yield "its row", f"{row}, status {checked.status}", lacking((
        ("no mark", not any("[mounted over]" in line for line in row)), ("a file of a tmpfs is read as a limit", bool(read_as)),
        ("status", checked.status not in (1, 2))))


# causes


@dataclass(frozen=True)
class Cause:
    """A line of a file of root's that gives a cgroup away, and the unit that it is of."""
    name: str
    file: str
    line: str
    before: str = ""

    @property
    def path(self):
        return f"/system.slice/zm-{self.name}.service"


def cause(name, file, line, before=""):
    path = f"{MOUNT}/system.slice/zm-{name}.service"
    return Cause(name, file.format(name), line.format(USER, path), before)


CAUSES = (
    cause("pre", UNITS + "/zm-{}.service", "ExecStartPost=+/bin/chown -R {0} {1}"),
    cause("drop", UNITS + "/zm-{}.service.d/50-more.conf", "ExecStartPost=+/bin/chown {0} {1} {1}/cgroup.procs", "[Service]\n"),
    cause("tmp", "/etc/tmpfiles.d/zm.conf", "z {1}/cgroup.procs 0664 {0} {0} -"),
    cause("udev", "/etc/udev/rules.d/99-zm.rules", 'ACTION=="add", SUBSYSTEM=="net", RUN+="/bin/chown {0} {1}/cgroup.procs"'),
    cause("cron", "/etc/cron.d/zm", "* * * * * root /bin/chown {0} {1}/cgroup.procs"),
    cause("pam", "/etc/pam.d/zm", "session optional pam_exec.so /bin/chown {0} {1}/cgroup.procs"),
)


def causes(options):
    for each in CAUSES:
        service(f"zm-{each.name}", f"User={USER}\nMemoryMax=50M\n{each.line + chr(10) if each.name == 'pre' else ''}")
        if each.name != "pre":
            os.makedirs(os.path.dirname(each.file), exist_ok=True)
            write(each.file, f"{each.before}{each.line}\n")
        os.chown(f"{MOUNT}{each.path}/cgroup.procs", uid_of(USER), 0)
    slice_path = f"/user.slice/user-{uid_of(ROOTLESS)}.slice"
    os.chmod(f"{MOUNT}{slice_path}/pids.max", 0o666)
    checked = Checked(options, "--mends", f"shell={FOLDER}/mends.sh")
    rows = [*checked.report["entries"], *checked.report["opened"], *checked.report["differs"]]
    for each in CAUSES:
        found = {str(told) for row in rows if row["path"] == each.path for told in row.get("causes", ())}
        yield f"a line in {each.file}", "; ".join(sorted(found))[:300], [] if any(told.startswith(f"{each.file}:") for told in found) else [
            f"not told: {checked.lines(re.escape(each.path))}"]
    limit = [line for line in checked.lines("10-defaults.conf")]
    yield f"a limit of {slice_path}", "; ".join(limit)[:300], [] if limit else ["the slice's drop-in isn't told"]
    for each in CAUSES:
        if each.name != "pre":
            os.remove(each.file)
        said("systemctl", "stop", f"zm-{each.name}.service")
        os.remove(f"{UNITS}/zm-{each.name}.service")
    os.chmod(f"{MOUNT}{slice_path}/pids.max", 0o644)
    said("systemctl", "daemon-reload")


def plans(options):
    there = uid_of(USER)
    manager = run_host(options, "plan", "--unit", f"/usr/lib/systemd/system/user@{there}.service", "--print", "lines")
    told = [line for line in (manager.stdout + manager.stderr).splitlines() if "TasksMax" in line]
    yield f"plan --unit user@{there}.service", f"status {manager.returncode}; {'; '.join(told)}"[:400], [
        ] if any("33%" in line for line in told) else ["no line of the slice's TasksMax="]
    box = run_host(options, "plan", "--unit", "/usr/lib/systemd/system/systemd-nspawn@box.service")
    told = [line for line in (box.stdout + box.stderr).splitlines() if "another uid" in line]
    yield "plan --unit systemd-nspawn@box.service", f"status {box.returncode}; {'; '.join(told)}"[:400], [] if told else ["no line of -U"]


LIFTS = "chmod 666 {0} && echo max >{0} && cat {0}; chmod 644 {0}; echo 90M >{0}"


def capability(options):
    path = service("zm-fowner", f"User={USER}\nMemoryMax=90M\nAmbientCapabilities=CAP_FOWNER\nDelegate=yes\n")
    place, uid = f"{MOUNT}{path}/memory.max", str(uid_of(USER))
    pid = said("systemctl", "show", "--property=MainPID", "--value", "zm-fowner.service")
    lifted = said("nsenter", "-t", pid, "-m", "--", "setpriv", "--reuid", uid, "--regid", uid, "--clear-groups", "--inh-caps", "+fowner",
                  "--ambient-caps", "+fowner", "sh", "-c", LIFTS.format(place), check=False)
    checked = Checked(options)
    row = checked.lines(rf"  {re.escape(path)}( |$)")
    found = checked.premise("capability")
    wrong = (("not lifted", lifted != "max"), ("no mark", not any("[capability]" in line for line in row)), ("no finding", not found),
             ("status", checked.status not in (1, 2)))
    seen = f"lifted: {lifted or 'no'}; {row}; {[each['entry'] for each in found]}; status {checked.status}"
    yield "CAP_FOWNER in their own service", seen, lacking(wrong)
    said("systemctl", "stop", "zm-fowner.service")


PARTS = {"default": default, "names": names, "inside": inside, "again": again, "hierarchy": hierarchy, "over": over, "causes": causes,
         "plans": plans, "capability": capability}


def play(options, name):
    failed = 0
    print(f"\n{name}:\n\n| What | Seen | |\n|---|---|---|", flush=True)
    with contextlib.suppress(KeyboardInterrupt):
        try:
            for what, seen, wrong in PARTS[name](options):
                failed += bool(wrong)
                print(f"| {what} | {seen} | {'; '.join(f'**{each}**' for each in wrong) or 'as it is to be'} |", flush=True)
        except (OSError, RuntimeError, subprocess.SubprocessError) as error:
            print(f"| {name} | {error} {getattr(error, 'stderr', '') or ''} | **not ended** |", flush=True)
            failed += 1
    return failed


def main():
    parser = argparse.ArgumentParser(description=__doc__, formatter_class=argparse.RawDescriptionHelpFormatter)
    parser.add_argument("folder", metavar="HOST_FOLDER")
    parser.add_argument("--only", default=",".join(PARTS), help=f"of {' '.join(PARTS)}")
    parser.add_argument("--engines", default=",".join(ENGINES), help=f"of {' '.join(ENGINES)}")
    parser.add_argument("--again", default=";".join(AGAIN), help=f"of {'; '.join(AGAIN)}")
    parser.add_argument("--times", type=int, default=10, help="that what is accepted is made again")
    options = parser.parse_args()
    os.makedirs(FOLDER, exist_ok=True)
    said("useradd", "--system", "--user-group", "--no-create-home", USER, check=False)
    ready_rootless()
    print(f"Linux {os.uname().release}, {said('systemctl', '--version').split(chr(10), 1)[0]}", flush=True)
    failed = sum(play(options, name) for name in options.only.split(","))
    print(f"\n{failed} otherwise", flush=True)
    return 1 if failed else 0


if __name__ == "__main__":
    sys.exit(main())
