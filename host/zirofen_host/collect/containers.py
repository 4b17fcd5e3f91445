"""From files of root's to the names of containers: of podman, Docker, containerd and CRI-O, and of pods.

A file counts where it and each folder on the way to it are root's, and nobody else writes them. A container below a cgroup that isn't
root's has the name that a file of its holder's tells, which is theirs to choose: it stands behind theirs.
"""
import json
import pwd
import re
from functools import cached_property
from typing import Callable, Dict, Iterator, Mapping, NamedTuple, Optional, Pattern, Tuple

from zirofen_host.collect import bounded
from zirofen_host.collect.further_mounts import read_theirs
from zirofen_host.collect.model import Cgroup, Scope
from zirofen_host.collect.mount import mounts_of_host
from zirofen_host.profile import CgroupPath, ancestors, parent_of, shown

PODMAN, DOCKER, CONTAINERD, CRIO, POD = "podman", "docker", "containerd", "cri-o", "pod"
LXC, MACHINE, LIBVIRT, SLURM = OF_CGROUPS = "lxc", "machine", "libvirt", "slurm"
# letters of a name and of an id that are kept
LONGEST_NAME, SHORT_ID = 96, 12
# a container's or a pod's cgroup by its own name, and by that of the cgroup above it
_ID = rb"([0-9a-f]{8,64})"
KINDS: Tuple[Tuple[str, Pattern[bytes], Pattern[bytes]], ...] = tuple(
    (engine, re.compile(own), re.compile(above)) for engine, own, above in (
        (PODMAN, rb"libpod-%b(?:\.scope)?" % _ID, rb".*"),
        (DOCKER, rb"docker-%b\.scope" % _ID, rb".*"),
        (DOCKER, _ID, rb"docker.*"),
        (CONTAINERD, rb"(?:cri-containerd|nerdctl)-%b\.scope" % _ID, rb".*"),
        (CRIO, rb"crio-%b(?:\.scope)?" % _ID, rb".*"),
        (CONTAINERD, _ID, rb"pod.*"),
        (POD, rb"kubepods.*-pod([0-9a-f]{8}(?:_[0-9a-f]{4}){3}_[0-9a-f]{12})\.slice", rb".*"),
        (POD, rb"pod([0-9a-f]{8}(?:-[0-9a-f]{4}){3}-[0-9a-f]{12})", rb".*"),
        (POD, rb"(?:.*-)?libpod_pod_([0-9a-f]{64})\.slice", rb".*"),
        (POD, rb"([0-9a-f]{64})", rb"libpod_parent"),
        # these have their names in the cgroup's
        (LXC, rb"lxc\.payload\.(.+)", rb".*"),
        (LIBVIRT, rb"machine-(?:lxc|qemu|xen)\\x2d[0-9]+\\x2d(.+)\.scope", rb"machine\.slice"),
        (MACHINE, rb"machine-(.+)\.scope", rb"machine\.slice"),
        (MACHINE, rb"systemd-nspawn@(.+)\.service", rb"machine\.slice"),
        (SLURM, rb"job_([0-9]+)", rb".*slurmstepd\.scope")))
# how a manager of units writes a letter that no unit's name has
_ESCAPED = re.compile(r"\\x([0-9a-f]{2})")
# of a container of a pod, the keys of its annotations: where it is, the pod's name and its own
ANNOTATIONS = (("io.kubernetes.cri.sandbox-namespace", "io.kubernetes.cri.sandbox-name", "io.kubernetes.cri.container-name"),
               ("io.kubernetes.pod.namespace", "io.kubernetes.pod.name", "io.kubernetes.container.name"))
ALIASES = "# Entries added by HostAliases."
# how what podman keeps of a pod begins; no pod has another name later, so that what stands there from before is as good
POD_ROW = re.compile(r'\{"id":"([0-9a-f]{64})","name":"([A-Za-z0-9][A-Za-z0-9_.-]{0,95})')
OTHERS_WRITE = 0o022

# a name in what a file has, by the id that it is of
NameIn = Callable[[str, str], Optional[str]]


class Known(NamedTuple):
    """A cgroup that is one of a container or a pod."""
    engine: str
    id: str


def name_in_list(text: str, identity: str) -> Optional[str]:
    """Of podman and CRI-O: a list of all containers."""
    return next((str(each["names"][0]) for each in json.loads(text) if each["id"].startswith(identity)), None)


def names_in_list(text: str) -> Mapping[str, str]:
    """All of such a list by their ids, which may be anybody's."""
    try:
        # no number is made of what may be millions of digits
        return {str(each["id"]): str(each["names"][0])[:LONGEST_NAME] for each in json.loads(text, parse_int=str)}
    except (ValueError, KeyError, IndexError, TypeError, RecursionError):
        return {}


def name_in_config(text: str, _: str) -> Optional[str]:
    """Of Docker."""
    return str(json.loads(text)["Name"]).lstrip("/")


def name_in_bundle(text: str, _: str) -> Optional[str]:
    """Of what a runtime was given: of a pod's container where it is, the pod and the container."""
    annotations = json.loads(text)["annotations"]
    for keys in ANNOTATIONS:
        found = [str(annotations[key]) for key in keys if key in annotations]
        if len(found) > 1:
            return "/".join(found)
    return str(annotations["nerdctl/name"])


def name_in_hosts(text: str, _: str) -> Optional[str]:
    """Of a pod: its own line in its hosts, which is the last before those that were added."""
    head, *lines = text.partition(ALIASES)[0].splitlines()
    if "host network" in head:
        return None
    words = [line.split() for line in lines if line.strip() and not line.startswith("#")]
    return words[-1][1]


def pods_in_database(text: str) -> Mapping[str, str]:
    """Of podman: all pods by their ids, as they stand in its database of either kind."""
    return {found[1]: found[2] for found in POD_ROW.finditer(text)}


def name_in_database(text: str, identity: str) -> Optional[str]:
    """Of podman: a pod."""
    at = text.find(f'{{"id":"{identity}",')
    found = POD_ROW.match(text, at) if at >= 0 else None
    return None if found is None else found[2]


# of podman, one for each driver of storage
LISTS = tuple(f"containers/storage/{driver}-containers/containers.json" for driver in ("overlay", "vfs", "btrfs", "zfs"))
# of podman's pods: what SQLite has, also of what isn't in its file yet, and of podman before 4.8 what Bolt has
DATABASES = tuple(f"containers/storage/{file}" for file in ("db.sql", "db.sql-wal", "libpod/bolt_state.db"))
OWN_DATA, DATA = ".local/share", "/var/lib"
IN_LISTS: Tuple[Tuple[str, NameIn], ...] = tuple((f"{DATA}/{file}", name_in_list) for file in LISTS)
# the files that tell a name, with what is read of each
FILES: Mapping[str, Tuple[Tuple[str, NameIn], ...]] = {
    PODMAN: (("/run/crun/{}/config.json", name_in_bundle), *IN_LISTS),
    DOCKER: (("/var/lib/docker/containers/{}/config.v2.json", name_in_config),),
    CONTAINERD: tuple((f"/run/containerd/io.containerd.runtime.v2.task/{space}/{{}}/config.json", name_in_bundle)
                      for space in ("k8s.io", "default", "moby")),
    CRIO: (("/run/containers/storage/overlay-containers/{}/userdata/config.json", name_in_bundle),
           ("/run/crun/{}/config.json", name_in_bundle), *IN_LISTS),
    POD: (("/var/lib/kubelet/pods/{}/etc-hosts", name_in_hosts), *((f"{DATA}/{file}", name_in_database) for file in DATABASES))}


def known(path: CgroupPath) -> Optional[Known]:
    """What a cgroup is of, by its name."""
    above, _, name = path.rpartition(b"/")
    for engine, pattern, parent in KINDS:
        found = pattern.fullmatch(name)
        if found and parent.fullmatch(above.rpartition(b"/")[2]):
            text = found[1].decode("ascii", "replace")
            return Known(engine, _ESCAPED.sub(lambda letter: chr(int(letter[1], 16)), text) if engine in OF_CGROUPS
                         else text.replace("_", "-"))
    return None


def word_of(scope: Scope, holder: Optional[str]) -> str:
    """What a container is named by in place of its path: its engine and its name, of a user's own behind theirs, or behind their uid."""
    whose = "" if scope.holder is None else f"{holder or scope.holder}/"
    return f"{scope.engine}:{whose}{shown(scope.name or scope.id)}"


def holder_of(cgroups: Mapping[CgroupPath, Cgroup], path: CgroupPath) -> Optional[int]:
    """Whose a container is that root didn't start: the topmost owner above it who isn't root, or -1 where others write above it."""
    for above in [*ancestors(path)][::-1]:
        directory = cgroups[above].directory
        if directory.uid or directory.mode & OTHERS_WRITE:
            return directory.uid or -1
    return None


def name_of(name_in: NameIn, text: Optional[str], identity: str) -> Optional[str]:
    """A name in what a file has, where there is one."""
    try:
        name = name_in(text, identity) if text is not None else None
    except (ValueError, KeyError, IndexError, TypeError, AttributeError, RecursionError):
        return None
    return name[:LONGEST_NAME] if name else None


def home_here(uid: int) -> Optional[str]:
    try:
        return pwd.getpwuid(uid).pw_dir
    except (KeyError, OverflowError):
        return None


class Names:
    """Reads names, each file once, as far as there is room."""

    def __init__(self, top: str, home_of: Callable[[int], Optional[str]] = home_here) -> None:
        self.top, self.home_of = top, home_of
        # of each user whose podman was asked, the names of its containers
        self.own: Dict[int, Mapping[str, str]] = {}
        self.files, self.bytes = bounded.NAME_FILES, bounded.NAME_BYTES
        self.read: Dict[str, Optional[str]] = {}

    def text(self, file: str) -> Optional[str]:
        if file not in self.read and self.files and self.bytes:
            self.files -= 1
            try:
                found = bounded.read_roots(file, min(bounded.NAME_FILE, self.bytes), self.top)
                self.bytes -= len(found.data)
                self.read[file] = None if found.is_cut else found.text("utf-8", "replace")
            except OSError:
                self.read[file] = None
        return self.read.get(file)

    def name(self, of: Known, holder: Optional[int] = None) -> Optional[str]:
        """A name as root's files tell it; of a container that somebody else started, as theirs do, or as they have named its cgroup."""
        if of.engine in OF_CGROUPS:
            return of.id[:LONGEST_NAME]
        if holder is not None:
            return self.own_names(holder).get(of.id) if of.engine in (PODMAN, POD) and holder > 0 else None
        for file, name_in in FILES[of.engine]:
            name = name_of(name_in, self.text(file.format(of.id)), of.id)
            if name:
                return name
        return None

    @cached_property
    def types(self) -> Mapping[int, str]:
        """Of each mount that this process sees the type of its file system."""
        return mounts_of_host().types

    def own_names(self, holder: int) -> Mapping[str, str]:
        """The names in a user's own lists of podman's containers and in its databases of pods, which are read and parsed once."""
        if holder not in self.own:
            home = self.home_of(holder)
            self.own[holder] = {identity: name for files, names_in in ((LISTS, names_in_list), (DATABASES, pods_in_database))
                                for file in files if home
                                for identity, name in names_in(self.own_text(f"{home}/{OWN_DATA}/{file}", holder)).items()}
        return self.own[holder]

    def own_text(self, file: str, holder: int) -> str:
        """What a file of a user's has; nothing where it can't be read, or has more than is read."""
        try:
            found = read_theirs(file, holder, self.types, bounded.NAME_FILE, self.top)
        except OSError:
            return ""
        return "" if found.is_cut else found.text("utf-8", "replace")


class NoFiles(Names):
    """Names as cgroups have them alone."""

    def __init__(self) -> None:
        super().__init__("/")

    def name(self, of: Known, holder: Optional[int] = None) -> Optional[str]:
        return of.id[:LONGEST_NAME] if of.engine in OF_CGROUPS else None


def scopes(cgroups: Mapping[CgroupPath, Cgroup], top: str = "/", names: Optional[Names] = None) -> Iterator[Scope]:
    """The containers and pods among some cgroups."""
    names = names or Names(top)
    for path in sorted(cgroups):
        of = known(path)
        if of and parent_of(path):
            holder = holder_of(cgroups, path)
            yield Scope(path, of.engine, of.id[:SHORT_ID], names.name(of, holder), holder)
