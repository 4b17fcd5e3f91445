"""From root's files to what in them gives entries of cgroups away, and what sets a unit's limits.

These are lines of units with their drop-ins, of tmpfiles.d, udev's rules, cron and PAM. A file counts where it and each folder on the
way to it are root's, and nobody else writes them; no link is followed. What else is there is counted.
"""
import os
import re
from collections import defaultdict
from typing import DefaultDict, Dict, Iterator, List, NamedTuple, Optional, Sequence, Tuple

from zirofen_host.collect import bounded
from zirofen_host.collect.unit_files import DROP_INS, ENDING, FOLDERS, Setting, UnitName, settings_in
from zirofen_host.fault import Fault
from zirofen_host.files import setting_of
from zirofen_host.profile import is_inside

# where the host's files are
TOP = "/"
# lines that are kept of one place, and letters of one
MOST, LONGEST = 4, 200
CONFIGURED = ("/etc", "/run", "/usr/local/lib", "/usr/lib")
# folders of units: those that a manager writes by itself go first or last
UNIT_FOLDERS = ("/etc/systemd/system.control", "/run/systemd/system.control", "/run/systemd/transient", "/run/systemd/generator.early",
                FOLDERS[0], "/etc/systemd/system.attached", FOLDERS[1], "/run/systemd/generator", *FOLDERS[2:],
                "/run/systemd/generator.late")
# folders of other files, each with how their names end, and files by themselves
OTHERS: Tuple[Tuple[str, str], ...] = (
    *((f"{folder}/tmpfiles.d", ".conf") for folder in CONFIGURED), *((f"{folder}/udev/rules.d", ".rules") for folder in CONFIGURED),
    *((f"/etc/cron.{each}", "") for each in ("d", "hourly", "daily", "weekly", "monthly", "yearly")), ("/etc/pam.d", ""),
    ("/usr/lib/pam.d", ""))
FILES = ("/etc/crontab", "/etc/anacrontab", "/etc/rc.local", "/var/spool/cron/crontabs/root", "/var/spool/cron/root")
# where a group may write, and only its owner takes a file away
SPOOL = "/var/spool"
# folders that are links to those in /usr
LINKED = ("/bin/", "/sbin/")
# of User= and DynamicUser=, what leaves a unit root's
NOBODY_ELSE = ("", "root", "0", "no", "false", "off")
# what hands cgroups over without naming the mount
HANDS_OVER = ("pam_cgfs.so",)
_UNIT_FILE = re.compile(r"[A-Za-z0-9:_.@\\-]{1,255}\.(service|slice|socket|mount|timer|scope)\Z")
_END = re.compile(r"[\s'\";|&()<>,]|\Z")
_OPEN = re.compile(r"[$%*?\[{`\\]")
_DOWN = re.compile(r"\s-[a-zA-Z]*R|--recursive|\bfind\b|^Z")
# a command that root carries out
_AS_ROOT = re.compile(r"[-@:|]*(\+|!(?!!))[-@:|!+]*")
_PREFIX = re.compile(r"[-@:|!+]*")


class Line(NamedTuple):
    """A line of a file of root's."""
    file: str
    number: int
    text: str

    def __str__(self) -> str:
        return f"{self.file}:{self.number}: {self.text}"


def shortened(text: str) -> str:
    return text if len(text) <= LONGEST else f"{text[:LONGEST]}.."


class Reader:
    """Reads files of root's as far as there is room, and counts what isn't read."""

    def __init__(self, top: str) -> None:
        self.top = top
        self.files, self.bytes, self.unread = bounded.ROOT_FILES, bounded.ROOT_BYTES, 0

    def texts_in(self, folder: str, ending: str) -> Iterator[Tuple[str, str]]:
        """The files of a folder, in the order of their names, each with its text."""
        try:
            opened = bounded.open_roots(folder.strip("/").split("/"), self.top, folder.startswith(SPOOL))
        except (FileNotFoundError, NotADirectoryError) as error:
            self.unread += self.is_link(folder) and isinstance(error, NotADirectoryError)
            return
        except OSError:
            self.unread += 1
            return
        try:
            listed = bounded.list_folder(opened, bounded.ROOT_FILES)
            self.unread += listed.is_cut
            for name, is_folder in sorted(listed.names):
                if name.endswith(ending) and not is_folder:
                    text = self.text_in(opened, folder, name)
                    if text is not None:
                        yield f"{folder}/{name}", text
        finally:
            os.close(opened)

    def text_in(self, opened: int, folder: str, name: str) -> Optional[str]:
        if not self.files or not self.bytes:
            self.unread += 1
            return None
        self.files -= 1
        try:
            found = bounded.read_roots_in(opened, name, min(bounded.ROOT_FILE, self.bytes))
        except FileNotFoundError:
            return None
        except OSError:
            self.unread += not self.is_alias(folder, name)
            return None
        self.bytes -= len(found.data)
        self.unread += found.is_cut
        return None if found.is_cut else found.text("utf-8", "replace")

    def text(self, file: str) -> Optional[str]:
        """What a file has that is named by itself, or nothing where there is none of root's."""
        folder, _, name = file.rpartition("/")
        if not self.is_there(file):
            return None
        try:
            opened = bounded.open_roots(folder.strip("/").split("/"), self.top, folder.startswith(SPOOL))
        except OSError:
            self.unread += 1
            return None
        try:
            return self.text_in(opened, folder, name)
        finally:
            os.close(opened)

    def is_alias(self, folder: str, name: str) -> bool:
        """Whether a unit's file is a link to nothing, or to a unit in these folders, which is read by its own name."""
        if folder not in UNIT_FOLDERS or not self.is_link(f"{folder}/{name}"):
            return False
        to = os.path.normpath(os.path.join(folder, bounded.read_link(f"{self.top.rstrip(chr(47))}{folder}/{name}")))
        return to == os.devnull or os.path.dirname(to) in UNIT_FOLDERS

    def is_link(self, file: str) -> bool:
        return os.path.islink(f"{self.top.rstrip(chr(47))}{file}")

    def script(self, program: str) -> Tuple[str, str]:
        """A script of root's that is called by its path, with what it has; of any other program nothing. What stands in /bin is in /usr/bin
        by now, which a link says."""
        file = f"/usr{program}" if program.startswith(LINKED) and self.is_there(f"/usr{program}") else program
        text = self.text(file) or "" if program.startswith("/") else ""
        return file, text if text.startswith("#!") else ""

    def is_there(self, file: str) -> bool:
        return os.path.lexists(f"{self.top.rstrip(chr(47))}{file}")

    def folders_in(self, folder: str) -> List[str]:
        """The folders of drop-ins in a folder of units."""
        try:
            opened = bounded.open_roots(folder.strip("/").split("/"), self.top)
        except OSError:
            return []
        try:
            return sorted(name for name, is_folder in bounded.list_folder(opened, bounded.ROOT_FILES).names
                          if is_folder and name.endswith(DROP_INS))
        finally:
            os.close(opened)


class Found:
    """What root's files have, read once."""

    def __init__(self, mount: str, top: str) -> None:
        self.mount, self.reader = mount.rstrip("/"), Reader(top)
        # by a unit's file or its folder of drop-ins the settings of each file in there, by the file's name
        self.units: DefaultDict[str, Dict[str, List[Setting]]] = defaultdict(dict)
        self.named: List[Line] = []
        for folder in dict.fromkeys(UNIT_FOLDERS):
            self.read_units(folder)
        for folder, ending in OTHERS:
            for file, text in self.reader.texts_in(folder, ending):
                self.named += self.naming(file, text)
        for file in FILES:
            self.named += self.naming(file, self.reader.text(file) or "")

    @property
    def unread(self) -> int:
        return self.reader.unread

    def read_units(self, folder: str) -> None:
        for file, text in self.reader.texts_in(folder, ""):
            name = file.rpartition("/")[2]
            if _UNIT_FILE.match(name):
                self.take_unit(name, name, file, text)
        for below in self.reader.folders_in(folder):
            for file, text in self.reader.texts_in(f"{folder}/{below}", ENDING):
                self.take_unit(below, file.rpartition("/")[2], file, text)

    def take_unit(self, key: str, name: str, file: str, text: str) -> None:
        """A unit's file, or a drop-in; one of a folder before hides it."""
        if name in self.units[key]:
            return
        settings: List[Setting] = []
        try:
            settings += settings_in(text, file)
        except Fault:
            self.reader.unread += 1
        self.units[key][name] = settings
        self.named += [line_of(each) for each in settings if each.name.startswith("Exec") and self.is_naming(each.value)]

    def is_naming(self, text: str) -> bool:
        return self.mount in text or any(word in text for word in HANDS_OVER)

    def naming(self, file: str, text: str) -> Iterator[Line]:
        """The lines of a file that name the mount, but for comments."""
        for number, line in enumerate(text.splitlines(), 1):
            if self.is_naming(line) and not line.lstrip().startswith("#"):
                yield Line(file, number, shortened(line.strip()))

    def settings(self, unit: str) -> List[Setting]:
        """The settings of a unit, those of drop-ins behind those of its file."""
        name = UnitName(unit)
        own: List[Setting] = next((self.units[each][each] for each in (unit, name.template) if each in self.units.get(each, ())), [])
        drop_ins: Dict[str, List[Setting]] = {}
        for folder in name.folders():
            for each, settings in self.units.get(folder, {}).items():
                drop_ins.setdefault(each, settings)
        return own + [setting for each in sorted(drop_ins) for setting in drop_ins[each]]

    def of(self, path: str, unit: Optional[str]) -> Sequence[Line]:
        """The lines that give something of a cgroup away, or may: those of root's commands of its unit first."""
        of_unit = list(self.of_unit(unit)) if unit else []
        return list(dict.fromkeys([*of_unit, *(each for each in self.named if self.is_about(each.text, path))]))[:MOST]

    def of_unit(self, unit: str) -> Iterator[Line]:
        """What root carries out for a unit, with what a script of root's has that it calls."""
        settings = self.settings(unit)
        is_roots = not any(each.name in ("User", "DynamicUser") and each.value not in NOBODY_ELSE for each in settings)
        for each in settings:
            is_as_root = _AS_ROOT.match(each.value) is not None
            if each.name.startswith("Exec") and (is_as_root or is_roots):
                yield from (line_of(each),) if is_as_root else ()
                words = _PREFIX.sub("", each.value, count=1).split()
                yield from self.naming(*self.reader.script(words[0])) if words and not self.is_naming(each.value) else ()

    def is_about(self, text: str, path: str) -> bool:
        """Whether a line may be about a cgroup: by a path of the mount in it, as far as that can be read."""
        if any(word in text for word in HANDS_OVER):
            return True
        return any(self.leads_to(place, path, text) for place in self.places_in(text))

    def places_in(self, text: str) -> Iterator[str]:
        at = text.find(self.mount)
        while at >= 0:
            rest = text[at + len(self.mount):].replace("'", "").replace('"', "")
            end = _END.search(rest)
            place = rest[:end.start()] if end else rest
            if not place or place[0] == "/" or _OPEN.match(place):
                yield place.rstrip("/") or "/"
            at = text.find(self.mount, at + 1)

    def leads_to(self, place: str, path: str, text: str) -> bool:
        cut = _OPEN.search(place)
        if cut:
            known = place[:cut.start()]
            return path.startswith(known) or known.startswith(f"{path}/") or not known
        is_above = is_inside(path, place) and (path == place or _DOWN.search(text) is not None)
        return is_above or path != "/" and is_inside(place, path) or path == place

    def setting(self, unit: str, file: str) -> Optional[Line]:
        """The line that sets a limit of a unit."""
        name = setting_of(file)
        found = [each for each in self.settings(unit) if each.name == name and each.value] if name else []
        return line_of(found[-1]) if found else None


def line_of(setting: Setting) -> Line:
    return Line(setting.file, setting.line, shortened(f"{setting.name}={setting.value}"))


def look(mount: str, top: Optional[str] = None) -> Found:
    """What root's files have of a mount."""
    return Found(mount, (TOP if top is None else top).rstrip("/") or "/")
