"""From unit files of systemd to units: sections with settings in their order, with drop-ins and specifiers."""
import os
import re
from dataclasses import dataclass
from typing import Dict, Iterator, List, Mapping, NamedTuple, Optional, Sequence, Tuple

from zirofen_host.collect import bounded
from zirofen_host.fault import Fault
from zirofen_host.profile import shown

# the folders of the system, the first of which goes before the others
FOLDERS = ("/etc/systemd/system", "/run/systemd/system", "/usr/local/lib/systemd/system", "/usr/lib/systemd/system",
           "/lib/systemd/system")
DROP_INS = ".d"
ENDING = ".conf"
_NAME = re.compile(r"[A-Za-z0-9:_.\\-]+(@[A-Za-z0-9:_.\\-]*)?\.(service|slice)\Z")
_SPECIFIER = re.compile(r"%(.)")


class Setting(NamedTuple):
    section: str
    name: str
    value: str
    # where it stands
    file: str = ""
    line: int = 0


@dataclass(frozen=True)
class UnitName:
    """A unit's name in its parts: of foo@bar.service the prefix foo, the instance bar and the type service."""
    text: str

    @property
    def kind(self) -> str:
        return self.text.rpartition(".")[2]

    @property
    def stem(self) -> str:
        return self.text.rpartition(".")[0]

    @property
    def prefix(self) -> str:
        return self.stem.partition("@")[0]

    @property
    def instance(self) -> Optional[str]:
        """None where it is no instance; of a template nothing."""
        return self.stem.partition("@")[2] if "@" in self.stem else None

    @property
    def template(self) -> str:
        return f"{self.prefix}@.{self.kind}" if self.instance is not None else self.text

    def folders(self) -> List[str]:
        """The names of the folders that have drop-ins, the most particular first."""
        names = [self.text, *([self.template] if self.template != self.text else [])]
        at = "@" if self.instance is not None else ""
        parts = self.prefix.split("-")
        names += [f"{'-'.join(parts[:count])}-{at}.{self.kind}" for count in range(len(parts) - 1, 0, -1) if parts[0]]
        if at:
            names += [f"{'-'.join(parts[:count])}-.{self.kind}" for count in range(len(parts) - 1, 0, -1) if parts[0]]
        return [f"{name}{DROP_INS}" for name in (*names, self.kind)]


@dataclass(frozen=True)
class UnitFile:
    """A unit with its settings, those of drop-ins behind those of the file."""
    name: UnitName
    settings: Sequence[Setting]

    def of(self, name: str) -> List[str]:
        """The values of a setting, in their order."""
        return [each.value for each in self.settings if each.name == name]

    def listed(self, name: str) -> List[str]:
        """The values of a setting that is a list, which an empty one takes back."""
        found: List[str] = []
        for value in self.of(name):
            found = [*found, value] if value else []
        return found

    def last(self, name: str) -> Optional[str]:
        """The last value of a setting that has one; an empty one takes back those before it."""
        return next(iter(reversed(self.of(name))), None) or None


def read_text(file: str) -> str:
    try:
        read = bounded.read_named(file, bounded.UNIT_FILE)
    except OSError as error:
        raise Fault(f"can't read the unit {shown(file)}: {error.strerror}") from None
    if read.is_cut:
        raise Fault(f"the unit {shown(file)} is longer than {bounded.UNIT_FILE} bytes")
    try:
        return read.text()
    except UnicodeDecodeError:
        raise Fault(f"the unit {shown(file)} isn't UTF-8") from None


def settings_in(text: str, file: str) -> Iterator[Setting]:
    """The settings of a text; a line that ends with a backslash goes on in the next, over comments."""
    section, held, first = "", "", 0
    for number, line in enumerate([*text.split("\n"), ""], 1):
        line = line.strip()
        if line[:1] in ("#", ";") or not line and not held:
            continue
        first = first if held else number
        line = f"{held} {line}".strip() if held else line
        if line.endswith("\\"):
            held = line[:-1].rstrip()
            continue
        held = ""
        if line.startswith("[") and line.endswith("]"):
            section = line[1:-1]
        elif "=" in line and section:
            name, _, value = line.partition("=")
            yield Setting(section, name.strip(), value.strip(), file, first)
        else:
            raise Fault(f"line {number} of {shown(file)} is no setting of a unit")


def drop_ins(name: UnitName, folders: Sequence[str]) -> List[str]:
    """The drop-ins of a unit in some folders, by their own names; one of a folder before goes before one behind of the same name."""
    found: Dict[str, str] = {}
    for folder in folders:
        for below in name.folders():
            place = os.path.join(folder, below)
            try:
                names = sorted(each for each, _ in bounded.list_folder(place, bounded.NAMES).names)
            except OSError:
                continue
            for each in names:
                if each.endswith(ENDING):
                    found.setdefault(each, os.path.join(place, each))
    return [found[each] for each in sorted(found)]


def name_of(file: str) -> UnitName:
    """The unit that a file is of; a drop-in is of the unit that its folder names."""
    above, name = os.path.split(file)
    if name.endswith(ENDING) and above.endswith(DROP_INS):
        name = os.path.basename(above)[:-len(DROP_INS)]
    if not _NAME.match(name):
        raise Fault(f"{shown(name)} is no name of a service or a slice, which is all that is planned of units")
    if "@." in name:
        raise Fault(f"{shown(name)} is a template: name an instance, as {name.replace('@.', '@NAME.')}")
    return UnitName(name)


def file_of(file: str, name: UnitName) -> str:
    """The file of a unit: of an instance that has none of its own the template's."""
    template = os.path.join(os.path.dirname(file), name.template)
    return template if not os.path.lexists(file) and os.path.lexists(template) else file


def read_units(files: Sequence[str], folders: Sequence[str]) -> List[UnitFile]:
    """The units of some files, in their order, each with its drop-ins: of these folders, and then those that are among the files."""
    by_name: Dict[str, Tuple[List[str], List[str]]] = {}
    for file in files:
        name = name_of(file)
        texts, given = by_name.setdefault(name.text, ([], []))
        (given if file.endswith(ENDING) else texts).append(file)
    units = []
    for text, (texts, given) in by_name.items():
        name = UnitName(text)
        if not texts:
            raise Fault(f"{shown(given[0])} is a drop-in of {text}, whose own file isn't given")
        all_files = [file_of(texts[0], name), *texts[1:], *drop_ins(name, folders), *given]
        settings = (each for file in all_files for each in settings_in(read_text(file), file))
        # other sections have no bearing on a cgroup
        units.append(UnitFile(name, tuple(each for each in settings if each.section == name.kind.capitalize())))
    return units


def read_slice(name: str, folders: Sequence[str]) -> UnitFile:
    """A slice that a unit brings: its file, where one of these folders has one, and its drop-ins."""
    of = UnitName(name)
    files = [*(file for file in (os.path.join(folder, name) for folder in folders) if os.path.lexists(file))][:1]
    settings = (each for file in (*files, *drop_ins(of, folders)) for each in settings_in(read_text(file), file))
    return UnitFile(of, tuple(each for each in settings if each.section == of.kind.capitalize()))


def systemd_unescaped(text: str) -> str:
    """A name without what systemd-escape made of it."""
    return re.sub(r"\\x([0-9a-fA-F]{2})", lambda found: chr(int(found[1], 16)), text.replace("-", "/"))


def specifiers(name: UnitName, known: Mapping[str, str]) -> Mapping[str, str]:
    """What each specifier stands for that can be known: those of the unit's name, and what else is given."""
    instance = name.instance or ""
    last = name.prefix.rpartition("-")[2]
    return {"n": name.text, "N": name.stem, "p": name.prefix, "P": systemd_unescaped(name.prefix), "i": instance,
            "I": systemd_unescaped(instance), "j": last, "J": systemd_unescaped(last), "%": "%", "u": "root", "U": "0", "g": "root",
            "G": "0",
            "h": "/root", "t": "/run", "S": "/var/lib", "C": "/var/cache", "L": "/var/log", "E": "/etc", "T": "/tmp", "V": "/var/tmp",
            **known}


def filled(value: str, known: Mapping[str, str]) -> Optional[str]:
    """A value with its specifiers replaced, or None where one isn't known."""
    if any(each not in known for each in _SPECIFIER.findall(value)):
        return None
    return _SPECIFIER.sub(lambda found: known[found[1]], value)
