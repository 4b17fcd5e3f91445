"""The second model: limit files and their values, by the words of docs/MODEL.md and docs/FORMATS.md. Written from these pages alone, as
rules.py is.
"""
from typing import NamedTuple, Optional, Union

MOST = 2 ** 63 - 1
MAX = "max"
# a value of an operation line, and each line of one of a tree text
LONGEST_VALUE, LONGEST_LINE = 3800, 4095
# the name of a device or of a resource
LONGEST_DEVICE = 255
SIZES = ("16GB", "16MB", "1GB", "1MB", "2GB", "2MB", "32MB", "512MB", "64KB")


class Number(NamedTuple):
    """The form of a value that is a number, or where it is taken `max`."""
    least: int
    greatest: int
    takes_max: bool


class Text(NamedTuple):
    """The form of a value that is any text; of some files each line begins with the name of a device or of a resource."""
    has_devices: bool


class LimitFile(NamedTuple):
    """A row: the controller that brings it, or None; its form; its value where none is given, which is None where it isn't known; what a
    try writes, and what where the value, or a line of it, is that already; the first format that names it; whether it stands at the root."""
    controller: Optional[str]
    form: Union[Number, Text]
    default: Union[int, str, None]
    loose: Union[int, str]
    other: Union[int, str]
    since: int
    at_root: bool = False


COUNT, WEIGHT, TEXT, LINES = Number(0, MOST, True), Number(1, 10000, False), Text(False), Text(True)
# each limit file, in the order used everywhere
LIMIT_FILES = {
    "cgroup.max.descendants": LimitFile(None, COUNT, MAX, MAX, 0, 1, at_root=True),
    "cgroup.max.depth": LimitFile(None, COUNT, MAX, MAX, 0, 1, at_root=True),
    "cpu.weight": LimitFile("cpu", WEIGHT, 100, 100, 1, 1),
    "memory.min": LimitFile("memory", COUNT, 0, MAX, 0, 1),
    "memory.low": LimitFile("memory", COUNT, 0, MAX, 0, 1),
    "memory.high": LimitFile("memory", COUNT, MAX, MAX, 0, 1),
    "memory.max": LimitFile("memory", COUNT, MAX, MAX, 0, 1),
    "pids.max": LimitFile("pids", COUNT, MAX, MAX, 0, 1),
    "cgroup.freeze": LimitFile(None, TEXT, None, "0", "1", 4),
    "cpu.idle": LimitFile("cpu", TEXT, None, "0", "1", 4),
    "cpu.max": LimitFile("cpu", TEXT, None, "max 100000", "max 50000", 4),
    "cpu.max.burst": LimitFile("cpu", TEXT, None, "0", "1", 4),
    "cpu.uclamp.max": LimitFile("cpu", TEXT, None, "max", "50", 4),
    "cpu.uclamp.min": LimitFile("cpu", TEXT, None, "max", "0", 4),
    "cpu.weight.nice": LimitFile("cpu", TEXT, None, "-20", "-19", 4),
    "cpuset.cpus": LimitFile("cpuset", TEXT, None, "0-1", "0", 4),
    "cpuset.cpus.exclusive": LimitFile("cpuset", TEXT, None, "0-1", "0", 4),
    "cpuset.cpus.partition": LimitFile("cpuset", TEXT, None, "member", "root", 4),
    "cpuset.mems": LimitFile("cpuset", TEXT, None, "0-1", "0", 4),
    "dmem.low": LimitFile("dmem", LINES, None, "max", "0", 4),
    "dmem.max": LimitFile("dmem", LINES, None, "max", "0", 4),
    "dmem.min": LimitFile("dmem", LINES, None, "max", "0", 4),
    **{f"hugetlb.{size}.{end}": LimitFile("hugetlb", TEXT, None, "max", "0", 4) for size in SIZES for end in ("max", "rsvd.max")},
    "io.bfq.weight": LimitFile("io", TEXT, None, "default 1000", "default 999", 4),
    "io.latency": LimitFile("io", LINES, None, "target=max", "target=1", 4),
    "io.max": LimitFile("io", LINES, None, "rbps=max wbps=max riops=max wiops=max", "rbps=2 wbps=2 riops=2 wiops=2", 4),
    "io.prio.class": LimitFile("io", TEXT, None, "no-change", "none-to-rt", 4),
    "io.weight": LimitFile("io", TEXT, None, "default 10000", "default 9999", 4),
    "memory.swap.high": LimitFile("memory", TEXT, None, "max", "0", 4),
    "memory.swap.max": LimitFile("memory", TEXT, None, "max", "0", 4),
    "memory.zswap.max": LimitFile("memory", TEXT, None, "max", "0", 4),
    "memory.zswap.writeback": LimitFile("memory", TEXT, None, "1", "0", 4),
    "misc.max": LimitFile("misc", LINES, None, "max", "0", 4),
    "rdma.max": LimitFile("rdma", LINES, None, "hca_handle=max hca_object=max", "hca_handle=0 hca_object=0", 4),
}


TEXT_FILES = [file for file, row in LIMIT_FILES.items() if isinstance(row.form, Text)]
NUMBER_FILES = [file for file, row in LIMIT_FILES.items() if isinstance(row.form, Number)]


def files_in(form):
    """The limit files that a text of a format, or an operation line for it, may name."""
    return [file for file, row in LIMIT_FILES.items() if row.since <= form]


def is_text(file):
    """Whether the values of a limit file are texts."""
    return isinstance(LIMIT_FILES[file].form, Text)


def accepts(file, value):
    """Whether a limit file accepts a value of its form: any text."""
    form = LIMIT_FILES[file].form
    if is_text(file):
        return True
    return form.takes_max if value == MAX else form.least <= value <= form.greatest


def device_of(file, value):
    """The device that the value of a limit file tells of first, or "" where it tells of none or isn't known."""
    if LIMIT_FILES[file].form != LINES:
        return ""
    first, _, rest = (value or "").partition(" ")
    is_device = is_word(first) and len(first) <= LONGEST_DEVICE and rest != ""
    return first if is_device else ""


def other_value(file, value):
    """The value to which a try sets a limit file that has this one."""
    loose, other = LIMIT_FILES[file].loose, LIMIT_FILES[file].other
    if not is_text(file):
        return other if value == loose else loose
    device = device_of(file, value)
    loose, other = (f"{device} {text}" if device else text for text in (loose, other))
    return other if loose in (value or "").split("\n") else loose


def is_value(text):
    """Whether a text is a value that a set of a file may have whose values are texts."""
    return len(text) <= LONGEST_VALUE and are_words(text)


def is_line(text):
    """Whether a text is a line of a value that a tree text has."""
    return len(text) <= LONGEST_LINE and are_words(text)


def are_words(text):
    """Whether a text is one word or more, with one space between two."""
    return all(is_word(word) for word in text.split(" "))


def is_word(word):
    return word != "" and all(0x21 <= ord(letter) <= 0x7E for letter in word)


# A value that is a text stands in a tree text as a text, an integer or an array of texts; in a state it has a newline between two lines


def lines_of(value):
    """The lines of a value of a tree text."""
    return list(map(str, value if isinstance(value, list) else [value]))


def are_lines(value):
    """Whether a value of a tree text is one or more lines."""
    lines = lines_of(value)
    return len(lines) > 0 and all(is_line(line) for line in lines)


def value_read(file, value):
    """The value of a limit file that a tree text has."""
    return "\n".join(lines_of(value)) if is_text(file) else value


def value_written(file, value):
    """The value of a limit file as it is written in a tree text."""
    lines = value.split("\n") if is_text(file) else [value]
    return lines if len(lines) > 1 else value
