"""From systemctl's words to what root's settings say that the limits of units have, as each file has it."""
import re
from dataclasses import dataclass
from typing import Callable, Dict, Iterator, Mapping, Optional, Tuple, Union

from zirofen_host.ask.questions import is_slice, unit_of
from zirofen_host.files import BY_NAME, KINDS, LIMITS, PAGE, PERIOD, Form, LimitFile, is_usual
from zirofen_host.judge.host_model import Wanted
from zirofen_host.judge.shell import echoed, place
from zirofen_host.profile import CgroupPath, path_of, text_of

# what cpu.max is brought by, as systemctl tells it
QUOTA, QUOTA_PERIOD = "CPUQuotaPerSecUSec", "CPUQuotaPeriodUSec"
IDLE = "idle"
UNLIMITED = ("infinity", "18446744073709551615")
NOT_SET = ("", "[not set]")
# the least quota that a kernel takes, in microseconds
LEAST_QUOTA = 1000
MICROSECONDS = {"us": 1, "ms": 1000, "s": 10**6, "min": 60 * 10**6, "h": 3600 * 10**6}
# what the number of a weight of all devices stands behind
OF_ALL = "default "
_SPAN = re.compile(r"([0-9]{1,15})(?:\.([0-9]{1,6}))?(us|ms|s|min|h)")
_RANGES = re.compile(r"[0-9]{1,6}(-[0-9]{1,6})?([ ,][0-9]{1,6}(-[0-9]{1,6})?)*\Z")
_NUMBER = re.compile(r"[0-9]{1,19}\Z")
# what a manager takes as a unit's name, of which no letter has a meaning for a shell but the backslash
_UNIT = re.compile(r"[A-Za-z0-9:_.@\\-]{1,255}\Z")

# by a setting's name
Shown = Mapping[str, str]
# the text of a file, and whether that is set
Said = Optional[Tuple[str, bool]]


@dataclass(frozen=True)
class LostLimit:
    """A limit that isn't there behind a unit's next start, and the setting that it has then, or none."""
    file: str
    value: str
    # how a setting is shown, and whether nothing is set
    why: str
    # what the unit's settings say, where they say something
    wanted: Optional[Wanted] = None

    def __str__(self) -> str:
        return f"{self.file} is {self.value}, and {self.why}"


def asked_by(limit: LimitFile) -> str:
    """What the setting of a limit file is called where systemctl is asked for it."""
    return QUOTA if limit.form is Form.SHARE else limit.setting or ""


def unit_at(path: Union[str, CgroupPath]) -> Optional[str]:
    """The name of the unit whose cgroup it is: a service, a scope or a slice. A manager writes _ before a name that might be one of the
    kernel's."""
    of = path_of(path) if isinstance(path, str) else path
    name = unit_of(of) or (text_of(of).rpartition("/")[2] if is_slice(of) else None)
    return (name[1:] if name[:1] == "_" else name) if name is not None and _UNIT.match(name) else None


def of_number(shown: Shown, limit: LimitFile) -> Said:
    """What a file has where it is one number."""
    word, usual = shown[asked_by(limit)], str(limit.usual)
    if word in NOT_SET or word in UNLIMITED and usual != "0":
        return usual, False
    if word in UNLIMITED:
        return "max", True
    if not _NUMBER.match(word):
        return None
    number = int(word)
    value = str(number // PAGE * PAGE if limit.controller == "memory" else number)
    return value, value != usual


def of_span(text: str) -> Optional[int]:
    """A time as systemctl shows it, in microseconds."""
    parts = text.split()
    found = [_SPAN.fullmatch(part) for part in parts]
    if not parts or not all(found):
        return None
    return sum(int(each[1]) * MICROSECONDS[each[3]] + int((each[2] or "").ljust(6, "0")) * MICROSECONDS[each[3]] // 10**6
               for each in found if each)


def of_quota(shown: Shown, limit: LimitFile) -> Said:
    if shown[QUOTA] in (*UNLIMITED, *NOT_SET):
        return str(limit.usual), False
    period = PERIOD if shown.get(QUOTA_PERIOD, "") in (*UNLIMITED, *NOT_SET) else of_span(shown[QUOTA_PERIOD])
    each_second = of_span(shown[QUOTA])
    if period is None or each_second is None or each_second * period // 10**6 < LEAST_QUOTA:
        return None
    return f"{each_second * period // 10**6} {period}", True


def of_idle(shown: Shown, limit: LimitFile) -> Said:
    """A weight that is set says that it isn't idle: an idle cgroup takes none."""
    word = shown[asked_by(limit)]
    return ("1", True) if word == IDLE else (str(limit.usual), word not in (*NOT_SET, *UNLIMITED))


def of_weight(shown: Shown, limit: LimitFile) -> Said:
    word = shown[asked_by(limit)]
    if word in (*NOT_SET, *UNLIMITED):
        return str(limit.usual), False
    return (f"{OF_ALL}{word}", True) if _NUMBER.match(word) else None


def of_list(shown: Shown, limit: LimitFile) -> Said:
    word = shown[asked_by(limit)]
    if word in NOT_SET:
        return str(limit.usual), False
    return (word.replace(" ", ","), True) if _RANGES.match(word) else None


# what a file has by its setting
READERS: Dict[Form, Callable[[Shown, LimitFile], Said]] = {
    Form.NUMBER: of_number, Form.LIST: of_list, Form.SHARE: of_quota, Form.IDLE: of_idle, Form.WEIGHT: of_weight}
BROUGHT = tuple(limit for form in READERS for limit in LIMITS if limit.form is form and limit.setting)
# all that systemctl is asked for
PROPERTIES = tuple(dict.fromkeys((*map(asked_by, BROUGHT), QUOTA_PERIOD)))


def wanted_by(shown: Shown) -> Mapping[str, Wanted]:
    """What the settings of a unit say of each limit that they bring, as far as they are known."""
    found = {}
    for limit in BROUGHT:
        setting = asked_by(limit)
        read = READERS[limit.form](shown, limit) if setting in shown else None
        if read:
            found[limit.name] = Wanted(read[0], f"{setting}={shown[setting]}", read[1])
    return found


def is_same(file: str, value: object, wanted: Wanted) -> bool:
    """Whether a file has what is wanted; memory is kept in whole pages."""
    has = " ".join(str(value).split())
    return has == wanted.value or not wanted.is_set and is_usual(file, has)


def is_more(file: str, value: object) -> bool:
    """Whether a file has more than where nobody set anything, and more of it is more than root's settings say."""
    limit = BY_NAME.get(file)
    if limit is None or not limit.is_share or value is None:
        return False
    before = OF_ALL if limit.form is Form.WEIGHT else ""
    number = str(value)[len(before):] if str(value).startswith(before) else ""
    return number == "max" or _NUMBER.match(number) is not None and int(number) > int(str(limit.usual)[len(before):])


def is_decided(file: str, value: object, wanted: Wanted) -> bool:
    """Whether root's settings say what a file should have: one sets it, or somebody took more of a share than there is by itself. A limit
    that nothing sets may be one that root set by hand: without it there is more than that."""
    return wanted.is_set or is_more(file, value)


def written(mount: str, path: str, file: str, wanted: Wanted) -> str:
    """The command that writes what is wanted."""
    return f"{echoed(wanted.value)} >{place(mount, path, file)}"


def files_with(file: str) -> Iterator[str]:
    """The limit files that whoever writes a file changes, and that settings bring."""
    changed = BY_NAME[file].changes if file in BY_NAME else ()
    yield from (each for each in changed or (file,) if each in KINDS)
