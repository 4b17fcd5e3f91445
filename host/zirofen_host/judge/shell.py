"""From operations, and from what to change, to shell commands for a mount."""
import re
import shlex
from typing import Callable, Dict, Iterable, List, Mapping, Optional, Sequence, Tuple

from zirofen_host.collect.model import Entry, User
from zirofen_host.fault import Fault
from zirofen_host.files import CONTROLLERS, CONTROL_FILES, LIMIT_FILES, NUMBER_FILES, TEXT_FILES
from zirofen_host.profile import is_line, is_number, is_root

# the words of what to change, as the program advises it
Change = Sequence[str]

ENTRIES = frozenset(("dir", *CONTROL_FILES, *LIMIT_FILES))
# lines of a report that stand around operations
ANSWERS = ("escapes", "contained", "unsettled", "pair")
NOBODYS_GROUP = 65534
# what every shell's echo writes as it stands
_ECHOED = re.compile(r"(?!-[a-zA-Z])[^\\]+\Z")


def place(mount: str, path: str, entry: str = "dir") -> str:
    """An entry of a cgroup on a mount, quoted for a shell."""
    folder = mount.rstrip("/") + ("" if is_root(path) else path) or "/"
    return shlex.quote(folder if entry == "dir" else f"{folder}/{entry}")


def is_path(word: str) -> bool:
    return is_root(word) or word.startswith("/") and all(word[1:].split("/")) and not {".", ".."} & set(word.split("/"))


def move(mount: str, words: Sequence[str]) -> Optional[str]:
    pid, path = words
    return f"echo {pid} >{place(mount, path, 'cgroup.procs')}" if is_number(pid) and is_path(path) else None


def control(mount: str, words: Sequence[str]) -> Optional[str]:
    path, *changes = words
    known = all(each[:1] in ("+", "-") and each[1:] in CONTROLLERS for each in changes)
    return f"echo '{' '.join(changes)}' >{place(mount, path, 'cgroup.subtree_control')}" if known and is_path(path) else None


def make(mount: str, words: Sequence[str]) -> Optional[str]:
    path, = words
    return f"mkdir {place(mount, path)}" if is_path(path) else None


def remove(mount: str, words: Sequence[str]) -> Optional[str]:
    path, = words
    return f"rmdir {place(mount, path)}" if is_path(path) else None


def set_limit(mount: str, words: Sequence[str]) -> Optional[str]:
    path, file, *parts = words
    value = " ".join(parts)
    known = file in NUMBER_FILES and (value == "max" or is_number(value)) or file in TEXT_FILES and is_line(value)
    return f"{echoed(value)} >{place(mount, path, file)}" if known and is_path(path) else None


def echoed(value: str) -> str:
    """What writes a value and a newline."""
    writes = "echo" if _ECHOED.match(value) else r"printf '%s\n'"
    return f"{writes} {shlex.quote(value)}"


def set_mode(mount: str, words: Sequence[str]) -> Optional[str]:
    path, entry, mode = words
    known = entry in ENTRIES and len(mode) == 3 and not mode.strip("01234567")
    return f"chmod {mode} {place(mount, path, entry)}" if known and is_path(path) else None


def fork(_: str, words: Sequence[str]) -> Optional[str]:
    parent, child = words
    return f"# fork {parent} {child}" if is_number(parent) and is_number(child) else None


def leave(_: str, words: Sequence[str]) -> Optional[str]:
    pid, = words
    return f"# exit {pid}" if is_number(pid) else None


OPERATIONS: Mapping[str, Callable[[str, Sequence[str]], Optional[str]]] = {
    "move": move, "control": control, "mkdir": make, "rmdir": remove, "set": set_limit, "chmod": set_mode, "fork": fork, "exit": leave}


def operation_command(mount: str, words: Sequence[str]) -> Optional[str]:
    """The command of an operation, a comment where a shell has none, or None where the words are no operation."""
    try:
        return OPERATIONS[words[0]](mount, words[1:])
    except (KeyError, ValueError):
        return None


def as_user(user: Optional[User], command: str) -> str:
    """A command that is carried out as a user, whatever root may do."""
    if user is None or command.startswith("#"):
        return command
    primary, *others = user.gids or (NOBODYS_GROUP,)
    groups = f"--groups {','.join(map(str, others))}" if others else "--clear-groups"
    return f"setpriv --reuid {user.uid} --regid {primary} {groups} sh -c {shlex.quote(command)}"


def commands(mount: str, text: str, user: Optional[User] = None) -> List[str]:
    """The commands of the operations in a text, a line each; what else an answer has is a comment."""
    lines = []
    for number, line in enumerate(text.split("\n"), 1):
        words = line.split(" ")
        if not line:
            continue
        if line.startswith("#") or words[0] in ANSWERS:
            command: Optional[str] = "# " + line.lstrip("# ")
        else:
            command = operation_command(mount, words)
        if command is None or not line.isprintable():
            raise Fault(f"line {number} is no operation")
        lines.append(as_user(user, command))
    return lines


def is_change(words: Change) -> bool:
    """Whether words are a change that can be advised: each of them by the rule of what it names."""
    if len(words) != 4 or words[2] not in ENTRIES or not is_path(words[1]):
        return False
    word, _, entry, value = words
    if word == "chown":
        return re.fullmatch("[0-9]+:[0-9]+", value) is not None
    if word == "chmod":
        return re.fullmatch("[0-7]{3}", value) is not None
    return word == "set" and (value == "max" or is_number(value))


def change_commands(mount: str, changes: Iterable[Change], entry_of: Callable[[str, str], Entry]) -> Tuple[str, ...]:
    """The commands of all changes that the program advises, for one entry after another. Each mode that is advised takes
    bits from the one that stands, so that of several modes of an entry those bits are left which all of them have."""
    others: Dict[str, None] = {}
    modes: Dict[str, int] = {}
    for words in changes:
        if not is_change(words):
            raise Fault(f"an advice that isn't known: {' '.join(words)!r}")
        word, path, entry, value = words
        at = place(mount, path, entry)
        if word == "chmod":
            modes[at] = modes.get(at, 0o777) & int(value, 8)
        elif word == "chown":
            uid, _, gid = value.partition(":")
            same_group = gid == str(entry_of(path, entry).gid)
            others[f"chown {'root' if uid == '0' else uid}{'' if same_group else ':' + gid} {at}"] = None
        else:
            others[f"echo {value} >{at}"] = None
    return (*others, *(f"chmod {mode:03o} {at}" for at, mode in modes.items()))


def closing_commands(mount: str, path: str, entries: Mapping[str, Entry]) -> Tuple[str, ...]:
    """Commands that give entries back to root and take the write bits of others, the fewest; entries by name."""
    found: Dict[Tuple[str, str], List[str]] = {}
    for name, entry in sorted(entries.items()):
        changes = [("chown", "root")] if entry.uid else []
        bits = [letter for letter, bit in (("g", 0o020), ("o", 0o002)) if entry.mode & bit and (bit != 0o020 or entry.gid)]
        changes += [("chmod", f"{''.join(bits)}-w")] if bits else []
        for change in changes:
            found.setdefault(change, []).append(name)
    return tuple(f"{word} {what} {' '.join(place(mount, path, name) for name in names)}"
                 for (word, what), names in sorted(found.items(), reverse=True))
