"""From a text to a file that has all of it, or is as it was before: the one module that writes files.

The folder is opened once; what is written is made in it, given its mode, renamed and synced by that descriptor. As root it goes into no
folder that somebody else owns or writes, since whoever does could put another file there, or take this one; and what it reads back stands
in none of these.
"""
import contextlib
import errno
import os
import re
import shutil
import stat
from typing import Iterable, Iterator, Optional

from zirofen_host import ending
from zirofen_host.fault import Fault
from zirofen_host.profile import shown

FOLDER = os.O_RDONLY | os.O_DIRECTORY | os.O_CLOEXEC
NEW = os.O_WRONLY | os.O_CREAT | os.O_EXCL | os.O_NOFOLLOW | os.O_CLOEXEC
THERE = os.O_WRONLY | os.O_NOFOLLOW | os.O_NOCTTY | os.O_CLOEXEC
BACK = os.O_RDONLY | os.O_NOCTTY | os.O_CLOEXEC
STANDARD_OUTPUT = "/dev/stdout"
_DESCRIPTOR = re.compile(r"/dev/(?:stdout|stderr|fd/([0-9]+))\Z|/proc/self/fd/([0-9]+)\Z")
# devices that take all that is written to them, or refuse it: null, zero and full
HARMLESS = {os.makedev(1, 3), os.makedev(1, 5), os.makedev(1, 7)}
MOST_LINKS = 40
# the mode of a file that everybody may read
PUBLIC = 0o644


def refused(why: str) -> OSError:
    return PermissionError(errno.EPERM, why)


def is_anothers(status: os.stat_result) -> bool:
    """Whether somebody else than root has something, where root writes."""
    return os.geteuid() == 0 and status.st_uid != 0


def refuse_anothers(folder: int, path: str) -> None:
    """Refuses a folder in which somebody else may put one thing in the place of another."""
    status = os.fstat(folder)
    by_others = status.st_mode & 0o022 and not status.st_mode & stat.S_ISVTX
    if is_anothers(status) or os.geteuid() == 0 and by_others:
        raise refused(f"somebody else owns or writes the folder {shown(path)}, and root writes into none of theirs")


@contextlib.contextmanager
def opened_folder(path: str, is_public: bool = False) -> Iterator[int]:
    """A folder's descriptor. On the way to it no folder and no link is somebody else's, where root writes; for what is public no
    link is, and neither is the folder itself."""
    folder = os.open("/" if path.startswith("/") else ".", FOLDER)
    try:
        here, links = "/" if path.startswith("/") else ".", 0
        if not is_public:
            refuse_anothers(folder, here)
        left = path.split("/")[::-1]
        while left:
            name = left.pop()
            if name in ("", "."):
                continue
            place, status = os.path.join(here, name), os.lstat(name, dir_fd=folder)
            if stat.S_ISLNK(status.st_mode):
                links += 1
                if is_anothers(status) or links > MOST_LINKS:
                    raise refused(f"{shown(place)} is a link of somebody else's, or one of too many")
                target = os.readlink(name, dir_fd=folder)
                left += target.split("/")[::-1]
                if not target.startswith("/"):
                    continue
                name = place = "/"
            below = os.open(name, FOLDER | os.O_NOFOLLOW, dir_fd=folder)
            os.close(folder)
            folder, here = below, place
            if not is_public:
                refuse_anothers(folder, here)
        if is_public:
            refuse_anothers(folder, here)
        yield folder
    finally:
        os.close(folder)


def write(file: str, parts: Iterable[str], what: str, is_public: bool = False) -> None:
    """Writes a text to where it was asked for; `what` it is stands in the line of a fault. A file, or a link, is put in the place
    of what has its name; a pipe, a terminal and /dev/null are written as they are. What is public names nobody: everybody may read
    it, and the folders above its own may be somebody else's."""
    try:
        descriptor = _DESCRIPTOR.match(file)
        if descriptor:
            number = descriptor[1] or descriptor[2] or ("2" if file.endswith("err") else "1")
            fill(os.dup(int(number)), parts)
            return
        above, name = os.path.split(file)
        if name in ("", ".", ".."):
            raise IsADirectoryError(errno.EISDIR, os.strerror(errno.EISDIR))
        with opened_folder(above, is_public) as folder:
            there = status_of(name, folder)
            if there is None or stat.S_ISREG(there.st_mode) or stat.S_ISLNK(there.st_mode):
                replace(folder, name, PUBLIC if is_public else mode_of(there), parts)
            else:
                fill(open_as_it_is(folder, name, there), parts)
    except OSError as error:
        raise Fault(f"can't write {what} {shown(file)}: {error.strerror}") from None


@contextlib.contextmanager
def opened_back(file: str) -> Iterator[int]:
    """A descriptor to read what was written to a file before. What somebody else could put there, or write, root doesn't believe;
    a link of root's is followed."""
    number = open_back(file)
    try:
        yield number
    finally:
        os.close(number)


def open_back(file: str) -> int:
    for _ in range(MOST_LINKS if os.geteuid() == 0 else 0):
        above, name = os.path.split(file)
        if _DESCRIPTOR.match(file) or name in ("", ".", ".."):
            break
        with opened_folder(above) as folder:
            there = os.lstat(name, dir_fd=folder)
            if not stat.S_ISLNK(there.st_mode):
                return open_own(folder, name)
            if is_anothers(there):
                raise refused("it is a link of somebody else's")
            file = os.path.join(above, os.readlink(name, dir_fd=folder))
    return os.open(file, BACK)


def open_own(folder: int, name: str) -> int:
    """Opens a file of root's to be read; a pipe has nothing, and isn't waited for."""
    number = os.open(name, BACK | os.O_NOFOLLOW | os.O_NONBLOCK, dir_fd=folder)
    status = os.fstat(number)
    if is_anothers(status) or status.st_mode & 0o002 or status.st_gid and status.st_mode & 0o020:
        os.close(number)
        raise refused("somebody else owns or writes it, and root believes none of theirs")
    return number


def status_of(name: str, folder: int) -> Optional[os.stat_result]:
    try:
        return os.lstat(name, dir_fd=folder)
    except FileNotFoundError:
        return None


def mode_of(there: Optional[os.stat_result]) -> int:
    """That of a file of one's own that is there, else as whoever writes a file leaves it."""
    if there and stat.S_ISREG(there.st_mode) and there.st_uid == os.geteuid():
        return there.st_mode & 0o777
    mask = os.umask(0o077)
    os.umask(mask)
    return 0o666 & ~mask


def replace(folder: int, name: str, mode: int, parts: Iterable[str]) -> None:
    """Puts a new file in the place of one."""
    new = f".zirofen-{os.urandom(8).hex()}"

    def remove() -> None:
        with contextlib.suppress(FileNotFoundError):
            os.unlink(new, dir_fd=folder)

    with ending.undone(remove):
        fill(os.open(new, NEW, 0o600, dir_fd=folder), parts, mode)
        os.rename(new, name, src_dir_fd=folder, dst_dir_fd=folder)
    os.fsync(folder)


def fill(number: int, parts: Iterable[str], mode: Optional[int] = None) -> None:
    """Writes into what is open, and closes it; a new file gets its mode, and is on the disk then."""
    with open(number, "w", encoding="utf-8", errors="backslashreplace") as out:
        if stat.S_ISBLK(os.fstat(number).st_mode):
            raise refused("it is a block device")
        out.writelines(parts)
        out.flush()
        if mode is not None:
            os.fchmod(number, mode)
            os.fsync(number)


def open_as_it_is(folder: int, name: str, there: os.stat_result) -> int:
    """Opens a pipe, a terminal or /dev/null to be written; whoever has a pipe of one's own waits for its reader."""
    is_pipe = stat.S_ISFIFO(there.st_mode)
    if is_pipe and is_anothers(there):
        raise refused("it is a pipe of somebody else's")
    if stat.S_ISBLK(there.st_mode):
        raise refused("it is a block device")
    number = os.open(name, THERE | (0 if is_pipe else os.O_NONBLOCK), dir_fd=folder)
    found = os.fstat(number)
    if os.path.samestat(found, there) and (is_pipe or found.st_rdev in HARMLESS or os.isatty(number)):
        os.set_blocking(number, True)
        return number
    os.close(number)
    raise refused("it is a device, and no terminal")


def leave(number: int, data: bytes) -> None:
    """Writes into what is open to another process of one's own, and leaves it open."""
    with open(number, "wb", closefd=False) as out:
        out.write(data)


def nowhere() -> int:
    """A descriptor that takes all that is written to it."""
    return os.open("/dev/null", os.O_WRONLY | os.O_CLOEXEC)


def make_folder(path: str) -> None:
    """A folder to write into, where there is none yet."""
    above, name = os.path.split(path.rstrip("/"))
    try:
        with contextlib.suppress(FileExistsError), opened_folder(above) as folder:
            os.mkdir(name or ".", dir_fd=folder)
    except OSError as error:
        raise Fault(f"can't make the folder {shown(path)}: {error.strerror}") from None


@contextlib.contextmanager
def temporary_folder() -> Iterator[str]:
    """A folder of one's own that nobody else looks into, and that is gone behind it."""
    above = os.environ.get("TMPDIR") or "/tmp"
    name = f"zirofen-{os.urandom(8).hex()}"
    made = os.path.join(above, name)
    with ending.undone(lambda: shutil.rmtree(made, ignore_errors=True)):
        try:
            with opened_folder(above) as folder:
                os.mkdir(name, 0o700, dir_fd=folder)
        except OSError as error:
            raise Fault(f"can't make a temporary folder in {shown(above)}: {error.strerror}") from None
        yield made


def make(file: str, data: bytes) -> None:
    """Writes a new file into a temporary folder."""
    try:
        with open(os.open(file, NEW, 0o600), "wb") as out:
            out.write(data)
    except OSError as error:
        raise Fault(f"can't write the temporary file {shown(file)}: {error.strerror}") from None
