"""From the package's own files to the line that names this helper, by which two of one version differ."""
import functools
import hashlib
import os
from typing import Iterator

from zirofen_host.installed import NAME

VERSION = "0.3.0"
DIGITS = 12
# what tools/package leaves beside this module, so that an installed helper sums nothing
SUM = "SUM"
HERE = os.path.dirname(os.path.realpath(__file__))


def files_of(folder: str) -> Iterator[str]:
    """The files of the package that decide what it does, by their paths in it."""
    for place, folders, names in os.walk(folder):
        folders[:] = sorted(name for name in folders if name != "__pycache__")
        yield from (os.path.relpath(os.path.join(place, name), folder) for name in sorted(names) if name != SUM)


def sum_of(folder: str = HERE) -> str:
    """The sum over the files of a package."""
    found = hashlib.sha256()
    for path in sorted(files_of(folder)):
        with open(os.path.join(folder, path), "rb") as opened:
            data = opened.read()
        found.update(f"{path}\0{len(data)}\0".encode() + data)
    return found.hexdigest()[:DIGITS]


@functools.lru_cache(maxsize=None)
def digits() -> str:
    """The sum of this helper, as it was left when it was installed."""
    try:
        with open(os.path.join(HERE, SUM), encoding="ascii") as opened:
            return opened.read(DIGITS)
    except (OSError, UnicodeDecodeError):
        return sum_of()


def helper_line() -> str:
    """The line that names this helper."""
    return f"{NAME} {VERSION} ({digits()})"
