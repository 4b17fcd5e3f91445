"""Who answers: the library, or where that isn't there the program."""
from __future__ import annotations

import ctypes
import functools
import os
import shutil
import subprocess
import tempfile
from typing import List, Protocol, Tuple

LIBRARY, PROGRAM = "libzirofen.so.0", "zirofen"
# what the program may have for a name of the other text
OTHER = "other"


class Unavailable(Exception):
    """Neither the library nor the program is there, or the program was ended by a signal."""


class Asked(Protocol):
    name: str

    def run(self, words: List[str], tree: bytes, other: bytes) -> Tuple[int, bytes]:
        """The status, and what is written to standard output, or of status 3 to standard error. A word OTHER behind an option stands for
        the other text."""


class Library:
    """The library, by ctypes. Any thread may ask: Python's other threads go on meanwhile."""

    def __init__(self, name: str) -> None:
        self.name = name
        text = [ctypes.c_char_p, ctypes.c_size_t]
        self.function = ctypes.CDLL(name).zirofen_run
        self.function.argtypes = [*text, *text, *text, ctypes.c_void_p, ctypes.c_size_t, ctypes.POINTER(ctypes.c_size_t)]
        self.function.restype = ctypes.c_int

    def run(self, words: List[str], tree: bytes, other: bytes) -> Tuple[int, bytes]:
        said = "\n".join(words).encode()
        room, wanted = 1 << 16, ctypes.c_size_t()
        while True:
            report = ctypes.create_string_buffer(room)
            status = self.function(said, len(said), tree, len(tree), other, len(other), report, room, ctypes.byref(wanted))
            if wanted.value <= room:
                return status, report.raw[:wanted.value]
            room = wanted.value


class Program:
    """The program, in a process for each question."""

    def __init__(self, name: str) -> None:
        self.name = name

    def run(self, words: List[str], tree: bytes, other: bytes) -> Tuple[int, bytes]:
        with tempfile.NamedTemporaryFile(prefix="zirofen-") as file:
            file.write(other)
            file.flush()
            named = [file.name if it == OTHER else it for it in words]
            ended = subprocess.run([self.name, *named], input=tree, stdout=subprocess.PIPE, stderr=subprocess.PIPE)
        if ended.returncode not in (0, 1, 2, 3):
            raise Unavailable(f"{self.name} ended with status {ended.returncode}: {ended.stderr.decode('utf-8', 'replace')[:500]}")
        return ended.returncode, ended.stderr if ended.returncode == 3 else ended.stdout


@functools.lru_cache(maxsize=None)
def asked() -> Asked:
    """Who answers. ZIROFEN_LIBRARY and ZIROFEN_PROGRAM name another file, the second also where the library is there."""
    program = os.environ.get("ZIROFEN_PROGRAM")
    if program is None:
        try:
            return Library(os.environ.get("ZIROFEN_LIBRARY", LIBRARY))
        except OSError:
            program = shutil.which(PROGRAM)
    if program is None:
        raise Unavailable(f"neither {LIBRARY} nor the program {PROGRAM} is there")
    return Program(program)


def version() -> str:
    """What it says of itself."""
    return asked().run(["--version"], b"", b"")[1].decode().strip()
