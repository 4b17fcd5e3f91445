"""From messages that are new or worse to runs of a program of root's, without a shell, by its environment."""
import os
import subprocess
import time
from typing import List, NamedTuple

from zirofen_host.watch.messages import Message, fields_of

# so many run at once, and so many wait
AT_ONCE, WAITING = 4, 64
# that one of them has
SECONDS = 60
PREFIX = "ZIROFEN_"


class Running(NamedTuple):
    process: "subprocess.Popen[bytes]"
    until: float


class Hooks:
    """What is started for each message, one after another."""

    def __init__(self, program: str) -> None:
        self.program = program
        self.waiting: List[Message] = []
        self.running: List[Running] = []
        self.left_out = 0
        self.failed = ""

    def add(self, message: Message) -> None:
        if len(self.waiting) >= WAITING:
            self.left_out += 1
        else:
            self.waiting.append(message)

    def go_on(self) -> None:
        """Starts what waits, as far as it may, and ends what takes too long."""
        now = time.monotonic()
        for each in self.running:
            if now > each.until and each.process.poll() is None:
                each.process.kill()
        self.running = [each for each in self.running if each.process.poll() is None]
        while self.waiting and len(self.running) < AT_ONCE:
            message = self.waiting.pop(0)
            try:
                self.running.append(Running(subprocess.Popen([self.program], env=environment(message), stdin=subprocess.DEVNULL,
                                                             stdout=subprocess.DEVNULL, stderr=subprocess.DEVNULL, cwd="/"),
                                            now + SECONDS))
            except OSError as error:
                self.failed = error.strerror or "it isn't started"

    def end(self) -> None:
        for each in self.running:
            if each.process.poll() is None:
                each.process.terminate()


def environment(message: Message) -> "dict[str, str]":
    kept = {name: os.environ[name] for name in ("PATH", "LANG", "LC_ALL") if name in os.environ}
    return {**kept, **{f"{PREFIX}{name}": value.replace("\0", "") for name, value in fields_of(message).items()}}
