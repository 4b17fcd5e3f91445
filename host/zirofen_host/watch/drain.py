"""From what a kernel keeps of events to this process, as they come: a kernel keeps few, and what a check found takes time to compare."""
import contextlib
import os
import select
import threading
import time
from collections import deque
from typing import Deque, List

from zirofen_host.collect import bounded

# bytes of one read, those that are kept until they are taken, and those that are taken at once; what comes beyond stays with the kernel
PART, MOST, AT_ONCE = 1 << 18, 1 << 26, 1 << 20
# seconds from one read to the next
GATHERING = 0.02


class Drain:
    """What is read from a descriptor of events that isn't waited for, by whoever takes it, or by a thread beside."""

    def __init__(self, opened: int) -> None:
        self.opened = opened
        self.parts: Deque[bytes] = deque()
        self.size = 0
        self.lock = threading.Lock()
        self.woken, self.waker = os.pipe2(os.O_CLOEXEC | os.O_NONBLOCK)
        self.is_beside = self.is_closed = False

    def fileno(self) -> int:
        """What is ready where something is to be taken."""
        return self.woken if self.is_beside else self.opened

    def begin(self) -> None:
        """Has a thread read from here on."""
        self.is_beside = True
        threading.Thread(target=self.run, daemon=True).start()

    def run(self) -> None:
        ready = select.poll()
        ready.register(self.opened, select.POLLIN)
        while True:
            ready.poll()
            with self.lock:
                if self.is_closed:
                    return
                self.gather()
                with contextlib.suppress(BlockingIOError):
                    os.write(self.waker, b"\0")
            time.sleep(GATHERING)

    def gather(self) -> None:
        while self.size < MOST:
            part = bounded.read_ready(self.opened, PART)
            if not part:
                return
            self.parts.append(part)
            self.size += len(part)

    def take(self) -> bytes:
        """Some of what was read, and of what is there to be read; nothing where there is none."""
        with self.lock:
            bounded.read_ready(self.woken, 4096)
            if not self.parts:
                self.gather()
            taken: List[bytes] = []
            while self.parts and sum(map(len, taken)) < AT_ONCE:
                taken.append(self.parts.popleft())
            self.size -= sum(map(len, taken))
            if self.parts and self.is_beside:
                os.write(self.waker, b"\0")
        return b"".join(taken)

    def close(self) -> None:
        with self.lock:
            self.is_closed = True
            for number in (self.opened, self.woken, self.waker):
                os.close(number)
