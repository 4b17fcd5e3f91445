"""From the process of an event to who did it, as far as it is still there when its event is read."""
import os
from typing import NamedTuple, Optional

from zirofen_host.collect import bounded, containers
from zirofen_host.collect.processes import program_of, status_fields
from zirofen_host.judge.wanted import unit_at
from zirofen_host.profile import CgroupPath, ancestors, shown

# what stands before the path of a process's cgroup of version 2
VERSION_2 = b"0::"


class Doer(NamedTuple):
    """A process: its PID, and what is known of it where it still ran."""
    pid: int
    uid: Optional[int] = None
    program: str = ""
    # the unit or the container that it is of
    unit: str = ""

    @property
    def text(self) -> str:
        more = (f"uid {self.uid}" if self.uid is not None else "", shown(self.program) if self.program else "", self.unit)
        details = ", ".join(filter(None, more))
        return f"pid {self.pid} ({details})" if details else f"pid {self.pid}, which has ended"


def doer_of(proc: str, pid: int) -> Doer:
    """What is known of a process now."""
    try:
        text = bounded.read_file(f"{proc}/{pid}/status", bounded.FLAGS).text("utf-8", "replace")
        uid = int(status_fields(text)["Uid"][0])
    except (OSError, KeyError, IndexError, ValueError):
        return Doer(pid)
    return Doer(pid, uid, program_of(proc, pid), unit_in(proc, pid))


def unit_in(proc: str, pid: int) -> str:
    """The container or the unit whose cgroup a process is in, or that cgroup."""
    try:
        lines = bounded.read_file(f"{proc}/{pid}/cgroup", bounded.STATUS).data.split(b"\n")
    except OSError:
        return ""
    path = next((CgroupPath(line[len(VERSION_2):]) for line in lines if line.startswith(VERSION_2)), None)
    if path is None:
        return ""
    for place in (path, *ancestors(path)):
        scope = containers.known(place)
        name = f"{scope.engine}:{scope.id[:containers.SHORT_ID]}" if scope else unit_at(place)
        if name:
            return name
    return f"cgroup {shown(os.fsdecode(path))}"
