"""From messages to the journal, and from a state to the service manager: a datagram each, by their own protocols."""
import os
import socket
from typing import Mapping, Optional

from zirofen_host.fault import plain
from zirofen_host.installed import NAME
from zirofen_host.watch.messages import Message, fields_of

JOURNAL = "/run/systemd/journal/socket"
# by which all that watches tell is found: journalctl MESSAGE_ID=..
MESSAGE = "8e0a1c6b5d2f4f7c9b3e7a40c1d25f96"
# what counts is an error, what else differs a notice, and all else information
ERROR, WARNING, NOTICE, INFORMATION = 3, 4, 5, 6


def priority_of(message: Message) -> int:
    if message.is_counted:
        return ERROR if message.status == 1 else WARNING
    return NOTICE if message.kind in ("new", "worse", "mended", "gone", "back", "limit") else INFORMATION


def datagram(fields: Mapping[str, str]) -> bytes:
    """Fields as the journal takes them; none has more than one line."""
    return "".join(f"{name}={plain(value)}\n" for name, value in fields.items()).encode("ascii")


def entry_of(message: Message) -> Mapping[str, str]:
    who = f", by {message.doers[0].text}" if message.doers else ""
    return {"MESSAGE": f"{message.kind}: {message.line}{who}", "PRIORITY": str(priority_of(message)), "SYSLOG_IDENTIFIER": NAME,
            "MESSAGE_ID": MESSAGE, **{f"ZIROFEN_{name}": value for name, value in fields_of(message).items()}}


class Datagrams:
    """Where datagrams go; what isn't there takes none, and is never waited for."""

    def __init__(self, place: Optional[str]) -> None:
        self.place = "\0" + place[1:] if place and place[0] == "@" else place
        self.socket = socket.socket(socket.AF_UNIX, socket.SOCK_DGRAM | socket.SOCK_CLOEXEC | socket.SOCK_NONBLOCK)

    def send(self, data: bytes) -> bool:
        if not self.place:
            return False
        try:
            self.socket.sendto(data, self.place)
        except OSError:
            return False
        return True


class Manager:
    """The service manager, where there is one that waits for words of this process."""

    def __init__(self) -> None:
        self.to = Datagrams(os.environ.pop("NOTIFY_SOCKET", None))
        microseconds = os.environ.pop("WATCHDOG_USEC", "")
        is_mine = os.environ.pop("WATCHDOG_PID", str(os.getpid())) == str(os.getpid())
        # seconds within which it wants to hear of it
        self.within = int(microseconds) / 2e6 if microseconds.isdigit() and is_mine and self.to.place else None

    def tell(self, *words: str) -> None:
        self.to.send("\n".join(map(plain, words)).encode("ascii"))
