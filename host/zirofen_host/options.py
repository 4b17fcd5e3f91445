"""From a command line to what the subcommand was asked for, made once."""
import os
from dataclasses import dataclass
from typing import NamedTuple, Optional, Tuple

from zirofen_host.profile import NEWEST, TEXT_FORMATS, CgroupPath, TextFormat

MOUNT, PROC = "/sys/fs/cgroup", "/proc"
EVERYBODY = -1


@dataclass(frozen=True)
class Options:
    """What is looked at, and by which program: the options of every subcommand that asks."""
    mount: str = MOUNT
    # that cgroup, its ancestors and what is inside it
    only: Optional[CgroupPath] = None
    # nothing is read inside of what these persons made or hold; EVERYBODY is each but root
    shallow: Tuple[int, ...] = ()
    proc: str = PROC
    no_processes: bool = False
    # the format of tree texts that are made of this host; the newest where none is named
    tree_format: Optional[int] = None
    # the mount is a folder of plain files
    plain_folder: bool = False
    # a folder with account files, in place of the host's own
    accounts: Optional[str] = None
    # a text in place of this host
    tree: Optional[str] = None
    # where the tree text is left
    keep: Optional[str] = None
    program: str = ""
    # for the run as a whole; without a bound where there is none
    seconds: Optional[int] = None

    @property
    def text_format(self) -> TextFormat:
        """The format of tree texts that are made of this host."""
        return TEXT_FORMATS[NEWEST if self.tree_format is None else self.tree_format]

    @property
    def carried(self) -> Tuple[str, ...]:
        """The words of what decides which tree is asked, and how: a command that a run prints has them."""
        of_host = () if self.tree else (("--mount", self.mount if self.mount != MOUNT else None),
                                        ("--proc", self.proc if self.proc != PROC else None),
                                        ("--only", None if self.only is None else os.fsdecode(self.only)),
                                        ("--tree-format", None if self.tree_format is None else str(self.tree_format)))
        named = (("--tree", self.tree), *of_host, ("--accounts", self.accounts))
        flags = (("--no-processes", self.no_processes), ("--plain-folder", self.plain_folder and not self.tree))
        words = [word for name, value in named if value is not None for word in (name, value)]
        return (*words, *(name for name, is_set in flags if is_set))


class Way(NamedTuple):
    """A kind of report, and the file that it goes to; - is standard output."""
    kind: str
    file: str = "-"


@dataclass(frozen=True)
class CheckOptions(Options):
    json: bool = False
    format: Tuple[Way, ...] = ()
    # what mends the findings
    mends: Tuple[Way, ...] = ()
    # every finding by itself
    each: bool = False
    html: Optional[str] = None
    baseline: Optional[str] = None
    baseline_update: Optional[str] = None
    # what somebody accepts one by one
    accept: Optional[str] = None
    # the page on the web that says what each finding means
    help_uri: Optional[str] = None


@dataclass(frozen=True)
class WatchOptions(CheckOptions):
    # lines go to the journal, in its fields
    journal: bool = False
    # what is started where something is new or worse
    exec: Optional[str] = None


@dataclass(frozen=True)
class AskOptions(Options):
    user: str = ""
    path: str = ""
    # what they may do at all, in place of an answer
    may: bool = False
    # why, beside the answer
    explain: bool = False


@dataclass(frozen=True)
class SnapshotOptions(Options):
    with_host: bool = False


@dataclass(frozen=True)
class TreeOptions(Options):
    report: Optional[str] = None
    all: bool = False
    colour: str = "auto"
    ascii: bool = False
    width: Optional[int] = None
    no_pager: bool = False


@dataclass(frozen=True)
class PlanOptions(Options):
    # a file with changes of root's, a line each, or units of which they are made
    ops: Optional[str] = None
    unit: Tuple[str, ...] = ()
    # the version of systemd that units are for; the host's own, else a new one
    systemd: Optional[int] = None
    json: bool = False
    # the changes or the tree behind them, in place of answers
    print: Optional[str] = None


@dataclass(frozen=True)
class DelegationsOptions:
    tree: Optional[str] = None
    proc: Optional[str] = None
    accounts: Optional[str] = None
    program: str = ""


@dataclass(frozen=True)
class PageOptions:
    reports: Tuple[str, ...] = ()
    out: str = "-"


@dataclass(frozen=True)
class FleetOptions:
    folder: str = ""
    json: bool = False
    format: Tuple[Way, ...] = ()
    # each host in a row of its own
    each: bool = False
    html: Optional[str] = None
    # days after which a report doesn't count
    older: Optional[int] = None
    # a file with the names of the hosts that should be there
    hosts: Optional[str] = None


@dataclass(frozen=True)
class CommandsOptions(Options):
    uid: Optional[int] = None
    gid: Tuple[int, ...] = ()
    # the subtree that the operations break; else what stands in them
    subtree: Optional[str] = None
