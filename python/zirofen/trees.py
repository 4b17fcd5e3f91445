"""A tree of cgroups, as docs/FORMATS.md of the repository has its text."""
from __future__ import annotations

import json
import sys
from dataclasses import dataclass, field
from typing import Any, Dict, Iterable, List, Optional, Tuple, Union

Value = Union[int, str, List[str]]


@dataclass(frozen=True)
class Entry:
    """Whose a directory or a file is, and with which mode: without one 0o755 of a directory, and 0o644 of a file."""
    uid: int = 0
    gid: int = 0
    mode: Optional[int] = None


@dataclass(frozen=True)
class Limit:
    """A limit file, and what it holds: a number or "max", or a line or a list of lines; without a value its default."""
    value: Optional[Value] = None
    uid: int = 0
    gid: int = 0
    mode: Optional[int] = None


@dataclass
class Cgroup:
    """A cgroup: what it enables for its children, and of its files those that aren't root's as they come."""
    path: str
    enabled: List[str] = field(default_factory=list)
    dir: Entry = Entry()
    files: Dict[str, Union[Entry, Limit]] = field(default_factory=dict)


@dataclass(frozen=True)
class Process:
    pid: int
    uid: int
    at: str


@dataclass
class Tree:
    """A tree, whose text is of format 4.

    >>> tree = Tree(["cpu"], [Cgroup("/", files={"cgroup.procs": Entry(gid=50, mode=0o664)})], [Process(1, 0, "/")])
    >>> print(tree.text, end="")
    format = 4
    controllers = ["cpu"]
    <BLANKLINE>
    [[cgroup]]
    path = "/"
    enabled = []
    dir = { uid = 0, gid = 0 }
    files = { "cgroup.procs" = { uid = 0, gid = 50, mode = 0o664 } }
    <BLANKLINE>
    [[process]]
    pid = 1
    uid = 0
    at = "/"

    From Python 3.11 on a text is read as well:

    >>> import sys
    >>> sys.version_info < (3, 11) or Tree.read(tree.text) == tree
    True
    """
    controllers: List[str] = field(default_factory=list)
    cgroups: List[Cgroup] = field(default_factory=list)
    processes: List[Process] = field(default_factory=list)

    @property
    def text(self) -> str:
        return "".join(f"{line}\n" for line in self._lines())

    def _lines(self) -> Iterable[str]:
        yield "format = 4"
        yield f"controllers = {_array(self.controllers)}"
        for it in self.cgroups:
            files = ", ".join(f"{_quoted(name)} = {_table(entry)}" for name, entry in it.files.items())
            yield from ("", "[[cgroup]]", f"path = {_quoted(it.path)}", f"enabled = {_array(it.enabled)}", f"dir = {_table(it.dir)}")
            yield f"files = {{ {files} }}" if files else "files = {}"
        for process in self.processes:
            yield from ("", "[[process]]", f"pid = {process.pid}", f"uid = {process.uid}", f"at = {_quoted(process.at)}")

    @staticmethod
    def read(text: str) -> Tree:
        """The tree of a text of format 2 or 4, whose form alone is looked at here: `check` says what is wrong with it otherwise."""
        if sys.version_info < (3, 11):
            raise NotImplementedError("a tree's text is read from Python 3.11 on: pass the text itself")
        import tomllib
        found = tomllib.loads(text)
        if found.get("format") not in (2, 4):
            raise ValueError("a tree's text of format 2 or 4 is read alone: `upgrade` writes one of format 1 anew")
        try:
            cgroups = [_cgroup_of(**it) for it in found.get("cgroup", [])]
            return Tree(found["controllers"], cgroups, [Process(**it) for it in found.get("process", [])])
        except (TypeError, KeyError) as fault:
            raise ValueError(f"no form of a tree's text: {fault}") from fault


def _cgroup_of(path: str, enabled: Tuple[str, ...] = (), dir: Optional[Dict[str, Any]] = None,
               files: Optional[Dict[str, Dict[str, Any]]] = None) -> Cgroup:
    kinds = {name: Entry if name in ("cgroup.procs", "cgroup.subtree_control") else Limit for name in files or {}}
    return Cgroup(path, list(enabled), Entry(**(dir or {})), {name: kinds[name](**it) for name, it in (files or {}).items()})


def _quoted(text: str) -> str:
    return json.dumps(text)


def _array(texts: Iterable[str]) -> str:
    return f"[{', '.join(map(_quoted, texts))}]"


def _value(value: Value) -> str:
    if isinstance(value, str):
        return _quoted(value)
    return _array(value) if isinstance(value, (list, tuple)) else str(int(value))


def _table(entry: Union[Entry, Limit]) -> str:
    keys = [f"uid = {entry.uid}", f"gid = {entry.gid}"]
    if entry.mode is not None:
        keys.append(f"mode = 0o{entry.mode:o}")
    if isinstance(entry, Limit) and entry.value is not None:
        keys.append(f"value = {_value(entry.value)}")
    return f"{{ {', '.join(keys)} }}"
