"""Zirofen: does a delegated cgroup subtree contain a user?

>>> import zirofen
>>> tree = zirofen.Tree(controllers=["memory", "pids"], cgroups=[
...     zirofen.Cgroup("/", enabled=["memory", "pids"]),
...     zirofen.Cgroup("/app", dir=zirofen.Entry(uid=1000), files={"cgroup.procs": zirofen.Entry(uid=1000)}),
... ])
>>> zirofen.check(tree, 1000, "/app")
Contained()
>>> tree.cgroups[1].files["memory.max"] = zirofen.Limit(2 ** 30, uid=1000)
>>> zirofen.check(tree, 1000, "/app")
Escapes(operations=('set /app memory.max max',))
>>> zirofen.advise(tree, [1000], ["/app"]).changes
('chown /app memory.max 0:0',)

`Contained` is of the text of the tree that was given, as docs/QUESTIONS.md of the repository has it; `Escapes` and `Unsettled` are no yes.
An answer comes from libzirofen.so.0 where that is there, and else from the program `zirofen` (see `zirofen.asked`): both give the same.
"""
from zirofen.answers import Advice, Answer, Audit, Contained, Escapes, Explained, Finding, Replayed, Unsettled
from zirofen.asking import advise, audit, check, explain, may, replay, run, settle, upgrade
from zirofen.asked import Unavailable, asked, version
from zirofen.faults import Fault
from zirofen.trees import Cgroup, Entry, Limit, Process, Tree
from zirofen.users import User

__all__ = [
    "Advice", "Answer", "Audit", "Cgroup", "Contained", "Entry", "Escapes", "Explained", "Fault", "Finding", "Limit", "Process", "Replayed",
    "Tree", "Unavailable", "Unsettled", "User", "advise", "asked", "audit", "check", "explain", "may", "replay", "run", "settle", "upgrade",
    "version"]
