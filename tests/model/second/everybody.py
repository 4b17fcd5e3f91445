"""The second model: whom what is guarded lets in, whoever there is, and what to change so that it lets nobody in, by the words of
docs/MODEL.md and docs/FORMATS.md. Written from these pages alone, as rules.py is.
"""
from dataclasses import dataclass, replace
from typing import Tuple

from . import explained, rules
from .rules import text_of


@dataclass(frozen=True)
class Asked:
    """Everybody but root and those who are left out, and the groups of which it is told who may be a member."""
    but: Tuple[int, ...] = ()
    groups: Tuple[Tuple[int, Tuple[int, ...]], ...] = ()

    def lines(self):
        """What an answer stands on."""
        return [f"but {uid}" for uid in self.but] + [f"group {gid}={','.join(map(str, uids))}" for gid, uids in self.groups]

    def is_meant(self, uid):
        return uid != 0 and uid not in self.but

    def may_be_in(self, gid):
        """The uids of whoever may be in a group; None where it isn't listed, and may be anybody's."""
        lists = [uids for other, uids in self.groups if other == gid]
        return {uid for uids in lists for uid in uids} if lists else None

    def has_members(self, entry):
        """Whether somebody who is meant may be in an entry's group, and isn't its owner."""
        uids = self.may_be_in(entry.gid)
        return uids is None or any(self.is_meant(uid) and uid != entry.uid for uid in uids)


def classes_of(entry, asked):
    """The classes that an entry lets in. Root is nobody here, and so is who is left out."""
    lets_in = {"owner": asked.is_meant(entry.uid), "group": entry.mode & 0o020 and asked.has_members(entry), "others": entry.mode & 0o002}
    return [name for name, is_let_in in lets_in.items() if is_let_in]


def listed(state, top, asked):
    """The guarded entries that let a class in, in order, each with its classes."""
    found = [(guard, path, name, classes_of(state.cgroups[path].entries[name], asked))
             for guard, path, name in rules.guarded(state, top)]
    return [each for each in found if each[-1]]


def lines_of(state, top, asked):
    """The lines of a subtree that isn't held against everybody, below the one that names it; of one that is there are none."""
    lines = []
    for guard, path, name, classes in listed(state, top, asked):
        lines += rules.class_lines(guard, f"{text_of(path)} {name}", state.cgroups[path].entries[name], classes)
    return lines + ([f"fails already-over {text_of(top)}"] if rules.over(state, top) else [])


def advice(state, tops, asked):
    """The lines of each entry that lets a class in, where the subtrees meet it first, and then of each subtree's limits."""
    met = {}
    for top in tops:
        for guard, path, name, classes in listed(state, top, asked):
            met.setdefault((path, name), (guard, classes))
    lines = []
    for (path, name), (guard, classes) in met.items():
        entry, where = state.cgroups[path].entries[name], f"{text_of(path)} {name}"
        lines += rules.class_lines(guard, where, entry, classes) + changes_of(entry, where, asked)
    for top in dict.fromkeys(tops):
        lines += rules.limit_lines(state, top)
    return lines


def changes_of(entry, where, asked):
    """What takes an entry from all classes that it lets in: from its owner first, who may then be of another class."""
    changes, let_in = [], classes_of(entry, asked)
    if "owner" in let_in:
        entry = replace(entry, uid=0)
        changes.append(f"chown {where} {entry.uid}:{entry.gid}")
        let_in = classes_of(entry, asked)
    bits = sum(bit for name, bit in (("group", 0o020), ("others", 0o002)) if name in let_in)
    return changes + ([f"chmod {where} {entry.mode & ~bits:03o}"] if bits else [])


def told_of(state, top, asked):
    """All lines of a subtree below the one that names it: whom each guarded entry lets in, and its limits."""
    lines = []
    for guard, path, name in (each for each in rules.guarded(state, top) if rules.is_shown(state, *each[1:])):
        entry, where = state.cgroups[path].entries[name], f"{text_of(path)} {name}"
        held = f"holds {guard} {where} {entry.uid}:{entry.gid} {entry.mode:03o}"
        lines += rules.class_lines(guard, where, entry, classes_of(entry, asked)) or [held]
    return lines + explained.limits(state, top)
