"""The second judge of what a program calls contained: walks of the machine that refuses as little as that takes."""
import random

from second import commands, documents, machine, rules, texts
from trials import walks

# a walk over more takes long
MOST_CGROUPS = 60
MOST_TOPS = 4
MOST_OWNERS = 4
# a uid that no tree of the cases has
NOBODY_S = 4294967294
WALKS_BLIND = 6
# what few subtrees show
RARE = {"of a rmdir of what has a child": 40}
GUARD = "guard"
LEFT_OUT = [f"the machine, without its refusal {name}" for name in machine.REFUSALS]
GUARDS_LEFT_OUT = [f"the machine, without its {GUARD} {name}" for name in machine.GUARDS]
ALL = [*LEFT_OUT, *GUARDS_LEFT_OUT]


def asked(case):
    """The machine, the users and the subtrees that a check or an audit is about, or None."""
    if case.words[:1] not in (["check"], ["audit"]) or "--settle" in case.words or case.full:
        return None
    try:
        call = commands.Call(case.words)
        named = call.one("--tree") or "-"
        state = texts.tree_of(case.stdin if named == "-" else case.files[named])
        users = some_of(state, call.asked) if "--everybody" in call.given else list(dict.fromkeys(call.users))
        tops = [rules.path_of(word) for word in dict.fromkeys(commands.named_in(call, {**case.files, "-": case.stdin}))]
    except (commands.Fault, documents.Fault, documents.Unsure, KeyError, TypeError):
        return None
    return (machine.view(state), users, tops) if len(state.cgroups) <= MOST_CGROUPS and users else None


def is_member(asked, uid, gid):
    uids = asked.may_be_in(gid)
    return uids is None or uid in uids


def some_of(state, asked):
    """Of everybody some: the owners of entries, and somebody else, in every group that an entry has and they may be in, or in none."""
    entries = [entry for cgroup in state.cgroups.values() for entry in cgroup.entries.values()]
    owners, gids = sorted({entry.uid for entry in entries} - {0}), tuple(sorted({entry.gid for entry in entries}))
    return [(uid, tuple(gid for gid in those if is_member(asked, uid, gid)))
            for uid in [*owners[:MOST_OWNERS], NOBODY_S] if asked.is_meant(uid) for those in ((), gids)]


def is_contained(written):
    return written[1] == 0 and written[0].startswith((b"contained\n", b'{"answer":"contained"'))


def chance_of(case):
    return random.Random(" ".join(case.words))


def fault_of(case, written):
    """What a walk breaks of what the program calls contained, or ''."""
    found = asked(case) if is_contained(written) else None
    if not found:
        return ""
    start, users, tops = found
    rng = chance_of(case)
    for top in rng.sample(tops, min(len(tops), MOST_TOPS)):
        what = walks.fault_of(rng, walks.Walk(start, top, users))
        if what:
            return f"contained, by what is written, and a walk of the machine has {rules.text_of(top)} {what}"
    return ""


def told_by(names, case, written):
    """Those of some names of ALL of which a walk tells from a case: what is left out lets it break a subtree."""
    found = asked(case) if names else None
    if not found or written[1] == 3:
        return []
    start, users, tops = found
    rng = chance_of(case)
    top = rng.choice(tops)
    if top not in start.cgroups:
        return []
    failed = {name for user in users for name in machine.guards_failed(start, user, top)}
    if is_contained(written):
        made = {name: (frozenset([refusal]), RARE.get(refusal, WALKS_BLIND)) for name, refusal in zip(LEFT_OUT, machine.REFUSALS)}
    else:
        # without the one guard that fails this pair would be called contained
        made = {name: (frozenset([GUARD]), WALKS_BLIND) for name, guard in zip(GUARDS_LEFT_OUT, machine.GUARDS) if failed == {guard}}
    return [name for name, (left_out, count) in made.items() if name in names
            and any(walks.fault_of(rng, walks.Walk(start, top, users, left_out=left_out)) for _ in range(count))]
