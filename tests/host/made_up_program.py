#!/usr/bin/env python3
"""Plays the program's part: it answers by the guards alone, so that whatever isn't contained is unsettled, or an escape
where a limit file is open. What it can is told by the environment: MADE_UP=all,advise,pairs,everybody, or 70 for the status
of a wrapper that has nothing built. A subtree named odd is a fault, and against everybody one named strange,
and each call is written into the file CALLS."""
import contextlib
import functools
import io
import itertools
import os
import subprocess
import sys

HERE = os.path.dirname(os.path.realpath(__file__))
sys.dont_write_bytecode = True
sys.path.insert(0, f"{HERE}/../../host")

from zirofen_host.collect.accounts import Accounts  # noqa: E402
from zirofen_host.fault import Fault  # noqa: E402
from zirofen_host.ask.delegations import Delegations  # noqa: E402
from zirofen_host.collect.tree import read_tree  # noqa: E402
from zirofen_host.collect.model import User  # noqa: E402
from zirofen_host.profile import path_of, text_of  # noqa: E402


# what comes with something else that it can
WITH = {"subtrees": "everybody"}


def can(what):
    return what in os.environ.get("MADE_UP", "").split(",")


def play(words):
    """A run in this process, as subprocess tells of one."""
    out, err = io.StringIO(), io.StringIO()
    with contextlib.redirect_stdout(out), contextlib.redirect_stderr(err):
        status = main(list(words))
    return subprocess.CompletedProcess(words, status, out.getvalue(), err.getvalue())


def options(words):
    found = {}
    for key, value in zip(words[::2], words[1::2]):
        found.setdefault(key, []).append(value)
    return found


def user_of(word):
    uid, _, gids = word.partition(":")
    return User(int(uid), tuple(map(int, gids.split(",") if gids else ())))


def failing(delegations, user, subtree):
    for each in delegations.guarded(path_of(subtree)):
        entry = delegations.entry(each.path, each.name)
        if user.reaches(entry):
            yield each, entry


def answer(delegations, user, subtree):
    found = list(failing(delegations, user, subtree))
    if not found:
        return 0, ["contained"]
    each, _ = found[0]
    if each.guard == "limit-file":
        return 1, ["escapes", f"set {subtree} {each.name} 0"]
    return 2, [f"unsettled {each.guard} {text_of(each.path)}"]


def settled(delegations, users, subtree):
    """What settle makes of what is left unsettled: of a directory a list, as long as MADE_UP_LIST says, and of other guards nothing where
    one of the users is MADE_UP_OPENER, else that it is contained."""
    is_opened = os.environ.get("MADE_UP_OPENER") in {str(user.uid) for user in users}
    for user in users:
        status, lines = answer(delegations, user, subtree)
        if status == 2 and lines[0].startswith("unsettled parent-dir"):
            made = [f"exit {number}" for number in range(1, int(os.environ.get("MADE_UP_LIST", "2")))]
            status, lines = 1, ["escapes", *made, f"rmdir {subtree}"]
        elif status == 2 and not is_opened:
            status, lines = 0, ["contained"]
        yield user, status, lines


def audit_settled(delegations, users, subtrees):
    found = {(user, subtree): (status, lines) for subtree in subtrees
             for user, status, lines in settled(delegations, list(map(user_of, users)), subtree)}
    listed = [(word, subtree, *found[user_of(word), subtree]) for word in users for subtree in subtrees]
    listed = [each for each in listed if each[2]]
    for word, subtree, _, lines in listed:
        print("\n".join([f"pair {word} {subtree}", *lines]))
    if not listed:
        print("contained")
    return min((each[2] for each in listed), default=0)


def audit(delegations, pairs, is_all):
    statuses = [0]
    for word, subtree in pairs:
        status, lines = answer(delegations, user_of(word), subtree)
        if status:
            statuses.append(status)
            print("\n".join([f"pair {word if is_all else word.split(':')[0]} {subtree}", *lines]))
            if not is_all:
                return status
    if statuses == [0]:
        print("contained")
    return 1 if 1 in statuses else max(statuses)


def let_in(entry):
    return [name for name, lets in (("owner", entry.uid), ("group", entry.mode & 0o020), ("others", entry.mode & 0o002)) if lets]


def audit_everybody(delegations, subtrees):
    is_listed = False
    for subtree in dict.fromkeys(subtrees):
        guarded = [(each, delegations.entry(each.path, each.name)) for each in delegations.guarded(path_of(subtree))]
        lines = [f"fails {each.guard} {text_of(each.path)} {each.name} {entry.uid}:{entry.gid} {entry.mode:03o} {name}"
                 for each, entry in guarded for name in let_in(entry)]
        print("".join(f"{line}\n" for line in ([f"subtree {subtree}", *lines] if lines else [])), end="")
        is_listed = is_listed or bool(lines)
    if not is_listed:
        print("contained")
    return 1 if is_listed else 0


def advise(delegations, pairs):
    met = {}
    for user, subtree in pairs:
        for each, entry in failing(delegations, user, subtree):
            met.setdefault((each.path, each.name), (each, entry, []))[2].append(user)
    for each, entry, users in met.values():
        path, classes = text_of(each.path), {user.class_of(entry) for user in users}
        for by in ("owner", "group", "others"):
            if by in classes:
                print(f"fails {each.guard} {path} {each.name} {entry.uid}:{entry.gid} {entry.mode:03o} {by}")
        if "owner" in classes:
            print(f"chown {path} {each.name} 0:{entry.gid}")
        inside = {entry.gid in user.gids for user in users}
        mode = entry.mode & (0o757 if True in inside else 0o777) & (0o775 if False in inside else 0o777)
        if mode != entry.mode:
            print(f"chmod {path} {each.name} {mode:03o}")
    if not met:
        print("contained")
    return 1 if met else 0


def explain(delegations, user, subtree):
    """The first row and one limit, and where a guard fails one line of the second row, which doesn't hold."""
    reached = {(each.path, each.name) for each, _ in failing(delegations, user, subtree)}
    for each in delegations.guarded(path_of(subtree)):
        entry = delegations.entry(each.path, each.name)
        is_reached = (each.path, each.name) in reached
        yield " ".join(["fails" if is_reached else "holds", each.guard, text_of(each.path), each.name, f"{entry.uid}:{entry.gid}",
                        f"{entry.mode:03o}", *([user.class_of(entry)] if is_reached else [])])
    if reached:
        yield f"fails stays {subtree} removed"
    yield f"holds already-over {subtree} cgroup.max.depth 0 max"


def lines_in(file):
    with open(file, encoding="ascii") as text:
        return text.read().splitlines()


def pairs_in(file):
    return [(user, subtree) for _, user, subtree in map(str.split, lines_in(file))]


@functools.lru_cache(maxsize=8)
def delegations_in(file, _):
    with open(file, encoding="ascii") as text:
        return Delegations(read_tree(text.read()), Accounts())


def fault(line, status=3):
    print(line, file=sys.stderr)
    print("  help below it\na line that is none", file=sys.stderr)
    return status


def main(words):
    with open(os.environ["CALLS"], "a", encoding="ascii") as calls:
        calls.write(" ".join(words) + "\n")
    if words[-1] == "--help":
        if words[0] == "advise" and not can("advise") or words[0] == "explain" and not can("explain"):
            return fault("fault: usage")
        of_audit = [name for name in ("all", "pairs", "settle", "everybody", "subtrees") if can(WITH.get(name, name))]
        known = {"audit": "".join(f"  --{name}  x\n" for name in of_audit),
                 "advise": "  --pairs <FILE>  x\n", "explain": "  --subtree <PATH>  x\n"}
        print("Options:\n  --tree <FILE>\n" + known.get(words[0], ""))
        return 0
    if words == ["--version"]:
        print("made-up 1.0")
        return 0
    if can("70"):
        return fault("zirofen: not built: there is no rt on the PATH", 70)
    flags = [word for word in words[1:3] if word in ("--all", "--settle", "--everybody")]
    is_all = "--all" in flags
    given = options(words[1 + len(flags):])
    named = itertools.product(given.get("--uid", ()), given.get("--subtree", ()))
    pairs = pairs_in(given["--pairs"][0]) if "--pairs" in given else list(named)
    subtrees = lines_in(given["--subtrees"][0]) if "--everybody" in flags else given.get("--subtree", [])
    if any(path.endswith("/odd") for _, path in pairs) or "--everybody" in flags and any(path.endswith("/strange") for path in subtrees):
        return fault("fault: subtree missing")
    file = given["--tree"][0]
    try:
        delegations = delegations_in(file, (os.stat(file).st_ino, os.stat(file).st_mtime_ns))
    except (Fault, UnicodeDecodeError):
        return fault("fault: tree not-toml")
    if words[0] == "replay":
        return 0
    if "--everybody" in flags:
        return audit_everybody(delegations, subtrees)
    if words[0] == "audit" and "--settle" in flags:
        return audit_settled(delegations, given["--uid"], subtrees)
    if words[0] == "audit":
        return audit(delegations, pairs, is_all or "--pairs" in given)
    if words[0] == "advise":
        return advise(delegations, [(user_of(user), subtree) for user, subtree in pairs])
    if words[0] == "explain":
        statuses = set()
        for user, subtree in pairs:
            status, lines = next(settled(delegations, [user_of(user)], subtree))[1:]
            statuses.add(status)
            print("\n".join([f"pair {user} {subtree}", *explain(delegations, user_of(user), subtree), lines[0]]))
        return 1 if 1 in statuses else max(statuses)
    user = User(int(given["--uid"][0]), tuple(map(int, given.get("--gid", ()))))
    subtree = given["--subtree"][0]
    status, lines = answer(delegations, user, subtree) if words[0] == "check" else next(settled(delegations, [user], subtree))[1:]
    print("\n".join(lines))
    return status


if __name__ == "__main__":
    sys.exit(main(sys.argv[1:]))
