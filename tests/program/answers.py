#!/usr/bin/env python3
"""Runs each command of the program from end to end: its answers with their statuses, its faults and which of them comes first.

Usage: tests/program/answers.py [PROGRAM]. Without PROGRAM it is ./zirofen. The last line is 'N passed, M failed'.
"""
import os
import re
import sys

sys.dont_write_bytecode = True
import of_one
from case import EXAMPLES, PIPE, TOP, Case, call, run
from format_4_rows import rows as format_4_rows
from json_rows import rows as json_rows

MOVED_IN = b"move 10 /c0\n"
CUT = b"exit 11\nmkdir /c0/a"
FILLED = ["ok", "ok", "ok", "ok", "ok", "refused descendant-limit /c0", "refused no-access /c0 memory.max", "refused no-access / cgroup.procs"]
FILLED_OPS = ["--ops", f"{EXAMPLES}/delegation-filled.ops"]
LIMIT_SET = ["escapes", "set /c0 memory.max max"]
EMPTIED = ["exit 11", "rmdir /c0/c01", "rmdir /c0/c00", "rmdir /c0"]
# the tree of an escape, the subtree, and what a replay of its operations says
ESCAPES = [
    ("delegation-limit-writable", "/c0", ["ok", "broken 1 limits"]),
    ("delegation-ancestor-writable", "/c0", ["ok", "broken 1 crossed 10"]),
    ("delegation-over-limit", "/c0", ["broken 0 descendants"]),
    ("empty-parent-directory", "/c0", ["ok", "broken 1 gone"]),
    ("delegation-ancestor-owned", "/c0", ["ok", "ok", "broken 2 crossed 10"]),
    ("delegation-parent-control", "/c0", ["ok", "broken 1 limits"]),
    ("parent-delegated", "/p/s", ["ok", "ok", "broken 2 crossed 20"]),
]
# of planned ones the number of operations, and what the last of them breaks
PLANNED = [
    ("four-closed-places", "/s", 2, "crossed 11"),
    ("four-full-places", "/s", 3, "crossed 11"),
    ("one-process-alone", "/p/s", 4, "crossed 11"),
    ("refuge-in-two-moves", "/a/p/s", 5, "limits"),
    ("refuge-to-raise", "/q/p/s", 4, "limits"),
    ("room-one-in-another", "/s", 4, "crossed 5"),
    ("room-side-by-side", "/s", 4, "crossed 5"),
    ("three-closed-places", "/s", 2, "crossed 11"),
]


def tree(name):
    return ["--tree", f"{EXAMPLES}/{name}.toml"]


def asked(uid, subtree):
    return ["--uid", uid, "--subtree", subtree]


def fault(cause, *words):
    return Case(list(words), 3, fault=f"fault: {cause}")


def version():
    with open(f"{TOP}/crates/zirofen/src/version.rt", encoding="utf-8") as source:
        return re.search(r'^pub const VERSION: &str = "(.*)";$', source.read(), re.M)[1]


def command_lines(_):
    yield Case(["--version"], 0, [f"zirofen {version()}"])
    yield fault("usage", "frobnicate")
    yield fault("usage")


def migrations(_):
    def may(uid, pid, to):
        return ["may", "--uid", uid, "--pid", pid, "--to", to]
    yield Case(may("1000", "11", "/c0/c01"), 0, ["granted"])
    yield Case([*may("1000", "11", "/c0/c01"), *tree("delegation"), "--gid", "5", "--gid", "6"], 0, ["granted"])
    yield Case(may("1001", "11", "/c0/c01"), 1, ["refused no-access /c0/c01 cgroup.procs"])
    yield Case(may("1000", "10", "/c0/c00"), 1, ["refused no-access / cgroup.procs"])
    yield fault("uid", *may("0", "11", "/c0/c01"))
    yield fault("pid", *may("1000", "0", "/c0/c01"))
    yield fault("pid", *may("1000", "4194304", "/c0/c01"))
    yield fault("path", *may("1000", "11", "c0"))
    yield fault("path", *may("1000", "11", ""))
    # the tree is read before the call looks at its arguments, and the command line before the tree
    yield fault("read", *may("0", "11", "/c0/c01"), *tree("none"))
    yield fault("read", *may("1000", "11", "/c0/c01"), "--tree", EXAMPLES)
    yield fault("usage", *may("x", "11", "/c0/c01"), *tree("none"))
    yield fault("usage", *may("1000", "11", "/c0/c01"), "--uid", "1001")
    yield fault("usage", "may", "--uid", "1000", "--pid", "11")


def of_one_subtree(_):
    for command, example, subtree, said, status in of_one.rows():
        yield Case([command, *tree(example), *asked(of_one.USER, subtree)], status, said.split("|"))
    for command in of_one.OF_ONE:
        yield Case([command, *asked("1000", "/c0")], 0, ["contained"])
        yield fault("uid", command, *asked("0", "/c0"))
        yield fault("path", command, *asked("1000", "c0"))
        yield fault("subtree root", command, *asked("1000", "/"))
        yield fault("subtree missing", command, *asked("1000", "/zz"))
        yield fault("read", command, *tree("none"), *asked("0", "c0"))
        yield fault("usage", command, "--uid", "1000")


# what is told of the delegation, where all guards hold
TOLD = ["pair 1000 /c0", "holds common-ancestor / cgroup.procs 0:0 644", "holds limit-file /c0 cgroup.max.descendants 0:0 644",
        "holds limit-file /c0 cgroup.max.depth 0:0 644", "holds limit-file /c0 memory.min 0:0 644", "holds limit-file /c0 memory.low 0:0 644",
        "holds limit-file /c0 memory.high 0:0 644", "holds limit-file /c0 memory.max 0:0 644",
        "holds parent-control / cgroup.subtree_control 0:0 644", "holds parent-dir / dir 0:0 755",
        "holds already-over /c0 cgroup.max.descendants 2 4", "holds already-over /c0 cgroup.max.depth 1 2", "contained"]


def explained(_):
    yield Case(["explain", *asked("1000", "/c0")], 0, TOLD)
    yield Case(["explain", *asked("1000", "/c0"), *asked("01000", "/c0")], 0, TOLD)
    fails = [line.replace("holds limit-file /c0 memory.max 0:0 644", "fails limit-file /c0 memory.max 1000:0 644 owner") for line in TOLD]
    second = ["holds stays /c0 spared", "holds control / cpu off", "holds control / memory on", "holds control / pids off", "fails files /c0 reached"]
    yield Case(["explain", *tree("delegation-limit-writable"), *asked("1000", "/c0")], 1, [*fails[:10], *second, *fails[10:12], "escapes"])
    yield fault("subtree missing", "explain", *asked("1000", "/zz"), "--subtree", "/")
    yield fault("uid", "explain", "--uid", "1000", *asked("0", "zz"))
    yield fault("gid", "explain", "--uid", f"1000:{','.join(map(str, range(1, 34)))}", *asked("0", "/c0"))
    yield fault("read", "explain", *tree("none"), *asked("0", "c0"))
    yield fault("usage", "explain", *asked("1000:", "/c0"))
    yield fault("usage", "explain", "--all", *asked("1000", "/c0"))
    yield fault("usage", "explain", "--uid", "1000")


def audits(_):
    second = tree("delegation-second-user")
    both = ["--subtree", "/c0", "--subtree", "/c1"]
    yield Case(["audit", "--uid", "1000", "--uid", "1001:5,6", *both], 0, ["contained"])
    yield Case(["audit", *second, "--uid", "1000", "--uid", "01001:7", *both], 1, ["pair 1001 /c0", *LIMIT_SET])
    # the primary group decides, and the second one
    for gids in "50", "5,50":
        yield Case(["audit", *tree("delegation-ancestor-group"), *asked(f"1000:{gids}", "/c0")], 1,
                   ["pair 1000 /c0", "escapes", "move 10 /c0"])
    yield Case(["audit", *tree("delegation-ancestor-group"), *asked("1000:5", "/c0")], 0, ["contained"])
    yield fault("subtree missing", "audit", *asked("1000", "/zz"), "--subtree", "/")
    yield fault("uid", "audit", "--uid", "1000", *asked("0", "zz"))
    yield fault("gid", "audit", "--uid", f"1000:{','.join(map(str, range(1, 34)))}", *asked("0", "/c0"))
    for word in "1000:", "1000:1,", "1000: 5", ":5", "+5", "1000:4294967296", "1e3":
        yield fault("usage", "audit", *asked(word, "/c0"))
    # with --all every pair that isn't contained, each once, and the worst of their statuses
    yield Case(["audit", "--all", "--uid", "1000", "--uid", "1001:5,6", *both], 0, ["contained"])
    yield Case(["audit", "--all", *second, "--uid", "1000", "--uid", "01001:7", *both], 1, ["pair 1001:7 /c0", *LIMIT_SET])
    often = ["--uid", "1000", "--uid", "1001", "--uid", "1000", "--uid", "01001", *both, "--subtree", "/c0"]
    yield Case(["audit", *second, "--all", *often], 1, ["pair 1001 /c0", *LIMIT_SET])
    yield Case(["audit", "--all", *tree("delegation-parent-directory"), *asked("1000", "/c0")], 2,
               ["pair 1000 /c0", "unsettled parent-dir /"])
    yield fault("subtree missing", "audit", "--all", *asked("1000", "/zz"), "--subtree", "/")
    yield fault("uid", "audit", "--all", "--uid", "1000", *asked("0", "zz"))
    yield fault("usage", "audit", "--all", "--all", *asked("1000", "/c0"))
    yield fault("usage", "audit", "--all")
    # with --settle, who has a list, and the others where the second row doesn't hold for them together
    for form in ["--settle"], ["--settle", "--all"]:
        yield Case(["audit", *form, *tree("parent-procs-owned"), "--uid", "1001", *asked("1000", "/p/s")], 0, ["contained"])
        yield Case(["audit", *form, *tree("parent-procs-no-process"), "--uid", "1001", *asked("1000", "/p/s")], 2,
                   ["pair 1000 /p/s", "unsettled common-ancestor /p"])
        yield Case(["audit", *form, *tree("delegation-parent-directory"), "--uid", "1001", *asked("1000", "/c0")], 1,
                   ["pair 1000 /c0", "escapes", "exit 11", "rmdir /c0/c01", "rmdir /c0/c00", "rmdir /c0"])
        yield fault("subtree missing", "audit", *form, *asked("1000", "/zz"), "--subtree", "/")
        yield fault("uid", "audit", *form, "--uid", "1000", *asked("0", "zz"))
        yield fault("path", "audit", *form, *asked("1000", "c0"))
    yield Case(["audit", "--settle", *second, "--uid", "1000", "--uid", "01001:7", *both], 1, ["pair 1001 /c0", *LIMIT_SET])
    yield Case(["audit", "--settle", "--all", *second, "--uid", "1000", "--uid", "01001:7", *both], 1, ["pair 1001:7 /c0", *LIMIT_SET])
    yield fault("usage", "audit", "--settle", "--settle", *asked("1000", "/c0"))


def paired(_):
    """Of pairs, which a text names, what is said of each alone, in their order."""
    given = ["--pairs", "-"]
    escape = ["pair 1001:7 /c0", *LIMIT_SET]
    pairs = b"pair 1001:7 /c0\nescapes\nset /c0 memory.max max\npair 1000 /c1\npair 01001:7 /c0\n"
    for form in [], ["--all"]:
        yield Case(["audit", *form, *tree("delegation-second-user"), *given], 1, 2 * escape, given=pairs)
    yield Case(["audit", *tree("delegation-second-user"), *given], 0, ["contained"], given=b"pair 1000 /c0\npair 1001 /c1\n")
    yield Case(["audit", *tree("delegation-parent-directory"), *given], 2, ["pair 1000 /c0", "unsettled parent-dir /"], given=b"pair 1000 /c0\n")
    yield Case(["explain", *tree("delegation"), *given], 0, 2 * TOLD, given=2 * b"pair 1000 /c0\n")
    for command in "audit", "explain":
        asks = [command, *tree("delegation"), *given]
        yield Case(asks, 3, fault="fault: line 1 bad-word", given=b"pairs 1000 /c0\n")
        yield Case(asks, 3, fault="fault: line 2 cut", given=b"pair 1000 /c0\npair 1000 /c")
        yield Case(asks, 3, fault="fault: no-pair", given=b"")
        yield Case(asks, 3, fault="fault: uid", given=b"pair 1000 /zz\npair 0 /c0\n")
        yield Case(asks, 3, fault="fault: subtree missing", given=b"pair 1000 /c0\npair 1000 /zz\n")
        for beside in ["--uid", "1000"], ["--subtree", "/c0"], ["--settle"], ["--pairs", "-"]:
            yield Case([*asks, *beside], 3, fault="fault: usage", given=b"pair 1000 /c0\n")
        yield fault("usage", command, "--uid", "1000", *given)
        yield fault("usage", command, "--subtree", "/c0")
        yield fault("read", command, "--pairs", f"{EXAMPLES}/none.pairs")


def everybody(_):
    """Of each subtree that isn't held against everybody, whom which guarded entry lets in."""
    both, other = ["--subtree", "/c0", "--subtree", "/c1"], ["--subtree", "/c1", "--subtree", "/c0", "--subtree", "/c1"]
    told = {"delegation-second-user": {"/c0": ["limit-file /c0 memory.max 1001:0 644 owner"]},
            "delegation-over-limit": {"/c0": ["already-over /c0"]},
            **{name: {top: fails for top in ("/c0", "/c1")} for name, fails in {
                "delegation-ancestor-group": ["common-ancestor / cgroup.procs 0:50 664 group"],
                "delegation-ancestor-owned": [f"common-ancestor / cgroup.procs 1000:0 446 {name}" for name in ("owner", "others")],
                "delegation-ancestor-writable": ["common-ancestor / cgroup.procs 0:0 646 others"],
                "delegation-parent-directory": ["parent-dir / dir 1000:0 755 owner"]}.items()}}
    changes = {"delegation-second-user": ["chown /c0 memory.max 0:0"], "delegation-over-limit": ["set /c0 cgroup.max.descendants 2"],
               "delegation-ancestor-group": ["chmod / cgroup.procs 644"],
               "delegation-ancestor-owned": ["chown / cgroup.procs 0:0", "chmod / cgroup.procs 444"],
               "delegation-ancestor-writable": ["chmod / cgroup.procs 644"], "delegation-parent-directory": ["chown / dir 0:0"]}
    for name, fails in told.items():
        for words in both, other:
            lines = [line for top in dict.fromkeys(words[1::2]) if top in fails
                     for line in (f"subtree {top}", *(f"fails {each}" for each in fails[top]))]
            yield Case(["audit", "--everybody", *tree(name), *words], 1, lines)
            yield Case(["advise", "--everybody", *tree(name), *words], 1, [*(f"fails {each}" for each in fails["/c0"]), *changes[name]])
    for name in "delegation", "delegation-at-limit", "delegation-process-at-top":
        for command in "audit", "advise":
            yield Case([command, *tree(name), *other, "--everybody"], 0, ["contained"])
    held = ["subtree /c0", *TOLD[1:-1]]
    yield Case(["explain", "--everybody", *both[:2]], 0, held)
    yield Case(["explain", "--everybody", *both[:2], *both[:2], "--but", "7"], 0, [*held, "but 7"])
    writable = ["fails common-ancestor / cgroup.procs 0:0 646 others" if line.startswith("holds common-ancestor") else line for line in held]
    yield Case(["explain", "--everybody", *tree("delegation-ancestor-writable"), *both[:2]], 1, writable)
    owned, group = "fails common-ancestor / cgroup.procs 1000:0 446", "fails common-ancestor / cgroup.procs 0:50 664 group"
    for name, words, status, lines in (
            ("delegation", ["--but", "1000"], 0, ["contained", "but 1000"]),
            ("delegation-ancestor-owned", ["--but", "1000"], 1, ["subtree /c0", f"{owned} others", "but 1000"]),
            ("delegation-ancestor-group", ["--group", "50="], 0, ["contained", "group 50="]),
            ("delegation-ancestor-group", ["--group", "50=0,7", "--but", "7"], 0, ["contained", "but 7", "group 50=0,7"]),
            ("delegation-ancestor-group", ["--group", "50=0,007"], 1, ["subtree /c0", group, "group 50=0,7"]),
            ("delegation-ancestor-group", ["--group", "50=", "--group", "50=7"], 1, ["subtree /c0", group, "group 50=", "group 50=7"]),
            ("delegation-ancestor-group", ["--group", "51=7"], 1, ["subtree /c0", group, "group 51=7"])):
        yield Case(["audit", "--everybody", *tree(name), *both[:2], *words], status, lines)
        last = [line for line in lines if line.split()[0] in ("but", "group")]
        change = {"delegation-ancestor-owned": "chmod / cgroup.procs 444", "delegation-ancestor-group": "chmod / cgroup.procs 644"}
        advised = lines if status == 0 else [*lines[1:len(lines) - len(last)], change[name], *last]
        yield Case(["advise", "--everybody", *tree(name), *both[:2], *words], status, advised)
    for command in "audit", "advise", "explain":
        for beside in (["--uid", "1000"], ["--all"], ["--settle"], ["--pairs", "-"], ["--everybody"], ["--gid", "5"], ["--group", "5"],
                       ["--but", "x"]):
            yield fault("usage", command, "--everybody", *both, *beside)
        yield from (fault("usage", command, *asked("1000", "/c0"), *words) for words in (["--but", "5"], ["--group", "5="]))
        yield fault("usage", command, "--everybody")
        yield fault("usage", command, "--everybody=true", *both)
        yield fault("subtree missing", command, "--everybody", "--subtree", "/zz", "--subtree", "/")
        yield fault("subtree root", command, "--everybody", *both, "--subtree", "/", "--subtree", "/zz")
        yield fault("path", command, "--everybody", *tree("fault-no-parent"), "--subtree", "c0")
        yield fault("tree no-parent cgroup 2", command, "--everybody", *tree("fault-no-parent"), "--subtree", "/zz")
        yield fault("read", command, "--everybody", *tree("none"), "--subtree", "c0")
        yield Case([command, "--everybody", *both], 3, fault="fault: write", output="/dev/full")
    for command in "check", "settle":
        yield fault("usage", command, "--everybody", *both[:2])


def named_by_lines(_):
    """Of subtrees that a text names, what is said of them against everybody, in their order."""
    asks = ["audit", "--everybody", "--subtrees", "-"]
    listed = ["subtree /c0", "fails limit-file /c0 memory.max 1001:0 644 owner"]
    for text, status, lines in ((b"/c0\n", 1, listed), (b"/c1\n/c0\n/c1\n/c0\n", 1, listed), (b"/c1\n", 0, ["contained"])):
        yield Case([*asks, *tree("delegation-second-user")], status, lines, given=text)
    both = [line for top in ("/c1", "/c0") for line in (f"subtree {top}", "fails parent-dir / dir 1000:0 755 owner")]
    yield Case([*asks, *tree("delegation-parent-directory")], 1, both, given=b"/c1\n/c0\n/c1\n")
    for command in "audit", "advise":
        yield Case([command, "--subtrees", PIPE, "--everybody"], 0, ["contained"], piped=b"/c0\n/c1\n")
    yield Case(["advise", *asks[1:], *tree("delegation-parent-directory")], 1, ["fails parent-dir / dir 1000:0 755 owner", "chown / dir 0:0"],
               given=b"/c1\n/c0\n/c1\n")
    yield Case(["explain", *asks[1:], *tree("delegation")], 0, ["subtree /c0", *TOLD[1:-1]], given=b"/c0\n/c0\n")
    file = os.devnull
    for text, said in ((b"", "line 1 cut"), (b"/c0", "line 1 cut"), (b"/c0\n/c1", "line 2 cut"), (b"\n", "line 1 bad-word"),
                       (b"/c0\n\n", "line 2 bad-word"), (b"/c0\nc1\n", "line 2 bad-word"), (b"/c0\r\n", "line 1 bad-word"),
                       (b"pair 1000 /c0\n", "line 1 bad-word"), (b"/c0\n/zz\n/\n", "subtree missing"), (b"/c0\n/\n/zz\n", "subtree root")):
        yield Case([*asks, *tree("delegation")], 3, fault=f"fault: {said}", given=text)
    yield Case([*asks, *tree("fault-no-parent")], 3, fault="fault: line 1 bad-word", given=b"c0\n")
    yield Case([*asks, *tree("fault-no-parent")], 3, fault="fault: tree no-parent cgroup 2", given=b"/zz\n")
    for command in "audit", "advise", "explain":
        for beside in ["--subtree", "/c0"], ["--uid", "1000"], ["--all"], ["--settle"], ["--pairs", file], ["--subtrees", file], ["--gid", "5"]:
            yield fault("usage", command, "--everybody", "--subtrees", file, *beside)
    yield from (fault("usage", *words) for words in (asks, ["audit", "--subtrees", file], ["audit", "--subtrees", file, *asked("1000", "/c0")],
                                                     ["explain", "--subtrees", file, *asked("1000", "/c0")]))
    yield fault("read", "audit", "--everybody", "--subtrees", f"{EXAMPLES}/none.subtrees")


def advices(_):
    yield Case(["advise", *asked("1000", "/c0")], 0, ["contained"])
    yield Case(["advise", *tree("delegation-ancestor-group"), "--gid", "50", *asked("1000", "/c0")], 1,
               ["fails common-ancestor / cgroup.procs 0:50 664 group", "chmod / cgroup.procs 644"])
    yield fault("uid", "advise", *asked("0", "zz"))
    yield fault("gid", "advise", *(word for gid in range(1, 34) for word in ("--gid", str(gid))), *asked("1000", "zz"))
    yield fault("path", "advise", *asked("1000", "c0"))
    yield fault("subtree root", "advise", *asked("1000", "/"))
    yield fault("subtree missing", "advise", *asked("1000", "/zz"))
    yield fault("usage", "advise", "--uid", "1000")
    # with --settle nothing is to be changed either where the second row holds for all users together
    owned = tree("parent-procs-owned")
    fails = ["fails common-ancestor /p cgroup.procs 1000:0 644 owner", "chown /p cgroup.procs 0:0"]
    yield Case(["advise", *owned, *asked("1000", "/p/s")], 1, fails)
    yield Case(["advise", "--settle", *owned, *asked("1000", "/p/s")], 0, ["contained"])
    yield Case(["advise", "--settle", *asked("1000", "/c0")], 0, ["contained"])
    yield Case(["advise", "--settle", *tree("parent-procs-no-process"), *asked("1000", "/p/s")], 1, fails)
    yield Case(["advise", "--settle", *tree("delegation-ancestor-group"), "--gid", "50", *asked("1000", "/c0")], 1,
               ["fails common-ancestor / cgroup.procs 0:50 664 group", "chmod / cgroup.procs 644"])
    yield fault("uid", "advise", "--settle", *asked("0", "zz"))
    yield fault("path", "advise", "--settle", *asked("1000", "c0"))
    yield fault("subtree missing", "advise", "--settle", *asked("1000", "/zz"))
    yield fault("usage", "advise", "--settle", "--settle", *asked("1000", "/c0"))


def replays(program):
    at_delegation = ["replay", *tree("delegation"), "--uid", "1000"]
    yield Case(["replay", "--uid", "1000", *FILLED_OPS], 0, FILLED)
    yield Case([*at_delegation, "--gid", "5", *FILLED_OPS], 0, FILLED)
    yield Case([*at_delegation, "--ops", "-"], 0, given=b"")
    yield Case([*at_delegation, "--subtree", "/c0", "--ops", "-"], 0, ["kept"], given=b"")
    # the primary group decides, and the second one
    in_group = ["replay", *tree("delegation-ancestor-group"), *asked("1000", "/c0"), "--ops", "-"]
    for gids in ["--gid", "50"], ["--gid", "5", "--gid", "50"]:
        yield Case([*in_group, *gids], 1, ["ok", "broken 1 crossed 10"], given=MOVED_IN)
    yield Case([*in_group, "--gid", "5"], 0, ["refused no-access / cgroup.procs", "kept"], given=MOVED_IN)
    # the lines before a fault are written
    yield Case([*at_delegation, "--ops", "-"], 3, ["ok"], "fault: line 2 cut", given=CUT)
    yield fault("line 1 bad-word", "replay", "--uid", "1000", "--ops", f"{EXAMPLES}/delegation.toml")
    yield Case(["replay", "--uid", "1000", "--tree", "-", *FILLED_OPS], 3, fault="fault: tree not-toml", given=CUT)
    # the operations are opened before the call looks at its arguments, and read after
    yield fault("read", "replay", "--uid", "0", "--ops", f"{EXAMPLES}/none.ops")
    yield fault("uid", "replay", "--uid", "0", "--ops", EXAMPLES)
    yield fault("read", "replay", "--uid", "1000", "--ops", EXAMPLES)
    yield fault("usage", "replay", "--uid", "1000")
    yield Case(["replay", "--uid", "1000", *FILLED_OPS], 3, fault="fault: write", output="/dev/full")
    for name, subtree, lines in ESCAPES:
        _, *operations = call(program, ["check", *tree(name), *asked("1000", subtree)]).output.splitlines(keepends=True)
        yield Case(["replay", *tree(name), *asked("1000", subtree), "--ops", "-"], 1, lines, given=b"".join(operations))
    for name, subtree, count, broken in PLANNED:
        asked_of = [*tree(f"planned-{name}"), *asked("1000", subtree)]
        _, *operations = call(program, ["settle", *asked_of]).output.splitlines(keepends=True)
        yield Case(["replay", *asked_of, "--ops", "-"], 1, [*["ok"] * count, f"broken {count} {broken}"], given=b"".join(operations))
    _, *planned = call(program, ["settle", *tree("delegation-parent-directory"), *asked("1000", "/c0")]).output.splitlines(keepends=True)
    yield Case(["replay", *tree("delegation-parent-directory"), *asked("1000", "/c0"), "--ops", "-"], 1,
               ["ok", "ok", "ok", "ok", "broken 4 gone"], given=b"".join(planned))


def upgrades(program):
    # what is written is the same tree, and the same bytes when it is written again
    for name in "delegation", "delegation-ancestor-group", "host-user-managers":
        written = call(program, ["upgrade", *tree(name)]).output
        yield Case(["upgrade"], 0, written.decode().splitlines(), given=written)
    written = call(program, ["upgrade"]).output
    yield Case(["check", *asked("1000", "/c0")], 0, ["contained"], given=written)
    yield fault("tree no-parent cgroup 2", "upgrade", *tree("fault-no-parent"))
    yield fault("read", "upgrade", *tree("none"))
    yield fault("usage", "upgrade", "--uid", "1000")
    yield Case(["upgrade"], 3, fault="fault: write", output="/dev/full")


def cases(program):
    for table in command_lines, migrations, of_one_subtree, explained, audits, paired, everybody, named_by_lines, advices, replays, upgrades:
        yield from table(program)
    yield from format_4_rows()
    yield from json_rows(program)


if __name__ == "__main__":
    sys.exit(run(cases, "answers"))
