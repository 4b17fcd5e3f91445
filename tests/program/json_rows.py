"""The rows that tests/program/answers.py has of answers as JSON: of each command each kind of answer, and its faults."""
import json

import of_one
from case import EXAMPLES, PIPE, Case, call

FORMAT = "--format"
JSON = [FORMAT, "json"]
USER, C0 = ["--uid", of_one.USER], ["--subtree", "/c0"]
BOTH = [*C0, "--subtree", "/c1"]
PROCS, MEMORY_MAX, DESCENDANTS, DEPTH = "cgroup.procs", "memory.max", "cgroup.max.descendants", "cgroup.max.depth"
CONTAINED = {"answer": "contained"}


def tree(name):
    return ["--tree", f"{EXAMPLES}/{name}.toml"]


def content(name):
    with open(f"{EXAMPLES}/{name}.toml", "rb") as text:
        return text.read()


def lines(texts):
    return "".join(f"{text}\n" for text in texts).encode()


def text_of(value):
    return json.dumps(value, sort_keys=True, separators=(",", ":"))


def of(words, status, *objects, **more):
    """A call that asks for JSON, and the objects that it writes."""
    return Case([words[0], *JSON, *words[1:]], status, [text_of(each) for each in objects], **more)


# What stands in objects


def escapes(*operations):
    return {"answer": "escapes", "operations": [*operations]}


def unsettled(guard, path):
    return {"answer": "unsettled", "guard": guard, "path": path}


def of_pair(answer, uid=1000, gids=(), subtree="/c0"):
    return {**answer, "uid": uid, "gids": [*gids], "subtree": subtree}


def move(pid, path):
    return {"operation": "move", "pid": pid, "path": path}


def emptied(*paths):
    return [{"operation": "rmdir", "path": path} for path in paths]


def set_to(value, path="/c0", entry=MEMORY_MAX):
    return {"operation": "set", "path": path, "entry": entry, "value": value}


def chmod(mode, path="/", entry=PROCS):
    return {"operation": "chmod", "path": path, "entry": entry, "mode": mode}


def chown(path="/", entry=PROCS):
    return {"operation": "chown", "path": path, "entry": entry, "uid": 0, "gid": 0}


def refused(word, **members):
    return {"answer": "refused", "refusal": word, **members}


def entry(guard, path, name, uid=0, gid=0, mode="644"):
    return {"guard": guard, "path": path, "entry": name, "uid": uid, "gid": gid, "mode": mode}


def holds(*words, **members):
    return {"holds": True, **entry(*words, **members)}


def fails(group, *words, **members):
    return {"holds": False, "class": group, **entry(*words, **members)}


def over(path, name, count, limit):
    return {"holds": True, "guard": "already-over", "path": path, "entry": name, "count": count, "limit": limit}


def by(guard, path, word, **members):
    return {"holds": word not in ("removed", "turned", "reached"), "guard": guard, "path": path, "by": word, **members}


LIMIT_SET = escapes(set_to("max"))
OPENED = escapes(chmod("646"), move(10, "/c0"))
FILLED = 5 * [{"answer": "ok"}] + [refused("descendant-limit", path="/c0"), refused("no-access", path="/c0", entry=MEMORY_MAX),
                                   refused("no-access", path="/", entry=PROCS)]
# what is told of the delegation, where all guards hold
HELD = [holds("common-ancestor", "/", PROCS),
        *(holds("limit-file", "/c0", name) for name in (DESCENDANTS, DEPTH, "memory.min", "memory.low", "memory.high", MEMORY_MAX)),
        holds("parent-control", "/", "cgroup.subtree_control"), holds("parent-dir", "/", "dir", mode="755")]
WITHIN = [over("/c0", DESCENDANTS, 2, 4), over("/c0", DEPTH, 1, 2)]


def moves():
    def may(uid, pid, to, *more):
        return ["may", "--uid", uid, "--pid", pid, "--to", to, *more]
    yield of(may("1000", "11", "/c0/c01"), 0, {"answer": "granted"})
    yield of(may("1000", "10", "/c0/c00"), 1, refused("no-access", path="/", entry=PROCS))
    yield of(may("1001", "11", "/c0/c01"), 1, refused("no-access", path="/c0/c01", entry=PROCS))
    yield of(may("1000", "99", "/c0/c00"), 1, refused("no-such-process", pid=99))
    yield of(may("1000", "11", "/zz"), 1, refused("no-such-cgroup", path="/zz"))
    yield of(may("1000", "20", "/p", *tree("parent-delegated")), 1, refused("internal-process", path="/p"))


def of_one_subtree():
    removed = escapes({"operation": "exit", "pid": 11}, *emptied("/c0/c01", "/c0/c00", "/c0"))
    of_dir, of_ancestor = unsettled("parent-dir", "/"), unsettled("common-ancestor", "/p")
    said = {"check": (CONTAINED, LIMIT_SET, of_dir, of_ancestor, of_ancestor), "settle": (CONTAINED, LIMIT_SET, removed, CONTAINED, of_ancestor)}
    for command in of_one.OF_ONE:
        for (_, example, subtree, _, status), found in zip(of_one.rows([command]), said[command], strict=True):
            yield of([command, *tree(example), *USER, "--subtree", subtree], status, found)
        asked = ((["delegation-over-limit"], C0, escapes()), (["delegation-ancestor-owned"], C0, OPENED),
                 (["delegation-ancestor-group", "--gid", "50"], C0, escapes(move(10, "/c0"))),
                 (["parent-delegated"], ["--subtree", "/p/s"], escapes({"operation": "mkdir", "path": "/p/probe0"}, move(20, "/p/probe0"))))
        for (example, *groups), top, found in asked:
            yield of([command, *tree(example), *USER, *groups, *top], 1, found)
        yield of([command, *tree("build-io-cpuset"), "--uid", "1001", "--subtree", "/build.slice/nightly"], 1,
                 escapes({"operation": "control", "path": "/build.slice", "changes": ["-io"]}))
        service = "/system.slice/transcode.service"
        yield of([command, *tree("service-limits-handed-over"), "--uid", "880", "--gid", "880", "--subtree", service], 1,
                 escapes(set_to("max 100000", service, "cpu.max")))
    # a limit of theirs that is max is set to a number, as large as any is another
    for value, found in ((b'"max"', 0), (str(2 ** 63 - 1).encode(), "max")):
        limited = content("delegation-limit-writable").replace(b"uid = 1000, value = 1073741824", b"uid = 1000, value = " + value)
        yield of(["check", *USER, *C0], 1, escapes(set_to(found)), given=limited)


def audits():
    second, group, owned = tree("delegation-second-user"), tree("delegation-ancestor-group"), tree("delegation-ancestor-owned")
    listed = of_pair(LIMIT_SET, 1001, [7])
    for form in [], ["--all"], ["--settle"], ["--settle", "--all"]:
        yield of(["audit", *form, *USER, "--uid", "1001:5,6", *BOTH], 0, CONTAINED)
        # the groups are told whatever is asked, in their order
        yield of(["audit", *form, *second, *USER, "--uid", "01001:7", *BOTH], 1, listed)
        for gids in [50], [5, 50], [50, 5]:
            yield of(["audit", *form, *group, "--uid", f"1000:{','.join(map(str, gids))}", *C0], 1, of_pair(escapes(move(10, "/c0")), 1000, gids))
        yield of(["audit", *form, *tree("parent-procs-no-process"), *USER, "--subtree", "/p/s"], 2,
                 of_pair(unsettled("common-ancestor", "/p"), subtree="/p/s"))
    often = [*USER, "--uid", "1001", *USER, "--uid", "01001", *BOTH, *C0]
    yield of(["audit", "--all", *second, *often], 1, of_pair(LIMIT_SET, 1001))
    yield of(["audit", *tree("delegation-parent-directory"), *USER, *C0], 2, of_pair(unsettled("parent-dir", "/")))
    yield of(["audit", "--settle", *tree("parent-procs-owned"), *USER, "--subtree", "/p/s"], 0, CONTAINED)
    # the first pair alone, and each
    crossed = [of_pair(escapes(*operations), uid, (), top) for uid, top, operations in (
        (1000, "/c0", [chmod("646"), move(10, "/c0")]), (1000, "/c1", [chmod("646"), move(10, "/")]), (1001, "/c0", [move(11, "/")]),
        (1001, "/c1", [move(10, "/")]))]
    yield of(["audit", *owned, *USER, "--uid", "1001", *BOTH], 1, crossed[0])
    yield of(["audit", "--all", *owned, *USER, "--uid", "1001", *BOTH], 1, *crossed)
    pairs = b"pair 1001:7 /c0\nescapes\nset /c0 memory.max max\npair 1000 /c1\npair 01001:7 /c0\n"
    for form in [], ["--all"]:
        yield of(["audit", *form, *second, "--pairs", "-"], 1, listed, listed, given=pairs)
        yield of(["audit", *form, *second, "--pairs", "-"], 0, CONTAINED, given=b"contained\n")
        yield of(["audit", *form, "--pairs", PIPE], 0, CONTAINED, piped=b"pair 1000 /c0\npair 1001:5 /c1\n")


def advised(*found):
    return {"answer": "fails", "fails": [*found]}


def to_change(classes, found, *changes):
    return {**found, "classes": [*classes], "changes": [*changes]}


OF_GROUP = to_change(["group"], entry("common-ancestor", "/", PROCS, gid=50, mode="664"), chmod("644"))
# both classes of one entry are one object, with the changes that are below both
OF_OWNED = to_change(["owner", "others"], entry("common-ancestor", "/", PROCS, uid=1000, mode="446"), chown(), chmod("444"))
LOWERED = {"guard": "already-over", "path": "/c0", "changes": [set_to(2, entry=DESCENDANTS)]}


def advices():
    yield of(["advise", *USER, *C0], 0, CONTAINED)
    yield of(["advise", "--settle", *tree("parent-procs-owned"), *USER, "--subtree", "/p/s"], 0, CONTAINED)
    latched = advised(to_change(["owner"], entry("common-ancestor", "/p", PROCS, uid=1000), chown("/p")))
    yield of(["advise", *tree("parent-procs-owned"), *USER, "--subtree", "/p/s"], 1, latched)
    yield of(["advise", "--settle", *tree("parent-procs-no-process"), *USER, "--subtree", "/p/s"], 1, latched)
    yield of(["advise", *tree("delegation-ancestor-group"), *USER, "--gid", "50", *C0], 1, advised(OF_GROUP))
    yield of(["advise", *tree("delegation-ancestor-owned"), *USER, "--uid", "1001", *BOTH], 1, advised(OF_OWNED))
    yield of(["advise", *tree("delegation-over-limit"), *USER, *C0], 1, advised(LOWERED))
    pairs = b"pair 1000:50 /c0\nescapes\nmove 10 /c0\npair 1000 /c1\n"
    yield of(["advise", *tree("delegation-ancestor-group"), "--pairs", "-"], 1, advised(OF_GROUP), given=pairs)
    yield of(["advise", *tree("delegation"), "--pairs", "-"], 0, CONTAINED, given=b"contained\n")


def explanations():
    def told(guards, answer, *pair):
        return of_pair({**answer, "guards": [*guards]}, *pair)
    held = told([*HELD, *WITHIN], CONTAINED)
    yield of(["explain", *USER, *C0], 0, held)
    yield of(["explain", *USER, *C0, *USER, *C0], 0, held)
    yield of(["explain", "--uid", "1000:5,4", "--uid", "1001", *C0], 0, {**held, "gids": [5, 4]}, {**held, "uid": 1001})
    yield of(["explain", *tree("delegation"), "--pairs", "-"], 0, held, held, given=2 * b"pair 1000 /c0\n")
    # where no pair is listed nothing is told
    yield of(["explain", *tree("delegation"), "--pairs", "-"], 0, given=b"contained\n")
    written = fails("owner", "limit-file", "/c0", MEMORY_MAX, uid=1000)
    second = [by("stays", "/c0", "spared"), *(by("control", "/", word, controller=name) for name, word in (("cpu", "off"), ("memory", "on"), ("pids", "off"))),
              by("files", "/c0", "reached")]
    guards = [written if each.get("entry") == MEMORY_MAX else each for each in HELD]
    yield of(["explain", *tree("delegation-limit-writable"), *USER, *C0], 1, told([*guards, *second, *WITHIN], {"answer": "escapes"}))
    first = [fails("owner", "common-ancestor", "/p", PROCS, uid=1000), holds("common-ancestor", "/", PROCS),
             *(holds("limit-file", "/p/s", name) for name in (DESCENDANTS, DEPTH)), holds("parent-control", "/p", "cgroup.subtree_control"),
             holds("parent-dir", "/p", "dir", mode="755")]
    second = [by("stays", "/p/s", "spared"), *(by("control", "/p", "off", controller=name) for name in ("cpu", "memory", "pids")), by("files", "/p/s", "spared"),
              *({"holds": False, "guard": "shut", "path": path, "takes": "takes", "grows": "spared"} for path in ("/p", "/p/s"))]
    unlimited = [over("/p/s", name, 0, "max") for name in (DESCENDANTS, DEPTH)]
    yield of(["explain", *tree("parent-procs-no-process"), *USER, "--subtree", "/p/s"], 2,
             told([*first, *second, *unlimited], unsettled("common-ancestor", "/p"), 1000, [], "/p/s"))


def everybody():
    nobody, asks = {"but": [], "groups": []}, ["--everybody", *BOTH]
    for command, found in (("audit", {**CONTAINED, "subtrees": []}), ("advise", CONTAINED)):
        yield of([command, *asks], 0, {**found, **nobody})
        yield of([command, *asks, "--but", "1000", "--group", "05=006,7", "--group", "9="], 0,
                 {**found, "but": [1000], "groups": [{"gid": 5, "uids": [6, 7]}, {"gid": 9, "uids": []}]})
        yield of([command, "--everybody", "--subtrees", PIPE], 0, {**found, **nobody}, piped=b"/c1\n/c0\n")
    owned, guarded = tree("delegation-ancestor-owned"), entry("common-ancestor", "/", PROCS, uid=1000, mode="446")
    of_both = [{**guarded, "classes": ["owner", "others"]}]
    yield of(["audit", "--everybody", *owned, "--subtree", "/c1", *BOTH], 1,
             {"answer": "fails", "subtrees": [{"subtree": top, "fails": of_both} for top in ("/c1", "/c0")], **nobody})
    yield of(["audit", "--everybody", *owned, *C0, "--but", "1000"], 1,
             {"answer": "fails", "subtrees": [{"subtree": "/c0", "fails": [{**guarded, "classes": ["others"]}]}], **nobody, "but": [1000]})
    yield of(["audit", "--everybody", *tree("delegation-over-limit"), *BOTH], 1,
             {"answer": "fails", "subtrees": [{"subtree": "/c0", "fails": [{"guard": "already-over", "path": "/c0"}]}], **nobody})
    yield of(["advise", *owned, *asks], 1, {**advised(OF_OWNED), **nobody})
    yield of(["advise", *tree("delegation-over-limit"), *asks], 1, {**advised(LOWERED), **nobody})
    told = {**CONTAINED, "subtrees": [{"subtree": "/c0", "guards": [*HELD, *WITHIN]}], **nobody}
    yield of(["explain", "--everybody", *C0, *C0, "--but", "7"], 0, {**told, "but": [7]})
    written = [fails("others", "common-ancestor", "/", PROCS, mode="646"), *HELD[1:], *WITHIN]
    yield of(["explain", "--everybody", *tree("delegation-ancestor-writable"), *C0], 1,
             {**told, "answer": "fails", "subtrees": [{"subtree": "/c0", "guards": written}]})


def replays():
    ok, filled = {"answer": "ok"}, ["replay", *USER, "--ops", f"{EXAMPLES}/delegation-filled.ops"]
    yield of(filled, 0, *FILLED)
    yield of([*filled, *C0], 0, *FILLED, {"answer": "kept"})
    given = ["replay", *USER, "--ops", PIPE]
    yield of(given, 0)
    yield of([*given, *C0], 0, {"answer": "kept"})
    refusals = {"mkdir /c0": refused("exists", path="/c0"), "mkdir /zz/a": refused("no-such-cgroup", path="/zz"), "rmdir /": refused("root-cgroup"),
                "rmdir /c0": refused("no-access", path="/", entry="dir"), "move 99 /c0": refused("no-such-process", pid=99),
                "chmod /c0 memory.max 600": refused("not-owner", path="/c0", entry=MEMORY_MAX),
                "set / pids.max 5": refused("no-such-file", path="/", entry="pids.max"),
                "control /c0 +cpu": refused("not-available", controller="cpu"), "fork 10 11": refused("pid-used", pid=11)}
    yield of(given, 0, *refusals.values(), piped=lines(refusals))
    for name, operations, what in (("delegation-ancestor-writable", ["move 10 /c0"], {"what": "crossed", "pid": 10}),
                                   ("delegation-limit-writable", ["set /c0 memory.max max"], {"what": "limits"}),
                                   ("delegation-over-limit", [], {"what": "descendants"}), ("empty-parent-directory", ["rmdir /c0"], {"what": "gone"})):
        yield of(["replay", *tree(name), *USER, *C0, "--ops", "-"], 1, *(ok for _ in operations), {"answer": "broken", "after": len(operations), **what},
                 given=lines(operations))
    # the objects before a fault are written
    yield of(given, 3, ok, fault="fault: line 2 cut", piped=b"exit 11\nmkdir /c0/a")
    yield of(given, 3, ok, fault="fault: line 2 bad-word", piped=b"exit 11\nmkdri /c0/a\n")


def faults():
    """Those of lines, each in a line on standard error, and on standard output nothing."""
    asked = [["check", *USER, *C0], ["settle", *USER, *C0], ["may", *USER, "--pid", "11", "--to", "/c0"], ["audit", *USER, *C0],
             ["audit", "--all", *USER, *C0], ["audit", "--settle", *USER, *C0], ["advise", *USER, *C0], ["explain", *USER, *C0],
             ["replay", *USER, "--ops", f"{EXAMPLES}/delegation-filled.ops"], *([name, "--everybody", *C0] for name in ("audit", "advise", "explain"))]
    for words in asked:
        yield of(words, 3, fault="fault: tree no-parent cgroup 2", given=content("fault-no-parent"))
        yield of([*words, *tree("none")], 3, fault="fault: read")
        yield of(words, 3, fault="fault: write", output="/dev/full")
        if "--uid" in words:
            yield of(["0" if word == of_one.USER else word for word in words], 3, fault="fault: uid")
        for top, fault in (("/", "subtree root"), ("/zz", "subtree missing"), ("c0", "path")) if "--subtree" in words else ():
            yield of([top if word == "/c0" else word for word in words], 3, fault=f"fault: {fault}")
        for wrong in ([FORMAT], [FORMAT, "JSON"], [FORMAT, ""], [f"{FORMAT}="], [FORMAT, "yaml"], [FORMAT, "-"], 2 * JSON, [*JSON, FORMAT, "lines"],
                      ["--form", "json"], ["--formats", "json"], ["-f", "json"], ["json"]):
            yield Case([*words, *wrong], 3, fault="fault: usage")
    yield Case(["upgrade", *JSON], 3, fault="fault: usage")
    for command in "audit", "explain", "advise":
        listed = [command, *tree("delegation"), "--pairs", "-"]
        yield of(listed, 3, fault="fault: no-pair", given=b"")
        yield of(listed, 3, fault="fault: line 2 cut", given=b"pair 1000 /c0\npair 1000 /c")
        yield of([command, *tree("delegation"), "--everybody", "--subtrees", "-"], 3, fault="fault: line 1 cut", given=b"")


def spelled():
    """The option in front of others and behind them, and texts byte for byte."""
    check = ["check", *tree("delegation-ancestor-owned"), *USER, *C0]
    said = ('{"answer":"escapes","operations":[{"entry":"cgroup.procs","mode":"646","operation":"chmod","path":"/"},'
            '{"operation":"move","path":"/c0","pid":10}]}')
    for words in [check[0], *JSON, *check[1:]], [*check, *JSON], [*check, f"{FORMAT}=json"], [*check[:5], f"{FORMAT}=json", *check[5:]]:
        yield Case(words, 1, [said])
    for words in [*check, FORMAT, "lines"], [check[0], f"{FORMAT}=lines", *check[1:]]:
        yield Case(words, 1, ["escapes", "chmod / cgroup.procs 646", "move 10 /c0"])
    may = ["may", *JSON, *USER, "--pid", "11", "--to", "/\"a'\\u/</"]
    yield Case([*may[:-1], may[-1][:-1]], 1, [r"""{"answer":"refused","path":"/\"a'\\u/<","refusal":"no-such-cgroup"}"""])
    yield Case(may, 3, fault="fault: path")


def has_format(program):
    """Whether a program has the option; where it doesn't, rows of that wait."""
    return FORMAT.encode() in call(program, ["check", "--help"]).output


def rows(program):
    """All rows, of a program that has the option."""
    if not has_format(program):
        print(f"answers: rows of {FORMAT} wait for a program that has it")
        return
    for table in moves, of_one_subtree, audits, advices, explanations, everybody, replays, faults, spelled:
        yield from table()
