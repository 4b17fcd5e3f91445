"""The calls of the libraries that gate/trials makes: the words that tell each, its tree, and what it has to say."""
import collections

import of_one

# free: it takes no memory
Trial = collections.namedtuple("Trial", "call words tree said free")

DELEGATION = "delegation"
LIMIT_WRITABLE, ANCESTOR_WRITABLE, ANCESTOR_OWNED, OVER_LIMIT, PARENT_DIRECTORY, PARENT_CONTROL, SECOND_USER, AT_TOP, PREFIX = (
    f"delegation-{it}" for it in ("limit-writable", "ancestor-writable", "ancestor-owned", "over-limit", "parent-directory",
                                  "parent-control", "second-user", "process-at-top", "name-prefix"))
EMPTY_ANCESTOR, EMPTY_DIRECTORY, NESTED = "empty-ancestor-writable", "empty-parent-directory", "parent-delegated"
PROCS_OWNED, NO_PROCESS = "parent-procs-owned", "parent-procs-no-process"
# of format 4
OTHERS, OTHERS_SUBTREE = "build-io-cpuset", "/build.slice/nightly"
# the same, and it names limit files of format 4
FURTHER, FURTHER_SUBTREE = "service-limits", "/system.slice/transcode.service"
NO_PARENT, INTERNAL_PROCESS = "fault-no-parent", "fault-internal-process"

# the tree, the lines and what is said of each, the verdict
REPLAYS = (
    (DELEGATION, "/c0", "mkdir /c0/c00/x|mkdir /c0/c00/x/y", "ok|refused depth-limit /c0", "kept"),
    (DELEGATION, "/c0", "control /c0 +memory -memory|control /c0 +pids|control /c0 +memory +pids|set /c0/c00 memory.max 0",
     "ok|refused not-available pids|refused not-available pids|refused no-such-file /c0/c00 memory.max", "kept"),
    (AT_TOP, "/c0", "control /c0 +memory|move 13 /c0/c00|control /c0 +memory|move 13 /c0",
     "refused internal-process /c0|ok|ok|refused internal-process /c0", "kept"),
    (DELEGATION, "/c0", "fork 11 12|exit 12|fork 11 12", "ok|ok|refused pid-used 12", "kept"),
    (PREFIX, "/c0", "move 14 /c0", "ok", "broken 1 crossed 14"),
    (NESTED, "/p/s", "mkdir /p/probe0|move 20 /p/probe0", "ok|ok", "broken 2 crossed 20"),
    (DELEGATION, "/c0", "set /c0/c00 cgroup.max.depth 0|chmod /c0 dir 755|control /c0 +memory|exit 11|rmdir /c0/c00", "ok|ok|ok|ok|ok", "kept"),
    (OTHERS, OTHERS_SUBTREE,
     f"control {OTHERS_SUBTREE} +io -cpuset|control {OTHERS_SUBTREE}/job1 +io|control {OTHERS_SUBTREE} +dmem"
     f"|set {OTHERS_SUBTREE}/job1 io.max 8:0 rbps=1|chmod {OTHERS_SUBTREE}/job1 io.max 600|set {OTHERS_SUBTREE} io.max max",
     f"ok|refused internal-process {OTHERS_SUBTREE}/job1|refused not-available dmem|ok|ok|refused no-access {OTHERS_SUBTREE} io.max", "kept"),
)
CHECKS = (
    (DELEGATION, "/c0", "contained", 0), (LIMIT_WRITABLE, "/c0", "escapes|set /c0 memory.max max", 1), (ANCESTOR_WRITABLE, "/c0", "escapes|move 10 /c0", 1),
    (OVER_LIMIT, "/c0", "escapes", 1), (EMPTY_ANCESTOR, "/c0", "unsettled common-ancestor /", 2), (EMPTY_DIRECTORY, "/c0", "escapes|rmdir /c0", 1),
    (PARENT_CONTROL, "/c0", "escapes|control / +cpu", 1), (ANCESTOR_OWNED, "/c0", "escapes|chmod / cgroup.procs 646|move 10 /c0", 1),
    (NESTED, "/p/s", "escapes|mkdir /p/probe0|move 20 /p/probe0", 1), (PARENT_DIRECTORY, "/c0", "unsettled parent-dir /", 2),
)
FAULTS = (("0", DELEGATION, "/c0", "uid"), ("1000", DELEGATION, "/", "subtree root"), ("1000", DELEGATION, "/zz", "subtree missing"),
          ("1000", NO_PARENT, "/a/b", "tree no-parent cgroup 2"), ("1000", INTERNAL_PROCESS, "/a", "tree internal-process process 1"))
# how many of the checks, and of the replays, are made over bytes too: most of what these cost is the reading of a tree
CHECKS_OF_BYTES, REPLAYS_OF_BYTES = 6, 6
# of whom crates/trials leaves out, and of who it says is in a group
LEFT_OUT = "but 4000\ngroup 50=4001\n"
CUT = (DELEGATION, "/c0", "exit 11|mkdir /c0/a|-", "ok", "fault: line 2 cut")
# operations that take memory where they are carried out; those at the subtree of format 4 are on limit files whose values are texts
GROWING = ("move", "mkdir", "fork", f"set {OTHERS_SUBTREE}", f"chmod {OTHERS_SUBTREE}")


def lines(text):
    return "".join(f"{line}\n" for line in text.split("|") if line)


def path_trials():
    for text in ("/c0/c01", "/c0"):
        yield "Path::parse", ["path", "parse", text], f"{text.count('/')} {text}"
    yield "Path::try_clone", ["path", "try_clone", "/c0"], "1 /c0"
    yield "Path::try_prefix", ["path", "try_prefix", "/c0/c00", "1"], "1 /c0"
    yield "Path::with_child", ["path", "with_child", "/p", "1", "probe0"], "2 /p/probe0"
    yield "Path::with_child", ["path", "with_child", "/", "0", "probe0"], "1 /probe0"


def free_path_trials():
    yield "Path::parse", ["path", "parse", "/"], "0 /"
    yield "Path::parse", ["path", "parse", "c0"], "fault: path\n"
    yield "Path::with_child", ["path", "with_child", "/p", "1", ".."], "fault: path\n"


def tree_trials(kind):
    """Calls of a tree that is kept in this way, each with its tree."""
    listed = "/ /c0 /c0/c00 /c0/c01 /c1 /c1/c10 "
    for tree in (DELEGATION, ANCESTOR_WRITABLE, PARENT_CONTROL):
        yield "paths", tree, [kind, "paths"], "c00"
        yield "pids", tree, [kind, "pids"], "11"
    yield "try_clone", DELEGATION, [kind, "try_clone"], f"{listed}10 11 "
    yield "add", DELEGATION, [kind, "add", "1000", "/c0/c02"], "/ /c0 /c0/c00 /c0/c01 /c0/c02 /c1 /c1/c10 10 11 "
    yield "add", DELEGATION, [kind, "add", "1000", "/c0/c00/x"], "/ /c0 /c0/c00 /c0/c00/x /c0/c01 /c1 /c1/c10 10 11 "
    yield "add_process", DELEGATION, [kind, "add_process", "12", "/c0/c00"], "Some(1000)"
    yield "set_place", PREFIX, [kind, "set_place", "14", "/c0"], "Some(1000)"
    for tree, subtree, report, _ in CHECKS:
        if report != "contained":
            word = {"e": "Escapes", "u": "Unsettled"}[report[0]]
            yield "check", tree, [kind, "check", "1000", subtree], f"Ok({word}("
    yield "check_all", SECOND_USER, [kind, "check_all", "1000", "1001", "/c0", "/c1"], "Ok(Pair { user: 1, subtree: 0, answer: Escapes("
    job = f"{OTHERS_SUBTREE}/job1"
    told = [f"control {OTHERS_SUBTREE} +io", f"set {job} io.max 8:0 rbps=1", f"chmod {job} io.weight 600"]
    yield "Replay::start", OTHERS, [kind, "start", "1000", job, *told], "Kept"


def free_tree_trials(kind):
    yield "readings", DELEGATION, [kind, "readings", "/c0", "11"], "Some((2, 1)) Some((true, false, false)) None"
    yield "readings", NESTED, [kind, "readings", "/p", "20"], "Some((1, 1)) Some((true, false, false)) None"
    yield "refusal", DELEGATION, [kind, "refusal", "1000", "move 10 /c0/c00"], "Some(NoAccess { len: 0, entry: Procs })"
    yield "refusal", DELEGATION, [kind, "refusal", "1000", "move 11 /c0/c01"], "None"
    yield "Replay::start", DELEGATION, [kind, "start", "1000", "/c0"], "Kept"
    yield "Replay::start", OVER_LIMIT, [kind, "start", "1000", "/c0"], "Broken { after: 0, clause: Descendants }"
    yield "Replay::start", DELEGATION, [kind, "start", "1000", "/zz"], "NoSuchSubtree"
    yield "failed_guard", DELEGATION, [kind, "failed_guard", "1000", "/c0"], "None"
    yield "failed_guard", ANCESTOR_WRITABLE, [kind, "failed_guard", "1000", "/c0"], "Some(Failed { guard: CommonAncestor, len: 0 })"
    yield "check", DELEGATION, [kind, "check", "1000", "/c0"], "Ok(Contained)"
    yield "check", DELEGATION, [kind, "check", "1000", "/zz"], "Err(NoSuchSubtree)"
    yield "check_all", DELEGATION, [kind, "check_all", "1000", "1001", "/c0", "/c1"], "Ok(Contained)"


def steps(kind):
    """Each operation of the replays, behind those before it: applied, and as a step."""
    for tree, subtree, text, outcomes, _ in REPLAYS:
        ops, said = text.split("|"), outcomes.split("|")
        for place, outcome in enumerate(said):
            before = ops[:place + 1]
            free = outcome != "ok" or not ops[place].startswith(GROWING)
            shown = "Done" if outcome == "ok" else ""
            yield free, "apply", tree, [kind, "apply", "1000", *before], shown
            yield free, "Replay::step", tree, [kind, "step", "1000", subtree, *before], shown


def text_trials():
    yield "read_tree", DELEGATION, ["text", "read_tree"], "/ /c0 /c0/c00 /c0/c01 /c1 /c1/c10 10 11 "
    yield "read_text", PREFIX, ["text", "read_text"], "Format2 / "
    yield ("read_text", FURTHER, ["text", "read_text"],
           f"Format4 / /system.slice {FURTHER_SUBTREE} {FURTHER_SUBTREE}/job1 {FURTHER_SUBTREE}/main 520 531 ")
    for tree in (DELEGATION, OTHERS):
        yield "read_tree_input", tree, ["text", "read_tree_input"], "Ok(true)"
    for tree, fault in ((NO_PARENT, "NoParent(Cgroup(2))"), (INTERNAL_PROCESS, "InternalProcess(Process(1))")):
        yield "read_tree", tree, ["text", "read_tree"], fault
    ops = sorted({op for _, _, text, _, _ in REPLAYS for op in text.split("|")})
    for op in ops:
        yield "op_text", None, ["text", "op_text", op], f"{op}\n"
        is_of_4 = OTHERS_SUBTREE in op
        yield "read_op", None, ["text", "read_op", op], "Err(BadWord)" if is_of_4 else "Ok("
        if is_of_4:
            yield "read_op_in", None, ["text", "read_op_in", op], "Ok("
    for tree, subtree, text, outcomes, verdict in REPLAYS:
        for place, outcome in enumerate(outcomes.split("|")):
            yield "outcome_text", tree, ["text", "outcome_text", "1000", *text.split("|")[:place + 1]], f"{outcome}\n"
        yield "verdict_text", tree, ["text", "verdict_text", "1000", subtree, *text.split("|")], f"{verdict}\n"
    for tree, subtree, report, _ in CHECKS:
        yield "answer_text", tree, ["text", "answer_text", "1000", subtree], lines(report)
    for uid, tree, subtree, fault in FAULTS:
        yield "fault_text", tree, ["text", "fault_text", uid, subtree], f"fault: {fault}\n"


def byte_trials():
    yield "may_bytes", DELEGATION, ["may", "1000", "10", "/c0/c00"], "refused no-access / cgroup.procs\nstatus 1\n"
    yield "may_bytes", DELEGATION, ["may", "1000", "11", "/c0/c01"], "granted\nstatus 0\n"
    for tree, subtree, report, status in CHECKS[:CHECKS_OF_BYTES]:
        yield "check_bytes", tree, ["check", "1000", subtree], f"{lines(report)}status {status}\n"
    for command, tree, subtree, said, status in of_one.rows(of_one.FURTHER):
        if tree in (PROCS_OWNED, NO_PROCESS):
            yield f"{command}_bytes", tree, [command, of_one.USER, subtree], f"{lines(said)}status {status}\n"
    yield "audit_bytes", DELEGATION, ["audit", "1000", "1001", "/c0", "/c1"], "contained\nstatus 0\n"
    yield "audit_bytes", SECOND_USER, ["audit", "1000", "1001", "/c0", "/c1"], "pair 1001 /c0\nescapes\nset /c0 memory.max max\nstatus 1\n"
    yield "audit_all_bytes", DELEGATION, ["audit_all", "1000", "1001", "/c0", "/c1"], "contained\nstatus 0\n"
    yield "audit_settled_bytes", PROCS_OWNED, ["audit_settled", "1000", "1001", "/p/s", "/p/s"], "contained\nstatus 0\n"
    yield "audit_all_settled_bytes", PROCS_OWNED, ["audit_all_settled", "1000", "1001", "/p/s", "/p/s"], "contained\nstatus 0\n"
    for call in "audit_settled", "audit_all_settled":
        yield f"{call}_bytes", SECOND_USER, [call, "1000", "1001", "/c0", "/c1"], "pair 1001 /c0\nescapes\nset /c0 memory.max max\nstatus 1\n"
    yield "audit_all_bytes", SECOND_USER, ["audit_all", "1000", "1001", "/c0", "/c1"], "pair 1001 /c0\nescapes\nset /c0 memory.max max\nstatus 1\n"
    yield "everybody_bytes", DELEGATION, ["everybody", "/c0", "/c1"], f"contained\n{LEFT_OUT}status 0\n"
    yield ("everybody_bytes", SECOND_USER, ["everybody", "/c1", "/c0", "/c0"],
           f"subtree /c0\nfails limit-file /c0 memory.max 1001:0 644 owner\n{LEFT_OUT}status 1\n")
    yield "everybody_bytes", DELEGATION, ["advise_everybody", "/c0", "/c1"], f"contained\n{LEFT_OUT}status 0\n"
    yield ("everybody_bytes", ANCESTOR_OWNED, ["advise_everybody", "/c1", "/c0"],
           "fails common-ancestor / cgroup.procs 1000:0 446 owner\nfails common-ancestor / cgroup.procs 1000:0 446 others\n"
           f"chown / cgroup.procs 0:0\nchmod / cgroup.procs 444\n{LEFT_OUT}status 1\n")
    yield "everybody_bytes", DELEGATION, ["explain_everybody", "/c0"], "subtree /c0\nholds common-ancestor / cgroup.procs 0:0 644"
    yield "advise_bytes", DELEGATION, ["advise", "1000", "/c0"], "contained\nstatus 0\n"
    yield ("advise_bytes", ANCESTOR_OWNED, ["advise", "1000", "/c0"],
           "fails common-ancestor / cgroup.procs 1000:0 446 owner\nchown / cgroup.procs 0:0\nchmod / cgroup.procs 444\nstatus 1\n")
    yield "advise_settled_bytes", PROCS_OWNED, ["advise_settled", "1000", "/p/s"], "contained\nstatus 0\n"
    yield ("advise_settled_bytes", ANCESTOR_OWNED, ["advise_settled", "1000", "/c0"],
           "fails common-ancestor / cgroup.procs 1000:0 446 owner\nchown / cgroup.procs 0:0\nchmod / cgroup.procs 444\nstatus 1\n")
    yield "explain_bytes", DELEGATION, ["explain", "1000", "/c0"], "pair 1000 /c0\nholds common-ancestor / cgroup.procs 0:0 644"
    yield "explain_bytes", PROCS_OWNED, ["explain", "1000", "/p/s"], "pair 1000 /p/s\nfails common-ancestor /p cgroup.procs 1000:0 644 owner"
    yield "advise_pairs_bytes", DELEGATION, ["advise_pairs", "1000", "/c0", "1001", "/c1"], "contained\nstatus 0\n"
    yield ("advise_pairs_bytes", SECOND_USER, ["advise_pairs", "1000", "/c0", "1001", "/c0"],
           "fails limit-file /c0 memory.max 1001:0 644 owner\nchown /c0 memory.max 0:0\nstatus 1\n")
    yield "audit_pairs_bytes", DELEGATION, ["audit_pairs", "1000", "/c0", "1001", "/c1"], "contained\nstatus 0\n"
    yield ("audit_pairs_bytes", SECOND_USER, ["audit_pairs", "1001", "/c0", "1000", "/c0", "1001", "/c0"],
           2 * "pair 1001 /c0\nescapes\nset /c0 memory.max max\n" + "status 1\n")
    yield "explain_pairs_bytes", DELEGATION, ["explain_pairs", "1000", "/c0"], "pair 1000 /c0\nholds common-ancestor / cgroup.procs 0:0 644"
    for tree, number in ((DELEGATION, 2), (OTHERS, 4)):
        yield "upgrade_bytes", tree, ["upgrade"], f"]\nformat = {number}"
    for tree, subtree, ops, outcomes, verdict in (*REPLAYS[:REPLAYS_OF_BYTES], REPLAYS[-1], CUT):
        status = "" if verdict.startswith("fault") else f"status {int(verdict != 'kept')}\n"
        said = f"{lines(outcomes)}{verdict}\n{status}"
        if verdict.startswith(("kept", "broken")):
            yield "replay_bytes", tree, ["replay", "1000", subtree, *ops.split("|")], said
        if tree != NESTED:
            yield "replay_from", tree, ["replay_from", "1000", subtree, *ops.split("|")], said


def free_byte_trials():
    yield "may_bytes", ["may", "0", "11", "/c0"], "fault: uid\n"
    yield "may_bytes", ["may", "1000", "0", "/c0"], "fault: pid\n"
    yield "check_bytes", ["check", "0", "/c0"], "fault: uid\n"
    for command in of_one.FURTHER:
        yield f"{command}_bytes", [command, "0", "/c0"], "fault: uid\n"
    yield "advise_bytes", ["advise", "0", "/c0"], "fault: uid\n"
    yield "advise_settled_bytes", ["advise_settled", "0", "/c0"], "fault: uid\n"
    yield "explain_bytes", ["explain", "0", "/c0"], "fault: uid\n"
    for call in "advise_pairs", "audit_pairs", "explain_pairs":
        yield f"{call}_bytes", [call, "1000", "/c0", "0", "/c0"], "fault: uid\n"
    yield "replay_bytes", ["replay", "0", "-"], "fault: uid\n"
    yield "replay_from", ["replay_from", "0", "-"], "fault: uid\n"


def all_trials():
    """Every trial, those of one call one after another."""
    trials = []

    def add(call, words, tree, said, free=False):
        trials.append(Trial(call, tuple(words), tree, said, free))

    for call, words, said in path_trials():
        add(call, words, None, said)
    for call, words, said in free_path_trials():
        add(call, words, None, said, True)
    for kind, name in (("rows", "Rows"), ("indexed", "Indexed")):
        add(f"{name}::new", ["new", kind, "1000"], None, "/ ")
        for call, tree, words, said in tree_trials(kind):
            add(f"{call} on {name}", words, tree, said)
        for call, tree, words, said in free_tree_trials(kind):
            add(f"{call} on {name}", words, tree, said, True)
        for free, call, tree, words, said in steps(kind):
            add(f"{call} on {name}", words, tree, said, free)
    for tree in (DELEGATION, PREFIX, NESTED):
        add("Indexed::from_rows", ["from_rows"], tree, "/ ")
    for call, tree, words, said in text_trials():
        add(call, words, tree, said)
    add("read_op", ["text", "read_long_op"], None, "Some(TooLong)", True)
    for call, tree, words, said in byte_trials():
        add(call, ["bytes", *words], tree, said)
    for call, words, said in free_byte_trials():
        add(call, ["bytes", *words], DELEGATION, said, True)
    return trials
