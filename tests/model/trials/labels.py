"""What a case shows: its command, answer, guards, clauses and faults, each as a label that is counted."""
import json
import re

from second import as_json, commands, documents, from_json, rules
from second.controllers import CONTROLLERS
from second.limit_files import LIMIT_FILES, LONGEST_DEVICE, LONGEST_LINE, LONGEST_VALUE, TEXT_FILES, value_read
from trials.cases import FORMAT, OPS, TREE, state_of
from trials.format_4 import FORMAT_4, OTHERS
from trials.limit_files import DEVICE_FILES

CLAUSES = {
    "move": ["ok", "no-such-cgroup", "no-access destination", "no-such-process", "no-access common ancestor", "internal-process"],
    "control": ["ok", "no-such-cgroup", "no-access", "not-available", "child-uses", "internal-process"],
    "mkdir": ["ok", "exists", "no-such-cgroup", "no-access", "descendant-limit", "depth-limit"],
    "rmdir": ["ok", "root-cgroup", "no-such-cgroup", "no-access", "has-children", "has-processes"],
    "set": ["ok", "no-such-cgroup", "no-such-file", "no-access", "bad-value"],
    "fork": ["ok", "no-such-process", "not-yours", "pid-used"],
    "exit": ["ok", "no-such-process", "not-yours"],
    "chmod": ["ok", "no-such-cgroup", "no-such-file", "not-owner"],
}
GUARDS = ["common-ancestor", "limit-file", "parent-control", "parent-dir", "already-over"]
# the guards that may fail first where no try breaks a subtree
SETTLED = [GUARDS[at] for at in (0, 2, 3)]
TRIES = ["nothing", "set", "control", "rmdir", "move", "mkdir move"]
TREE_FAULTS = """too-long, not-toml, shape top, format, too-many, shape cgroup, shape process, bad-controller top, bad-path cgroup,
bad-controller cgroup, bad-entry cgroup, bad-value cgroup, duplicate cgroup, no-root, no-parent cgroup, top-down cgroup,
no-such-file cgroup, bad-pid process, bad-entry process, duplicate-pid process, no-such-place process, internal-process process"""
FAULTS = ["usage", "uid", "gid", "pid", "path", "subtree root", "subtree missing", "line too-long", "line cut", "line bad-word",
          "too-many-steps", "read", "write", *("tree " + name for name in re.split(r",\s+", TREE_FAULTS))]
STATUSES = {"may": 2, "audit": 3, "audit --all": 3, "replay": 2, "upgrade": 1, "advise": 2, "advise --pairs": 2, "audit --settle": 3,
            **{name: 3 for name in commands.OF_ONE}, "audit --all --settle": 3, "advise --settle": 2, "explain": 3, "audit --pairs": 3,
            "explain --pairs": 3, "audit --everybody": 2, "audit --subtrees": 2, "advise --everybody": 2, "explain --everybody": 2}
# of trees of format 4, and of controllers that other formats don't have
FAULTS_4 = """bad-controller cgroup, bad-controller top, bad-entry cgroup, bad-value cgroup, internal-process process, no-such-file cgroup,
shape cgroup, too-many, top-down cgroup"""
# of a row that names a limit file whose values are texts
OF_NAMED = ["shape", "bad-entry", "bad-value", "no-such-file"]
VALUES_READ = ["a text", "an integer", "an array of one", "an array of several", "no value"]
WIDE = ["upgrade", "a bad word", "read past 4096 rows", "read past 16777216 bytes", "too-long past 16777216 bytes",
        "too-long past 67108864 bytes", "broken limits by its controllers", "escapes by a control of its controllers",
        "escapes by an opened control of its controllers", "its controllers in another's text", "its controllers in a line for another",
        *(f"settle: {kind}" for kind in commands.STATUS), *(f"explain: a controller of its own is {by}" for by in ("on", "off", "turned")),
        *(f"control of its controllers: {outcome}" for outcome in CLAUSES["control"]),
        *(f"set of a text file: {outcome}" for outcome in CLAUSES["set"] if outcome != "bad-value"),
        *(f"chmod of a text file: {outcome}" for outcome in CLAUSES["chmod"]),
        *(f"a set or a chmod of {name}: ok" for name in TEXT_FILES),
        *(f"{kind} of cgroup.freeze at the root: no-such-file" for kind in ("set", "chmod")),
        "a text file in a line for another", "a value of several words", f"a value of {LONGEST_VALUE} bytes",
        *(f"a text has of {name}" for name in TEXT_FILES), *(f"a text has {kind}" for kind in VALUES_READ),
        f"a text has a line of {LONGEST_LINE} bytes", "a text file in another's text",
        "fault: no-such-file of a text file at the root",
        *(f"fault: {what} of a row with a text file" for what in OF_NAMED),
        "escapes by a set of a text file", "escapes by an opened set of a text file", "escapes by a set of a text file that was loose",
        *(f"escapes by a set of {name} on a device" for name in DEVICE_FILES), "escapes by a set on a device that was loose",
        "escapes by a set without a device", "escapes by a set without a device that was loose",
        f"escapes by a set on a device of {LONGEST_DEVICE} bytes", f"a text has of a device of {LONGEST_DEVICE + 1} bytes",
        "a text has of a device behind a line of one word",
        "a set of a text file to what a text has",
        "broken limits by a set of a text file", "explain: a text file holds", "explain: a text file fails",
        *(f"advise: {change} of a text file" for change in ("chown", "chmod")),
        *(f"fault: tree {name}" for name in re.split(r",\s+", FAULTS_4))]
# what is told of a guarded entry, and of the second row
BY = ["owner", "group", "others"]
TOLD = ["holds stays spared", "holds stays upheld", "fails stays removed", "holds control on", "holds control off", "fails control turned",
        "holds files spared", "fails files reached"]
OF_EVERYBODY = ["everybody: already-over", "everybody: already-over alone", "everybody: contained", "everybody: one of several is held",
                "everybody: several classes of one entry", "everybody: the group of root's entry", "everybody: the root's cgroup.procs alone"]
TAKES, GROWS = ["spared", "enabling", "takes"], ["spared", "full", "grows"]


def wanted(known):
    """Each label that has to come up."""
    labels = [f"{name}: status {status}" for name, most in STATUSES.items() if name.replace("--all --settle", "--settle") in known
              for status in [*range(most), 3]]
    labels += [f"operation {kind}: {outcome}" for kind, outcomes in CLAUSES.items() for outcome in outcomes]
    labels += [f"may: {outcome}" for outcome in ["granted", *CLAUSES["move"][1:]]]
    labels += [f"verdict: {word}" for word in ["kept", "gone", "crossed", "limits", "descendants", "depth"]]
    labels += [f"check: {guard} fails first" for guard in [*GUARDS, "none"]]
    labels += [f"check: escapes by {name}" for name in TRIES]
    labels += [f"check: escapes by an opening and {name}" for name in TRIES[1:]]
    labels += [f"check: unsettled {guard}" for guard in SETTLED]
    if "advise" in known:
        labels += [f"advise: {guard} by {reason}" for guard in GUARDS[:4] for reason in ("owner", "group", "others")]
        labels += ["advise: already-over", "advise: two classes of one entry"] + [f"advise: change {change}" for change in ("chown", "chmod", "chown chmod", "set")]
    if "settle" in known:
        labels += [f"settle: {guard} fails first, then {kind}" for guard in SETTLED for kind in commands.STATUS]
    if "audit --everybody" in known:
        labels += [f"everybody: {guard} lets in {name}" for guard in GUARDS[:4] for name in BY] + OF_EVERYBODY
    if "advise --everybody" in known:
        labels += [f"against everybody: change {change}" for change in ("chown", "chmod", "chown chmod", "set")]
    if "explain --everybody" in known:
        labels += [f"against everybody: {word} {guard}" for word in ("holds", "fails") for guard in GUARDS]
    if "explain" in known:
        labels += [f"explain: {told}" for told in wanted_of_explain()]
    if FORMAT_4 in known:
        labels += [f"format 4: {name}" for name in WIDE]
    if FORMAT in known:
        labels += [f"as JSON: {label}" for label in labels if ": status " in label and not label.startswith("upgrade")]
    return labels + [f"fault: {name}" for name in FAULTS]


def wanted_of_explain():
    told = [f"holds {guard}" for guard in GUARDS[:4]] + [f"fails {guard} {name}" for guard in GUARDS[:4] for name in BY] + TOLD
    told += [f"{'fails' if takes == 'takes' or grows == 'grows' else 'holds'} shut {takes} {grows}" for takes in TAKES for grows in GROWS]
    told += [f"{word} already-over {file}" for word in ("holds", "fails") for file in (rules.DESCENDANTS, rules.DEPTH)]
    return told + [*commands.STATUS, "contained by the second row"]


def labels_of(case, expected):
    """The labels of a case with the lines, the status and the fault that it should give."""
    lines, status, fault = expected
    is_json = as_json.asks_for_json(case.words)
    if is_json:
        lines = from_json.lines_of(case.words, map(json.loads, lines))
    name = " ".join(case.words[:1] + [word for word in ("--all", "--pairs", "--settle", "--everybody", "--subtrees") if word in case.words])
    name = name.replace("--everybody --subtrees", "--subtrees")
    found = [f"{name}: status {status}"] if name in STATUSES else []
    found += [f"as JSON: {label}" for label in found if is_json]
    if fault:
        found.append(re.sub(r"(cgroup|process|line) \d+", r"\1", fault))
    if name == "replay" and OPS in case.files:
        found += replay_labels(case, lines)
    if not fault and name in LABELS:
        found += LABELS[name](case, lines)
    wide = wide_labels(case, lines, status, fault) if form_of(case) == 4 else labels_of_others(case, fault)
    return found + [f"format 4: {label}" for label in sorted({*wide} & {*WIDE})]


def document_of(case):
    """The document of a case's tree, or what is told of one that is too long or no TOML."""
    data = case.files.get(TREE, case.stdin)
    try:
        return documents.document_of(data)
    except (documents.Fault, documents.Unsure):
        return {"format": 4} if len(data) > documents.MOST_BYTES and documents.is_large(data) else {}


def form_of(case):
    return 4 if document_of(case).get("format") == 4 else 2


def labels_of_others(case, fault):
    """Of a tree of another format what comes up of format 4: its controllers, and texts as long as one of it may be."""
    if fault == "fault: tree too-long":
        yield "too-long past 16777216 bytes"
    if fault == "fault: tree bad-controller top" and not {*OTHERS}.isdisjoint(document_of(case)["controllers"]):
        yield "its controllers in another's text"
    if fault.startswith("fault: tree shape cgroup") and named_in(row_of(document_of(case), fault)):
        yield "a text file in another's text"
    where = re.fullmatch(r"fault: line ([0-9]+) bad-word", fault)
    found = commands.operation_of(case.files[OPS].split(b"\n")[int(where[1]) - 1], 4) if where and OPS in case.files else None
    if found:
        yield "its controllers in a line for another" if found[0] == "control" else "a text file in a line for another"


def wide_labels(case, lines, status, fault):
    """What comes up of a tree of format 4, and more."""
    yield "too-long past 67108864 bytes" if fault == "fault: tree too-long" else re.sub(r" [0-9]+$", "", fault)
    yield from named_faults(document_of(case), fault)
    if status != 3:
        document, data = document_of(case), case.files.get(TREE, case.stdin)
        yield from case.words[:1]
        yield from read_labels(document)
        yield "read past 16777216 bytes" if len(data) > documents.MOST_BYTES else ""
        yield "read past 4096 rows" if max(len(document.get(name, [])) for name in ("cgroup", "process")) > 4096 else ""
    yield from wide_answers(case, [line.split(" ") for line in lines if isinstance(line, str)])
    if case.words[:1] == ["replay"]:
        yield from wide_replay(case, lines, fault)


def row_of(document, fault):
    """The row of a cgroup that a fault names, or one without keys."""
    where, rows = re.search(r" cgroup ([0-9]+)$", fault), document.get("cgroup", [])
    row = rows[int(where[1]) - 1] if where else {}
    return row if isinstance(row, dict) else {}


def named_in(row):
    """The limit files that a row names whose values are texts, with their tables."""
    files = row.get("files", {})
    return {name: table for name, table in files.items() if name in TEXT_FILES} if isinstance(files, dict) else {}


def named_faults(document, fault):
    row = row_of(document, fault)
    if named_in(row):
        what = fault.split(" ")[2]
        yield f"fault: {what} of a row with a text file"
        if what == "no-such-file" and row["path"] == "/":
            yield "fault: no-such-file of a text file at the root"


def read_labels(document):
    for row in document.get("cgroup", []):
        for name, table in named_in(row).items():
            yield f"a text has of {name}"
            yield f"a text has {kind_of_value(table)}"
            yield f"a text has a line of {len(str(table.get('value')))} bytes"
            yield from device_labels(value_read(name, table["value"])) if name in DEVICE_FILES and "value" in table else []


def device_labels(value):
    first, _, rest = value.partition(" ")
    yield f"a text has of a device of {len(first) if rest else 0} bytes"
    yield "a text has of a device behind a line of one word" if "\n" in first and rest else ""


def kind_of_value(table):
    value = table.get("value")
    if isinstance(value, list):
        return "an array of one" if len(value) == 1 else "an array of several"
    return {str: "a text", int: "an integer"}.get(type(value), "no value")


def wide_answers(case, lines):
    opened = "an opened" if any(words[0] == "chmod" for words in lines) else "a"
    for words in lines:
        if words[0] == "set" and words[2] in TEXT_FILES:
            yield f"escapes by {opened} set of a text file"
            yield from set_labels(words[2], words[3:])
        if case.words[:1] == ["advise"] and words[0] in ("chown", "chmod") and words[2] in TEXT_FILES:
            yield f"advise: {words[0]} of a text file"
        if case.words[:1] == ["explain"] and words[1:2] == ["limit-file"] and words[3] in TEXT_FILES:
            yield f"explain: a text file {words[0]}"
        if words[0] == "control" and any(word[1:] not in CONTROLLERS for word in words[2:]):
            yield f"escapes by {opened} control of its controllers"
        if words[1:2] == ["control"] and words[3] not in CONTROLLERS:
            yield f"explain: a controller of its own is {words[-1]}"
    if case.words[:1] == ["settle"] and lines:
        yield f"settle: {lines[0][0]}"


def set_labels(file, words):
    """Of an escape by a set of a limit file whose values are texts whether it was loose, and the device before the text."""
    loose, text = LIMIT_FILES[file].loose, " ".join(words)
    was_loose = "" if text.endswith(loose) else " that was loose"
    yield f"escapes by a set of a text file{was_loose}"
    if file in DEVICE_FILES and len(words) > len(loose.split(" ")):
        yield f"escapes by a set of {file} on a device"
        yield f"escapes by a set on a device{was_loose}"
        yield f"escapes by a set on a device of {len(words[0])} bytes"
    elif file in DEVICE_FILES:
        yield f"escapes by a set without a device{was_loose}"


def values_read(document):
    """What a tree text has as the value of a limit file whose values are texts, by its cgroup and name."""
    return {(row["path"], name): value_read(name, table["value"]) for row in document.get("cgroup", [])
            for name, table in named_in(row).items() if "value" in table}


def wide_replay(case, lines, fault):
    spelled = case.files.get(OPS, b"").split(b"\n")
    wide = [None if commands.operation_of(line) else commands.operation_of(line, 4) for line in spelled]
    read = values_read(document_of(case)) if lines else {}
    for operation, line in zip(wide, lines):
        if operation:
            yield from wide_operation(operation, outcome_of(operation, line))
            if operation[0] == "set" and line == "ok" and read.get((rules.text_of(operation[1]), operation[2])) == operation[3]:
                yield "a set of a text file to what a text has"
    if lines and re.fullmatch("broken [1-9][0-9]* limits", lines[-1]):
        last = wide[int(lines[-1].split(" ")[1]) - 1]
        yield f"broken limits by {'its controllers' if last[0] == 'control' else 'a set of a text file'}" if last else ""
    if fault.endswith("bad-word"):
        yield "a bad word"


def wide_operation(operation, outcome):
    """What comes up of an operation that has a line for a tree of format 4 alone."""
    kind, *words = operation
    if kind == "control":
        yield f"control of its controllers: {outcome}"
        return
    yield f"{kind} of a text file: {outcome}"
    yield f"{kind} of cgroup.freeze at the root: {outcome}" if words[:2] == [(), "cgroup.freeze"] else ""
    if outcome == "ok":
        yield f"a set or a chmod of {words[1]}: ok"
    if kind == "set" and " " in words[2]:
        yield "a value of several words"
    if kind == "set" and len(words[2]) == LONGEST_VALUE:
        yield f"a value of {LONGEST_VALUE} bytes"


def replay_labels(case, lines):
    found = set()
    for spelled, line in zip(case.files[OPS].split(b"\n"), lines):
        operation = commands.operation_of(spelled, form_of(case))
        if operation:
            found.add(f"operation {operation[0]}: {outcome_of(operation[:1] + operation[1:], line)}")
    if lines and lines[-1].startswith(("kept", "broken")):
        found.add("verdict: " + lines[-1].split(" ")[2 if lines[-1] != "kept" else 0])
    return sorted(found)


def outcome_of(operation, line):
    if line == "ok":
        return line
    words = line.split(" ")
    if operation[0] == "move" and words[1] == "no-access":
        return "no-access " + ("destination" if words[2] == rules.text_of(operation[2]) else "common ancestor")
    return words[1]


def may_labels(case, lines):
    to = rules.path_of(commands.Call(case.words).one("--to"))
    return ["may: " + (lines[0] if lines[0] == "granted" else outcome_of(("move", 0, to or ()), lines[0]))]


def check_labels(case, lines):
    call = commands.Call(case.words)
    state = state_of(case.files.get(TREE, case.stdin))
    failed = rules.failures(state, call.users[0], rules.path_of(call.one("--subtree")))
    found = [f"check: {failed[0][0] if failed else 'none'} fails first"]
    kinds = [line.split(" ")[0] for line in lines[1:]]
    if lines[0] == "escapes":
        by = " ".join(kind for kind in kinds if kind != "chmod") or "nothing"
        found.append("check: escapes by " + ("an opening and " if "chmod" in kinds else "") + by)
    elif lines[0] != "contained":
        found.append(f"check: {' '.join(lines[0].split(' ')[:2])}")
    return found


def settle_labels(case, lines):
    """Of a subtree that check leaves unsettled the guard, and what is said."""
    call = commands.Call(case.words)
    answer = rules.answer(state_of(case.files.get(TREE, case.stdin)), call.users[0], rules.path_of(call.one("--subtree")))
    return [f"settle: {answer[1]} fails first, then {lines[0].split(' ')[0]}"] if answer[0] == "unsettled" else []


def advise_labels(_case, lines):
    found, changes = set(), []
    for line in lines[::-1]:
        words = line.split(" ")
        if words[0] != "fails":
            changes.insert(0, words[0])
            continue
        if words[1] == "already-over":
            found.add("advise: already-over")
        else:
            found.add(f"advise: {words[1]} by {words[-1]}")
        found.add("advise: change " + " ".join(dict.fromkeys(changes)) if changes else "advise: two classes of one entry")
        changes = []
    return sorted(found)


def everybody_labels(case, lines):
    found, tops = [], [part.splitlines() for part in "\n".join(lines).split("subtree ")[1:]]
    for _, *told in tops:
        told = [line for line in told if line.startswith("fails ")]
        classes = [line.split(" ") for line in told if "already-over" not in line]
        entries = [tuple(words[:-1]) for words in classes]
        found += [f"{words[1]} lets in {words[-1]}" for words in classes]
        found += ["already-over"] * (len(classes) < len(told)) + ["already-over alone"] * (not classes)
        found += ["several classes of one entry"] * (len({*entries}) < len(entries))
        found += ["the group of root's entry" for words in classes if words[-1] == "group" and words[4].startswith("0:")]
        found += ["the root's cgroup.procs alone"] * ({each[1:4] for each in entries} == {("common-ancestor", "/", rules.PROCS)})
    asked = commands.Call(case.words).subtrees()
    found += ["contained"] * (lines[:1] == ["contained"]) + ["one of several is held"] * (0 < len(tops) < len({*asked}))
    return sorted({f"everybody: {what}" for what in found})


def advice_to_everybody_labels(case, lines):
    changes = [line for line in lines if line.split(" ")[0] in ("fails", "chown", "chmod", "set")]
    return [f"against everybody: {label.removeprefix('advise: ')}" for label in advise_labels(case, changes) if "change" in label]


def everybody_told_labels(_case, lines):
    return sorted({f"against everybody: {' '.join(line.split(' ')[:2])}" for line in lines if line.split(" ")[0] in ("holds", "fails")})


def explain_labels(_case, lines):
    found, further = set(), False
    for line in lines:
        word, *words = line.split(" ")
        if word == "pair":
            further = False
        elif word in commands.STATUS:
            found |= {word, *["contained by the second row"] * (further and word == "contained")}
        else:
            further = further or words[0] == "stays"
            found.add(" ".join([word, words[0], *told_words(*words)]))
    return sorted(f"explain: {told}" for told in found)


def told_words(kind, _path, *words):
    """What of a line is its label's: by what it is so, or of a limit the file."""
    return words[:1] if kind == "already-over" else words[3:] if kind in GUARDS else words[-2:] if kind == "shut" else words[-1:]


LABELS = {"may": may_labels, "check": check_labels, "advise": advise_labels, "advise --pairs": advise_labels, "settle": settle_labels,
          "explain": explain_labels, "explain --pairs": explain_labels, "audit --everybody": everybody_labels,
          "advise --everybody": advice_to_everybody_labels, "explain --everybody": everybody_told_labels}
