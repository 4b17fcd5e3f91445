"""The public functions of the crates, what `rt plant` said of each, and what has to be said of those that it says nothing of.

A function counts where it is `pub`, or a method of a public trait or of an impl of a trait, and has a body: a law has none. Crates
of tests don't count. It is looked at where an edit changes it, where one of the wrong bodies that were planted in it was judged and
rests on what is there now (rests.py), or where a reason says why no contract can tell. That the tactics met a limit is no reason.
"""
import collections, fnmatch, os, re

import crates
from edited import FUNCTION, Crate, module_of, text_of
from rests import Rests

RECORD, REASONS = "gate/plants.txt", "gate/plant_reasons.txt"
SOURCES = ("src", "specs", "proofs")
JUDGED = ("proves", "refused", "same")
KINDS = (*JUDGED, "elsewhere", "not-judged", "not-source", "not-run")
# of a function, and not of a plant
OF_FUNCTIONS = ("untested", "no-ensures")
OWNER = re.compile(r"(pub )?trait (?P<declared>\w+)|impl(?:<.*?>)? (?:(?P<trait>.+) for )?&?(?P<type>\w+)")
ROW = re.compile(r"(?P<kind>[a-z-]+) +(?P<file>src/\S+\.rt):(?P<line>\d+) .*?(?:\(\)|: \{ ?(?P<body>.*?) ?\}(?:  \(.*\))?)")
LAST = re.compile(r"plants crate=\w+ planted-in=\d+ (?P<counts>.*)")
HEAD = re.compile(r"(?P<crate>\w+): by (?P<kit>.+)")
TOLD = re.compile(r"  (?P<path>\S.*): over (?P<sum>\w+): (?P<counts>.+)")
BODY = re.compile(r"    \{ (?P<body>.*) \}")
REASON = re.compile(r"(?P<path>\S.*?)(?: \{ (?P<body>.*) \})?: (?P<why>.+)")

Row = collections.namedtuple("Row", "kind file line body")
# what was said of a function: the sum of what that rests on, how many plants of each kind, and the bodies that prove
Told = collections.namedtuple("Told", "sum counts proves")
Planted = collections.namedtuple("Planted", "kit functions")
# a crate as it is: the sum of what results rest on, by the path of each public function, and the paths of those that an edit changes
Now = collections.namedtuple("Now", "sums edited")
Reason = collections.namedtuple("Reason", "path body why")
# how a public function is looked at, or why it isn't
LOOKED_AT, LEFT = ("an edit", "plants", "a reason"), ("the limits of tactics", "plants of other sources", "nothing")
LIMITS = "the tactics meet a limit"


# The sources

def counted(top):
    """Returns what each crate that isn't one of tests uses, by name."""
    return {name: uses for name, uses in crates.read(top).items() if name != "trials" and not name.startswith("test_")}


def files_of(folder, part):
    found = (f"{at}/{name}" for at, _, names in os.walk(f"{folder}/{part}") for name in names)
    return sorted(os.path.relpath(it, folder) for it in found)


def read_functions(crate):
    """Reads a crate's functions, each with its line, its path and whether it counts, and returns them."""
    for file in files_of(crate.folder, "src"):
        lines = text_of(f"{crate.folder}/{file}").split("\n")
        crate.functions += [it | seen(crate.name, it, lines) for it in crate.functions_in(file, {})]
    return crate.functions


def seen(crate, function, lines):
    head = next(at for at in range(function["first"] - 1, len(lines)) if FUNCTION.match(lines[at]))
    end = next(at for at in range(head, len(lines)) if lines[at].endswith(("{", "{}", ";")))
    above = next((lines[at] for at in range(head, -1, -1) if re.match(r"\w", lines[at])), "")
    owner = OWNER.match(above) if lines[head].startswith(" ") else None
    parts = [*module_of(crate, function["file"]), *([name_of(owner)] if owner else []), function["name"]]
    in_trait = owner and (owner["trait"] or owner["declared"] and owner[1])
    is_public = bool(in_trait or re.match(" *pub (?!\\()", lines[head]))
    return {"line": head + 1, "path": "::".join(parts), "counts": is_public and lines[end].endswith("{")}


def name_of(owner):
    if owner["trait"]:
        return f"<{owner['type']} as {owner['trait']}>"
    return owner["declared"] or owner["type"]


def now_of(top):
    """Returns the crates as they are, by name, of those that have public functions."""
    read = {name: Crate(f"{top}/crates/{name}", {*uses}) for name, uses in counted(top).items()}
    rests, found = Rests(top, {name: read_functions(it) for name, it in read.items()}), {}
    for name, crate in read.items():
        sums = {it["path"]: rests.sum_of(name, it) for it in crate.functions if it["counts"]}
        crate.read_edits()
        edited = {it["path"] for edit in crate.edits if not edit.verdict for it in edit.functions()}
        if sums:
            found[name] = Now(sums, edited)
    return found


# What rt plant says

def rows_of(said):
    """Returns the rows that `rt plant --all` printed, which have to be as many as its last line counts."""
    last = LAST.fullmatch(said.rstrip("\n").rpartition("\n")[2])
    if not last:
        raise ValueError("rt plant ended without its count")
    found = [ROW.fullmatch(line) for line in said.split("\n")]
    rows = [Row(it["kind"], it["file"], int(it["line"]), it["body"]) for it in found if it]
    counts = {word: int(count) for word, _, count in (it.partition("=") for it in last["counts"].split())}
    read = collections.Counter(it.kind for it in rows)
    if {it: counts.get(it) for it in (*OF_FUNCTIONS, *KINDS)} != {it: read[it] for it in (*OF_FUNCTIONS, *KINDS)}:
        raise ValueError(f"rt plant counts otherwise than its rows: {last['counts']}, and {dict(read)}")
    if read["not-run"]:
        raise ValueError(f"{read['not-run']} plants weren't run")
    return rows


def told_of(functions, rows, sums):
    """Returns what the rows say of each function of which `sums` has what that rests on, by its path."""
    at = {(it["file"], it["line"]): it for it in functions}
    found = {path: Told(sum_of, collections.Counter(), []) for path, sum_of in sums.items()}
    for row in rows:
        function = at.get((row.file, row.line))
        if not function:
            raise ValueError(f"rt plant names a function at {row.file}:{row.line}, where there is none")
        if function["path"] in found:
            found[function["path"]].counts[row.kind] += 1
            found[function["path"]].proves.extend([row.body] if row.kind == "proves" else [])
    return found


# The record

def written(record):
    """Returns the record's text: of each crate the toolchain, and each function with its sum, its counts and the bodies that prove."""
    lines = []
    for name, it in sorted(record.items()):
        lines.append(f"{name}: by {it.kit}")
        for path, told in sorted(it.functions.items()):
            counts = [f"{kind} {told.counts[kind]}" for kind in (*KINDS, *OF_FUNCTIONS) if told.counts[kind]]
            lines.append(f"  {path}: over {told.sum}: {', '.join(counts) or 'nothing'}")
            lines += [f"    {{ {body} }}" for body in sorted(told.proves)]
    return "".join(f"{it}\n" for it in lines)


def read(text):
    """Returns the record of a text, by crate."""
    record, functions, told = {}, None, None
    for line in text.splitlines():
        head, function, body = (it.fullmatch(line) for it in (HEAD, TOLD, BODY))
        if head:
            functions, told = {}, None
            record[head["crate"]] = Planted(head["kit"], functions)
        elif body and told:
            told.proves.append(body["body"])
        elif function and functions is not None:
            told = functions[function["path"]] = Told(function["sum"], counts_of(function["counts"]), [])
        else:
            raise ValueError(f"{RECORD} has a line that is none of a record: {line}")
    return record


def counts_of(text):
    words = [it.rpartition(" ") for it in text.split(", ") if text != "nothing"]
    return collections.Counter({kind: int(count) for kind, _, count in words})


def reasons_of(text):
    found = []
    for line in text.splitlines():
        row = REASON.fullmatch(line)
        if row and not line.startswith("#"):
            found.append(Reason(row["path"], row["body"], row["why"]))
        elif line and not line.startswith("#"):
            raise ValueError(f"{REASONS} has a line that is not 'NAME: REASON' or 'NAME {{ BODY }}: REASON': {line}")
    return found


# The comparison

def told_in(record):
    return {path: it for planted in record.values() for path, it in planted.functions.items()}


def older(now, record):
    """Returns the functions of each crate that no plant of these sources was tried in and no edit changes, by the crate."""
    told = told_in(record)
    found = {name: [path for path, it in crate.sums.items() if path not in crate.edited and not is_recent(told.get(path), it)]
             for name, crate in now.items()}
    return {name: paths for name, paths in found.items() if paths}


def is_recent(told, sum_of):
    return bool(told) and told.sum == sum_of


def ways_of(now, record, reasons):
    """Returns how each public function is looked at, or why it isn't, by its path."""
    told, whys = told_in(record), {it.path: it.why for it in reasons if it.body is None}
    return {path: way_of(path in it.edited, told.get(path), sum_of, whys.get(path, ""))
            for it in now.values() for path, sum_of in it.sums.items()}


def way_of(is_edited, told, sum_of, why):
    if is_edited:
        return "an edit"
    if is_recent(told, sum_of) and is_judged(told):
        return "plants"
    if why:
        return "the limits of tactics" if LIMITS in why else "a reason"
    return "plants of other sources" if is_judged(told) else "nothing"


def is_judged(told):
    return bool(told) and any(told.counts[kind] for kind in JUDGED)


def accepts(reason, path, body):
    return reason.body == body and fnmatch.fnmatchcase(path, reason.path)


def faults_of(now, record, reasons):
    """Returns how many things were looked at, and what is wrong, in words. A plant of other sources shows nothing."""
    told, sums = told_in(record), {path: it for crate in now.values() for path, it in crate.sums.items()}
    edited = {path for it in now.values() for path in it.edited}
    recent = [path for path, it in sums.items() if is_recent(told.get(path), it)]
    named = {it.path for it in reasons if it.body is None}
    faults = [f"{it} has neither an edit nor a plant that was judged, and no reason" for it in recent
              if it not in edited and not is_judged(told[it]) and it not in named]
    let_through = [(path, body) for path in recent for body in told[path].proves]
    faults += [f"{path} can be {{ {body} }}, which is not accepted" for path, body in let_through
               if not any(accepts(it, path, body) for it in reasons)]
    proving = [(path, body) for path, it in told.items() for body in it.proves]
    for it in reasons:
        faults += wrong_with(it, sums, edited, {path: told[path] for path in recent}, proving)
    return len(recent) + len(let_through) + len(reasons), faults


def wrong_with(reason, paths, edited, told, proving):
    """Returns what makes a reason a wrong one."""
    if reason.body is not None:
        is_used = any(accepts(reason, *it) for it in proving)
        return [] if is_used else [f"{reason.path} {{ {reason.body} }} is accepted, and no such plant proves"]
    if reason.path not in paths:
        return [f"{reason.path} has a reason, and is no public function"]
    if reason.path in edited or is_judged(told.get(reason.path)):
        return [f"{reason.path} has a reason, and also an edit or a plant that was judged"]
    return []
