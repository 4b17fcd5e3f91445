"""A second model of Zirofen: tree texts. Written from docs/MODEL.md and docs/FORMATS.md alone, and from no code of crates/; keep
it so.
"""
import functools
import itertools

from . import rules
from .controllers import controllers_in
from .documents import Fault, document_of
from .limit_files import LIMIT_FILES, MAX, accepts, are_lines, files_in, is_text, value_read
from .rules import Cgroup, Entry, State

LAST_ID = 2 ** 32 - 1
# of each format how many cgroups, and how many processes, there may be
MOST_ROWS = {1: 4096, 2: 4096, 4: 65536}


def is_a(value, kind):
    return isinstance(value, kind) and not isinstance(value, bool)


def texts(value):
    return is_a(value, list) and all(is_a(each, str) for each in value)


def has_form(table, required, optional):
    """Whether a value is a table with these keys, each of which passes its test."""
    tests = {**required, **optional}
    return is_a(table, dict) and required.keys() <= table.keys() and all(
        key in tests and tests[key](value) for key, value in table.items())


def number(value):
    return is_a(value, int)


def number_value(value):
    return number(value) or is_a(value, str)


def text_value(value):
    return number_value(value) or texts(value)


def entry_form(form, value=None):
    """The form of an entry's table, which holds a value if there is a test of one."""
    tests = {"uid": number, "mode": number}
    if form != 1:
        tests["gid"] = number
    if value:
        tests["value"] = value
    return lambda table: has_form(table, {}, tests)


def files_form(form):
    tests = {name: entry_form(form) for name in (rules.PROCS, rules.CONTROL)}
    tests.update((name, entry_form(form, text_value if is_text(name) else number_value)) for name in files_in(form))
    return lambda table: has_form(table, {}, tests)


@functools.lru_cache(maxsize=None)
def cgroup_form(form):
    optional = {"enabled": texts, "dir": entry_form(form), "files": files_form(form)}
    return lambda table: has_form(table, {"path": lambda value: is_a(value, str)}, optional)


def rows_form(value):
    return is_a(value, list)


def process_form(table):
    return has_form(table, {"pid": number, "uid": number, "at": lambda value: is_a(value, str)}, {})


@functools.lru_cache(maxsize=2)
def tree_of(data):
    """The state of a tree text; raises its first fault. It is kept, since it is asked for again."""
    document = document_of(data)
    if not has_form(document, {"format": number, "controllers": texts}, {"cgroup": rows_form, "process": rows_form}):
        raise Fault("tree shape top")
    form, rows, processes = document["format"], document.get("cgroup", []), document.get("process", [])
    if form not in MOST_ROWS:
        raise Fault("tree format")
    if max(len(rows), len(processes)) > MOST_ROWS[form]:
        raise Fault("tree too-many")
    first("shape cgroup", rows, lambda row: not cgroup_form(form)(row))
    first("shape process", processes, lambda row: not process_form(row))
    if not set(document["controllers"]) <= set(controllers_in(form)):
        raise Fault("tree bad-controller top")
    for (place, row), (what, is_bad) in itertools.product(enumerate(rows, 1), OWN_FAULTS):
        if is_bad(form, row):
            raise Fault(f"tree {what} cgroup {place}")
    return state_of(form, document["controllers"], rows, processes)


def first(what, rows, is_bad):
    """Raises a fault of the first row that is bad."""
    for place, row in enumerate(rows, 1):
        if is_bad(row):
            raise Fault(f"tree {what} {place}")


def bad_path(_form, row):
    return rules.path_of(row["path"]) is None


def bad_controller(form, row):
    return not set(row.get("enabled", [])) <= set(controllers_in(form))


def has_bad_entry(form, row):
    return any(bad_entry(form, entry) for entry in [row.get("dir", {}), *row.get("files", {}).values()])


def has_bad_value(_form, row):
    return any("value" in table and bad_value(name, table["value"]) for name, table in row.get("files", {}).items())


# of a cgroup's row by itself, in order
OWN_FAULTS = [("bad-path", bad_path), ("bad-controller", bad_controller), ("bad-entry", has_bad_entry), ("bad-value", has_bad_value)]


def bad_entry(form, table):
    uid, gid, mode = table.get("uid", 0), table.get("gid", 0), table.get("mode", 0)
    return not (0 <= uid <= LAST_ID and 0 <= gid <= LAST_ID and 0 <= mode <= 0o777) or form == 1 and mode & 0o020 != 0


def bad_value(name, value):
    if is_text(name):
        return not are_lines(value)
    return not (value == MAX or number(value)) or not accepts(name, value)


def state_of(form, controllers, rows, processes):
    paths = [rules.path_of(row["path"]) for row in rows]
    at = {path: frozenset(row.get("enabled", [])) for path, row in zip(paths, rows)}
    numbered = list(enumerate(rows))
    firsts = {path: place for place, path in reversed(list(enumerate(paths)))}
    first("duplicate cgroup", numbered, lambda each: firsts[paths[each[0]]] < each[0])
    if () not in at:
        raise Fault("tree no-root")
    first("no-parent cgroup", paths, lambda path: path and path[:-1] not in at)
    first("top-down cgroup", paths, lambda path: not at[path] <= (at[path[:-1]] if path else set(controllers)))
    bare = State(frozenset(controllers), {path: Cgroup({}, at[path]) for path in paths}, {}, frozenset(), max(form, 2))
    named = [frozenset(row.get("files", {}).keys() & LIMIT_FILES.keys()) for row in rows]
    files = [rules.files_at(bare, path) for path in paths]
    first("no-such-file cgroup", numbered, lambda each: named[each[0]] and not named[each[0]] <= {*files[each[0]]})
    cgroups = {path: Cgroup(entries_of(*each), at[path], names - rules.WRITTEN) for path, names, *each in zip(paths, named, files, rows)}
    live = live_of(cgroups, processes)
    return State(bare.controllers, cgroups, live, frozenset(live), bare.form)


@functools.lru_cache(maxsize=None)
def unnamed(files):
    """The entries of a cgroup of which a text says nothing, where these limit files stand: root's, with their defaults."""
    entries = {rules.DIR: Entry(mode=rules.DIR_MODE), rules.PROCS: Entry(), rules.CONTROL: Entry()}
    return {**entries, **{file: Entry(value=rules.default_of(file)) for file in files}}


def entries_of(files, row):
    """The entries of a cgroup at which these limit files stand, as its row says."""
    entries, tables = unnamed(files), {rules.DIR: row.get("dir", {}), **row.get("files", {})}
    return {**entries, **{name: entry_of(name, table, entries[name]) for name, table in tables.items()}}


def entry_of(name, table, usual):
    """An entry as its table says; what that leaves out is usual."""
    value = value_read(name, table["value"]) if "value" in table else usual.value
    return Entry(table.get("uid", 0), table.get("gid", 0), table.get("mode", usual.mode), value)


def live_of(cgroups, processes):
    live = {}
    for place, row in enumerate(processes, 1):
        pid, path = row["pid"], rules.path_of(row["at"])
        found = [("bad-pid", not 1 <= pid <= rules.LAST_PID), ("bad-entry", not 0 <= row["uid"] <= LAST_ID),
                 ("duplicate-pid", pid in live), ("no-such-place", path not in cgroups)]
        found.append(("internal-process", bool(path) and path in cgroups and bool(cgroups[path].enabled)))
        for what, is_so in found:
            if is_so:
                raise Fault(f"tree {what} process {place}")
        live[pid] = (row["uid"], path)
    return live
