"""What makes a tree text faulty: each function turns something of a tree or of its document, and leaves the rest."""
from second import rules
from second.limit_files import NUMBER_FILES
from trials.spelling import Raw


def any_row(rng, parts):
    """The first and the last stand out, so that a row often has two faults."""
    rows = parts["cgroup"]
    return rng.choice([rng.choice(rows), rng.choice(rows), rows[0], rows[-1]])


def any_process(rng, parts):
    if not parts.get("process"):
        parts["process"] = [{"pid": 1, "uid": 0, "at": "/"}]
    return rng.choice([rng.choice(parts["process"]), parts["process"][-1]])


def wrong(rng, *good):
    return Raw(rng.choice(["1.5", "1979-05-27", "07:32:00", "nan"])) if rng.random() < 0.3 else rng.choice(
        [value for value in [True, "x", [], {}, 7] if not isinstance(value, good) or isinstance(value, bool)])


def shape_top(rng, parts):
    way = rng.randrange(5)
    if way == 0:
        del parts[rng.choice(["format", "controllers"])]
    elif way == 1:
        parts[rng.choice(["x", "Format", "users"])] = 1
    elif way == 2:
        parts[rng.choice(["controllers", "cgroup", "process"])] = rng.choice([7, "x", {}, True])
    elif way == 3:
        parts["format"] = rng.choice([Raw("2.0"), "2", True, []])
    else:
        parts["controllers"] = ["cpu", rng.choice([1, True, [], {}])]


def form(rng, parts):
    parts["format"] = rng.choice([0, 3, 5, -1, 2 ** 63 - 1])


def too_many(rng, parts):
    """A row past as many as may be, or as many, which are then no tables."""
    parts[rng.choice(["cgroup", "process"])] = Raw("[" + "1," * rng.choice([4096, 4097]) + "]")


def shape_cgroup(rng, parts):
    row, way = any_row(rng, parts), rng.randrange(8)
    if way == 0:
        del row["path"]
    elif way == 1:
        row[rng.choice(["x", "Path", "uid", "gid"])] = 0
    elif way == 2:
        row[rng.choice(["path", "enabled", "dir", "files"])] = Raw(rng.choice(["7", "true", "1.0", "[1]", "07:32:00"]))
    elif way == 3:
        row["dir"] = {rng.choice(["uid", "mode", "gid", "value"]): wrong(rng, int)}
    elif way == 4:
        row["files"] = {rng.choice(["dir", "x", "cgroup.controllers", "memory"]): {}}
    elif way == 5:
        row["files"] = {rng.choice([rules.PROCS, rules.CONTROL]): {"value": 1}}
    elif way == 6:
        row["files"] = {rng.choice(NUMBER_FILES): {"value": Raw(rng.choice(["true", "[]", "{}", "1e3"]))}}
    else:
        parts["cgroup"] = [*parts["cgroup"], rng.choice([1, "x", [], True])]


def gid_in_form_1(rng, parts):
    parts["format"] = 1
    any_row(rng, parts)["dir"] = {"gid": 0}


def shape_process(rng, parts):
    row, way = any_process(rng, parts), rng.randrange(4)
    if way == 0:
        del row[rng.choice(list(row))]
    elif way == 1:
        row[rng.choice(["gid", "x", "place"])] = 5
    elif way == 2:
        row[rng.choice(["pid", "uid"])] = wrong(rng, int)
    else:
        row["at"] = Raw(rng.choice(["7", "[]", "true"]))


def bad_controller_top(rng, parts):
    parts["controllers"] = [*parts["controllers"], rng.choice(["io", "", "CPU", "cpu "])]


def bad_path(rng, parts):
    any_row(rng, parts)["path"] = rng.choice(["", "a", "/a/", "//a", "/.", "/a/..", "/a b", "/é", "/a\tb", "/\x7f", "/pids.max",
                                              "/cgroup.procs/a", "/" + "n" * 256, "/" + "/".join(["n" * 255] * 16)])


def long_path(rng, parts):
    """Not a fault of its own: a chain up to the longest path."""
    names = ["n" * 255] * 15 + ["n" * rng.choice([253, 254])]
    parts["cgroup"] += [{"path": "/" + "/".join(names[:length])} for length in range(1, 17)]


def bad_controller(rng, parts):
    any_row(rng, parts).setdefault("enabled", []).append(rng.choice(["io", "Cpu", "memory.max"]))


def bad_entry(rng, parts):
    row = any_row(rng, parts)
    name = rng.choice([rules.PROCS, rules.CONTROL, *NUMBER_FILES])
    entry = row.setdefault("files", {}).setdefault(name, {}) if rng.random() < 0.6 else row.setdefault("dir", {})
    entry.update(rng.choice([{"uid": -1}, {"uid": 2 ** 32}, {"mode": 0o1000}, {"mode": -1}, {"mode": 644}, {"uid": -2 ** 63}]))
    if parts["format"] in (2, 4) and rng.random() < 0.3:
        entry["gid"] = rng.choice([-1, 2 ** 32, 2 ** 63 - 1])


def group_bit_in_form_1(rng, parts):
    parts["format"] = 1
    any_row(rng, parts)["dir"] = {"mode": rng.choice([0o775, 0o020])}


def bad_value(rng, parts):
    files = any_row(rng, parts).setdefault("files", {})
    if rng.random() < 0.4:
        files["cpu.weight"] = {"value": rng.choice([0, 10001, -1, "max", "100"])}
    else:
        files[rng.choice(["memory.max", rules.DEPTH, "pids.max"])] = {"value": rng.choice([-1, -2 ** 63, "Max", "", "0"])}


def duplicate(rng, parts):
    parts["cgroup"].insert(rng.randrange(len(parts["cgroup"]) + 1), {"path": any_row(rng, parts)["path"]})


def no_root(_rng, parts):
    parts["cgroup"] = [row for row in parts["cgroup"] if row["path"] != "/"]
    if not parts["cgroup"]:
        del parts["cgroup"]


def no_parent(rng, parts):
    parts["cgroup"].insert(rng.randrange(len(parts["cgroup"]) + 1), {"path": rng.choice(["/zz/a", "/a/b/zz/y"])})


def top_down(rng, parts):
    rng.choice(parts["cgroup"]).setdefault("enabled", []).extend(rng.sample(rules.CONTROLLERS, 2))


def no_such_file(rng, parts):
    row = any_row(rng, parts)
    row.setdefault("files", {}).setdefault(rng.choice(NUMBER_FILES[2:]), {"mode": 0o600})


def bad_pid(rng, parts):
    any_process(rng, parts)["pid"] = rng.choice([0, -1, 4194304, 2 ** 63 - 1])


def bad_entry_of_process(rng, parts):
    any_process(rng, parts)["uid"] = rng.choice([-1, 2 ** 32])


def duplicate_pid(rng, parts):
    parts["process"] = [*parts.get("process", []), {"pid": any_process(rng, parts)["pid"], "uid": 0, "at": rng.choice(["/", "/", "/zz"])}]


def no_such_place(rng, parts):
    any_process(rng, parts)["at"] = rng.choice(["/zz", "zz", "", "/a/", "/cgroup.procs"])


def internal_process(rng, parts):
    row = any_row(rng, parts)
    row["enabled"] = row.get("enabled", []) or [rng.choice(rules.CONTROLLERS)]
    any_process(rng, parts)["at"] = row["path"]


def past_64_bits(rng, parts):
    parts[rng.choice(["format", "x"])] = rng.choice([2 ** 63, -2 ** 63 - 1, 2 ** 70])


FAULTS = [shape_top, form, shape_cgroup, gid_in_form_1, shape_process, bad_controller_top, bad_path, long_path, bad_controller,
          bad_entry, group_bit_in_form_1, bad_value, duplicate, no_root, no_parent, top_down, no_such_file, bad_pid,
          bad_entry_of_process, duplicate_pid, no_such_place, internal_process, past_64_bits]


def turn_document(rng, parts):
    """One fault or more, mostly such as are near in the order of the faults, of which the first is the answer."""
    first = rng.randrange(len(FAULTS))
    FAULTS[first](rng, parts)
    for _ in range(rng.choice([0, 0, 0, 1, 1, 2])):
        try:
            rng.choice(FAULTS[max(0, first - 3):first + 4] if rng.random() < 0.85 else FAULTS)(rng, parts)
        except (KeyError, TypeError, AttributeError, IndexError):
            pass
    if rng.random() < 0.04:
        too_many(rng, parts)


def turn_bytes(rng, data):
    """A text with some byte turned, taken out, doubled or cut."""
    at = rng.randrange(len(data) + 1)
    way = rng.randrange(5)
    if way == 0:
        return data[:at]
    if way == 1:
        return data[:at] + bytes([rng.randrange(256)]) + data[at + 1:]
    if way == 2:
        return data[:at] + rng.choice([b"[", b"]", b'"', b"'", b"=", b"\n", b",", b"\xff", b"#", b"{", b"}", b"."]) + data[at:]
    if way == 3:
        return data + data[at:]
    return data[:at] + data[min(len(data), at + rng.randrange(1, 9)):]
