"""Rows: whole tables of cases that are made by a script, with nothing drawn, so that each value, owner, bound, name and order is asked."""
import dataclasses
import functools
import itertools
import json
import random

from second import commands, rules
from second.controllers import ALL_CONTROLLERS
from second.limit_files import LIMIT_FILES, LINES, LONGEST_DEVICE, LONGEST_LINE, LONGEST_VALUE, MAX, MOST, NUMBER_FILES, TEXT_FILES, is_text
from second.rules import LAST_PID
from second.texts import LAST_ID
from trials import directed, spelling
from trials.cases import FORMAT, OPS, PAIRS, TREE, Case

USER = ["--uid", "1000", "--gid", "5"]
# an entry as five have it, by the subtree in which it stands: the user, a group of theirs, everybody, the user by a chmod alone, and root
OWNERS = {"u": {"uid": 1000}, "g": {"gid": 5, "mode": 0o664}, "o": {"mode": 0o646}, "n": {"uid": 1000, "mode": 0o444}, "r": {}}
PLACES = [f"/{name}" for name in OWNERS]
SUBTREES = [word for place in PLACES for word in ("--subtree", place)]
NUMBER_WORDS = ["00", "01", "+1", "-1", "-0", "", "1.0", "0x1", "1_0", "x", "1 ", str(2 ** 64)]


def inline(value):
    """A value of TOML on one line."""
    if isinstance(value, dict):
        return "{ " + ", ".join(f"{json.dumps(key)} = {inline(each)}" for key, each in value.items()) + " }"
    if isinstance(value, list):
        return "[" + ", ".join(map(inline, value)) + "]"
    return json.dumps(value).replace("\x7f", "\\u007f") if isinstance(value, str) else str(value)


def text_of(form, rows=(), processes=(), controllers=None):
    """A tree text, whose root has and enables all controllers of its format, of rows by path."""
    controllers = list(controllers if controllers is not None else ALL_CONTROLLERS if form == 4 else rules.CONTROLLERS)
    rows = {"/": {}, **dict(rows)}
    rows["/"] = {"enabled": controllers, **rows["/"]}
    lines = [f"format = {form}", f"controllers = {inline(controllers)}"]
    for path, row in rows.items():
        lines += ["[[cgroup]]", f"path = {inline(path)}", *(f"{key} = {inline(value)}" for key, value in row.items())]
    for row in processes:
        lines += ["[[process]]", *(f"{key} = {inline(value)}" for key, value in row.items())]
    return "".join(f"{line}\n" for line in lines).encode()


def replayed(tree, lines, subtree=()):
    text = b"".join((line if isinstance(line, bytes) else line.encode()) + b"\n" for line in lines)
    return Case(["replay", *USER, *subtree, "--ops", OPS], tree, {OPS: text})


# Limit files: each with a dozen values, in the hands of five


def values_read(file):
    """The tables of a limit file's entry in which a text has a value, or none."""
    row = LIMIT_FILES[file]
    if is_text(file):
        loose, other = row.loose, row.other
        values = [loose, other, MAX, "0", 5, "5", [loose, other], [other, loose], [loose, loose], f"8:0 {loose}",
                  [f"8:0 {other}", f"8:16 {loose}"],
                  f"{'d' * LONGEST_DEVICE} {loose}", f"{'d' * (LONGEST_DEVICE + 1)} {loose}"]
    else:
        least, greatest, takes_max = row.form
        values = [row.default, *[MAX] * takes_max, least, least + 1, 2, 99, 100, 101, 4096, greatest // 2, greatest - 1, greatest]
    return [{}, *({"value": value} for value in dict((str(each), each) for each in values if not isinstance(each, list)).values()),
            *({"value": value} for value in values if isinstance(value, list))]


def texts_set(file):
    if not is_text(file):
        return ["max", "0", "1", "100", str(MOST)]
    row = LIMIT_FILES[file]
    return [row.loose, row.other, MAX, "0", *[f"8:0 {row.loose}", f"8:0 {row.other}"] * (row.form == LINES)]


def limit_file(file):
    form = 2 if LIMIT_FILES[file].since == 1 else 4
    for value in values_read(file):
        tree = text_of(form, {f"/{name}": {"files": {file: {**entry, **value}}} for name, entry in OWNERS.items()})
        for place in PLACES:
            yield Case(["check", *USER, "--subtree", place], tree)
            yield Case(["settle", *USER, "--subtree", place], tree)
        yield Case(["advise", *USER, *SUBTREES], tree)
        yield replayed(tree, [f"set {place} {file} {text}" for text in texts_set(file) for place in PLACES])
        for place in PLACES[:2]:
            yield replayed(tree, [f"set {place} {file} {texts_set(file)[0]}", f"chmod {place} {file} 600", f"set {place} {file} 1"],
                           ["--subtree", place])
    yield Case(["upgrade"], tree)


# Bounds of each number


def of_texts():
    """Each number of a tree text at its bounds."""
    tables = [("dir", None), ("files", rules.PROCS), ("files", "memory.max"), ("files", "io.max")]
    for (key, file), form in itertools.product(tables, (1, 2, 4)):
        for name, value in [*itertools.product(("uid", "gid"), (-1, 0, 1, LAST_ID - 1, LAST_ID, LAST_ID + 1, MOST)),
                            *itertools.product(("mode",), (-1, 0, 0o20, 0o2, 0o200, 0o777, 0o1000, 0o1777, 0o7777))]:
            entry = {name: value}
            yield Case(["upgrade"], text_of(form, {"/a": {key: entry if file is None else {file: entry}}}))
    for file, value in itertools.product(NUMBER_FILES, (-1, 0, 1, 100, 10000, 10001, MOST, "max", "0", "MAX", "")):
        yield Case(["upgrade"], text_of(2, {"/a": {"files": {file: {"value": value}}}}))
    for pid, uid in [*((pid, 1) for pid in (-1, 0, 1, LAST_PID, LAST_PID + 1, MOST)), *((1, uid) for uid in (-1, 0, LAST_ID, LAST_ID + 1))]:
        yield Case(["upgrade"], text_of(2, processes=[{"pid": pid, "uid": uid, "at": "/"}]))
    for form in range(-1, 7):
        yield Case(["upgrade"], text_of(form, controllers=[]))


def of_lines():
    """Each number of an operation line at its bounds, and as it may not be spelled."""
    for form in (2, 4):
        tree = text_of(form, {"/a": {"files": {file: {"uid": 1000} for file in NUMBER_FILES}}},
                       [{"pid": pid, "uid": 1000, "at": "/"} for pid in (1, LAST_PID)])
        for file in NUMBER_FILES:
            greatest = LIMIT_FILES[file].form.greatest
            numbers = 9999, greatest - 1, greatest, greatest + 1, 2 ** 63 - 1, 2 ** 63, 2 ** 64 - 1
            words = ["max", "0", "1", *map(str, numbers)]
            yield replayed(tree, [f"set /a {file} {word}" for word in words])
        for word in NUMBER_WORDS:
            yield from (replayed(tree, [f"set /a {file} {word}"]) for file in ("cpu.weight", "memory.min"))
        for word in ["1", "2", str(LAST_PID), str(LAST_PID - 1), str(LAST_PID + 1), "0", *NUMBER_WORDS]:
            for line in f"move {word} /a", f"fork {word} 7", f"fork 1 {word}", f"exit {word}":
                yield replayed(tree, [line])
        for word in ["000", "777", "778", "888", "64", "0644", "1777", "+64", "0o6", "6 4", ""]:
            yield replayed(tree, [f"chmod /a memory.max {word}", "set /a memory.max 1"])


def of_words():
    """Each number of a command line at its bounds, and as it may not be spelled."""
    tree = text_of(2, {"/a": {}}, [{"pid": 1, "uid": 1000, "at": "/"}])
    for word in ["0", "1", "007", str(LAST_ID), str(LAST_ID + 1), str(2 ** 63), *NUMBER_WORDS]:
        for command in commands.OF_ONE:
            yield Case([command, f"--uid={word}", "--subtree", "/a"], tree)
            yield Case([command, "--uid", "1", f"--gid={word}", "--subtree", "/a"], tree)
        for users in [word], [f"1:{word}"], [f"1:5,{word}"], ["1", word]:
            for command in "audit", "explain", "advise":
                yield Case([command, *(f"--uid={user}" for user in users), "--subtree", "/a"], tree)
        yield Case(["may", "--uid", "1", f"--pid={word}", "--to", "/a"], tree)
    for pid in (LAST_PID - 1, LAST_PID, LAST_PID + 1):
        yield Case(["may", "--uid", "1", "--pid", str(pid), "--to", "/a"], tree)
    for count in (1, 31, 32, 33):
        yield Case(["check", "--uid", "1", *["--gid", "5"] * count, "--subtree", "/a"], tree)
        yield Case(["audit", "--uid", "1:" + ",".join(["5"] * count), "--subtree", "/a"], tree)


def of_lengths():
    """Names, paths, lines, values and devices as long as they may be, one byte less, and one more."""
    tree = text_of(4, {"/a": {"dir": {"uid": 1000}, "files": {"io.max": {"uid": 1000}}}})
    paths = ["/a/" + "n" * length for length in (254, 255, 256)]
    paths += ["/a" + ("/" + "n" * 255) * 15 + "/" + "x" * length for length in (251, 252, 253)]
    for path in paths:
        yield replayed(tree, [f"mkdir {path}"])
        yield Case(["check", *USER, "--subtree", path], tree)
        rows = {"/": {}, **{path[:at]: {} for at in range(2, len(path)) if path[at] == "/"}, path: {}}
        yield Case(["upgrade"], text_of(2, rows))
        yield Case(["check", *USER, "--subtree", path], text_of(2, {**rows, "/": {"files": {rules.PROCS: {"uid": 1000}}}}))
    for length in (LONGEST_VALUE - 1, LONGEST_VALUE, LONGEST_VALUE + 1):
        yield replayed(tree, ["set /a io.max " + "v" * length])
        yield replayed(tree, ["set /a io.max " + "v " * ((length - 1) // 2) + "v" * (2 - length % 2)])
    for length in (commands.LONGEST_LINE - 1, commands.LONGEST_LINE, commands.LONGEST_LINE + 1):
        rest = length - len("control /a")
        many = next(count for count in range(5) if (rest - 8 * count) % 5 == 0)
        yield replayed(tree, ["control /a" + " +memory" * many + " -cpu" * ((rest - 8 * many) // 5)])
    for length, device in itertools.product(*((most - 1, most, most + 1) for most in (LONGEST_LINE, LONGEST_DEVICE))):
        value = "d" * device + " " + "v" * (length - device - 1)
        told = text_of(4, {"/a": {"files": {"io.max": {"uid": 1000, "value": value}}}})
        yield Case(["check", *USER, "--subtree", "/a"], told)
        yield Case(["upgrade"], told)


# Names


def names():
    """Each byte of a name, alone and among others, and each word that is no name, in a line, in a text and on a command line."""
    tree = text_of(2, {"/a": {"dir": {"uid": 1000}}})
    for byte in range(256):
        for name in bytes([byte]), b"y" + bytes([byte]), bytes([byte]) + b"y":
            yield replayed(tree, [b"mkdir /a/" + name])
    words = [*map(chr, range(0x80)), *sorted(rules.RESERVED), *TEXT_FILES, *directed.NEAR_NAMES, ".", "..", "x.", ".x", "-",
             "cgroup.procs2", "dir"]
    for word in words:
        yield Case(["upgrade"], text_of(2, {"/a": {}, f"/a/{word}": {}}))
        yield replayed(tree, [f"mkdir /a/{word}", f"rmdir /a/{word}"])
        if word != "\0":
            yield Case(["check", *USER, "--subtree", f"/a/{word}"], tree)
    for path in "", "a", "//", "/a/", "//a", "/a//b", "/", "/./a", "/a/..":
        yield Case(["upgrade"], text_of(2, {"/a": {}, path: {}}))
        yield replayed(tree, [f"mkdir {path}"])
        yield Case(["check", *USER, f"--subtree={path}"], tree)


# Two tries, of which the first is the one that is printed


def two_tries():
    for first, later in itertools.combinations(directed.TRIED, 2):
        rng = random.Random(f"{first} {later}")
        tree, words, _ = directed.two_tries(rng, 0, first, later)
        yield Case(words, spelling.document(rng, tree.document(rng)))


# Each limit at the root


def at_the_root():
    theirs = {"dir": {"uid": 1000}, "files": {name: {"uid": 1000} for name in (rules.PROCS, rules.CONTROL)}}
    for form, file in itertools.product((2, 4), LIMIT_FILES):
        yield replayed(text_of(form, {"/": theirs}), [f"set / {file} max", f"set / {file} 0", f"chmod / {file} 600"])
        for table in {}, {"uid": 1000}, {"value": "max"}:
            tree = text_of(form, {"/": {"files": {file: table}}, "/a": {}})
            yield Case(["check", *USER, "--subtree", "/a"], tree)
            yield Case(["upgrade"], tree)
    for file, value, process in itertools.product((rules.DESCENDANTS, rules.DEPTH), ("max", 0, 1, 2, 3), (False, True)):
        root = {"dir": {"uid": 1000}, "files": {file: {"uid": 1000, "value": value}, rules.PROCS: {"uid": 1000}}}
        tree = text_of(2, {"/": root, "/a": {"dir": {"uid": 1000}, "files": {rules.PROCS: {"uid": 1000}}}},
                       [{"pid": 7, "uid": 1000, "at": "/a"}] * process)
        yield replayed(tree, ["mkdir /a/x", "mkdir /b", "mkdir /a/x/y", "mkdir /a/x/y/z", f"set / {file} 1", "mkdir /c",
                              f"set / {file} max", "mkdir /c"])
        for command in commands.OF_ONE:
            yield Case([command, *USER, "--subtree", "/a"], tree)
        yield Case(["advise", *USER, "--subtree", "/a"], tree)
        yield Case(["explain", "--uid", "1000:5", "--subtree", "/a"], tree)


# What a control brings is theirs, and what a cgroup that they made has stays so


def theirs():
    for sign, name in itertools.product("+-", ALL_CONTROLLERS):
        rest = [each for each in ALL_CONTROLLERS if each != name]
        parent = {"dir": {"uid": 1000}, "enabled": rest if sign == "+" else list(ALL_CONTROLLERS), "files": {rules.CONTROL: {"uid": 1000}}}
        files = ["cgroup.freeze", *(file for file in LIMIT_FILES if file != "cgroup.freeze")]
        lines = ["mkdir /a/new", f"control /a {sign}{name}"]
        tree = text_of(4, {"/a": parent, "/a/old": {}})
        yield replayed(tree, [*lines, *(f"set {place} {file} {texts_set(file)[0]}" for file in files for place in ("/a/new", "/a/old"))])
        yield replayed(tree, [*lines, *(f"chmod {place} {file} 600" for file in files for place in ("/a/new", "/a/old"))])


# Classes of one entry, in each order of the users


def classes():
    entry = {"uid": 1000, "gid": 5, "mode": 0o666}
    for key, table in (("dir", entry), ("files", {rules.PROCS: entry}), ("files", {"pids.max": entry})):
        tree = text_of(2, {"/a": {key: table}, "/a/b": {}})
        for count in (2, 3):
            for users in itertools.permutations(("1000", "1001:5", "1002"), count):
                for subtree in ("/a", "/a/b"):
                    yield Case(["advise", *(word for user in users for word in ("--uid", user)), "--subtree", subtree], tree)


# Whom what is guarded lets in


def everybody():
    """Each entry of a small tree, guarded or not, in the hands of several; limits; and several subtrees."""
    deep = ["--subtree", "/a/b", "--subtree", "/a"]
    rows = {"/": {}, "/a": {"enabled": list(ALL_CONTROLLERS)}, "/a/b": {}, "/a/b/c": {}, "/d": {}}
    entries = [(path, file) for path in ("/", "/a", "/a/b") for file in (None, rules.PROCS, rules.CONTROL)]
    entries += [(path, file) for path in ("/a", "/a/b", "/a/b/c") for file in (rules.DEPTH, "memory.max", "io.max")]
    modes = 0, 0o020, 0o002, 0o022, 0o200, 0o755, 0o664, 0o646
    for (path, file), uid, gid, mode in itertools.product(entries, (0, 1000, LAST_ID), (0, 5), modes):
        entry = {"uid": uid, "gid": gid, "mode": mode}
        table = {"dir": entry} if file is None else {"files": {file: entry}}
        yield Case(["audit", "--everybody", *deep], text_of(4, {**rows, path: {**rows[path], **table}}))
    for file, value, mode in itertools.product((rules.DESCENDANTS, rules.DEPTH), (0, 1, 2, 3, "max"), (0o644, 0o666)):
        table = {"files": {file: {"value": value, "mode": mode}}}
        yield Case(["audit", "--everybody", *deep], text_of(4, {**rows, "/a": {**rows["/a"], **table}}))
        yield Case(["audit", "--everybody", *deep], text_of(4, {**rows, "/": table}))
    theirs = {"uid": 1000, "gid": 5, "mode": 0o666}
    files = {file: theirs for file in (rules.PROCS, rules.CONTROL, rules.DESCENDANTS, rules.DEPTH)}
    for above in {}, {"dir": theirs}, {"files": files}, {"dir": theirs, "files": files}:
        tree = text_of(2, {"/b": above, "/b/x": {"files": files}, "/b/a": {"files": {rules.DEPTH: {"value": 0}}}, "/b/a/y": {}, "/c": {}})
        for tops in itertools.permutations(("/b/x", "/b/a", "/c", "/b"), 3):
            yield Case(["audit", "--everybody", *(word for top in (*tops, tops[0]) for word in ("--subtree", top))], tree)


def left_out():
    """An entry in the hands of several, with who is left out and with who is in its group."""
    but = [], [1000], [5], [0], [7, 1000], [1000, 1000]
    groups = [], ["5="], ["5=1000"], ["5=0"], ["5=7"], ["5=1000,7"], ["5=7", "5=1000"], ["5=", "5=7"], ["6="], ["0="], ["5=6", "6="]
    for uid, gid, mode in itertools.product((0, 1000, LAST_ID), (0, 5), (0, 0o020, 0o002, 0o664)):
        tree = text_of(2, {"/": {}, "/a": {"files": {rules.DEPTH: {"uid": uid, "gid": gid, "mode": mode}}}})
        for some, listed in itertools.product(but, groups):
            words = [word for name, values in (("--but", some), ("--group", listed)) for value in values for word in (name, str(value))]
            yield Case(["audit", "--everybody", *words, "--subtree", "/a"], tree)
    over = text_of(2, {"/a": {"files": {rules.DEPTH: {"value": 0}}}, "/a/b": {}})
    yield Case(["audit", "--everybody", "--but", "007", "--group", "05=006,7", "--subtree", "/a"], over)
    yield Case(["audit", "--everybody", "--but", "7", "--subtrees", "list", "--group", "5="], over, {"list": b"/a/b\n/a\n"})
    wrong = ["--but"], ["--but", ""], ["--but", "x"], ["--but", "-1"], ["--but", "+1"], ["--but", str(LAST_ID + 2)], ["--but=5", "--but=x"]
    wrong += tuple(["--group", word] for word in ("", "5", "=", "=5", "5=,", "5=6,", "5=,6", "5:6", "5==6", "5=6=7", "5=x", "x=5", "-5=", "5=-6",
                                                  "+5=", f"{LAST_ID + 2}=", f"5={LAST_ID + 2}", "5= 6", " 5="))
    for words in wrong:
        yield Case(["audit", "--everybody", "--subtree", "/a", *words], over)
    for words in ["--but", "5"], ["--group", "5="]:
        yield Case(["audit", "--uid", "1000", "--subtree", "/a", *words], over)
        yield Case(["audit", "--pairs", "list", *words], over, {"list": b"pair 1000 /a\n"})
        yield from (Case([command, "--uid", "1000", "--subtree", "/a", *words], over) for command in ("check", "explain", "advise", "settle"))


def changed_and_told():
    """What to change so that nobody is let in, and whom each entry lets in: entries in the hands of several, of one subtree and of two,
    with who is left out and with who is in a group; limits; and words that are excluded."""
    commands_of, deep = ("advise", "explain"), ["--subtree", "/a/b", "--subtree", "/a"]
    rows = {"/": {}, "/a": {"enabled": list(ALL_CONTROLLERS)}, "/a/b": {}, "/a/b/c": {}, "/d": {}}
    entries = [("/", rules.PROCS), ("/", None), ("/a", rules.CONTROL), ("/a/b", None), ("/a", rules.DEPTH), ("/a/b", "memory.max"), ("/a/b", "io.max")]
    whom = [], ["--but", "1000"], ["--group", "5="], ["--group", "5=1000"], ["--group", "5=1001", "--but", "1001"], ["--group", "5=1000,1001"]
    for (path, file), uid, gid, mode in itertools.product(entries, (0, 1000), (0, 5), (0, 0o020, 0o002, 0o022, 0o777, 0o400)):
        entry = {"uid": uid, "gid": gid, "mode": mode}
        tree = text_of(4, {**rows, path: {**rows[path], **({"dir": entry} if file is None else {"files": {file: entry}})}})
        for command, some in itertools.product(commands_of, whom):
            yield Case([command, "--everybody", *deep, *some], tree)
    theirs = {"uid": 1000, "gid": 5, "mode": 0o666}
    for values in itertools.product((0, 1, 2, "max"), repeat=2):
        files = {file: {**theirs, "value": value} for file, value in zip((rules.DESCENDANTS, rules.DEPTH), values)}
        tree = text_of(2, {"/a": {"files": files}, "/a/b": {"files": files}, "/a/b/c": {}, "/c": {"dir": theirs}, "/c/d": {}})
        for command, tops in itertools.product(commands_of, itertools.permutations(("/a", "/a/b", "/c/d"), 2)):
            yield Case([command, "--everybody", *(word for top in (*tops, tops[0]) for word in ("--subtree", top)), "--but", "7"], tree)
    for command in commands_of:
        yield Case([command, "--everybody", "--subtrees", "list", "--group", "05=006,7"], tree, {"list": b"/c/d\n/a/b\n/a\n/c/d\n"})
        for words in (["--uid", "1000"], ["--gid", "5"], ["--settle"], ["--all"], ["--pairs", "list"], ["--everybody"], ["--subtrees", "list"]):
            yield Case([command, "--everybody", "--subtree", "/a", *words], tree, {"list": b"/a\n"})
        for words in [], ["--subtrees", "none"], ["--subtree", "/"], ["--subtree", "/x"], ["--subtree", "/a", "--but", "x"], ["--but", "5"]:
            yield Case([command, "--everybody", *words], tree)


def lines_of_subtrees():
    """Texts of a path a line: whole ones, in each order, ones with a line that is none, and ones that are cut or empty."""
    theirs = {"files": {rules.DEPTH: {"uid": 1000}}}
    tree = text_of(2, {"/a": theirs, "/b": {}, "/c": theirs, "/c/a": theirs})
    paths = b"/a", b"/b", b"/c", b"/c/a"
    texts = [b"".join(path + b"\n" for path in some) for count in (1, 2, 3) for some in itertools.product(paths, repeat=count)]
    bad = b"", b" ", b"a", b"/a ", b"/a\r", b"/a/", b"//", b"/a b", b"/a\t", b"/\xc3\xa9", b"/\xff", b"/.", b"/memory.max", b"pair 1 /a"
    texts += [b"\n".join(lines) + b"\n" for line in bad for lines in ((line,), (line, b"/a"), (b"/a", line), (b"/b", line, line), (b"/x", line))]
    texts += [b"", b"/", b"/a", b"/b", b"/\n", b"/b\n/\n", b"/x\n", b"/b\n/x\n/\n", b"/b\n/a", b"/b\n/", b"/b\nx", b"/b\n\0"]
    long = (15 * (b"/" + 255 * b"b") + b"/" + 254 * b"b" + b"\n") * (commands.LONGEST_LIST // 4096)
    texts += [long, long[:-1], long[:-2] + b"\n", long + b"/", long + b"\n", long + b"/b\n"]
    for text in texts:
        yield Case(["audit", "--everybody", "--subtrees", "list"], tree, {"list": text})
    for beside in ["--subtree", "/a"], ["--uid", "1000"], ["--all"], ["--settle"], ["--subtrees", "list"], ["--pairs", "list"]:
        yield Case(["audit", "--everybody", "--subtrees", "list", *beside], tree, {"list": b"/b\n"})
    for words in ["--subtrees", "-"], ["--subtrees", "none"], ["--subtrees", "folder"], ["--subtrees", ""], ["--subtrees"]:
        yield Case(["audit", "--everybody", *words], tree)
    yield Case(["audit", "--everybody", "--tree", TREE, "--subtrees", "-"], b"/c\n/a\n", {TREE: tree})
    yield Case(["audit", "--subtrees", "list", "--uid", "1000"], tree, {"list": b"/b\n"})


# What is written of a tree


def written():
    """Texts that have to be quoted in each way, arrays, and trees without what may be missing."""
    words = ["x", '"', "'", "\\", "'\"", "'\\", "\"\"\"'", "'''\"", "'''\\", "'''\"\"\"", "a\\'\"b", "\"\"'\"\"", "''\"''", "\\\"", "'''"]
    for word in words:
        yield Case(["upgrade"], text_of(2, {f"/{word}": {}}, [{"pid": 7, "uid": 1, "at": f"/{word}"}]))
        yield Case(["upgrade"], text_of(4, {"/a": {"files": {"io.max": {"value": word}, "cpu.max": {"value": [word, "1 " + word]}}}}))
    for form, named in itertools.product((1, 2, 4), ([], ["pids", "cpu"], list(rules.CONTROLLERS))):
        yield Case(["upgrade"], text_of(form, {"/": {"enabled": named}, "/b": {"enabled": named}, "/a": {}}, controllers=named))
    processes = [{"pid": pid, "uid": pid, "at": place} for pid, place in ((100, "/a/b"), (9, "/"), (10, "/a-"))]
    yield Case(["upgrade"], text_of(2, {"/a/b": {}, "/a-": {}, "/a": {}}, processes))
    yield Case(["upgrade", "--tree", TREE], files={TREE: text_of(4, {"/a": {"files": {file: {} for file in TEXT_FILES}}})})


# As JSON

JSON_TABLE = "as JSON"
# of which tables rows are asked as JSON, and each how manieth
ASKED_AS_JSON = {"memory.max": 2, "cpu.weight": 5, "io.max": 2, "cgroup.freeze": 5, "two tries": 15, "at the root": 3, "theirs": 1, "classes": 2,
                 "everybody": 5, "left out": 7, "changed and told": 7, "lines of subtrees": 5}
OF_JSON = [FORMAT, commands.JSON]
# a name that stands behind backslashes; and a tree of pairs of each answer: the limits of the first subtree are 1000's, /p is 1001's by a group
# and its enabling 1003's, who owns that of /n too, where nothing is to be enabled, the directory of /r is 1002's, and /e is 1000's to move to,
# where no process is that they could move
QUOTED = '/q"\\'
SEVERAL = {"/": {"enabled": ["memory", "pids"]}, QUOTED: {"files": {"memory.max": {"uid": 1000, "value": MOST}, rules.DEPTH: {"value": 3}}},
           f"{QUOTED}/b": {"dir": {"uid": 1000}}, "/p": {"files": {rules.PROCS: {"gid": 5, "mode": 0o664}, rules.CONTROL: {"uid": 1003}}},
           "/p/s": {}, "/r": {"dir": {"uid": 1002}}, "/r/s": {}, "/r/s/a": {}, "/o": {"files": {rules.DESCENDANTS: {"value": 0}}}, "/o/a": {},
           "/n": {}, "/n/p": {"files": {rules.CONTROL: {"uid": 1003}}}, "/n/p/s": {}, "/e": {"files": {rules.PROCS: {"uid": 1000}}},
           "/e/s": {"files": {rules.PROCS: {"uid": 1000}}}, "/d": {"files": {rules.DEPTH: {"value": 0}}}, "/d/a": {}, "/g": {"dir": {"uid": 1000}}, "/g/s": {}}
LIVE = [{"pid": 7, "uid": 1000, "at": QUOTED}, {"pid": 8, "uid": 1001, "at": "/p/s"}, {"pid": 9, "uid": 1002, "at": "/r"}]
OF_SEVERAL = ["1000", "1001:6,5", "1001:7", "1002", "1003:5"]
TOPS_OF_SEVERAL = [QUOTED, "/p/s", "/r/s", "/n/p/s", "/e/s", "/o"]


def as_json():
    """Rows of other tables as JSON, beside them pairs, moves and operations, and the words that ask for it."""
    for name, each in ASKED_AS_JSON.items():
        for case in itertools.islice(TABLES[name](), 0, None, each):
            if case.words[0] != "upgrade" and sum(map(len, case.files.values())) < commands.LONGEST_LIST:
                yield dataclasses.replace(case, words=[case.words[0], *OF_JSON, *case.words[1:]])
    for table in pairs_as_json, moves_as_json, operations_as_json, words_of_formats:
        yield from table()


def several():
    return text_of(2, SEVERAL, LIVE)


def pairs_as_json():
    """Of each user and each subtree of a tree, and of all of them, what each command says."""
    tree = several()
    for user, top in itertools.product(OF_SEVERAL, TOPS_OF_SEVERAL):
        uid, _, gids = user.partition(":")
        one = ["--uid", uid, *(word for gid in gids.split(",") if gid for word in ("--gid", gid)), "--subtree", top]
        yield from (Case([command, *one, *OF_JSON], tree) for command in ("check", "settle", "advise"))
        yield from (Case([*words, "--uid", user, "--subtree", top, *OF_JSON], tree) for words in (["audit"], ["audit", "--settle"], ["explain"]))
    for users in OF_SEVERAL, OF_SEVERAL[::-1], OF_SEVERAL[1:3], OF_SEVERAL[2:0:-1], OF_SEVERAL[3:]:
        for tops in TOPS_OF_SEVERAL, TOPS_OF_SEVERAL[::-1], TOPS_OF_SEVERAL[1:2], TOPS_OF_SEVERAL[2:4]:
            words = [*(word for user in users for word in ("--uid", user)), *(word for top in tops for word in ("--subtree", top)), *OF_JSON]
            yield from (Case([*asked.split(" "), *words], tree) for asked in (
                "audit", "audit --all", "audit --settle", "audit --settle --all", "explain", "advise", "advise --settle"))
            pairs = "".join(f"pair {user} {top}\n" for user, top in itertools.product(users, tops)).encode()
            yield from (Case([command, "--pairs", PAIRS, *OF_JSON], tree, {PAIRS: pairs}) for command in ("audit", "explain", "advise"))
    for text in b"contained\n", b"", b"pair 1000 /p/s\n", b"pair 1000 /none\n":
        yield from (Case([command, "--pairs", PAIRS, *OF_JSON], tree, {PAIRS: text}) for command in ("audit", "explain", "advise"))


def moves_as_json():
    """Moves of each process of a tree, and of none, to each cgroup, and to none."""
    full = text_of(2, {**SEVERAL, "/p": {**SEVERAL["/p"], "enabled": ["memory"]}}, LIVE)
    for uid, pid, to in itertools.product(("1000", "1001", "1003"), ("7", "8", "99"), (*SEVERAL, "/none", '/"')):
        yield from (Case(["may", *OF_JSON, "--uid", uid, "--gid", "5", "--pid", pid, "--to", to], tree) for tree in (several(), full))


def operations_as_json():
    """Operations of each kind that are done and refused, with the verdicts on a subtree, and lists that end in a fault."""
    lines = ["move 7 /a/b", "move 7 /zz", "move 99 /a", "move 7 /", "mkdir /a/x", "mkdir /a/x", "mkdir /zz/y", "control /a +pids", "control /a +io",
             "control /a/b +memory", "control /a +rdma", "control /a -memory", "move 7 /a", "rmdir /a/b", "rmdir /a/c", "rmdir /", "set /a memory.max 5", "set /a cpu.max 5",
             "set /a io.max 8:0 rbps=1", "set /a pids.max 18446744073709551615", "fork 7 70", "fork 99 71", "fork 8 72", "fork 7 70", "exit 8", "exit 70", "chmod /a dir 755",
             "chmod / dir 755", "chmod /a io.max 600", "control / -memory", "mkdir /a/x/1", "mkdir /a/x/1/2", 'mkdir /a/"\\']
    theirs = {"uid": 1000}
    files = {file: theirs for file in (rules.PROCS, rules.CONTROL, "memory.max", "pids.max", "io.max")}
    files |= {rules.DEPTH: {"value": 2}, rules.DESCENDANTS: {"value": 5}}
    rows = {"/": {"enabled": ["io", "memory", "pids"]}, "/a": {"dir": theirs, "files": files, "enabled": ["io", "memory"]},
            "/a/b": {"dir": theirs, "files": {file: theirs for file in (rules.PROCS, rules.CONTROL)}, "enabled": ["memory"]},
            "/a/b/c": {"dir": theirs, "files": {rules.PROCS: theirs}}, "/a/c": {"files": {rules.PROCS: theirs}}}
    live = [{"pid": 7, "uid": 1000, "at": "/a/c"}, {"pid": 8, "uid": 1001, "at": "/a/c"}]
    tree = text_of(4, rows, live, ["io", "memory", "pids"])
    for watched in [], ["--subtree", "/a"], ["--subtree", "/a/c"], ["--subtree", "/zz"]:
        for some in (lines, lines[:1], [], [*lines, "mkdir"], ["x"]):
            case = replayed(tree, some, watched)
            yield dataclasses.replace(case, words=[*case.words, *OF_JSON])
    for line, watched in (("exit 7", "/p/s"), ("move 8 /p", "/p/s"), ("rmdir /g/s", "/g/s"), ("exit 7", "/d"), ("exit 7", "/o"), (f"set {QUOTED} memory.max max", QUOTED)):
        case = replayed(several(), [line], ["--subtree", watched])
        yield dataclasses.replace(case, words=[*case.words, *OF_JSON])


def words_of_formats():
    """The option as it is spelled, and as it may not be, in front of the others and behind them."""
    asked = [words.split(" ") for words in (
        "check --uid 1000 --subtree /p/s", "settle --uid 1000 --subtree /p/s", "may --uid 1000 --pid 7 --to /p", "audit --uid 1000 --subtree /p/s",
        "audit --all --uid 1000 --subtree /p/s", "audit --everybody --subtree /p/s", "advise --uid 1000 --subtree /p/s",
        "explain --uid 1000 --subtree /p/s", "explain --everybody --subtree /p/s", "replay --uid 1000 --ops none", "upgrade",
        "check --uid 0 --subtree /p/s", "check --uid 1000 --subtree /", "check --uid 1000 --subtree /zz", "check --tree none --uid 1000 --subtree /p/s")]
    formats = [[FORMAT, word] for word in (*commands.FORMATS, "", "JSON", "Json", "json ", " json", "jso", "jsonl", "line", "text", "-", "-j", "--", "0", "json,lines")]
    formats += [[f"{FORMAT}={word}"] for word in (*commands.FORMATS, "", "JSON", "-j", "=json")]
    formats += [[FORMAT], 2 * OF_JSON, [*OF_JSON, f"{FORMAT}=lines"], ["--form", commands.JSON], ["--formats=json"], ["-f", commands.JSON], [commands.JSON],
                ["--json"]]
    for words, some in itertools.product(asked, formats):
        for spelled in ([words[0], *some, *words[1:]], [*words, *some]):
            yield Case(spelled, several())


def bounds():
    for table in of_texts, of_lines, of_words, of_lengths:
        yield from table()


TABLES = {**{file: functools.partial(limit_file, file) for file in LIMIT_FILES}, "bounds": bounds, "names": names, "two tries": two_tries,
          "at the root": at_the_root, "theirs": theirs, "classes": classes, "everybody": everybody, "left out": left_out,
          "changed and told": changed_and_told, "lines of subtrees": lines_of_subtrees, "written": written, JSON_TABLE: as_json}
