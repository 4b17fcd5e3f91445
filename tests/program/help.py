#!/usr/bin/env python3
"""Runs the program on command lines, trees and operations as somebody mistypes them: what is said of each, and what below it.

Usage: tests/program/help.py [PROGRAM]. Without PROGRAM it is ./zirofen. The first line of standard error is exact where it is a fault;
below it stand lines of help, each two spaces in, that name what is wrong. The last line is 'N passed, M failed'.
"""
import os
import pty
import subprocess
import sys
import tempfile
from dataclasses import dataclass

sys.dont_write_bytecode = True
from case import Ended, run
from json_rows import FORMAT, JSON, has_format
from of_one import FURTHER, OF_ONE

TREE = """format = 2
controllers = ["cpu", "memory", "pids"]

[[cgroup]]
path = '/'
enabled = ["memory"]

[[cgroup]]
path = '/c0'
dir = { uid = 1000, gid = 1000 }
files = { "cgroup.procs" = { uid = 1000, gid = 1000, mode = 0o644 }, "memory.max" = { value = 4096 } }

[[process]]
pid = 10
uid = 1000
at = '/c0'
"""
FOUR = TREE.replace("format = 2", "format = 4")
LIMIT = '"memory.max" = { value = 4096 }'
ALL_NINE = "cpuset cpu io memory hugetlb pids rdma misc dmem"
NEWLINE = "\n"
OPS = "set /c0 memory.max max\nmove 10 /c0\n"
CHECK = ["check", "--uid", "1000", "--subtree", "/c0"]
MAY = ["may", "--uid", "1000", "--pid", "10", "--to", "/c0"]
REPLAY = ["replay", "--uid", "1000", "--ops", "OPS"]
EVERYBODY = ["audit", "--everybody", *CHECK[3:]]
SUBTREES = ["audit", "--everybody", "--subtrees", "-", "--tree", "TREE"]
# what else is asked of a user and a subtree
OF_TREE = [[*words.split(), *CHECK[1:]] for words in (*FURTHER, "audit", "audit --all", "audit --settle", "explain", "advise", "advise --settle")]
BOTH = ["both the tree and the operations", "./-"]


@dataclass(frozen=True)
class Row:
    """The words of a command line, in which OPS and TREE stand for files of theirs, the fault, or None of an answer, and what is told
    below its line. Standard input gives the tree where nothing else is said."""
    words: list
    line: str | None
    helps: tuple = ()
    tree: str = TREE
    ops: str = OPS
    input: str = None
    # what is said of a terminal that gives the input, where one does; nothing where it isn't read
    terminal: str = None

    def ended(self, program):
        with tempfile.TemporaryDirectory() as folder:
            names = {"OPS": self.ops, "TREE": self.tree}
            for name, text in names.items():
                with open(f"{folder}/{name}", "w", encoding="utf-8", errors="surrogateescape", newline="") as out:
                    out.write(text)
            words = [f"{folder}/{word}" if word in names else word for word in self.words]
            given = (self.tree if self.input is None else self.input).encode(errors="surrogateescape")
            if self.terminal is not None:
                return at_terminal([program, *words], given, self.terminal, folder)
            ended = subprocess.run([program, *words], input=given, capture_output=True, cwd=folder)
        return Ended(ended.returncode, ended.stdout, ended.stderr)

    def failure(self, program):
        ended = self.ended(program)
        wrong = [f"the help has no {word!r}" for word in self.helps if not any(word in line for line in ended.help)]
        if self.line and (ended.status, ended.lines[:1]) != (3, [f"fault: {self.line}"]):
            wrong.append(f"it isn't fault: {self.line}, with status 3")
        if not self.line and (ended.status == 3 or len(ended.lines) != len(self.helps)):
            wrong.append("it is a fault, or other help stands beside the answer")
        if not all(line.startswith("  ") and line.isprintable() for line in ended.help):
            wrong.append("a line of help isn't two spaces in, or has a byte that acts on a terminal")
        return f"{'; '.join(wrong)}; it ended with status {ended.status} and wrote {ended.errors!r}" if wrong else ""


def at_terminal(words, given, said, folder):
    """Runs a command at a terminal, which it has to tell of first, and returns what it says beside that."""
    master, slave = pty.openpty()
    with os.fdopen(master, "wb", buffering=0) as keys, os.fdopen(slave, "rb") as stdin:
        keys.write(given + b"\x04")
        ended = subprocess.run(words, stdin=stdin, capture_output=True, cwd=folder, timeout=7200)
    first, _, rest = ended.stderr.partition(b"\n")
    if said and first != b"  " + said.encode():
        rest = b"it isn't told of the terminal first: " + ended.stderr
    return Ended(ended.returncode, ended.stdout, rest if said else ended.stderr)


def subtree(path):
    return ["check", "--uid", "1000", "--subtree", path]


def command_lines():
    yield Row([], "usage", ["requires a subcommand", "Usage: zirofen <COMMAND>"])
    yield Row(["frobnicate"], "usage", ["unrecognized subcommand 'frobnicate'"])
    yield Row(["chek", *CHECK[1:]], "usage", ["unrecognized subcommand 'chek'", "check"])
    yield Row(["--versoin"], "usage", ["unexpected argument '--versoin'", "--version"])
    yield Row(CHECK[:3], "usage", ["required arguments", "--subtree <PATH>"])
    yield Row(CHECK[:1] + CHECK[3:], "usage", ["--uid <UID>"])
    yield Row(["check", "--user", *CHECK[2:]], "usage", ["unexpected argument '--user'"])
    yield Row(["check", "--uid", "1000", "--subtre", "/c0"], "usage", ["'--subtre'", "--subtree"])
    yield Row(["setle", *CHECK[1:]], "usage", ["unrecognized subcommand 'setle'", "settle"])
    yield Row(["explian", *CHECK[1:]], "usage", ["unrecognized subcommand 'explian'", "explain"])
    yield Row(["settle", "--uid", "1000", "--all", "--subtree", "/c0"], "usage", ["unexpected argument '--all'"])
    yield Row(["check", "--uid", "alice", "--subtree", "/c0"], "usage", ["invalid value 'alice' for '--uid <UID>'", "`id -u NAME`"])
    yield Row(["check", "--uid", "-5", "--subtree", "/c0"], "usage", ["-5", "no uid, gid or PID is negative"])
    yield Row(["check", "--uid", "4294967296", "--subtree", "/c0"], "usage", ["'4294967296'", "a number from 1 to 4294967295"])
    yield Row(["check", "--uid", "12345678901234567890", "--subtree", "/c0"], "usage", ["a number from 1 to 4294967295"])
    yield Row([*CHECK, "--gid", "5,6"], "usage", ["'5,6' for '--gid <GID>'", "one number from 0", "`id -G NAME`"])
    yield Row(["may", "--uid", "1000", "--pid", "bash", "--to", "/c0"], "usage", ["'bash' for '--pid <PID>'", "`pgrep NAME`"])
    yield Row([*CHECK, "--uid", "1001"], "usage", ["--uid <UID>", "multiple times"])
    yield Row([*CHECK, "/c0"], "usage", ["unexpected argument '/c0'"])
    yield Row([*CHECK, "--tree"], "usage", ["a value is required for '--tree <FILE>'"])
    yield Row(MAY[:5], "usage", ["--to <PATH>"])
    yield Row(REPLAY[:3], "usage", ["--ops <FILE>"])
    yield Row(["audit", "--uid", "1000:", "--subtree", "/c0"], "usage")
    yield Row(["audit", "--subtree", "/c0"], "usage", ["audit and explain take users and subtrees"])
    yield Row([*CHECK, b"\xff"], "usage")
    yield Row(["check", "--uid", "1\n  0", "--subtree", "/c0"], "usage", ["1\\x0a  0"])
    yield Row(["audit", "--uid", "+1000", "--subtree", "/c0"], "usage", ["a user of audit"])
    yield Row(["audit", "--uid", "alice", "--subtree", "/c0"], "usage", ["a user of audit", "`id -u NAME`"])
    yield Row(["advise", "--uid", "1000:5, 6", "--subtree", "/c0"], "usage", ["advise takes users and subtrees", "no spaces"])
    yield Row([*REPLAY, "--tree", "TREE", "--tree", "TREE"], "usage", ["--tree <FILE>", "multiple times"])
    yield Row([*REPLAY[:4], "-"], "usage", BOTH)
    yield Row([*REPLAY[:4], "-", "--tree", "-"], "usage", BOTH)
    yield Row([*REPLAY[:3], "--ops=-", "--tree=-"], "usage", BOTH)
    yield Row([*REPLAY, "--tree", "-", "--tree", "-"], "usage", ["--tree <FILE>", "multiple times"])


def arguments():
    yield Row(["check", "--uid", "0", "--subtree", "/c0"], "uid", ["root"])
    for command in FURTHER:
        yield Row([command, "--uid", "0", "--subtree", "/c0"], "uid", ["root"])
    yield Row([*CHECK, *["--gid", "5"] * 33], "gid", ["32"])
    for word in ("-0", "-00", "+5"):
        for call in (CHECK, MAY, REPLAY):
            yield Row([*call, f"--gid={word}"], "usage", ["decimal digits, with no sign", "`id -G NAME`"])
    yield Row(["may", "--uid", "1000", "--pid", "0", "--to", "/c0"], "pid", ["1 to 4194303"])
    yield Row(["may", "--uid", "1000", "--pid", "4194304", "--to", "/c0"], "pid", ["1 to 4194303"])
    yield Row(subtree("c0"), "path", ["c0", "begins with /"])
    yield Row(subtree("/c0/"), "path", ["/c0/", "ends with /"])
    yield Row(subtree(""), "path", ["''", "empty"])
    yield Row(subtree("//c0"), "path", ["//c0", "//"])
    yield Row(subtree("/c0/../c1"), "path", [".."])
    yield Row(subtree("/a b"), "path", ["/a b"])
    yield Row(subtree("/c0/memory.max"), "path", ["memory.max", "file"])
    yield Row(subtree("/" + "x" * 256), "path", ["255"])
    yield Row(subtree("/\x1b[2J"), "path", ["/\\x1b[2J"])
    yield Row(subtree("/"), "subtree root", ["root"])
    yield Row(subtree("/zz"), "subtree missing", ["/zz"])
    yield Row(subtree("/c9"), "subtree missing", ["'/c9' has to be the path of a row of the tree; the nearest is '/c0'"])
    yield Row(subtree("/C0"), "subtree missing", ["the nearest is '/c0'"])
    yield Row([*CHECK, "--tree", "TREE"], "tree not-toml", ["gunzip -c"], "\x1f\udc8b\x08\0")
    yield Row([*CHECK, "--tree", "TREE"], "tree not-toml", ["UTF-16", "iconv -f UTF-16"], "\udcff\udcfef\0o\0r\0m\0a\0t\0")
    yield Row(CHECK, "tree not-toml", ["UTF-16"], "f\0o\0r\0m\0a\0t\0")
    yield Row(CHECK, "tree shape top", ["nothing was given", "format = 2"], "")
    yield Row(CHECK, "tree shape top", ["nothing was given"], "\r\n \n")
    yield Row(subtree("/sys/fs/cgroup/c0"), "subtree missing", ["/sys/fs/cgroup", "below"])
    yield Row([*CHECK, "--tree", "/none/tree.toml"], "read", ["/none/tree.toml"])
    yield Row([*CHECK, "--tree", "/"], "read", ["/"])
    yield Row([*REPLAY[:4], "/none/escape.ops"], "read", ["/none/escape.ops"])
    yield Row([*CHECK, "--tree", "./-"], "read", ["./-"])
    yield Row([*REPLAY[:4], "./-"], "read", ["./-"])
    yield Row([*REPLAY[:4], "-", "--tree", "/none/tree.toml"], "read", ["/none/tree.toml"])
    audit = ["audit", "--uid", "1000", "--subtree", "/c0"]
    yield Row([*audit, "--subtree", "/zz", "--subtree", "/yy"], "subtree missing", ["'/zz'"])
    yield Row([*audit, "--all", "--subtree", "/sys/fs/cgroup/c0"], "subtree missing", ["'/sys/fs/cgroup/c0'", "below"])
    yield Row([*audit, "--subtree", "/zz", "--tree", "TREE"], "subtree missing", ["'/zz'"], input="")
    yield Row([*audit, "--subtree", "/c0/", "--subtree", "c0"], "path", ["'/c0/'", "ends with /"])
    yield Row([*audit, "--subtree", "/"], "subtree root", ["root"])


def edited(old, new):
    """The tree's text with one place changed."""
    if TREE.count(old) != 1:
        raise ValueError(f"{old!r} stands {TREE.count(old)} times in the tree")
    return TREE.replace(old, new)


def place(text, key):
    """The line and the column of what stands once in a text."""
    before = text[:text.index(key)]
    return f"line {before.count(NEWLINE) + 1}, column {len(before) - before.rfind(NEWLINE)}"


def trees():
    def row(old, new, line, *helps):
        return Row(CHECK, f"tree {line}", helps, edited(old, new))

    def at(key, old, new, line, *helps):
        """A row whose help has the place of a key."""
        text = edited(old, new)
        if text.count(key) != 1:
            raise ValueError(f"{key!r} stands {text.count(key)} times in the tree")
        return Row(CHECK, f"tree {line}", [place(text, key), *helps], text)

    for dash in ([], ["--tree", "-"]):
        yield Row([*CHECK, *dash], "tree not-toml", ["line 4, column 1: missing comma", "4 | [[cgroup]]", "  | ^"], edited('"pids"]\n', '"pids"\n'))
    yield at("0644", "mode = 0o644", "mode = 0644", "not-toml", "an octal number begins with 0o: write 0o644")
    yield at("max }", "value = 4096", "value = max", "not-toml", 'max is a text: write "max"', "value = max } }")
    yield row("pid = 10", "pid = \udcff", "not-toml", "line 14", "UTF-8")
    yield row("pid = 10", "pid = '\x1b[2J", "not-toml", "line 14")
    yield row("pid = 10", "pid = 12345678901234567890", "not-toml", "line 14, column 7", "number out of range")
    yield row("pid = 10", "pid = 10\npid = 11", "not-toml", "line")
    yield row("format = 2\n", "", "shape top", "format")
    yield row('controllers = ["cpu", "memory", "pids"]\n', "", "shape top", "controllers")
    yield row("format = 2", "format = 2\nuser = 5", "shape top", "user")
    yield row("format = 2", "format = 1", "shape cgroup 2", "/c0", "gid")
    yield at("format = 3", "format = 2", "format = 3", "format", "format is 1, 2 or 4: write format = 2, or 4 for all nine controllers")
    yield at("enable", "enabled =", "enable =", "shape cgroup 1", "row 1 of cgroup", "6 | enable = [", "  | ^", "enable: write enabled; left out, the cgroup enables no controller")
    yield at("vlaue", "value = 4096", "vlaue = 4096", "shape cgroup 2", "/c0", "memory.max", "vlaue: write value; left out, it has its default value")
    yield at("[cgroup.file]", "files = {", "[cgroup.file]\nx = {", "shape cgroup 2", "file: write files; left out, root owns each file", "11 | [cgroup.file]")
    yield row("files = {", "[cgroup.files.'cgroup.prosc']\n[cgroup.x]\ny = {", "shape cgroup 2", "line")
    yield row("files =", "file =", "shape cgroup 2", "/c0", "file: write files; left out, root owns each file, with mode 0o644")
    yield row("mode = 0o644", "mod = 0o644", "shape cgroup 2", "cgroup.procs", "mod: write mode; left out, its mode is 0o644")
    yield row("dir = { uid = 1000", "dir = { udi = 1000", "shape cgroup 2", "dir", "udi: write uid; left out, root owns it")
    yield row('"memory.max" =', '"memroy.max" =', "shape cgroup 2", "write memory.max; left out, root owns it, with mode 0o644 and its default")
    yield row('"memory.max" =', "memory.max =", "shape cgroup 2", "memory: a name with dots is quoted, as \"memory.max\"")
    yield row("[[process]]", "[[proces]]", "shape top", "proces: write process; left out, the tree has no such process")
    yield at("att", "at = '/c0'", "att = '/c0'", "shape process 1", "there is no key att: write at")
    yield row("path = '/c0'", "path = '/c0'\nuid = 1000", "shape cgroup 2", "there is no key uid here: it belongs to the directory or to a file")
    yield row("dir = { uid = 1000,", "dir = { uid = '1000',", "shape cgroup 2", "/c0", "uid")
    yield row('"cpu", "memory", "pids"', '"cpu", "io"', "bad-controller top", "write format = 4, which has 'io': in this format controllers has cpu, memory and pids alone; left out")
    yield at("path = 'c0'", "path = '/c0'", "path = 'c0'", "bad-path cgroup 2", "row 2", "c0")
    yield row('enabled = ["memory"]', 'enabled = ["cpuset"]', "bad-controller cgroup 1", "cpuset")
    yield row("mode = 0o644", "mode = 644", "bad-entry cgroup 2", "/c0", "cgroup.procs: mode 644 is decimal: write 0o644")
    yield row("mode = 0o644", "mode = 0o2755", "bad-entry cgroup 2", "cgroup.procs: mode 0o2755 isn't one of 0 to 0o777")
    yield row("mode = 0o644", "mode = 0x1_FF0", "bad-entry cgroup 2", "mode 0x1_FF0 isn't one of 0 to 0o777")
    yield at("mode = ", "mode = 0o644", "mode = 1533", "bad-entry cgroup 2", "mode 1533 isn't one of 0 to 0o777", "row 2 of cgroup")
    yield at("uid = 4294967296", "dir = { uid = 1000,", "dir = { uid = 4294967296,", "bad-entry cgroup 2", "dir: uid 4294967296 isn't one of 0 to 4294967295")
    yield row("dir = { uid = 1000,", "dir.mode = -1\ndir = {", "not-toml", "line 11")
    yield at("value = -1", "value = 4096", "value = -1", "bad-value cgroup 2", "/c0", "memory.max")
    yield row("value = 4096", "value = '4G'", "bad-value cgroup 2", "/c0", "memory.max", "4G")
    yield row('"memory.max" = { value = 4096 }', '"cpu.weight" = { value = 0 }', "bad-value cgroup 2", "cpu.weight doesn't accept 0: write 1 to 10000")
    yield row('"memory.max" = { value = 4096 }', '"cpu.weight" = { value = "max" }', "bad-value cgroup 2", "cpu.weight", "write 1 to 10000")
    yield row('"memory.max" = { value = 4096 }', '"cpu.max" = { }', "shape cgroup 2", "/c0", "cpu.max: left out, what it says counts in no answer")
    yield row("path = '/c0'", "path = '/'", "duplicate cgroup 2", "/")
    yield row("path = '/'", "path = '/c1'", "no-root", "/")
    yield row("path = '/c0'", "path = '/c1/c0'", "no-parent cgroup 2", "/c1", "line 9, column 1")
    yield row("at = '/c0'", "at = '/C0'", "no-such-place process 1", "the nearest is '/c0'", "line 16, column 1, row 1 of process")
    yield row('"cpu", "memory", "pids"', '"cpu", "memroy"', "bad-controller top", "'memroy' of controllers is no controller: write memory", "line 2, column 1, the top table")
    yield from of_format_4()
    # a place that the text has twice, or in another way
    yield row("[[process]]\npid = 10\nuid = 1000\nat = '/c0'\n", "[[process]]\npid = 0\nuid = 1000\nat = '/c0'\n[[process]]\npid = 5\n", "shape process 2", "line 17, column 1, row 2 of process")
    yield row("[[process]]\npid = 10", "[[process]]\n'pid' = 0", "bad-pid process 1", "line 14, column 1", "'pid' = 0")
    yield row("controllers =", "process = [\n  { pid = 1, uid = 1, at = '/' }, # one\n  { pid = 0, uid = 1, at = '/' } ]\ncontrollers =", "not-toml", "duplicate key")
    yield at("enabled = ['cpu']", "path = '/c0'", "path = '/c0'\nenabled = ['cpu']", "top-down cgroup 2", "/c0", "cpu")
    yield at('"memory.max"', 'enabled = ["memory"]', "", "no-such-file cgroup 2", "/c0", "memory.max")
    yield at("pid = 0", "pid = 10", "pid = 0", "bad-pid process 1", "pid 0 isn't one of 1 to 4194303")
    yield row("uid = 1000\nat", "uid = -1\nat", "bad-entry process 1", "-1")
    yield row("at = '/c0'", "at = '/c0'\n[[process]]\npid = 10\nuid = 5\nat = '/'", "duplicate-pid process 2", "10")
    yield row("at = '/c0'", "at = '/c1'", "no-such-place process 1", "/c1")
    yield row("path = '/c0'", "path = '/c0'\nenabled = ['memory']", "internal-process process 1", "/c0")


def of_format_4():
    """Controllers and limit files that format 4 has, and what is too much."""
    def row(old, new, line, *helps):
        return Row(CHECK, f"tree {line}", helps, edited(old, new).replace("format = 2", "format = 4"))

    yield row('"memory", "pids"]', '"memory", "hugetbl"]', "bad-controller top", "line 2, column 1", "'hugetbl' of controllers is no controller: write hugetlb")
    yield row('"pids"]', '"network"]', "bad-controller top", f"'network' of controllers is none of {ALL_NINE}: left out")
    yield row('enabled = ["memory"]', 'enabled = ["cpusets"]', "bad-controller cgroup 1", "'cpusets' of enabled is no controller: write cpuset")
    yield row('enabled = ["memory"]', 'enabled = ["io"]', "top-down cgroup 1", "io isn't in controllers")
    yield from of_files_of_format_4()
    few = "a tree has at most 4096 cgroups and 4096 processes, or 65536 of each with format = 4"
    for text, count in ((TREE, 4097), (FOUR, 65537)):
        yield Row(CHECK, "tree too-many", [few], text + "[[cgroup]]\n" * (count - 2))
        yield Row(CHECK, "tree too-many", [few], text + "[[process]]\n" * (count - 1))
    yield Row(CHECK, "tree shape cgroup 3", ["row 3 of cgroup", "path is missing"], FOUR + "[[cgroup]]\n" * 4097)
    for text in (TREE, "# of a host\n" + FOUR):
        yield Row(CHECK, "tree too-long", ["a text has at most 16777216 bytes, or 67108864 where format = 4 is its first line"], text + "#" * 16777216)


def of_files_of_format_4():
    """Limit files that format 4 has beside those of format 2: at `/c0` those of `memory`, and `cgroup.freeze`."""
    def row(written, line, *helps, tree=FOUR):
        return Row(CHECK, f"tree {line}", helps, tree.replace(LIMIT, written))

    def value(written, *helps):
        tree = FOUR.replace(LIMIT, f'"memory.swap.max" = {{ value = {written} }}')
        return Row(CHECK, "tree bad-value cgroup 2", ["/c0", place(tree, "value"), *helps], tree)

    left_out = "memory.zswap.max; left out, root owns it, with mode 0o644, and nothing is told of its value"
    yield row('"memory.zwsap.max" = { }', "shape cgroup 2", "/c0", f"there is no key memory.zwsap.max: write {left_out}")
    yield row('"io.maks" = { }', "shape cgroup 2", "there is no key io.maks: write io.max")
    yield row('"hugetlb.2mb.max" = { }', "shape cgroup 2", "there is no key hugetlb.2mb.max: write hugetlb.2MB.max")
    yield row('"hugetlb.2MV.max" = { }', "shape cgroup 2", "there is no key hugetlb.2MV.max: write hugetlb.2MB.max")
    yield row('"hugetlb.8MB.max" = { }', "shape cgroup 2", "counts in no answer; there are hugetlb.16GB.max hugetlb.16GB.rsvd.max")
    yield row('"cgroup.threads" = { }', "shape cgroup 2", "cgroup.threads: left out, what it says counts in no answer; there are cgroup.procs cgroup.subtree_control cgroup.max.descendants cgroup.max.depth cgroup.freeze")
    yield row('"cpu.pressure" = { }', "shape cgroup 2", "there are cpu.weight cpu.idle cpu.max cpu.max.burst cpu.uclamp.max cpu.uclamp.min cpu.weight.nice")
    yield row('"freezer" = { }', "shape cgroup 2", "freezer: left out", "there are cgroup.procs", "rdma.max")
    yield row('"io.max" = { }', "shape cgroup 2", "there is no key io.max: left out, what it says counts in no answer; format = 4 has it", tree=TREE)
    yield row("memory.swap.max = { uid = 5 }", "shape cgroup 2", 'memory: a name with dots is quoted, as "memory.swap.max"')
    yield row("cpu.max.burst = { value = 0 }", "shape cgroup 2", 'cpu: a name with dots is quoted, as "cpu.max.burst"')
    yield row('"cgroup.freeze" = 0', "shape cgroup 2", "cgroup.freeze is 0, and has to be a table")
    yield row('"cgroup.freeze" = { vlaue = 0 }', "shape cgroup 2", "cgroup.freeze: there is no key vlaue: write value; left out, nothing is told of its value")
    yield row('"cgroup.freeze" = { value = true }', "shape cgroup 2", "value is boolean, and has to be an integer, a text or an array of texts")
    yield row('"memory.swap.max" = { value = [0] }', "shape cgroup 2", "value is array, and has to be an integer, a text or an array of texts")
    yield row('"memory.swap.max" = { uid = -1 }', "bad-entry cgroup 2", "memory.swap.max: uid -1 isn't one of 0 to 4294967295")
    yield row('"memory.swap.max" = { mode = 644 }', "bad-entry cgroup 2", "memory.swap.max: mode 644 is decimal: write 0o644")
    yield value("''", "memory.swap.max doesn't accept '': a line has a byte or more; left out, nothing is told of the value")
    yield value("'8:0  max'", "memory.swap.max doesn't accept '8:0  max': write words with one space between them")
    yield value("'max '", "doesn't accept 'max ': write words with one space between them")
    yield value('"max\\n"', "doesn't accept 'max\\x0a': write an array of lines, with no newline in them")
    yield value('["max", "8:0\\tmax"]', "doesn't accept '8:0\\x09max': a line has printable ASCII alone")
    yield value("[]", "memory.swap.max doesn't accept an empty array: write a line or more")
    yield value(f"'{'x' * 4096}'", "a line has at most 4095 bytes")
    yield row('"io.max" = { value = "max" }', "no-such-file cgroup 2", "/c0", "io.max doesn't stand there: the row of '/' doesn't enable io")
    for name in ("cgroup.freeze", "memory.swap.max"):
        tree = FOUR.replace('enabled = ["memory"]', f'enabled = ["memory"]\nfiles = {{ "{name}" = {{ }} }}')
        yield Row(CHECK, "tree no-such-file cgroup 1", [place(tree, f'"{name}"'), f"{name} never stands at the root"], tree)


def strangers():
    """What is said beside an answer of users of whom the tree says nothing, and of no others."""
    said = "uid 1001 and its gids own nothing in this tree, write nothing but what all others write, and have no process in it"
    of_group = TREE.replace("gid = 1000, mode", "gid = 5, mode").replace("0o644", "0o664")
    of_all, running = TREE.replace("0o644", "0o646"), TREE.replace("pid = 10\nuid = 1000", "pid = 10\nuid = 1001")
    a_limit = TREE.replace("value = 4096", "uid = 1001, value = 4096")
    one_of_format_4 = FOUR.replace(LIMIT, '"cgroup.freeze" = { uid = 1001 }')
    at = ["--subtree", "/c0"]
    check, audit, advise = (["check", "--uid", "1001"], ["audit", "--uid", "1000", "--uid", "1001"], ["advise", "--uid", "1001"])
    audits = [audit, [*audit, "--all"], [*audit, "--settle"], [*audit, "--settle", "--all"], ["explain", *audit[1:]]]
    for words in (*([command, *check[1:]] for command in OF_ONE), *audits, advise, [*advise, "--settle"], [*check, "--gid", "5"],
                  [*audit[:3], "--uid", "1001:5,6"]):
        yield Row([*words, *at], None, [said])
        yield Row([*words, *at], None, [said], of_all)
        for tree in (running, a_limit, one_of_format_4):
            yield Row([*words, *at], None, (), tree)
    yield Row([*check, *at], None, [said], of_group)
    yield Row([*check, "--gid", "7", "--gid", "5", *at], None, (), of_group)
    yield Row(["audit", "--uid", "1001:5", *at], None, (), of_group)
    for told, helps in (("gid = 7, mode = 0o664", ()), ("gid = 7", [said]), ("mode = 0o646", [said])):
        tree = FOUR.replace(LIMIT, f'"memory.swap.max" = {{ {told} }}')
        yield Row([*check, "--gid", "7", *at], None, helps, tree)
        yield Row(["audit", "--uid", "1001:7", *at], None, helps, tree)
    yield Row(["audit", "--uid", "1002", "--uid", "1001", *at], None, [said.replace("1001", "1002")])
    yield Row(CHECK, None, ())
    yield Row(EVERYBODY, None, ())
    yield Row(EVERYBODY, None, (), of_all)
    yield Row(["may", "--uid", "1001", "--pid", "10", "--to", "/c0"], None, ())
    yield Row(["replay", "--uid", "1001", "--ops", "OPS"], None, ())
    yield Row([*check, *at], None, [said, "mode 400 is 0o620"], edited("mode = 0o644", "mode = 400"))
    yield Row([*check, "--subtree", "/c9"], "subtree missing", ["the nearest is '/c0'"])


def modes():
    """What is said beside an answer of a mode that reads as an octal one, as it is spelled: of the first."""
    for mode, octal in (("400", "0o620"), ("440", "0o670"), ("444", "0o674"), ("500", "0o764")):
        said = f"mode {mode} is {octal}, since it is decimal: an octal mode begins with 0o, as 0o{mode}"
        yield Row(CHECK, None, [said], edited("mode = 0o644", f"mode={mode}"))
    said = "mode 400 is 0o620"
    others = (*OF_TREE, EVERYBODY, MAY, ["upgrade"], REPLAY, [*CHECK, "--tree", "TREE"], [*REPLAY, "--tree", "TREE"])
    for words in others:
        yield Row(words, None, [said], edited("gid = 1000 }", "gid = 1000, mode\t=  400 }"))
    tree = edited("mode = 0o644", "mode = 400")
    yield Row([*REPLAY[:4], "-", "--tree", "TREE"], None, [said], tree, input=OPS)
    for command in ("advise", "audit", "explain"):
        yield Row([command, "--pairs", "-", "--tree", "TREE"], None, [said], tree, input="pair 1000 /c0\n")
    yield Row(SUBTREES, None, [said], tree, input="/c0\n")
    yield Row(CHECK, None, [said], tree.replace("value = 4096", "value = 4096, mode = 500"))
    for spelled in ("0o400", "420", "493", "0x190", "4_00", "0o620", "64", "50"):
        yield Row(CHECK, None, (), edited("mode = 0o644", f"mode = {spelled}"))
    yield Row(CHECK, None, (), edited("files = {", "# mode = 400\nfiles = {"))
    yield Row(CHECK, None, [said], edited("files = {", "# mode = 500\ndir.mode = 400\nfiles = {").replace("dir = {", "#"))
    # a path or a key in quotes may have the word, or a number sign, in it
    for named, helps in (("'/mode=400'", ()), ('"/a-\\u0022mode=400"', ()), ("'/a#'", [said]), ('"""/a#"""', [said])):
        yield Row(CHECK, None, helps, tree_with(named, "mode = 400" if helps else "mode = 0o755"))
    # below a fault its own help alone
    yield Row(subtree("/c9"), "subtree missing", ["the nearest is '/c0'"], tree)


def tree_with(path, mode):
    """The tree with a row of a path in front of those that it has, which is spelled like that, and of a mode."""
    return TREE.replace("[[process]]", f"[[cgroup]]\npath = {path}\ndir = {{ uid = 1000, gid = 1000, {mode} }}\n[[process]]", 1)


def missing_paths():
    """What is said beside an answer of `may` of a cgroup that the tree doesn't have."""
    to = MAY[:-1]
    said = "'/c9' has to be the path of a row of the tree"
    yield Row([*to, "/c9"], None, [f"{said}; the nearest is '/c0'"])
    yield Row(["may", "--uid", "1001", "--pid", "11", "--to", "/c9"], None, [f"{said}; the nearest is '/c0'"])
    yield Row([*to, "/nowhere"], None, ["'/nowhere' has to be the path of a row of the tree"])
    yield Row([*to, "/sys/fs/cgroup/c0"], None, ["'/sys/fs/cgroup/c0' begins with the mount"])
    yield Row([*to, "/c9"], None, [said, "mode 400 is 0o620"], edited("mode = 0o644", "mode = 400"))
    yield Row(MAY, None, ())
    yield Row([*to, "/"], None, ())
    yield Row([*to, "c9"], "path", ["a path begins with /"])


def terminals():
    """What is said where standard input is a terminal: what is read from it, where anything is."""
    said = "{} read from this terminal: end {} with Ctrl-D, or name a file with {}"
    tree = said.format("the tree is", "it", "--tree")
    for words in (CHECK, [*CHECK, "--tree", "-"], *OF_TREE, EVERYBODY, MAY, ["upgrade"], REPLAY):
        yield Row(words, None, terminal=tree)
    yield Row(CHECK, None, ["mode 400 is 0o620"], edited("mode = 0o644", "mode = 400"), terminal=tree)
    yield Row(subtree("/c9"), "subtree missing", ["the nearest is '/c0'"], terminal=tree)
    ops = said.format("the operations are", "them", "--ops")
    yield Row([*REPLAY[:4], "-", "--tree", "TREE"], None, input=OPS, terminal=ops)
    pairs = said.format("the pairs are", "them", "--pairs")
    for command in ("advise", "audit", "explain"):
        yield Row([command, "--pairs", "-", "--tree", "TREE"], None, input="pair 1000 /c0\n", terminal=pairs)
    yield Row(SUBTREES, None, input="/c0\n", terminal=said.format("the subtrees are", "them", "--subtrees"))
    for words in ([*CHECK, "--tree", "TREE"], [*REPLAY, "--tree", "TREE"], ["--help"]):
        yield Row(words, None, terminal="")
    yield Row(["chek"], "usage", ["check"], terminal="")


def slips():
    """What people write who know TOML, or cgroups, a little."""
    def row(old, new, line, *helps):
        return Row(CHECK, f"tree {line}", helps, edited(old, new))

    memory = '"memory.max" = { value = 4096 }'
    yield row(LIMIT, f"{memory}, dir = {{ uid = 5 }}", "shape cgroup 2", "there is no key dir here: it belongs to the row")
    yield row(LIMIT, f"{memory}, value = 5", "shape cgroup 2", "belongs to one file")
    yield row("path = '/c0'", "path = '/c0'\n'memory.max' = { value = 5 }", "shape cgroup 2", "belongs to files")
    yield row("path = '/c0'", "path = '/c0'\nformat = 2", "shape cgroup 2", "belongs to the top table: write it above the first [[cgroup]]")
    top = 'format = 2\ncontrollers = ["cpu", "memory", "pids"]\n'
    below = TREE.replace("format = 2\n", "").replace("path = '/'", "path = '/'\nformat = 2")
    yield Row(CHECK, "tree shape top", ["format is missing: it stands in a row", "above the first [[cgroup]]"], below)
    yield Row(CHECK, "tree shape top", ["belongs to a row: write it below [[cgroup]]"], f"{top}path = '/'\n")
    yield Row(CHECK, "tree shape top", ["write [[cgroup]] above each row"], f"{top}[cgroup]\npath = '/'\n")
    yield Row(CHECK, "tree shape top", ["write cgroup"], f"{top}[[cgroups]]\npath = '/'\n")
    yield row("path = '/c0'", "path = '/sys/fs/cgroup/c0'", "no-parent cgroup 2", "paths are below /sys/fs/cgroup, and don't name it")
    yield row("mode = 0o644", "mode = '0644'", "shape cgroup 2", "write 0o644, without quotes")
    yield row("dir = { uid = 1000,", "dir = { uid = 'alice',", "shape cgroup 2", "`id -u alice` prints it")
    yield row("dir = { uid = 1000,", "dir = { uid = '1000',", "shape cgroup 2", "write 1000, without quotes")
    yield row("dir = { uid = 1000, gid = 1000 }", "dir = { uid = 1000, gid = 'team' }", "shape cgroup 2", "`getent group team` prints it")
    yield row("dir = { uid = 1000,", "dir = { uid = '$(id)',", "shape cgroup 2", "has to be an integer")
    for size, number in (("2G", 2147483648), ("64K", 65536), ("1M", 1048576), ("3TiB", 3298534883328)):
        yield row("value = 4096", f"value = '{size}'", "bad-value cgroup 2", f"write {number}; it takes")
        yield row("value = 4096", f"value = {size}", "not-toml", f"a number has no unit: write {number}")
    yield row("value = 4096", "value = '99999999999999T'", "bad-value cgroup 2", 'write 0 to 9223372036854775807 or "max"')
    yield row("format = 2", "format = 1", "shape cgroup 2", "there is no key gid: write format = 2")
    yield Row(CHECK, "tree not-toml", ["this is a report of zirofen-host"], '{"version": 1, "program": "zirofen 0.2.0", "subtrees": []}\n')
    yield Row(CHECK, "tree not-toml", ["this is JSON"], '{\n  "cgroup": []\n}\n')
    yield Row(CHECK, "tree not-toml", ["this looks like YAML"], "format: 2\ncontrollers:\n  - cpu\n")
    yield Row(CHECK, "tree not-toml", ["this looks like YAML"], "---\nformat: 2\n")
    yield Row(CHECK, "tree not-toml", ["this is an answer of zirofen"], "escapes\nset /c0 memory.max max\n")


def pairs():
    words = ["advise", "--pairs", "-", "--tree", "TREE"]
    form = "pair UID PATH, or pair UID:GID,GID.. PATH"
    for line in ("pairs 1000 /c0", "PAIR 1000 /c0", " pair 1000 /c0", "1000 /c0", "# by hand", "format = 2", "pair 1000: /c0"):
        yield Row(words, "line 1 bad-word", [f"'{line}'", form], input=f"{line}\n")
    yield Row(words, "line 2 bad-word", ["'pair\\x091000 /c0'", form], input="pair 1000 /c0\npair\t1000 /c0\n")
    yield Row(words, "line 1 bad-word", ["\\xef\\xbb\\xbfpair", form], input="\ufeffpair 1000 /c0\n")
    for given in ("", "escapes\nset /c0 memory.max max\n", "contained\ncontained\n"):
        yield Row(words, "no-pair", ["no line names a pair", form], input=given)
    for command in ("audit", "explain"):
        yield Row([command, *words[1:]], "line 1 bad-word", ["'PAIR 1000 /c0'", form], input="PAIR 1000 /c0\n")
        yield Row([command, *words[1:]], "no-pair", ["no line names a pair", form], input="")


def subtrees():
    form = "subtrees are named one a line, each by its path with a newline behind, and there is one at least"
    for line, why in (("c0", "a path begins with /"), ("/c0/", "never ends with /"), ("/c 0", "the name 'c 0' has a space"), ("", "a path is empty"),
                      ("/memory.max", "is reserved"), ("pair 1000 /c0", "a path begins with /"), ("/c0\r", "no printable ASCII")):
        yield Row(SUBTREES, "line 2 bad-word", ["the line is", form, why], input=f"/c0\n{line}\n")
    yield Row(SUBTREES, "line 1 cut", ["the line is ''", form], input="")
    yield Row(SUBTREES, "line 2 cut", ["the line is '/c1'", form], input="/c0\n/c1")
    for command in "audit", "advise", "explain":
        yield Row([command, *SUBTREES[1:-2]], "usage", ["audit, advise and explain take --everybody in place of users"])
    yield Row(["audit", "--everybody", "--subtrees", "NONE"], "read", ["NONE: "])


def operations():
    def row(ops, line, *helps):
        return Row(REPLAY, line, helps, TREE, ops)

    yield row("mvoe 10 /c0\n", "line 1 bad-word", "mvoe 10 /c0", "an operation is move, control", "'mvoe': write move")
    yield row("remove /c0\n", "line 1 bad-word", "'remove' is none of move control mkdir rmdir set fork exit chmod")
    yield row("set /c0 memroy.max max\n", "line 1 bad-word", "'memroy.max': write memory.max")
    yield row("chmod /c0 cgroup.proc 644\n", "line 1 bad-word", "'cgroup.proc': write cgroup.procs")
    yield row("control /c0 +memroy\n", "line 1 bad-word", "'memroy': write memory")
    yield row("control /c0 +io\n", "line 1 bad-word", "'io' is none of cpu memory pids; with format = 4 it is one")
    yield row("control /c0 +cpu -pisd\n", "line 1 bad-word", "'pisd': write pids")
    yield from operations_of_format_4()
    yield row("move 10 /c0\nmove 010 /c0\n", "line 2 bad-word", "move 010 /c0", "move PID PATH")
    yield row("move 10  /c0\n", "line 1 bad-word", "move 10  /c0", "one space between words")
    yield row("\n", "line 1 bad-word", "''")
    yield row("chmod /c0 dir 0755\n", "line 1 bad-word", "chmod /c0 dir 0755", "three octal digits")
    yield row("set /c0 cpu.max max\n", "line 1 bad-word", "LIMITFILE", "memory.max pids.max; with format = 4 it is one")
    yield row("chmod /c0 io.max 600\n", "line 1 bad-word", "'io.max' is none of dir cgroup.procs", "with format = 4 it is one")
    yield row("move 10 /c0\r\n", "line 1 bad-word", "\\x0d", "a carriage return stands at its end")
    yield row("\x1f\udc8b\x08\n", "line 1 bad-word", "gunzip -c")
    yield row("\udcff\udcfem\0o\0v\0e\0\n", "line 1 bad-word", "UTF-16")
    yield row("move 10 /c0", "line 1 cut", "newline")
    yield row("x" * 8193 + "\n", "line 1 too-long", "xx..")
    long = "mkdir /c0/" + "a" * 200 + "\n"
    yield row(long * 100 + "mvoe 10 /c0\n" + long, "line 101 bad-word", "'mvoe 10 /c0'")
    # what is read once: standard input, and a pipe, which gives the bytes in pieces
    given = [*REPLAY[:4], "-", "--tree", "TREE"]
    yield Row(given, "line 2 bad-word", ["'mvoe 10 /c0'"], input=OPS[:23] + "mvoe 10 /c0\nmove 10 /c0\n")
    yield Row(given, "line 101 bad-word", ["'mvoe 10 /c0'"], input=long * 100 + "mvoe 10 /c0\n" + long)
    yield Row(given, "line 1 bad-word", ["''"], input="\n")
    yield Row(given, "line 1 cut", ["'move 10 /c0'", "newline"], input="move 10 /c0")
    yield Row(given, "line 1 bad-word", ["isn't UTF-8"], input="move 10 /\udcff\n")
    piped = [*REPLAY[:4], "/dev/stdin", "--tree", "TREE"]
    yield Row(piped, "line 101 bad-word", ["'mvoe 10 /c0'"], input=long * 100 + "mvoe 10 /c0\n" + long)


def operations_of_format_4():
    """Lines that name controllers, with a tree of format 4: in a file, given, and given beside the tree's file."""
    for ops, said in (("control /c0 +hugetbl\n", "'hugetbl': write hugetlb"), ("control /c0 +io -network\n", f"'network' is none of {ALL_NINE}")):
        yield Row(REPLAY, "line 1 bad-word", [said], FOUR, ops)
        yield Row([*REPLAY, "--tree", "TREE"], "line 1 bad-word", [said], FOUR, ops, input="")
        yield Row([*REPLAY[:4], "-", "--tree", "TREE"], "line 1 bad-word", [said], FOUR, input=ops)


def formats():
    """How an answer is to be written, as it is mistyped, and what is said below a fault where JSON is asked for."""
    yield Row([*CHECK, FORMAT], "usage", ["a value is required for '--format <FORMAT>'"])
    yield Row([*CHECK, *JSON, *JSON], "usage", ["--format <FORMAT>", "multiple times"])
    yield Row(["check", "--fromat", "json", *CHECK[1:]], "usage", ["'--fromat'", "--format"])
    yield Row(["upgrade", *JSON], "usage", ["unexpected argument '--format'"])
    for words in (CHECK, *OF_TREE, EVERYBODY, MAY, REPLAY, [*SUBTREES[:3], "TREE"], ["audit", "--pairs", "TREE"]):
        yield Row([*words, FORMAT, "yaml"], "usage", ["--format takes lines, or json"])
    yield Row(["check", *JSON, "--uid", "1000", "--subtree", "/c9"], "subtree missing", ["'/c9' has to be the path of a row of the tree; the nearest is '/c0'"])
    yield Row(["check", *JSON, "--uid", "0", "--subtree", "/c0"], "uid", ["root"])
    yield Row([*REPLAY, *JSON], "line 1 bad-word", ["mvoe 10 /c0", "'mvoe': write move"], ops="mvoe 10 /c0\n")


def beside_json():
    """What is said beside an answer that is JSON."""
    for words in (CHECK, *OF_TREE, EVERYBODY, MAY, REPLAY):
        yield Row([*words, *JSON], None, ["mode 400 is 0o620"], edited("mode = 0o644", "mode = 400"))
        yield Row([*words, *JSON], None)
    stranger = "uid 1001 and its gids own nothing in this tree"
    for words in (CHECK, *OF_TREE):
        yield Row(["1001" if word == "1000" else word for word in [*words, *JSON]], None, [stranger])
    yield Row([*MAY[:-1], "/c9", *JSON], None, ["'/c9' has to be the path of a row of the tree"])
    yield Row([*CHECK, *JSON], None, terminal="the tree is read from this terminal: end it with Ctrl-D, or name a file with --tree")


def rows(program):
    if program is None or has_format(program):
        yield from (*formats(), *beside_json())
    yield from (*command_lines(), *arguments(), *trees(), *strangers(), *modes(), *missing_paths(), *terminals(), *slips(), *pairs(), *subtrees(), *operations())


if __name__ == "__main__":
    sys.exit(run(rows, "help"))
