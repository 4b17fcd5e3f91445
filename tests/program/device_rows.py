"""The rows that tests/program/devices.py runs: of each command each kind of answer, of each format, and each kind of fault."""
import collections, os, subprocess

import of_one

Row = collections.namedtuple("Row", "command words tree out err status")

# each on the tree of examples/NAME.toml, which is standard input, or a file where --tree stands in the words
ANSWERS = (
    ("delegation", "may --uid 1000 --pid 11 --to /c0/c01", 0, "granted"),
    ("delegation", "may --tree {tree} --uid 1000 --gid 5 --gid 6 --pid 10 --to /c0/c00", 1, "refused no-access / cgroup.procs"),
    ("delegation", "may --uid 1000 --pid 99 --to /c0/c00", 1, "refused no-such-process 99"),
    ("delegation", "may --uid 1000 --pid 11 --to /zz", 1, "refused no-such-cgroup /zz"),
    ("parent-delegated", "may --tree {tree} --uid 1000 --pid 20 --to /p", 1, "refused internal-process /p"),
    ("delegation-ancestor-group", "may --uid 1000 --gid 50 --pid 10 --to /c0/c00", 0, "granted"),
    ("delegation", "check --uid 1000 --subtree /c0", 0, "contained"),
    ("delegation-ancestor-group", "check --tree {tree} --uid 1000 --subtree /c0", 0, "contained"),
    ("delegation-over-limit", "check --uid 1000 --subtree /c0", 1, "escapes"),
    ("delegation-limit-writable", "check --uid 1000 --subtree /c0", 1, "escapes|set /c0 memory.max max"),
    ("delegation-ancestor-group", "check --uid 1000 --gid 50 --subtree /c0", 1, "escapes|move 10 /c0"),
    ("delegation-ancestor-owned", "check --uid 1000 --subtree /c0", 1, "escapes|chmod / cgroup.procs 646|move 10 /c0"),
    ("parent-delegated", "check --tree {tree} --uid 1000 --subtree /p/s", 1, "escapes|mkdir /p/probe0|move 20 /p/probe0"),
    ("delegation-parent-directory", "check --uid 1000 --subtree /c0", 2, "unsettled parent-dir /"),
    ("parent-procs-owned", "check --uid 1000 --subtree /p/s", 2, "unsettled common-ancestor /p"),
    *((example, f"{command} {'--tree {tree} ' if example == 'delegation' else ''}--uid {of_one.USER} --subtree {subtree}", status, said)
      for command, example, subtree, said, status in of_one.rows(of_one.FURTHER)),
    ("delegation", "audit --uid 1000 --uid 1001:5,6 --subtree /c0 --subtree /c1", 0, "contained"),
    ("delegation-ancestor-group", "audit --tree {tree} --uid 1000 --subtree /c0", 0, "contained"),
    ("delegation-second-user", "audit --uid 1000 --uid 1001 --subtree /c0 --subtree /c1", 1,
     "pair 1001 /c0|escapes|set /c0 memory.max max"),
    ("delegation-parent-directory", "audit --uid 1000 --subtree /c0", 2, "pair 1000 /c0|unsettled parent-dir /"),
    ("delegation", "replay --uid 1000 --ops {filled}", 0,
     "ok|ok|ok|ok|ok|refused descendant-limit /c0|refused no-access /c0 memory.max|refused no-access / cgroup.procs"),
    ("delegation", "replay --tree {tree} --uid 1000 --subtree /c0 --ops {filled}", 0,
     "ok|ok|ok|ok|ok|refused descendant-limit /c0|refused no-access /c0 memory.max|refused no-access / cgroup.procs|kept"),
    ("host-service-chown", "replay --uid 890 --gid 890 --ops {chown}", 0, "ok|ok"),
    ("delegation", "replay --uid 1000 --subtree /c0 --ops {none}", 0, "kept"),
    ("delegation", "replay --uid 1000 --ops {none}", 0, ""),
    ("delegation", "replay --tree {tree} --uid 1000 --subtree /c0 --ops -", 0, "kept"),
    ("empty-parent-directory", "replay --uid 1000 --subtree /c0 --ops {gone}", 1, "ok|ok|broken 1 gone"),
    ("delegation-over-limit", "replay --uid 1000 --subtree /c0 --ops {none}", 1, "broken 0 descendants"),
    ("build-io-cpuset", "check --uid 1001 --subtree /build.slice/nightly", 1, "escapes|control /build.slice -io"),
    ("build-io-cpuset", "replay --tree {tree} --uid 1001 --subtree /build.slice/nightly --ops {others}", 1,
     "refused not-available dmem|refused child-uses cpuset|ok|broken 3 limits"),
    # limit files of format 4 that the text names
    ("service-limits-handed-over", "check --uid 880 --gid 880 --subtree /system.slice/transcode.service", 1,
     "escapes|set /system.slice/transcode.service cpu.max max 100000"),
    ("service-limits-handed-over", "replay --tree {tree} --uid 880 --gid 880 --subtree /system.slice/transcode.service --ops {limits}", 1,
     "ok|ok|ok|broken 2 limits"),
)

# each on the tree of the delegation
FAULTS = (
    ("may --uid x --pid 11 --to /c0", "usage", ""),
    ("frobnicate", "usage", ""),
    ("audit --uid 1000:, --subtree /c0", "usage", ""),
    ("may --uid 0 --pid 11 --to /c0/c01", "uid", ""),
    ("audit --uid 1000:{groups} --subtree /c0", "gid", ""),
    ("may --uid 1000 --pid 0 --to /c0/c01", "pid", ""),
    ("check --uid 1000 --subtree c0", "path", ""),
    ("check --uid 1000 --subtree /", "subtree root", ""),
    *((f"{command} {words}", fault, "") for command in of_one.FURTHER
      for words, fault in (("--uid 0 --subtree /c0", "uid"), ("--uid 1000 --subtree /zz", "subtree missing"))),
    ("audit --uid 1000 --subtree /c0 --subtree /zz", "subtree missing", ""),
    ("replay --uid 1000 --subtree /zz --ops {none}", "subtree missing", ""),
    ("may --tree {folder} --uid 1000 --pid 11 --to /c0/c01", "read", ""),
    ("check --tree {folder}/missing --uid 1000 --subtree /c0", "read", ""),
    ("replay --uid 1000 --ops {folder}", "read", ""),
    ("replay --uid 1000 --ops {folder}/missing", "read", ""),
    ("replay --uid 1000 --subtree /c0 --ops {cut}", "line 2 cut", "ok"),
    ("replay --uid 1000 --ops {bad}", "line 2 bad-word", "ok"),
    ("replay --tree - --uid 1000 --ops {bad}", "line 2 bad-word", "ok"),
    ("replay --uid 1000 --ops -", "usage", ""),
    ("replay --uid 1000 --ops {long}", "line 2 too-long", "ok"),
    ("advise --uid 1000", "usage", ""),
    ("advise --pairs {pairs} --subtree /c0", "usage", ""),
    ("advise --pairs {pairs} --settle", "usage", ""),
    ("advise --pairs -", "usage", ""),
    ("advise --pairs {no_pair}", "line 2 bad-word", ""),
    ("advise --pairs {cut_pair}", "line 2 cut", ""),
    ("advise --pairs {mistyped_pair}", "line 2 bad-word", ""),
    ("advise --pairs {none}", "no-pair", ""),
    ("advise --pairs {escape_alone}", "no-pair", ""),
    ("advise --pairs {pair_of_root}", "uid", ""),
    ("advise --pairs {pair_of_many}", "gid", ""),
    ("advise --pairs {pair_missing}", "subtree missing", ""),
    ("advise --pairs {folder}/missing", "read", ""),
    ("audit --pairs {pairs} --uid 1000", "usage", ""),
    ("audit --pairs {pairs} --settle", "usage", ""),
    ("audit --pairs {none}", "no-pair", ""),
    ("audit --pairs {cut_pair}", "line 2 cut", ""),
    ("audit --pairs {pair_missing}", "subtree missing", ""),
    ("audit --everybody", "usage", ""),
    ("audit --everybody --uid 1000 --subtree /c0", "usage", ""),
    ("audit --everybody --subtree c0", "path", ""),
    ("audit --everybody --subtree /c0 --subtree /", "subtree root", ""),
    ("audit --everybody --subtree /zz", "subtree missing", ""),
    ("audit --everybody --subtrees {subtrees} --subtree /c0", "usage", ""),
    ("audit --everybody --subtrees {none}", "line 1 cut", ""),
    ("audit --everybody --subtrees {cut_subtree}", "line 2 cut", ""),
    ("audit --everybody --subtrees {no_subtree}", "line 2 bad-word", ""),
    ("audit --everybody --subtrees {subtree_missing}", "subtree missing", ""),
    ("audit --everybody --subtrees {folder}/missing", "read", ""),
    *((f"{command} --everybody {words}", fault, "") for command in ("advise", "explain") for words, fault in (
        ("--subtree /zz", "subtree missing"), ("--subtrees {subtrees} --uid 1000", "usage"), ("--subtrees {none}", "line 1 cut"))),
    ("explain --pairs {pairs} --subtree /c0", "usage", ""),
    ("explain --pairs {mistyped_pair}", "line 2 bad-word", ""),
    ("replay --uid 1000 --ops {many}", "too-many-steps", "|".join(65536 * ["refused no-such-process 99"])),
)

TOP = 'format = 1\ncontrollers = ["cpu"]\n'
ROOT = '[[cgroup]]\npath = "/"\nenabled = ["cpu"]\n'
BASE = TOP + ROOT

# a tree text with each fault, in one of the formats
TREES = (
    ("not-toml", "format = "),
    ("shape top", "format = 1\n"),
    ("format", "format = 3\ncontrollers = []\n"),
    ("bad-controller top", 'format = 4\ncontrollers = ["dmem", "io", "perf_event"]\n'),
    ("no-root", "format = 2\ncontrollers = []\n"),
    ("too-many", "format = 1\ncontrollers = []\n" + 4097 * "[[cgroup]]\n"),
    ("shape cgroup 2", BASE + '[[cgroup]]\npath = "/a"\nx = 1\n'),
    ("shape process 1", BASE + "[[process]]\npid = 1\nuid = 1\n"),
    ("bad-controller top", 'format = 1\ncontrollers = ["io"]\n'),
    ("bad-path cgroup 2", BASE + '[[cgroup]]\npath = "/a/"\n'),
    ("bad-controller cgroup 2", BASE + '[[cgroup]]\npath = "/a"\nenabled = ["io"]\n'),
    ("bad-entry cgroup 2", BASE + '[[cgroup]]\npath = "/a"\ndir = { mode = 0o1000 }\n'),
    ("bad-value cgroup 2", BASE + '[[cgroup]]\npath = "/a"\nfiles = { "cpu.weight" = { value = 0 } }\n'),
    ("duplicate cgroup 3", BASE + 2 * '[[cgroup]]\npath = "/a"\n'),
    ("no-parent cgroup 2", BASE + '[[cgroup]]\npath = "/a/b"\n'),
    ("top-down cgroup 1", "format = 2\ncontrollers = []\n" + ROOT),
    ("no-such-file cgroup 2", BASE + '[[cgroup]]\npath = "/a"\nfiles = { "pids.max" = { value = 1 } }\n'),
    ("bad-pid process 1", BASE + '[[process]]\npid = 0\nuid = 1\nat = "/"\n'),
    ("bad-entry process 1", BASE + '[[process]]\npid = 1\nuid = -1\nat = "/"\n'),
    ("duplicate-pid process 2", BASE + 2 * '[[process]]\npid = 1\nuid = 1\nat = "/"\n'),
    ("no-such-place process 1", BASE + '[[process]]\npid = 1\nuid = 1\nat = "/zz"\n'),
    ("internal-process process 1",
     BASE + '[[cgroup]]\npath = "/a"\nenabled = ["cpu"]\n[[process]]\npid = 1\nuid = 1\nat = "/a"\n'),
    ("too-long", 16777217 * "\n"),
)

OPERATIONS = {
    "none": "",
    "gone": "rmdir /c0\nmkdir /c0\n",
    "cut": "exit 11\nmkdir /c0/a",
    "bad": "exit 11\nmkdir c0\n",
    "long": "exit 11\n" + 8193 * "x",
    "many": 65537 * "exit 99\n",
    "others": "control /build.slice +dmem -hugetlb\ncontrol /build.slice -cpuset\ncontrol /build.slice -io\n",
    "pairs": "pair 1001:1001 /c0\nescapes\nset /c0 memory.max max\npair 1000 /c1\npair 1001:1001 /c0\n",
    "no_pair": "escapes\npair 1000:5, /c0\n",
    "mistyped_pair": "pair 1000 /c0\nPAIR 1001 /c0\n",
    "escape_alone": "escapes\nset /c0 memory.max max\n",
    "nothing_listed": "contained\n",
    "cut_pair": "pair 1000 /c0\npair 1000 /c",
    "pair_of_root": "pair 1000 /c0\npair 0 /c0\n",
    "pair_of_many": f"pair 1000:{','.join(33 * ['7'])} /c0\n",
    "pair_missing": "pair 1000 /c0\npair 1000 /zz\n",
    "subtrees": "/c0\n/c1\n/c0\n",
    "cut_subtree": "/c0\n/c1",
    "no_subtree": "/c0\n/c1/\n",
    "subtree_missing": "/c0\n/zz\n",
}

# commands of which what they write where nothing fails is the row, each on the tree of examples/NAME.toml
ASKED = (
    ("delegation", "upgrade", 0),
    ("delegation-ancestor-group", "upgrade --tree {tree}", 0),
    ("three-delegations", "upgrade", 0),
    ("service-limits", "upgrade", 0),
    ("delegation", "advise --uid 1000 --subtree /c0", 0),
    ("delegation-ancestor-owned", "advise --tree {tree} --uid 1000 --subtree /c0", 1),
    ("delegation-over-limit", "advise --uid 1000 --subtree /c0", 1),
    ("delegation-ancestor-group", "advise --uid 1000 --gid 50 --subtree /c0", 1),
    ("delegation-second-user", "advise --uid 1000 --uid 1001:1001 --subtree /c0 --subtree /c1", 1),
    ("parent-procs-owned", "advise --settle --uid 1000 --subtree /p/s", 0),
    ("parent-procs-no-process", "advise --settle --uid 1000 --subtree /p/s", 1),
    ("delegation", "advise --pairs {nothing_listed}", 0),
    ("delegation-second-user", "advise --pairs {pairs}", 1),
    ("delegation-second-user", "advise --tree {tree} --pairs {pairs}", 1),
    ("delegation", "audit --pairs {nothing_listed}", 0),
    ("delegation-second-user", "audit --pairs {pairs}", 1),
    ("delegation-parent-directory", "audit --tree {tree} --pairs {pairs}", 2),
    ("delegation-second-user", "explain --pairs {pairs}", 1),
    ("delegation", "audit --everybody --subtree /c0 --subtree /c1", 0),
    ("delegation-second-user", "audit --everybody --tree {tree} --subtree /c0 --subtree /c1", 1),
    ("delegation-ancestor-owned", "audit --everybody --subtree /c0 --subtree /c1 --subtree /c0", 1),
    ("delegation-over-limit", "audit --everybody --subtree /c0", 1),
    ("service-limits-handed-over", "audit --everybody --subtree /system.slice/transcode.service", 1),
    ("delegation", "audit --everybody --subtrees {subtrees}", 0),
    ("delegation-parent-directory", "audit --everybody --tree {tree} --subtrees {subtrees}", 1),
    ("delegation", "advise --everybody --subtree /c0 --subtree /c1", 0),
    ("delegation-ancestor-owned", "advise --everybody --tree {tree} --subtree /c0 --subtree /c1", 1),
    ("delegation-over-limit", "advise --everybody --subtree /c0", 1),
    ("delegation-parent-directory", "advise --everybody --tree {tree} --subtrees {subtrees}", 1),
    ("delegation", "explain --everybody --subtree /c0 --subtree /c1", 0),
    ("delegation-second-user", "explain --everybody --tree {tree} --subtree /c0", 1),
    ("delegation", "explain --everybody --subtrees {subtrees}", 0),
    ("delegation", "audit --all --uid 1000 --uid 1001 --subtree /c0 --subtree /c1", 0),
    ("delegation-second-user", "audit --all --tree {tree} --uid 1000 --uid 1001 --subtree /c0 --subtree /c1", 1),
    ("delegation-parent-directory", "audit --all --uid 1000 --uid 1001 --subtree /c0 --subtree /c1", 2),
    ("parent-procs-owned", "audit --settle --uid 1000 --uid 1001 --subtree /p/s", 0),
    ("delegation-parent-directory", "audit --settle --all --uid 1000 --uid 1001 --subtree /c0", 1),
    ("parent-procs-no-process", "audit --settle --all --uid 1000 --uid 1001 --subtree /p/s", 2),
    ("delegation", "explain --uid 1000 --subtree /c0", 0),
    ("delegation-second-user", "explain --tree {tree} --uid 1000 --uid 1001 --subtree /c0 --subtree /c1", 1),
    ("parent-procs-no-process", "explain --uid 1000 --subtree /p/s", 2),
    ("build-io-cpuset", "explain --uid 1001 --subtree /build.slice/nightly", 1),
    # as JSON each kind of object, and some faults
    ("delegation", "may --format json --uid 1000 --pid 11 --to /c0/c01", 0),
    ("delegation", "may --format json --tree {tree} --uid 1000 --pid 10 --to /c0/c00", 1),
    ("delegation", "check --format json --uid 1000 --subtree /c0", 0),
    ("delegation-ancestor-owned", "check --format json --tree {tree} --uid 1000 --subtree /c0", 1),
    ("build-io-cpuset", "check --format json --uid 1001 --subtree /build.slice/nightly", 1),
    ("service-limits-handed-over", "check --format json --uid 880 --gid 880 --subtree /system.slice/transcode.service", 1),
    ("parent-procs-owned", "check --format json --uid 1000 --subtree /p/s", 2),
    ("delegation-parent-directory", "settle --format json --uid 1000 --subtree /c0", 1),
    ("delegation-second-user", "audit --format json --uid 1000 --uid 1001:1001 --subtree /c0 --subtree /c1", 1),
    ("delegation", "audit --format json --all --uid 1000 --uid 1001 --subtree /c0 --subtree /c1", 0),
    ("delegation-ancestor-owned", "audit --format json --all --uid 1000 --uid 1001 --subtree /c0 --subtree /c1", 1),
    ("delegation-parent-directory", "audit --format json --settle --all --uid 1000 --uid 1001 --subtree /c0", 1),
    ("delegation-second-user", "audit --format json --tree {tree} --pairs {pairs}", 1),
    ("delegation-ancestor-owned", "audit --format json --everybody --subtree /c0 --subtree /c1", 1),
    ("delegation", "audit --format json --everybody --subtrees {subtrees} --but 7 --group 5=6,7", 0),
    ("delegation-ancestor-owned", "advise --format json --uid 1000 --uid 1001 --subtree /c0", 1),
    ("delegation-over-limit", "advise --format json --uid 1000 --subtree /c0", 1),
    ("parent-procs-owned", "advise --format json --settle --uid 1000 --subtree /p/s", 0),
    ("delegation-ancestor-owned", "advise --format json --everybody --subtree /c0", 1),
    ("delegation-second-user", "explain --format json --uid 1000 --uid 1001 --subtree /c0 --subtree /c1", 1),
    ("build-io-cpuset", "explain --format json --tree {tree} --uid 1001 --subtree /build.slice/nightly", 1),
    ("delegation-second-user", "explain --format json --everybody --tree {tree} --subtree /c0", 1),
    ("delegation", "replay --format json --uid 1000 --subtree /c0 --ops {filled}", 0),
    ("empty-parent-directory", "replay --format json --uid 1000 --subtree /c0 --ops {gone}", 1),
    ("delegation", "replay --format json --uid 1000 --subtree /c0 --ops {cut}", 3),
    ("delegation", "audit --format json --uid 1000 --subtree /c0 --subtree /zz", 3),
    ("delegation", "check --format yaml --uid 1000 --subtree /c0", 3),
)
COMMANDS = ("may", *of_one.OF_ONE, "audit", "explain", "replay", "upgrade", "advise")
HELP = ("--help", "--version", "may --help", "replay --help")


def lines(words):
    """The lines that bars part, each with its newline."""
    return "".join(line + "\n" for line in words.split("|") if line).encode()


def ended(program, words, tree):
    """How the program ends where nothing fails."""
    with open(tree or os.devnull, "rb") as text:
        return subprocess.run([program, *words], stdin=text, capture_output=True, check=False)


def knows(program, words):
    """Whether the program has a command, and the option behind it where there is one."""
    words = [words[0], *(word for word in words if word in ("--all", "--pairs", "--everybody", "--subtrees", "--format"))]
    told = ended(program, [words[0], "--help"], None)
    return told.returncode == 0 and all(word.encode() in told.stdout for word in words[1:])


def asked(program, command, words, tree, status):
    """A row of what the program writes where nothing fails: of a command with this status."""
    got = ended(program, words, tree)
    return with_help(program, Row(command, words, tree, got.stdout, got.stderr if status == 3 else b"", status))


def with_help(program, row):
    """A row with the help that stands below the fault's line, or beside an answer."""
    got = ended(program, row.words, row.tree)
    is_help = all(line.startswith(b"  ") for line in got.stderr[len(row.err):].splitlines())
    return row._replace(err=got.stderr) if got.stderr.startswith(row.err) and is_help else row


def named(top, folder):
    """What stands for the names in braces."""
    names = {"folder": folder, "groups": ",".join(33 * ["7"]), "filled": f"{top}/examples/delegation-filled.ops",
             "chown": f"{top}/examples/host-service-chown.ops", "limits": f"{top}/examples/service-limits.ops"}
    for name, text in OPERATIONS.items():
        names[name] = f"{folder}/{name}.ops"
        with open(names[name], "w", encoding="ascii") as file:
            file.write(text)
    return names


def tree_faults(folder):
    """Faults of trees, by each command in turn."""
    commands = (["may", "--uid", "1000", "--pid", "11", "--to", "/c0"], ["check", "--uid", "1000", "--subtree", "/c0"],
                ["audit", "--uid", "1000", "--subtree", "/c0"], ["replay", "--uid", "1000", "--ops", f"{folder}/none.ops"])
    for place, (fault, text) in enumerate(TREES):
        words, tree = commands[place % len(commands)], f"{folder}/{place}.toml"
        with open(tree, "w", encoding="ascii") as file:
            file.write(text)
        yield Row(words[0], words, tree, b"", f"fault: tree {fault}\n".encode(), 3)


def spelled(program, folder):
    """Answers beside which help stands, of a mode that is spelled in decimal. In format 1 none like that is one."""
    tree = f"{folder}/spelled.toml"
    with open(tree, "w", encoding="ascii") as file:
        file.write(BASE.replace("format = 1", "format = 2") + '[[cgroup]]\npath = "/a"\ndir = { uid = 1000, mode = 440 }\n')
    for words in ("check --uid 1000 --subtree /a", "audit --all --uid 1000 --subtree /a", "replay --uid 1000 --subtree /a --ops - --tree {tree}"):
        words = words.format(tree=tree).split()
        yield asked(program, words[0], words, None if "--tree" in words else tree, 0)


def file_of(top, tree):
    return f"{top}/examples/{tree}.toml"


def rows_of(program, top, folder):
    """All rows. A command whose rows are what it writes has them where the program has the command."""
    names = named(top, folder)
    rows = []
    for tree, words, status, out in ANSWERS:
        file = file_of(top, tree)
        words = words.format(tree=file, **names).split()
        row = Row(words[0], words, None if "--tree" in words else file, lines(out), b"", status)
        rows.append(with_help(program, row))
    faults = [*tree_faults(folder)]
    for words, fault, out in FAULTS:
        words = words.format(**names).split()
        command = words[0] if words[0] in COMMANDS else "none"
        faults.append(Row(command, words, file_of(top, "delegation"), lines(out), f"fault: {fault}\n".encode(), 3))
    rows += [with_help(program, row) for row in faults]
    rows += [asked(program, "help", words.split(), None, 0) for words in HELP]
    rows += spelled(program, folder)
    for tree, words, status in ASKED:
        file = file_of(top, tree)
        words = words.format(tree=file, **names).split()
        if knows(program, words):
            rows.append(asked(program, words[0], words, None if "--tree" in words else file, status))
    return rows
