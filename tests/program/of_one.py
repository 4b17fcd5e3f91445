"""What the commands that ask of one user and one subtree say of examples: a row for each, from which other tables have theirs."""

USER = "1000"
# the examples, each with the subtree that is asked about
ASKED = (("delegation", "/c0"), ("delegation-limit-writable", "/c0"), ("delegation-parent-directory", "/c0"),
         ("parent-procs-owned", "/p/s"), ("parent-procs-no-process", "/p/s"))
HELD, LIMIT_SET, EMPTIED = "contained", "escapes|set /c0 memory.max max", "escapes|exit 11|rmdir /c0/c01|rmdir /c0/c00|rmdir /c0"
NOT_MOVED = "unsettled common-ancestor /p"
# what each command says of them, its lines parted by bars
OF_ONE = {
    "check": (HELD, LIMIT_SET, "unsettled parent-dir /", NOT_MOVED, NOT_MOVED),
    "settle": (HELD, LIMIT_SET, EMPTIED, HELD, NOT_MOVED),
}
# those but check, of which each table has rows of its own
FURTHER = tuple(name for name in OF_ONE if name != "check")
STATUS = {"contained": 0, "escapes": 1, "unsettled": 2}


def rows(commands=tuple(OF_ONE)):
    """Each command with an example, a subtree, what it says of that, and its status."""
    for command in commands:
        for (example, subtree), said in zip(ASKED, OF_ONE[command], strict=True):
            yield command, example, subtree, said, STATUS[said.split("|")[0].split(" ")[0]]
