#!/usr/bin/env python3
"""Holds `zirofen may` against what a kernel answered.

Usage: tests/program/migrations.py [PROGRAM]. Without PROGRAM it is ./zirofen. The last line is 'N passed, M failed'.

examples/host-migrations.tsv has a line for each write of a PID to a cgroup.procs on the host of host-migrations.toml:
UID, GIDS, PID, the cgroup, and the kernel's answer, tab by tab. Each write was undone before the next. Each is asked too of
the tree in format 4 with two more controllers, wherever memory is, which changes nothing.
"""
import sys
from dataclasses import dataclass

sys.dont_write_bytecode = True
from case import EXAMPLES, call, run

SAID = {"ok": "granted\n", "EACCES": "refused no-access ", "EBUSY": "refused internal-process "}


@dataclass(frozen=True)
class Migration:
    words: list
    tree: bytes
    kernel: str

    def failure(self, program):
        ended = call(program, self.words, self.tree)
        said = ended.output.decode() + ended.errors.decode()
        return "" if said.startswith(SAID[self.kernel]) else f"the kernel said {self.kernel}, and the program {said!r}"


def in_format_4(tree):
    return tree.replace(b"\nformat = 2\n", b"\nformat = 4\n").replace(b'"memory"', b'"misc", "io", "memory"')


def migrations(_):
    with open(f"{EXAMPLES}/host-migrations.toml", "rb") as text:
        tree = text.read()
    with open(f"{EXAMPLES}/host-migrations.tsv", encoding="ascii") as rows:
        for row in rows:
            uid, gids, pid, to, kernel = row.rstrip("\n").split("\t")
            groups = [word for gid in gids.split(",") for word in ("--gid", gid)]
            for text in (tree, in_format_4(tree)):
                yield Migration(["may", "--uid", uid, *groups, "--pid", pid, "--to", to], text, kernel)


if __name__ == "__main__":
    sys.exit(run(migrations, "migrations"))
