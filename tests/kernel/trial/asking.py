"""What the program says of trees, users and subtrees."""
import contextlib
import functools
import os
import subprocess
import sys
import tempfile

from second import commands, rules
from second.rules import text_of
from trial import wrong
from trial.machine import Missing

sys.path.append(os.path.join(os.path.dirname(os.path.abspath(__file__)), "../../../tools"))
import program as programs  # noqa: E402

CHANGES = ("chown", "chmod", "set")
# the name of the wrong program that is asked in place of the right one
WRONG = []
# what the program didn't answer while cases were made
UNANSWERED = []


@contextlib.contextmanager
def in_place(names):
    """Wrong programs, or none, are asked in place of the one that is asked otherwise."""
    before, WRONG[:] = WRONG[:], names
    try:
        yield
    finally:
        WRONG[:] = before


def program_of_sources():
    """The program that ./zirofen runs in this checkout, where it needs no building."""
    found = programs.of_sources()
    if not found:
        raise Missing("no program of these sources: tools/build makes one, or --program names one")
    return found.path


class NoReport(RuntimeError):
    """The program has no answer to what it was asked."""


def report_of(program, text, *words):
    """The lines of a report on a tree."""
    said = subprocess.run([program, *words], input=text.encode(), capture_output=True)
    if said.returncode not in (0, 1, 2):
        raise NoReport(f"{' '.join(words)}: status {said.returncode}, {said.stderr.decode(errors='replace')}")
    return said.stdout.decode().splitlines()


# several kernels have the same cases
asked = functools.lru_cache(maxsize=None)(report_of)


def words_of(user):
    return ["--uid", str(user[0])] + [word for gid in user[1] for word in ("--gid", str(gid))]


def replay(program, case):
    """A line for each step of a case, which are one user's, and the verdict."""
    steps = "".join(commands.spelling(step) + "\n" for _, step in case.steps)
    return replayed(program, case.text, case.steps[0][0], case.subtrees[0], steps)


@functools.lru_cache(maxsize=None)
def replayed(program, text, user, top, steps):
    with tempfile.TemporaryDirectory() as room:
        ops = os.path.join(room, "ops")
        with open(ops, "w") as out:
            out.write(steps)
        return report_of(program, text, "replay", *words_of(user), "--subtree", text_of(top), "--ops", ops)


def check(program, text, user, top):
    """The answer's first line, and the operations of an escape."""
    return answer_of(asked(program, text, "check", *words_of(user), "--subtree", text_of(top)))


def answer_of(lines):
    return lines[0], [commands.operation_of(line.encode(), 4) for line in lines[1:]]


def has_settle(program):
    """Whether a program settles what check leaves unsettled."""
    try:
        return bool(report_of(program, "", "settle", "--help"))
    except NoReport:
        return False


def settle(program, text, user, top):
    """The answer's first line, and the operations of an escape."""
    if WRONG and wrong.settles(WRONG[0], text, user, top):
        return "contained", []
    return answer_of(asked(program, text, "settle", *words_of(user), "--subtree", text_of(top)))


def advise(program, text, user, top):
    """The lines of the changes, and none where the pair is contained."""
    return changes_in(asked(program, text, "advise", *words_of(user), "--subtree", text_of(top)))


def advise_pairs(program, text, pairs):
    """The lines of the changes for some pairs at once, and none where all are contained."""
    with tempfile.TemporaryDirectory() as room:
        named = os.path.join(room, "pairs")
        with open(named, "w") as out:
            out.writelines(f"pair {listed(user)} {text_of(top)}\n" for user, top in pairs)
        return changes_in(report_of(program, text, "advise", "--pairs", named))


def changes_in(lines):
    return [line for line in lines if line.split(" ")[0] in CHANGES]


def listed(user):
    """A user as `audit` takes them."""
    return ":".join([str(user[0]), *([",".join(map(str, user[1]))] if user[1] else [])])


def contained(program, text, users, tops):
    """The subtrees that are contained against all of these users."""
    words = [word for user in users for word in ("--uid", listed(user))]
    words += [word for top in tops for word in ("--subtree", text_of(top))]
    found = [line.split(" ")[2] for line in asked(program, text, "audit", "--all", *words) if line.startswith("pair ")]
    found = set(map(rules.path_of, found))
    return [top for top in tops if top not in found or WRONG and wrong.says_contained(WRONG[0], text, users, top)]
