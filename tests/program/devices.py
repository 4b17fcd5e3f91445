#!/usr/bin/env python3
"""Runs the program again and again, each time with one of its allocations, reads or writes failing.

  tests/program/devices.py PROGRAM OBJECT              the object of that program, as gate/objects builds it
  tests/program/devices.py PROGRAM OBJECT --emulated   an object for arm64, under qemu's user emulation: each fifth row, and fewer calls

Of each row, a command with what it writes, the first call fails, then the second, and so on until a run meets none that
fails; behind the first thousand or so of a row in longer and longer steps. What then may come is the row's own answer, or
`fault: memory`, `fault: read` or `fault: write` with status 3, by what failed, behind a front of the row's report; no signal
ever. A read or write that moves one byte, or that a signal interrupts, changes nothing. The line of a fault may be cut where
its own write fails.

tests/program/failing.c does that, linked with the object by the toolchain, and so with all but its calls the program itself. It
tells whether a call failed, and how many there are: one of these that didn't fail is a failure. The last line is 'N passed, M failed',
each a run in which a call failed, and above it stands how many there were of each kind. PROGRAM gives what a row has to answer.
"""
import argparse, collections, concurrent.futures, itertools, os, shutil, signal, subprocess, sys, tempfile

sys.dont_write_bytecode = True
from case import TOP
from device_rows import rows_of

sys.path[:0] = [f"{TOP}/tools"]
import linked

QEMU = "qemu-aarch64-static"
WRAPPED = ("main", "read", "write", "rattle_alloc", "rattle_realloc")
KINDS = (("alloc", "refused"), ("read", "refused"), ("read", "short"), ("read", "interrupted"), ("write", "refused"),
         ("write", "none"), ("write", "short"), ("write", "interrupted"))
EACH_TO, EACH_TO_EMULATED, ROWS_EMULATED = 1200, 30, 5
# what hangs is ended; a run may wait long for a processor, and all of a machine stand still
SECONDS_OF_A_RUN = 7200
FAULT = 3
# bytes of a report that the program holds back
BUFFER = 8192
CLAP_OUT_OF_MEMORY = b"  error: out of memory\n"
MOST_SHOWN = 3

Ended = collections.namedtuple("Ended", "status out err")


def built(machine, made, folder):
    """The program whose calls fail, linked of its object."""
    # it shows its own name
    failing, program = f"{folder}/failing.o", f"{folder}/zirofen"
    linked.compile_c(machine, f"{TOP}/tests/program/failing.c", failing)
    linked.link(machine, made, program, failing, *(f"--wrap={it}" for it in WRAPPED))
    return program


def numbers(each_to):
    """Which call fails: each of the first, then with longer and longer steps."""
    at = 1
    while True:
        yield at
        at += 1 + max(0, at - each_to) // 8


class Runner:
    """Runs a program whose calls can be made to fail, and knows whether one did."""

    def __init__(self, words, each_to, folder):
        self.words, self.each_to = words, each_to
        self.files = [open(f"{folder}/{os.getpid()}.{name}", "w+b", buffering=0) for name in ("told", "out", "err")]

    def run(self, row, call="", at=0, how=""):
        """How the run ended, and what the program told of its calls: nothing, that the call failed, or how many there are."""
        for file in self.files:
            file.seek(0)
            file.truncate()
        told, out, err = self.files
        environment = {"FAILING_CALL": call, "FAILING_AT": str(at), "FAILING_HOW": how, "FAILING_TOLD": str(told.fileno())}
        with open(row.tree or os.devnull, "rb") as tree:
            ended = subprocess.run([*self.words, *row.words], stdin=tree, stdout=out, stderr=err, env=environment,
                                   pass_fds=[told.fileno()], cwd=TOP, timeout=SECONDS_OF_A_RUN, check=False)
        return Ended(ended.returncode, self.text(out), self.text(err)), self.text(told)

    @staticmethod
    def text(file):
        file.seek(0)
        return file.read()


def is_front(row, ended):
    """Whether what was written is what the row says before a fault: nothing, of a replay and of all pairs some first lines, or of
    pairs that are explained some first pairs, of which as JSON each is a line."""
    if row.words[0] == "explain" and "--format" not in row.words:
        return row.out.startswith(ended.out) and (not ended.out or row.out[len(ended.out):].startswith(b"pair "))
    if row.words[0] in ("replay", "explain") or row.words[0] == "audit" and {"--all", "--pairs"} & {*row.words}:
        return row.out.startswith(ended.out) and ended.out[-1:] in (b"", b"\n")
    return ended.out == b""


def line_of(err):
    """The line of a fault, if any: below it, or beside an answer, stands help, each line behind two blanks."""
    return b"" if err.startswith(b"  ") else err[:err.find(b"\n") + 1]


def is_fault(ended, name):
    return ended.status == FAULT and ended.err.startswith(b"fault: " + name + b"\n")


def is_right_written(row, ended):
    """Whether a run in which a write failed ended rightly: by that fault, or by the row's, whose line may be cut.

    Where the row has a fault, only a write before it can be the fault: one that a full buffer made.
    """
    is_cut = len(ended.out) < len(row.out) and row.out.startswith(ended.out)
    if is_fault(ended, b"write") and is_cut and (not line_of(row.err) or len(row.out) > BUFFER):
        return True
    if not line_of(row.err):
        return ended.status == row.status and ended.out == row.out and row.err.startswith(ended.err)
    if ended.status != FAULT:
        return False
    return (ended.err == row.err and is_cut) or (ended.out == row.out and row.err.startswith(ended.err))


def is_right(row, call, how, ended):
    if ended == Ended(row.status, row.out, row.err):
        return True
    if how in ("short", "interrupted"):
        return False
    # where help can't be made there is none, or clap's own word of it
    line = line_of(row.err)
    if call != "write" and row.err and ended in [Ended(row.status, row.out, line + more) for more in (b"", CLAP_OUT_OF_MEMORY)]:
        return True
    if call == "write":
        return is_right_written(row, ended)
    return is_fault(ended, {"alloc": b"memory", "read": b"read"}[call]) and is_front(row, ended)


def shown(ended):
    """The beginning of what came, or was to come."""
    return str(tuple(ended))[:300]


def sweep(runner, row, kind):
    """Makes each call of a kind fail in turn: how many did, and what was wrong."""
    call, how = kind
    met, wrong = 0, []
    ended, count = runner.run(row, call, 0, how)
    if not count.isdigit():
        return 0, [f"{call} {how}: how many there are wasn't told, but {count!r}"]
    for at in numbers(runner.each_to):
        try:
            ended, told = runner.run(row, call, at, how)
        except subprocess.TimeoutExpired:
            return met, wrong + [f"{call} {at} {how}: no end"]
        if not is_right(row, call, how, ended):
            wrong.append(f"{call} {at} {how}: {shown(ended)}")
        if not told:
            return met, wrong + [f"{call} {at} {how} of {int(count)} didn't fail"] * (at <= int(count))
        met += 1


runner = None


def prepare(*given):
    global runner
    signal.signal(signal.SIGINT, signal.SIG_IGN)
    runner = Runner(*given)


def work(task):
    row, kind = task
    if kind is None:
        ended, _ = runner.run(row)
        is_row = ended == Ended(row.status, row.out, row.err)
        return row, kind, 1, [] if is_row else [f"{shown(ended)}, and not {shown(row[3:])}"]
    return row, kind, *sweep(runner, row, kind)


def report(results):
    """Prints what was wrong, and how many calls failed by command and kind; returns how many runs passed and failed."""
    table, passed, failed = collections.Counter(), 0, 0
    for row, kind, met, wrong in results:
        for line in wrong[:MOST_SHOWN]:
            print(f"devices: FAILED: zirofen {' '.join(row.words)}: {line}, one of {len(wrong)}", flush=True)
        passed, failed = passed + max(0, met - len(wrong)), failed + len(wrong)
        if kind:
            table[row.command, kind] += met
        if not met and (kind == ("alloc", "refused") or (kind == ("write", "refused") and row.out + row.err)):
            print(f"devices: FAILED: zirofen {' '.join(row.words)}: no {kind[0]} was made to fail")
            failed += 1
    commands = sorted({command for command, _ in table})
    print("calls that failed:".ljust(20), *(" ".join(kind).rjust(18) for kind in KINDS))
    for command in commands:
        print(command.ljust(20), *(str(table[command, kind]).rjust(18) for kind in KINDS))
    return passed, failed


def main():
    parser = argparse.ArgumentParser(description=__doc__, formatter_class=argparse.RawDescriptionHelpFormatter)
    parser.add_argument("program", metavar="PROGRAM", type=os.path.abspath)
    parser.add_argument("object", metavar="OBJECT", type=os.path.abspath)
    parser.add_argument("--emulated", action="store_true")
    given = parser.parse_args()
    machine, each_to, under = ("aarch64", EACH_TO_EMULATED, [QEMU]) if given.emulated else ("x86_64", EACH_TO, [])
    with tempfile.TemporaryDirectory() as folder:
        words = [*under, built(machine, given.object, folder)]
        if under and not shutil.which(QEMU):
            print("devices: it is linked, and no call was made to fail, for lack of Debian's package qemu-user-static\n1 passed, 0 failed")
            return 0
        rows = [*rows_of(given.program, TOP, folder)][::ROWS_EMULATED if given.emulated else 1]
        tasks = itertools.product(rows, (None, *KINDS))
        with concurrent.futures.ProcessPoolExecutor(initializer=prepare, initargs=(words, each_to, folder)) as pool:
            passed, failed = report(pool.map(work, tasks))
    print(f"{passed} passed, {failed} failed")
    return 1 if failed else 0


if __name__ == "__main__":
    sys.exit(main())
