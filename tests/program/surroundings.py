#!/usr/bin/env python3
"""Runs the program where what surrounds it is bad: streams that are closed, a full device, little memory, stack or room in files, and
signals.

Usage: tests/program/surroundings.py [PROGRAM]. Without PROGRAM it is ./zirofen. Of each command every answer has to be its own, or
the fault that its surroundings cause, and nothing half written counts as an answer: where standard output is closed or full the
status is 3. The last line is 'N passed, M failed', each a run, and above it stands how many there were of each kind.
"""
import collections
import itertools
import os
import resource
import signal
import subprocess
import sys
import tempfile

sys.dont_write_bytecode = True
from case import EXAMPLES, TOP

Call = collections.namedtuple("Call", "tree words")
Ended = collections.namedtuple("Ended", "status out err")
CALLS = [
    Call("delegation", ["check", "--uid", "1000", "--subtree", "/c0"]),
    Call("delegation-ancestor-owned", ["check", "--uid", "1000", "--subtree", "/c0"]),
    Call("delegation-parent-directory", ["settle", "--uid", "1000", "--subtree", "/c0"]),
    Call("delegation", ["may", "--uid", "1000", "--pid", "11", "--to", "/c0/c01"]),
    Call("delegation-second-user", ["audit", "--all", "--uid", "1000", "--uid", "1001", "--subtree", "/c0", "--subtree", "/c1"]),
    Call("delegation", ["explain", "--uid", "1000", "--subtree", "/c0"]),
    Call("delegation", ["replay", "--uid", "1000", "--ops", f"{EXAMPLES}/delegation-filled.ops"]),
    Call("service-limits", ["upgrade"]),
    Call("delegation-ancestor-owned", ["advise", "--uid", "1000", "--subtree", "/c0"]),
    Call("delegation-over-limit", ["check", "--uid", "1000", "--subtree", "/c0"]),
    Call("delegation-ancestor-owned", ["audit", "--format", "json", "--all", "--uid", "1000", "--uid", "1001", "--subtree", "/c0", "--subtree", "/c1"]),
    Call("delegation", ["explain", "--format", "json", "--uid", "1000", "--subtree", "/c0"]),
    Call("delegation", ["check", "--uid", "x"]),
    Call("delegation", ["frobnicate"]),
    Call("delegation", ["--help"]),
]
FAULT = 3
SECONDS = 7200
MEMORY = [*range(1 << 20, 1 << 23, 3 << 16), *(1 << at for at in range(23, 31))]
STACK = [1 << at for at in range(12, 24)]
FILES = (0, 1, 5, 9, 100, 1000, 4096, 1 << 20)
# signals that end whoever doesn't look after them, and those that end nobody
ENDING = [signal.SIGINT, signal.SIGTERM, signal.SIGHUP, signal.SIGQUIT, signal.SIGUSR1, signal.SIGALRM, signal.SIGVTALRM, signal.SIGXCPU]
PASSED_OVER = [signal.SIGPIPE, signal.SIGCHLD, signal.SIGURG, signal.SIGWINCH, signal.SIGCONT]


def is_closed(file, closed):
    if closed:
        os.close(file)


def started(program, call, before=lambda: None, **streams):
    """Starts a call on its tree, with signals as they are by themselves: a shell starts with some ignored what it doesn't wait for."""
    def begin():
        for it in ENDING + PASSED_OVER:
            signal.signal(it, signal.SIG_DFL)
        before()

    with open(f"{EXAMPLES}/{call.tree}.toml", "rb") as tree:
        how = {"stdin": tree, "stdout": subprocess.PIPE, "stderr": subprocess.PIPE, **streams}
        return subprocess.Popen([program, *call.words], preexec_fn=begin, **how)


def ended(program, call, before=lambda: None, **streams):
    child = started(program, call, before, **streams)
    out, err = child.communicate(timeout=SECONDS)
    return Ended(child.returncode, out or b"", err or b"")


def fault(ended):
    """The fault that a run ended with, or nothing."""
    line = ended.err.split(b"\n")[0].decode()
    return line.removeprefix("fault: ") if ended.status == FAULT and line.startswith("fault: ") else ""


class Runs:
    """What the calls of a program have to answer, and how many runs of each kind did."""

    def __init__(self, program):
        self.program, self.passed, self.failed = program, collections.Counter(), 0
        self.right = [ended(program, it) for it in CALLS]

    def take(self, kind, call, got, is_right):
        self.passed[kind] += bool(is_right)
        if not is_right:
            self.failed += 1
            print(f"surroundings: FAILED: {kind}: zirofen {' '.join(call.words)}: {str(tuple(got))[:300]}", flush=True)

    def closed_streams(self):
        """Each of the three streams is closed or not. A read from a closed one is a fault, and so is what can't be written."""
        for (call, right), closed in itertools.product(zip(CALLS, self.right), itertools.product((False, True), repeat=3)):
            got = ended(self.program, call, lambda closed=closed: [is_closed(file, it) for file, it in enumerate(closed)])
            no_in, no_out, no_err = closed
            reads = not fault(right).startswith("usage") and call.words != ["--help"]
            if no_in and reads:
                is_right = got.status == FAULT and not got.out and (no_err or fault(got) == "read")
            elif no_out and right.out:
                is_right = got.status == FAULT and not got.out and (no_err or fault(got) == "write")
            else:
                is_right = got.status == right.status and got.out == right.out and (no_err or got.err == right.err)
            self.take("closed streams", call, got, is_right)

    def full_devices(self):
        """Standard output, standard error or both are a device without room."""
        for (call, right), (out, err) in itertools.product(zip(CALLS, self.right), ((True, False), (False, True), (True, True))):
            for _ in range(3):
                with open("/dev/full", "wb") as full:
                    got = ended(self.program, call, **{"stdout": full} if out else {}, **{"stderr": full} if err else {})
                if out and right.out:
                    is_right = got.status == FAULT and (err or fault(got) == "write")
                else:
                    is_right = got.status == right.status and (out or got.out == right.out) and (err or got.err == right.err)
                self.take("full devices", call, got, is_right)

    def limits(self):
        """So little memory or stack that it may not even start is a fault or an end by a signal, and no other answer. Help beside an
        answer may be missing. Where no file may be opened beside the streams one that is named can't be read."""
        kinds = [(resource.RLIMIT_AS, it) for it in MEMORY] + [(resource.RLIMIT_DATA, it) for it in MEMORY[::4]]
        kinds += [(resource.RLIMIT_STACK, it) for it in STACK] + [(resource.RLIMIT_NOFILE, 3)]
        for (call, right), (kind, most) in itertools.product(zip(CALLS, self.right), kinds):
            try:
                got = ended(self.program, call, lambda kind=kind, most=most: resource.setrlimit(kind, (most, most)))
            except (OSError, subprocess.SubprocessError):
                continue
            same = got.status == right.status and got.out == right.out and right.err.startswith(got.err.split(b"\n")[0])
            by_signal = got.status in (-signal.SIGSEGV, -signal.SIGKILL, -signal.SIGBUS) and not got.out
            # where even a loader has no room
            not_begun = got.status == 127 and not got.out
            self.take("limits", call, got, same or fault(got) in ("memory", "read", "write") or by_signal or not_begun)

    def sizes_of_files(self):
        """Standard output is a file that may not grow beyond some bytes: a report is written whole, or not said to be."""
        def begin(most):
            signal.signal(signal.SIGXFSZ, signal.SIG_IGN)
            resource.setrlimit(resource.RLIMIT_FSIZE, (most, most))

        for (call, right), most in itertools.product(zip(CALLS, self.right), FILES):
            with tempfile.TemporaryFile() as out:
                got = ended(self.program, call, lambda most=most: begin(most), stdout=out)
                out.seek(0)
                written = out.read()
            if len(right.out) <= most:
                is_right = (got.status, written, got.err) == (right.status, right.out, right.err)
            else:
                is_right = fault(got) == "write" and right.out.startswith(written)
            self.take("sizes of files", call, got, is_right)

    def signals(self):
        """A signal ends it while it waits for its tree, or is passed over, and the answer is the one of the tree."""
        for (call, right), it in itertools.product(list(zip(CALLS, self.right))[:10], ENDING + PASSED_OVER):
            child = started(self.program, call, stdin=subprocess.PIPE)
            waiting(child.pid)
            child.send_signal(it)
            with open(f"{EXAMPLES}/{call.tree}.toml", "rb") as tree:
                out, err = child.communicate(tree.read() if it in PASSED_OVER else None, timeout=SECONDS)
            got = Ended(child.returncode, out, err)
            self.take("signals", call, got, got == right if it in PASSED_OVER else got == Ended(-it, b"", b""))

    def lost_readers(self):
        """Nobody reads standard output any more: a fault, and no end by SIGPIPE."""
        for _, (call, right) in itertools.product(range(10), zip(CALLS, self.right)):
            reading, writing = os.pipe()
            os.close(reading)
            got = ended(self.program, call, stdout=writing)
            os.close(writing)
            is_right = got.status == FAULT and fault(got) == "write" if right.out else got.status == right.status
            self.take("lost readers", call, got, is_right)


def waiting(pid):
    """Waits until a program waits for its input: it sleeps in a read, or the system doesn't tell in what."""
    for _ in range(10000):
        with open(f"/proc/{pid}/stat", encoding="ascii") as it:
            state = it.read().rpartition(")")[2].split()[0]
        with open(f"/proc/{pid}/comm", encoding="ascii") as it:
            has_begun = it.read() != "python3\n"
        if state == "S" and has_begun:
            return
        os.sched_yield()


def main():
    program = os.path.abspath(sys.argv[1]) if len(sys.argv) > 1 else f"{TOP}/zirofen"
    runs = Runs(program)
    runs.closed_streams()
    runs.full_devices()
    runs.limits()
    runs.sizes_of_files()
    runs.signals()
    runs.lost_readers()
    for kind, count in runs.passed.items():
        print(f"{kind}: {count}")
    passed = sum(runs.passed.values())
    print(f"{passed} passed, {runs.failed} failed")
    return 1 if runs.failed or not passed else 0


if __name__ == "__main__":
    sys.exit(main())
