"""One call of the program and what it has to answer: what the tables of this folder are made of."""
import contextlib
import os
import subprocess
import sys
from dataclasses import dataclass, field

TOP = os.path.dirname(os.path.dirname(os.path.dirname(os.path.abspath(__file__))))
EXAMPLES = f"{TOP}/examples"
DELEGATION = f"{EXAMPLES}/delegation.toml"
# stands among the words of a call for the name of a pipe
PIPE = "PIPE"


@dataclass(frozen=True)
class Ended:
    status: int
    output: bytes
    errors: bytes

    @property
    def fault(self):
        """The first line of standard error that isn't help, or nothing."""
        return next((line for line in self.lines if not line.startswith("  ")), "")

    @property
    def help(self):
        """What stands beside the fault's line."""
        lines = self.lines
        if self.fault:
            lines.remove(self.fault)
        return lines

    @property
    def lines(self):
        return self.errors.decode("utf-8", "replace").splitlines()


@dataclass(frozen=True)
class Case:
    """The words of a call, with the file or the bytes at its standard input and those of a pipe, and what has to come of it. Of standard
    error that is the first line; below a fault's line each line stands behind two blanks."""
    words: list
    status: int
    lines: list = field(default_factory=list)
    fault: str = ""
    given: bytes = None
    output: str = None
    piped: bytes = b""

    def failure(self, program):
        """Why a program's answer isn't this one, or nothing."""
        ended = call(program, self.words, self.given, self.output, self.piped)
        wrong = []
        if ended.status != self.status:
            wrong.append(f"status {ended.status}, and not {self.status}")
        if self.output is None and ended.output != "".join(f"{line}\n" for line in self.lines).encode():
            wrong.append(f"standard output {ended.output!r}, and not {self.lines}")
        if ended.fault != self.fault:
            wrong.append(f"the fault {ended.fault!r}, and not {self.fault!r}")
        if any(not line.startswith("  ") for line in ended.help):
            wrong.append(f"help that isn't indented: {ended.help}")
        return "; ".join(wrong)


def call(program, words, given=None, output=None, piped=b""):
    """Runs a program on the tree of a delegation, or on other bytes, with its output kept or written to a device. A pipe that a word
    names gives some bytes, as many as it holds at most."""
    with open(DELEGATION, "rb") as tree, filled_pipe(piped) as pipe:
        source = {"stdin": tree} if given is None else {"input": given}
        words = [f"/dev/fd/{pipe}" if word == PIPE else word for word in words]
        if output is None:
            ended = subprocess.run([program, *words], capture_output=True, pass_fds=[pipe], **source)
        else:
            with open(output, "wb") as device:
                ended = subprocess.run([program, *words], stdout=device, stderr=subprocess.PIPE, pass_fds=[pipe], **source)
    return Ended(ended.returncode, ended.stdout or b"", ended.stderr)


@contextlib.contextmanager
def filled_pipe(content):
    """The number of a pipe that ends behind these bytes."""
    pipe, into = os.pipe()
    with open(into, "wb") as end:
        end.write(content)
    with open(pipe, "rb"):
        yield pipe


def run(cases, name):
    """Runs each case, writes what fails, and the count as the last line. The status is that of a test."""
    program = os.path.abspath(sys.argv[1]) if len(sys.argv) > 1 else f"{TOP}/zirofen"
    passed = failed = 0
    for case in cases(program):
        failure = case.failure(program)
        if failure:
            failed += 1
            print(f"{name}: FAILED: zirofen {' '.join(map(repr, case.words))}: {failure}")
        else:
            passed += 1
    print(f"{passed} passed, {failed} failed")
    return 1 if failed or not passed else 0
