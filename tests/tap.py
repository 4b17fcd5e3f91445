"""Reads TAP, in which tests of the kernel's form say what became of their cases."""
import re
from dataclasses import dataclass, field

HEAD = "TAP version 13"
PLAN = re.compile(r"1\.\.(\d+)(?: # SKIP (.*))?")
CASE = re.compile(r"(not )?ok \d+ (.*?)( # SKIP.*)?")


@dataclass
class Tap:
    """The cases of one run by what became of them, how many there should be, and why there are none."""
    planned: int = -1
    why_none: str = ""
    passed: list = field(default_factory=list)
    failed: list = field(default_factory=list)
    skipped: list = field(default_factory=list)

    def is_whole(self):
        return self.planned == len(self.passed + self.failed + self.skipped)


def read(text):
    """Returns the runs that a text has, one behind the other."""
    runs = []
    for line in text.splitlines():
        plan, case = PLAN.fullmatch(line), CASE.fullmatch(line)
        if line == HEAD:
            runs.append(Tap())
        elif runs and plan:
            runs[-1].planned, runs[-1].why_none = int(plan[1]), plan[2] or ""
        elif runs and case:
            (runs[-1].skipped if case[3] else runs[-1].failed if case[1] else runs[-1].passed).append(case[2])
    return runs


def faults_of(runs):
    """Returns what is wrong with two runs of tests/kernel/refusals.c, of which the second has each set-up let the act through."""
    if len(runs) != 2 or not all(it.is_whole() and it.planned for it in runs):
        return ["the two runs didn't come to their ends"]
    plain, opened = runs
    return [f"not refused: {it}" for it in plain.failed] + [f"refused though it is opened: {it}" for it in opened.passed]
