"""Runs a program on cases, and compares what it writes with what it should."""
import dataclasses
import json
import os
import re
import shutil
import signal
import subprocess
import tempfile

from second import as_json, commands, documents, from_json, rules
from trials import cases, format_4

# what hangs is ended; a run may wait long for a processor, and all of a machine stand still
SECONDS = 7200


def known_commands(program):
    """The commands that a program lists in its help, those with an option where their help has it, that it writes JSON where it has that
    option, and format 4 where it reads that."""
    lines = help_of(program)
    listed = lines[lines.index("Commands:") + 1:]
    names = {line.split()[0] for line in listed[:listed.index("")]} & commands.OPTIONS.keys()
    for command, option in (("audit", "--all"), ("advise", "--pairs"), ("audit", "--pairs"), ("explain", "--pairs"), ("audit", "--settle"),
                            ("advise", "--settle"), ("audit", "--everybody"), ("audit", "--subtrees"), ("advise", "--everybody"),
                            ("explain", "--everybody")):
        if command in names and any(re.search(rf"{option}\b", line) for line in help_of(program, command)):
            names |= {f"{command} {option}"}
    if any(re.search(rf"{cases.FORMAT}\b", line) for line in help_of(program, "check")):
        names |= {cases.FORMAT}
    reads = subprocess.run([program, "upgrade"], input=format_4.TREE, capture_output=True).returncode == 0
    return frozenset(names | {format_4.FORMAT_4} if reads else names)


def help_of(program, *words):
    said = subprocess.run([program, *words, "--help"], capture_output=True, text=True, check=True)
    return said.stdout.splitlines() + [""]


class Room:
    """A folder in which a program is run, with as many bytes of stack as are said; it holds a folder named so."""

    def __init__(self, program, stack=None):
        # a shell sets the limit: what runs between fork and exec costs a copy of this process
        limit = ["sh", "-c", f'ulimit -s {stack // 1024} && exec "$@"', "sh"] if stack else []
        self.words = [*limit, program]
        self.program = program
        self.at = tempfile.mkdtemp()
        os.mkdir(os.path.join(self.at, "folder"))

    def __enter__(self):
        return self

    def __exit__(self, *_):
        shutil.rmtree(self.at)

    def run(self, case):
        """Standard output, the status and standard error of a case."""
        for name, data in case.files.items():
            with open(os.path.join(self.at, name), "wb") as out:
                out.write(data)
        with open("/dev/full" if case.full else os.devnull, "wb") as full:
            written = self.start(case, full if case.full else subprocess.PIPE)
        for name in case.files:
            os.remove(os.path.join(self.at, name))
        return written

    def start(self, case, stdout):
        try:
            ended = subprocess.run([*self.words, *case.words], cwd=self.at, input=case.stdin, stdout=stdout,
                                   stderr=subprocess.PIPE, timeout=SECONDS)
        except subprocess.TimeoutExpired:
            return b"", -signal.SIGALRM, b"took too long"
        return ended.stdout or b"", ended.returncode, ended.stderr

    def further(self, case, written):
        """What of a case's answer another run says otherwise, or ''."""
        if case.full or written[1] == 3:
            return ""
        if as_json.asks_for_json(case.words):
            return self.as_lines_otherwise(case, written)
        if case.words[:1] == ["upgrade"]:
            again = subprocess.run([self.program, "upgrade"], input=written[0], capture_output=True, timeout=SECONDS)
            return "" if again.stdout == written[0] else "the upgrade of what was written is another text"
        if case.words[:1] == ["explain"]:
            return self.told_otherwise(case, written[0], lambda said, alone: said[-1] == alone[0])
        if case.words[:1] != ["audit"] or "--settle" not in case.words:
            return ""
        if "--all" in case.words:
            return self.told_otherwise(case, written[0], lambda said, alone: said == alone or "escapes" not in (*said[:1], alone[0]))
        every = self.run(dataclasses.replace(case, words=[*case.words, "--all"]))
        return "" if written[1] == 0 or of_first(every[0]) == of_first(written[0]) else "audit --all of the same begins otherwise"

    def as_lines_otherwise(self, case, written):
        """How the lines of a case differ from what JSON says of it, or ''."""
        of_lines = self.run(dataclasses.replace(case, words=as_lines(case.words)))
        lines = from_json.lines_of(case.words, [json.loads(line) for line in written[0].splitlines()])
        said = "".join(f"{line}\n" for line in lines).encode("ascii"), *written[1:]
        return "" if of_lines == said else f"as lines it writes {of_lines}"

    def told_otherwise(self, case, report, agrees):
        """Which pair of a report has lines, without its first, that don't agree with what settle says of it, or ''."""
        call = commands.Call(case.words)
        told = {head: lines for head, *lines in (part.splitlines() for part in re.split(r"(?m)^(?=pair )", report.decode("ascii")) if part)}
        for (uid, gids), top in commands.asked(call, call.subtrees()):
            words = ["settle", "--uid", str(uid), *(word for gid in gids for word in ("--gid", str(gid))), "--subtree", top]
            tree = [] if call.one("--tree") is None else ["--tree", call.one("--tree")]
            alone = self.run(dataclasses.replace(case, words=words + tree))[0].decode("ascii").splitlines()
            head = commands.head_of((uid, gids), rules.path_of(top))
            if not agrees(told.get(head, []), alone):
                return f"of {head} settle says {alone}"
        return ""


def as_lines(words):
    """The words of a right call without those that ask for JSON."""
    at = next(at for at, word in enumerate(words) if word.partition("=")[0] == cases.FORMAT)
    return words[:at] + words[at + (1 if "=" in words[at] else 2):]


def expected_of(case, respond=as_json.respond):
    """What a case should give, or None where the model doesn't say."""
    try:
        return case.expected(respond)
    except Exception as fault:
        # a mutant may have a class of its own
        if type(fault).__name__ == documents.Unsure.__name__:
            return None
        raise


def difference(written, expected):
    """What of a run differs from what was expected, or ''."""
    stdout, status, stderr = written
    lines, wanted, fault = expected
    first = stderr.partition(b"\n")[0].decode("utf-8", "replace")
    said = first == fault if fault else all(line[:2] == b"  " for line in stderr.splitlines())
    if said and (is_right_report(stdout, status, lines[0]) if is_open(lines) else status == wanted and same_report(stdout, lines)):
        return ""
    shown = "\n".join(map(str, lines))
    return f"expected status {wanted} {fault}\n{shown}\nthere is {status} {first}\n{stdout.decode('utf-8', 'replace')}"


def is_right_report(stdout, status, open_report):
    text = stdout.decode("ascii", "replace")
    return text.endswith("\n") and open_report.is_right(text[:-1].split("\n"), status)


def of_first(report):
    """The lines of the first pair of a report, with its user's uid alone."""
    first, *lines = re.split(rb"(?m)^pair ", report)[1].splitlines()
    return re.sub(rb":\S+", b"", first, count=1), lines


def chosen(written, expected):
    """What was expected, or where more than one report is right the one that was written."""
    lines, _, fault = expected
    return (written[0].decode("ascii").splitlines(), written[1], fault) if is_open(lines) else expected


def is_open(lines):
    # a mutant may have a class of its own
    return bool(lines) and type(lines[0]).__name__ == commands.Open.__name__


def same_report(stdout, lines):
    return stdout == "".join(line + "\n" for line in lines).encode("ascii")


FAULT = re.compile(rb"fault: [a-z]+[a-z0-9 -]*\n")


def form_fault(written):
    """What is wrong with the form of a run about which nothing else is known, or ''."""
    stdout, status, stderr = written
    is_help = all(line[:2] == b"  " for line in stderr.splitlines())
    if status == 3 and FAULT.match(stderr) or status in (0, 1, 2) and is_help:
        return ""
    return f"status {status}, standard error {stderr[:200]!r}"
