"""From a report to its hierarchy as a tree of lines, for a terminal."""
import os
import shlex
import shutil
import subprocess
import sys
from dataclasses import dataclass
from typing import Iterable, Iterator, List, Mapping, NamedTuple, Optional, Sequence, Tuple, Union

from zirofen_host import ending, progress
from zirofen_host.arguments import LEAST_WIDTH
from zirofen_host.collect import bounded
from zirofen_host.fault import Fault, plain
from zirofen_host.judge import limits
from zirofen_host.judge.finding_lines import INSIDE_MEANS, inside_text
from zirofen_host.judge.severity import of_fault
from zirofen_host.judge.standing import status_text
from zirofen_host.judge.model import DiffersFinding, HeldFinding, PremiseFinding, Report, RootInside, RunsElsewhere
from zirofen_host.options import TreeOptions
from zirofen_host.profile import is_inside, is_root, text_of
from zirofen_host.show import words
from zirofen_host.show.lines import scope_text
from zirofen_host.show.view import Host, accepted_of, entry_of, host_of, whom_of
from zirofen_host.show.words import COUNTED, SIGNS, STANDINGS

# a cgroup, or those that are folded, with what stands before its line and before the lines below it
Left = Tuple[Union[str, Sequence[str]], str, str]


@dataclass(frozen=True)
class Drawing:
    """How a tree is drawn; of no width, lines aren't cut."""
    width: Optional[int] = None
    is_ascii: bool = False
    is_coloured: bool = False
    is_all: bool = False
    only: str = "/"


class Glyphs(NamedTuple):
    bar: str
    branch: str
    last: str
    gap: str
    cut: str


UTF8 = Glyphs("│ ", "├─", "└─", "  ", "…")
ASCII = Glyphs("| ", "|-", "`-", "  ", "..")
RED, MAGENTA, YELLOW, CYAN, FAINT, GREEN = "1;31", "1;35", "1;33", "36", "2", "32"
COLOURS = dict(zip(STANDINGS, (RED, RED, MAGENTA, YELLOW, RED, FAINT, YELLOW, YELLOW, CYAN, CYAN, FAINT, FAINT, GREEN)))
DIM = "2"
# columns that a name keeps beside its answer
LEAST_NAME = 14


class Drawer:
    """Draws a host."""

    def __init__(self, host: Host, drawing: Drawing) -> None:
        self.host, self.drawing = host, drawing
        self.glyphs = ASCII if drawing.is_ascii else UTF8

    def lines(self) -> Iterator[str]:
        only = self.drawing.only
        if only not in self.host.rows:
            raise Fault(f"there is no cgroup {only!a} in the report")
        report = self.host.report
        head = words.name_of(report), report.kernel, report.time, *words.made_by(report)
        yield self.cut_end(", ".join(filter(None, head)), self.drawing.width)
        left: List[Left] = [(only, "", "")]
        while left:
            path, first, rest = left.pop()
            if isinstance(path, str):
                yield from self.cgroup_lines(path, first, rest)
                left += reversed(self.below(path, rest))
            else:
                yield self.folded_line(path, first)
        yield from self.legend()

    def below(self, path: str, rest: str) -> List[Left]:
        """What stands below a cgroup, with the branches before it."""
        shown, folded = self.host.split(path) if not self.drawing.is_all else (self.host.children[path], [])
        found: List[Union[str, Sequence[str]]] = [*shown, *([folded] if folded else [])]
        branches = [(self.glyphs.branch, self.glyphs.bar)] * (len(found) - 1) + [(self.glyphs.last, self.glyphs.gap)]
        return [(each, rest + branch, rest + bar) for each, (branch, bar) in zip(found, branches)]

    def folded_line(self, paths: Sequence[str], first: str) -> str:
        whose = "nobody's but root's" if all(map(self.host.is_roots, paths)) else "no delegation among them"
        text = f".. {words.count(len(paths), 'cgroup')}, {whose}"
        first = self.short(first)
        return first + self.coloured(self.cut_end(text, self.left_of(first)), DIM)

    def cgroup_lines(self, path: str, first: str, rest: str) -> Iterator[str]:
        """A cgroup's own line with how it stands, and what is to be shown of it."""
        first, rest = self.short(first), self.short(rest)
        name = path if is_root(path) or path == self.drawing.only else path.rpartition("/")[2]
        kinds = [kind for kind, _ in self.host.standing.get(path, ())]
        report = self.host.report
        standing = ", ".join(f"{SIGNS[kind][self.drawing.is_ascii]} {words.standing_text(kind, report)}" for kind in kinds)
        room = self.left_of(first)
        is_beside = not kinds or room is None or room - len(standing) - 2 >= min(len(name), LEAST_NAME)
        name = self.cut_front(name, room if room is None or not kinds or not is_beside else room - len(standing) - 2)
        state = self.coloured(standing, COLOURS[kinds[0]]) if kinds else ""
        yield first + name + (f"  {state}" if kinds and is_beside else "")
        bar = rest + (self.glyphs.bar if self.host.children[path] else self.glyphs.gap)
        if not is_beside:
            yield from self.wrapped(bar, standing, COLOURS[kinds[0]])
        scope = self.host.scopes.get(path)
        if scope:
            yield from self.wrapped(bar, scope_text(scope))
        for text in self.details(path):
            yield from self.wrapped(bar, text)

    def details(self, path: str) -> Iterator[str]:
        """To whom it was handed and by what, its limits, and whom its entries let in."""
        if path in self.host.subtrees:
            entries = self.host.entries(path)
            yield f"to {self.host.holder(path)}" + (f" by {' '.join(entries)}" if entries else "")
        limits = self.host.limits(path) if path in self.host.standing else []
        if limits:
            yield ", ".join(f"{file} {value}" for file, value in limits)
        if path in self.host.root_inside and self.host.root_inside[path].held:
            yield f"root inside, {inside_text(self.host.root_inside[path])}"
        for _, finding in self.host.notes.get(path, ()):
            names, first = list(map(entry_of, finding.parts)), finding.parts[0]
            sign = SIGNS[finding.kind][self.drawing.is_ascii] if finding.kind in SIGNS else "~"
            if isinstance(first, DiffersFinding):
                yield f"{sign} {' '.join(first.entries)} not as a service manager leaves it"
            elif isinstance(first, RootInside):
                yield f"{sign} root inside, {inside_text(first)}"
            elif isinstance(first, RunsElsewhere):
                yield f"{sign} {words.who(first.whom)} {words.verb(first.whom, 'runs', 'run')} elsewhere: {' '.join(first.elsewhere)}"
            elif isinstance(first, HeldFinding):
                yield f"{sign} {first.file} held open by {words.who(first.whom)}"
            elif isinstance(first, PremiseFinding):
                yield f"{sign} {first.what}: {first.told}"
            else:
                why = accepted_of(first)
                yield (f"{sign} {' '.join(names)} let{'s' if len(names) == 1 else ''} in {words.who(whom_of(first))}"
                       + (f", accepted: {why}" if why else ""))

    def legend(self) -> Iterator[str]:
        """The numbers, and what the signs that were drawn mean."""
        delegations, contained, open_findings = self.host.numbers
        yield ""
        narrowed = limits.line_of(self.host.report)
        of = "Of what was asked: " if narrowed else "" if is_root(self.drawing.only) else "The whole host has "
        many = words.count(open_findings, "finding")
        yield from self.wrapped("", f"{of}{words.count(delegations, 'delegation')}: {contained} shown to be contained"
                                f"{limits.mark_of(self.host.report)}; {many if narrowed else many + ' open'}")
        yield from self.wrapped("", f"Status {status_text(self.host.report)}")
        if narrowed:
            yield from self.wrapped("", narrowed[0].upper() + narrowed[1:])
        for path, fault in self.host.lost:
            yield from self.wrapped("", f"{SIGNS[of_fault(fault).value][self.drawing.is_ascii]} {path}: {fault.fault}")
        seen = {kind for path, kinds in self.host.standing.items() for kind, _ in kinds if is_inside(path, self.drawing.only)}
        for kind in STANDINGS:
            if kind in seen:
                sign = SIGNS[kind][self.drawing.is_ascii]
                yield from self.wrapped("", f"{sign} {words.standing_text(kind, self.host.report)}: {words.MEANINGS[kind]}")
        if any(is_inside(path, self.drawing.only) for path in self.host.root_inside):
            yield from self.wrapped("", f"root inside: {INSIDE_MEANS}")
        if any(finding.kind in COUNTED for finding in self.host.findings):
            command = shlex.join(("zirofen-host", "check", *self.host.report.given))
            yield from self.wrapped("", f"What to change: {command}, or zirofen-host page of its --json.")

    def coloured(self, text: str, colour: str) -> str:
        return f"\x1b[{colour}m{text}\x1b[0m" if self.drawing.is_coloured and text else text

    def left_of(self, before: str) -> Optional[int]:
        return None if self.drawing.width is None else max(self.drawing.width - len(before), 1)

    def short(self, before: str) -> str:
        """The branches before a line, of which a narrow terminal has room for the last."""
        most = None if self.drawing.width is None else self.drawing.width // 2
        if most is None or len(before) <= most:
            return before
        kept = max(most - len(self.glyphs.cut), 0) // 2 * 2
        return self.glyphs.cut + before[len(before) - kept:]

    def cut_front(self, text: str, room: Optional[int]) -> str:
        if room is None or len(text) <= room:
            return text
        kept = room - len(self.glyphs.cut)
        return self.glyphs.cut + text[-kept:] if kept > 0 else text[len(text) - room:]

    def cut_end(self, text: str, room: Optional[int]) -> str:
        if room is None or len(text) <= room:
            return text
        return text[:max(room - len(self.glyphs.cut), 0)] + self.glyphs.cut[:room]

    def wrapped(self, before: str, text: str, colour: str = "") -> Iterator[str]:
        """A text in lines of what room there is, with a longer word's end kept."""
        room = self.left_of(before)
        line = ""
        for word in text.split(" "):
            word = self.cut_front(word, room if room is None or not line else room - 2)
            if line and room is not None and len(line) + 1 + len(word) > room:
                yield before + (self.coloured(line, colour) if colour else line)
                line = "  " + word
            else:
                line = f"{line} {word}" if line else word
        yield before + (self.coloured(line, colour) if colour else line)


def draw(report: Report, drawing: Drawing) -> List[str]:
    """The lines of a report's tree."""
    return list(Drawer(host_of(report, plain), drawing).lines())


def is_utf8(environment: Mapping[str, str]) -> bool:
    """Whether a locale has UTF-8. Python sets LC_CTYPE where it finds none, and so the environment is that of the start."""
    name = next((environment[key] for key in ("LC_ALL", "LC_CTYPE", "LANG") if environment.get(key)), "")
    return name.lower().replace("-", "").endswith("utf8")


def environment_of_start() -> Mapping[str, str]:
    """The environment as it was given."""
    try:
        given = bounded.read_file("/proc/self/environ", bounded.PROC_FILE).text(errors="replace")
    except OSError:
        return os.environ
    return dict(each.split("=", 1) for each in given.split("\0") if "=" in each)


def drawing_of(options: TreeOptions, environment: Mapping[str, str], is_terminal: bool) -> Drawing:
    """How to draw, by the options and by what the output is."""
    columns = options.width or (max(shutil.get_terminal_size().columns, LEAST_WIDTH) if is_terminal else None)
    is_coloured = is_terminal and not environment.get("NO_COLOR") and environment.get("TERM") != "dumb"
    is_coloured = {"always": True, "never": False}.get(options.colour, is_coloured)
    only = (text_of(options.only) if options.only else "").rstrip("/") or "/"
    return Drawing(columns, options.ascii or not is_utf8(environment), is_coloured, options.all, only)


def pager_of(options: TreeOptions, environment: Mapping[str, str], is_terminal: bool) -> Optional[str]:
    """The pager's command, or None."""
    pager = environment.get("PAGER", "less").strip()
    return None if options.no_pager or not is_terminal or pager in ("", "cat") else pager


def show(lines: Iterable[str], pager: Optional[str], encoding: str) -> None:
    """Writes the lines, through a pager where there is one. It may start no other programs, since root asks."""
    text = "".join(f"{line}\n" for line in lines).encode(encoding, "backslashreplace")
    progress.end()
    if pager and shutil.which(pager.split()[0]):
        environment = {"LESS": "FRSX", **os.environ, "LESSSECURE": "1"}
        with subprocess.Popen(["sh", "-c", pager], stdin=subprocess.PIPE, env=environment) as shown, ending.uninterrupted():
            try:
                shown.communicate(text)
            except BrokenPipeError:
                pass
        return
    if sys.stdout is None:
        raise Fault("standard output is closed")
    try:
        sys.stdout.buffer.write(text)
        sys.stdout.buffer.flush()
    except BrokenPipeError:
        raise Fault("what reads the output has ended") from None
    except OSError as error:
        raise Fault(f"can't write the output: {error.strerror}") from None
