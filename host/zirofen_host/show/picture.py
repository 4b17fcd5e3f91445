"""From an escape to a picture as SVG for the page: the cgroups from the root to the subtree as boxes in one another.

The subtree's edge is dashed, the entries that let somebody in are marked, and so is what they break: an arrow for a process that crosses
the edge, or what becomes of a limit. The page's style has the colours, by the classes that are named here.
"""
from dataclasses import dataclass, field
from html import escape
from typing import Dict, List, Mapping, Optional, Set, Tuple

from zirofen_host.ask.guards import GUARDS
from zirofen_host.collect.model import Value
from zirofen_host.judge.model import EntryFinding
from zirofen_host.profile import ancestors, is_inside, is_root
from zirofen_host.show import words
from zirofen_host.show.steps import GONE, LIMITS, OVER, Breaks
from zirofen_host.show.view import Escape, Host

WIDTH = 340
LINE, PAD, GAP = 18, 8, 6
# what stays free on the right for an arrow, and what each level takes from both sides
GUTTER, STEP = 28, 7
# the width of a letter of the page's fixed type in this size
LETTER = 6.7
# of a longer way, only boxes that matter are drawn
MOST_BOXES = 6
MOST_LIMITS = 4
MOST_ENTRIES = 5


@dataclass(frozen=True)
class Box:
    """A cgroup in the picture: its lines, each with a class, and the boxes in it."""
    path: str
    label: str
    lines: List[Tuple[str, str]] = field(default_factory=list)
    boxes: List["Box"] = field(default_factory=list)

    def height(self) -> int:
        below = sum(box.height() + GAP for box in self.boxes) + (PAD // 2 if self.boxes else 0)
        return PAD + LINE * (1 + len(self.lines)) + below


@dataclass(frozen=True)
class Shown:
    """What a picture is of: an escape as it was found, what it breaks, and the entries of one place to mark."""
    host: Host
    escape: Escape
    breaks: Breaks
    entries: List[EntryFinding]

    def boxes(self) -> Dict[str, Box]:
        """The boxes by their paths, each in that of the nearest cgroup above it which has one."""
        boxes: Dict[str, Box] = {}
        for path in sorted(self.places(), key=lambda path: (path.count("/"), path)):
            above = next((boxes[each] for each in ancestors(path) if each in boxes), None)
            label = path if above is None else path[len(above.path.rstrip("/")) + 1:]
            boxes[path] = Box(path, label)
            if above:
                above.boxes.append(boxes[path])
        self.add_lines(boxes)
        return boxes

    def places(self) -> Set[str]:
        """The cgroups that are drawn: the way to the subtree, what is marked, and both ends of what crosses its edge."""
        subtree, move = self.escape.subtree, self.breaks.move
        way = [*reversed(list(ancestors(subtree))), subtree]
        ends = (move.before, move.behind) if move else ()
        return {*(way if len(way) <= MOST_BOXES else ["/", *way[-2:]]), self.entries[0].path, *ends}

    def add_lines(self, boxes: Mapping[str, Box]) -> None:
        move, changes, lines = self.breaks.move, self.breaks.changes, boxes[self.escape.subtree].lines
        boxes[self.entries[0].path].lines.extend(self.marked())
        if move:
            process = self.host.processes.get(move.pid)
            name = f" ({process.name})" if process and process.name else ""
            way = "in" if is_inside(move.behind, self.escape.subtree) else "out"
            boxes[move.before].lines.append(("from", f"process {move.pid}{name}"))
            boxes[move.behind].lines.append(("to", f"process {move.pid}, moved {way}"))
        elif self.breaks.kind == LIMITS:
            lines += [("limit", f"{each.file}: {value(each.file, each.before)} → {value(each.file, each.behind)}")
                      for each in changes[:MOST_LIMITS]]
            more = len(changes) - MOST_LIMITS
            lines += [("limit", f"and {more} more limit{'s' if more > 1 else ''}")] if more > 0 else []
        elif self.breaks.kind == GONE:
            lines.append(("limit", "✗ the whole cgroup is removed"))
        elif self.breaks.kind == OVER:
            lines.append(("limit", "✗ over its own limits"))

    def marked(self) -> List[Tuple[str, str]]:
        """The lines of the mark: whom the entries let in, and their names."""
        whom = self.entries[0].whom
        names = [words.named(each.entry) for each in self.entries]
        how = words.how(whom[0], 1) if len(whom) == 1 else f"{words.who(whom)} reach"
        if names[0] in GUARDS:
            return []
        return [("mark", f"✗ {how}")] + [("entry", f"   {name}") for name in words.some(names, MOST_ENTRIES)]

    def description(self) -> str:
        """What the picture shows, for who doesn't see it."""
        start = f"Boxes from the root to {self.escape.subtree}, whose edge is dashed. Marked: " + words.listed(
            f"{words.named(each.entry)} of {each.path}" for each in self.entries)
        if self.breaks.kind == OVER:
            return f"{start}. The subtree is over its own limits."
        move = self.breaks.move
        arrow = f"; an arrow goes from {move.before} to {move.behind}" if move else ""
        return f"{start}. {self.escape.who} {self.breaks.verb} the subtree{arrow}."


class Drawn:
    """The parts of a picture, as they are drawn, and where the ends of its arrow are."""

    def __init__(self, edge: str, breaks: Breaks) -> None:
        self.edge, self.breaks = edge, breaks
        self.parts: List[str] = []
        self.ends: Dict[str, Tuple[float, int]] = {}

    def draw(self, box: Box, left: int, top: int, right: int) -> None:
        """A box with its lines, and then those in it; a class tells what each is."""
        kind = "edge" if box.path == self.edge else "box"
        gone = " gone" if kind == "edge" and self.breaks.kind == GONE else ""
        size = f'width="{right - left}" height="{box.height()}"'
        self.parts.append(f'<rect class="{kind}{gone}" x="{left}" y="{top}" {size} rx="5"/>')
        inner = right - (GUTTER if is_root(box.path) and self.breaks.move else 0)
        self.text("name", box.label, left + PAD, top + 16, inner - PAD, box.path)
        y = top + 16
        marked = sum(kind in ("mark", "entry") for kind, _ in box.lines)
        if marked:
            self.parts.append(f'<rect class="mark" x="{left + PAD - 3}" y="{y + 5}" width="{inner - left - 2 * PAD + 6}" '
                              f'height="{LINE * marked}" rx="3"/>')
        for kind, text in box.lines:
            y += LINE
            self.line(kind, text, left + PAD, y, inner - PAD)
        y += PAD
        for each in box.boxes:
            self.draw(each, left + STEP, y, inner - STEP)
            y += each.height() + GAP

    def line(self, kind: str, text: str, left: int, y: int, right: int) -> None:
        if kind in ("from", "to"):
            self.parts.append(f'<circle class="{kind}" cx="{left + 5}" cy="{y - 4}" r="4"/>')
            left += 14
            self.ends[kind] = (min(left + len(text) * LETTER, right) + 4, y - 4)
        self.text(kind, text, left, y, right)

    def text(self, kind: str, text: str, left: int, y: int, right: int, whole: Optional[str] = None) -> None:
        """A text with its end kept where it is a path, and else its beginning."""
        most = int((right - left) / LETTER)
        cut = text
        if len(text) > most:
            cut = "…" + text[1 - most:] if kind == "name" else text[:most - 1] + "…"
        title = f"<title>{escape(whole or text)}</title>" if cut != text else ""
        self.parts.append(f'<text class="{kind}" x="{left}" y="{y}">{escape(cut)}{title}</text>')

    def arrow(self) -> str:
        if len(self.ends) < 2:
            return ""
        (x, y), (to_x, to_y) = self.ends["from"], self.ends["to"]
        bend = WIDTH - GUTTER / 2 - 2
        return (f'<path class="arrow" d="M{x:.0f} {y}H{bend:.0f}V{to_y}H{to_x + 2:.0f}"/>'
                f'<path class="head" d="M{to_x:.0f} {to_y}l8 -4v8z"/>')


def svg(shown: Shown, name: str) -> str:
    """The picture, whose title has the id `name`."""
    top = shown.boxes()["/"]
    drawn = Drawn(shown.escape.subtree, shown.breaks)
    drawn.draw(top, 2, 2, WIDTH - 2)
    return (f'<svg class="picture" viewBox="0 0 {WIDTH} {top.height() + 4}" role="img" aria-labelledby="{name}">'
            f'<title id="{name}">{escape(shown.description())}</title>{"".join(drawn.parts)}{drawn.arrow()}</svg>')


def value(file: str, found: Optional[Value]) -> str:
    """A limit's value, or that it has none, since nobody has set it or its file isn't there."""
    return "no limit file" if found is None else "not set" if found == "" else words.size(file, found)
