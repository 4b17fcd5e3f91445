"""From a host to one picture of all of it, as SVG for the page: its cgroups as boxes in one another.

The larger a box the more is inside. Delegations have a dashed edge, and the colour and the sign of their answer; what is alike and of
which nothing is to be shown stands together, as a stack. An arrow is an escape. The page's style has the colours, by the classes that are
named here.
"""
from dataclasses import dataclass
from functools import cached_property
from html import escape
from typing import Dict, Iterator, List, NamedTuple, Sequence, Set, Tuple

from zirofen_host.judge import limits
from zirofen_host.profile import ancestors
from zirofen_host.show import words
from zirofen_host.show.finding import Article, Place, articles
from zirofen_host.show.markup import css
from zirofen_host.show.view import Host
from zirofen_host.show.words import ESCAPES, QUIET, SIGNS, STANDINGS

# for a screen or paper, and for a telephone
SIZES = (("wide", 960, 500), ("tall", 360, 500))
LINE, PAD, GAP = 16, 5, 4
# the width of a letter of the page's fixed type in this size, and of a box that has a text
LETTER, LEAST_WIDTH, LEAST_HEIGHT = 6.7, 30, 17
# delegations beside one another of which nothing is to be shown, and other cgroups, that are drawn one by one
FEW, FEW_OTHERS = 3, 1
# areas go by this power of the number of cgroups, and no box has less than a part of what it lies in
POWER, LEAST_PART = 0.6, 1 / 50
MOST_ARROWS = 16


class Rectangle(NamedTuple):
    left: float
    top: float
    width: float
    height: float

    def within(self, top: float, side: float) -> "Rectangle":
        """What is left inside of its edges."""
        return Rectangle(self.left + side, self.top + top, self.width - 2 * side, self.height - top - side)

    @property
    def middle(self) -> Tuple[float, float]:
        """Below a text, where there is room."""
        return self.left + self.width / 2, self.top + self.height / 2 + (LINE / 2 if self.height > 2 * LINE else 0)


@dataclass(frozen=True)
class Box:
    """A cgroup that is drawn, or some that stand together."""
    paths: Sequence[str]
    weight: int
    is_stack: bool = False


class Arrow(NamedTuple):
    before: str
    behind: str


def laid_out(weights: Sequence[float], room: Rectangle) -> List[Rectangle]:
    """Boxes in a room, in proportion to their weights and as square as they can be; the heaviest first."""
    found: List[Rectangle] = []
    left, at = sum(weights), 0
    while at < len(weights):
        side, length = min(room.width, room.height), max(room.width, room.height)
        count, best = 1, float("inf")
        for many in range(1, len(weights) - at + 1):
            row = weights[at:at + many]
            depth = length * sum(row) / left
            worst = max(max(depth / (side * each / sum(row)), side * each / sum(row) / depth) for each in (row[0], row[-1]))
            if worst > best:
                break
            count, best = many, worst
        row = weights[at:at + count]
        depth, along = length * sum(row) / left, 0.0
        for each in row:
            part = side * each / sum(row)
            found.append(Rectangle(room.left, room.top + along, depth, part) if room.width >= room.height else
                         Rectangle(room.left + along, room.top, part, depth))
            along += part
        room = (Rectangle(room.left + depth, room.top, room.width - depth, room.height) if room.width >= room.height else
                Rectangle(room.left, room.top + depth, room.width, room.height - depth))
        left, at = left - sum(row), at + count
    return found


class Chart:
    """The picture's boxes and arrows."""

    def __init__(self, host: Host, at: Place) -> None:
        self.host, self.at = host, at

    @cached_property
    def escapes(self) -> List[Article]:
        """The escapes, each once."""
        return [each for each in articles(self.host, self.at)
                if each.finding.kind == ESCAPES and each.broken and each.steps and not each.broken.shown_before]

    @cached_property
    def arrows(self) -> List[Arrow]:
        """From where a process is moved to where it goes, or from what lets somebody in to what they break."""
        found = []
        for each in self.escapes[:MOST_ARROWS]:
            if each.broken and each.steps:
                move, part = each.steps.breaks.move, each.finding.parts[0]
                found.append(Arrow(move.before, move.behind) if move else Arrow(getattr(part, "path"), each.broken.escape.subtree))
        return found

    @cached_property
    def loud(self) -> Set[str]:
        """The cgroups that are drawn one by one, and what is above them."""
        found = {path for path, kinds in self.host.standing.items() if kinds[0][0] not in QUIET}
        found |= {end for arrow in self.arrows for end in arrow if end in self.host.rows}
        return {"/", *found, *(above for path in found for above in ancestors(path))}

    @cached_property
    def weights(self) -> Dict[str, int]:
        """How many cgroups each is, with all inside."""
        found = dict.fromkeys(self.host.rows, 1)
        for path in sorted(found, key=lambda path: -path.count("/")):
            above = next(ancestors(path), None)
            if above is not None and path != "/":
                found[above] += found[path]
        return found

    @cached_property
    def held(self) -> Set[str]:
        """The delegations and what else has a sign, and all above these."""
        return {place for path in self.host.standing for place in (path, *ancestors(path))}

    def boxes(self, path: str) -> List[Box]:
        """What is drawn in a cgroup's box, the heaviest first."""
        below = self.host.children[path]
        quiet = [each for each in below if each not in self.loud]
        found = [Box([each], self.weights[each]) for each in below if each in self.loud]
        for paths, few in (([each for each in quiet if each in self.held], FEW),
                           ([each for each in quiet if each not in self.held], FEW_OTHERS)):
            if len(paths) > few:
                found.append(Box(paths, sum(self.weights[each] for each in paths), True))
            else:
                found += [Box([each], self.weights[each]) for each in paths]
        return sorted(found, key=lambda each: -each.weight)

    def kind(self, path: str) -> str:
        """The gravest answer of a cgroup, where it has one."""
        return self.host.standing[path][0][0] if path in self.host.standing else ""


class Drawn:
    """A picture of one size."""

    def __init__(self, chart: Chart, width: int, height: int) -> None:
        self.chart, self.size = chart, (width, height)
        self.parts: List[str] = []
        self.places: Dict[str, Rectangle] = {}
        left: List[Tuple[str, Rectangle]] = [("/", Rectangle(1, 1, width - 2, height - 2))]
        while left:
            left += self.cgroup(*left.pop())

    def cgroup(self, path: str, room: Rectangle) -> Iterator[Tuple[str, Rectangle]]:
        """Draws a cgroup's box, and gives those in it with their rooms."""
        self.places[path] = room
        kind = self.chart.kind(path)
        is_held = path in self.chart.host.delegations
        self.rectangle(room, f"{'edge' if is_held else 'box'} {css(kind)}".rstrip())
        is_named = self.text(room, f"{SIGNS[kind][0]} " if kind else "", path.rpartition("/")[2] or "/", css(kind))
        inner = room.within(LINE + PAD if is_named else PAD, PAD)
        if min(inner.width, inner.height) < PAD or path not in self.chart.loud and path not in self.chart.held:
            return
        boxes = self.chart.boxes(path)
        areas = [each.weight ** POWER for each in boxes]
        weights = [max(each, sum(areas) * LEAST_PART) for each in areas]
        for box, place in zip(boxes, laid_out(weights, inner)):
            place = Rectangle(place.left, place.top, max(place.width - GAP, 1), max(place.height - GAP, 1))
            if box.is_stack:
                self.stack(box, place)
            else:
                yield box.paths[0], place

    def stack(self, box: Box, room: Rectangle) -> None:
        """Some cgroups that are drawn as one box, with the edges of others behind it."""
        chart, host = self.chart, self.chart.host
        self.places.update(dict.fromkeys(box.paths, room))
        within = [each for path in box.paths if path in chart.held for each in host.below(path) if each in host.standing]
        kinds = {chart.kind(each) for each in within}
        kind = next((each for each in STANDINGS if each in kinds), "")
        name = f"{'edge' if within else 'box'} {css(kind)}".rstrip()
        step = min(3.0, room.width / 8, room.height / 8)
        for number in (2, 1, 0):
            self.rectangle(Rectangle(room.left + number * step, room.top + number * step, room.width - 2 * step,
                                     room.height - 2 * step), name)
        stand = words.listed(words.standing_text(each, host.report) for each in STANDINGS if each in kinds)
        description = f"{len(within)} {stand}" if within else f"{box.weight} others"
        self.text(room, f"{SIGNS[kind][0]} " if kind else "", description, css(kind))

    def rectangle(self, room: Rectangle, name: str) -> None:
        self.parts.append(f'<rect class="{name}" x="{room.left:.0f}" y="{room.top:.0f}" width="{max(room.width, 1):.0f}" '
                          f'height="{max(room.height, 1):.0f}" rx="3"/>')

    def text(self, room: Rectangle, sign: str, name: str, kind: str) -> bool:
        """A box's name with its sign, as far as there is room, or the sign alone. Whether it took a line."""
        most = int((room.width - 2 * PAD) / LETTER) - len(sign)
        if room.height < LEAST_HEIGHT or room.width < LEAST_WIDTH or most < 3:
            if sign and min(room.width, room.height) > 9:
                self.parts.append(f'<text class="sign {kind}" x="{room.left + room.width / 2 - 4:.0f}" '
                                  f'y="{room.top + room.height / 2 + 4:.0f}">{escape(sign.strip())}</text>')
            return False
        cut = name if len(name) <= most else name[:most - 1] + "…"
        title = f"<title>{escape(name)}</title>" if cut != name else ""
        signed = f'<tspan class="sign {kind}">{escape(sign)}</tspan>' if sign else ""
        self.parts.append(f'<text x="{room.left + PAD:.0f}" y="{room.top + LINE - 3:.0f}">{signed}{escape(cut)}{title}</text>')
        return True

    def place(self, path: str) -> Rectangle:
        """The box of a cgroup, or of the nearest above it."""
        return self.places[next(each for each in (path, *ancestors(path)) if each in self.places)]

    def arrow(self, arrow: Arrow) -> str:
        """A line from one box to another; to the edge of a box, where both are the same."""
        start, end = self.place(arrow.before), self.place(arrow.behind)
        (x, y), (to_x, to_y) = start.middle, end.middle
        if start == end:
            # it ends within its own edge, so that it leads into no neighbour
            to_y = start.top + start.height - GAP
        length = max(((to_x - x) ** 2 + (to_y - y) ** 2) ** 0.5, 1)
        along_x, along_y = (to_x - x) / length, (to_y - y) / length
        base_x, base_y = to_x - 9 * along_x, to_y - 9 * along_y
        return (f'<path class="arrow" d="M{x:.1f} {y:.1f}L{base_x:.1f} {base_y:.1f}"/>'
                f'<circle class="from" cx="{x:.1f}" cy="{y:.1f}" r="3"/>'
                f'<path class="head" d="M{to_x:.1f} {to_y:.1f}L{base_x - 4 * along_y:.1f} {base_y + 4 * along_x:.1f}L'
                f'{base_x + 4 * along_y:.1f} {base_y - 4 * along_x:.1f}z"/>')

    def svg(self, name: str, size: str) -> str:
        width, height = self.size
        return (f'<svg class="chart {size}" viewBox="0 0 {width} {height}" role="img" aria-labelledby="{name}">'
                f'<title id="{name}">{escape(description(self.chart))}</title>{"".join(self.parts)}'
                f'{"".join(map(self.arrow, self.chart.arrows))}</svg>')


def description(chart: Chart) -> str:
    """What the picture shows, for who doesn't see it."""
    delegations, contained, _ = chart.host.numbers
    arrows, mark = words.count(len(chart.arrows), "arrow"), limits.mark_of(chart.host.report)
    return (f"The host's {words.count(len(chart.host.rows), 'cgroup')} as boxes in one another: {words.count(delegations, 'delegation')}, "
            f"{contained} shown to be contained{mark}; {arrows} of escapes. The table has all of it.")


def html(host: Host, at: Place) -> str:
    """The picture in both of its sizes, of which the page shows one, and what its signs mean."""
    if not host.delegations:
        return ""
    chart = Chart(host, at)
    drawn = "\n".join(Drawn(chart, width, height).svg(f"{at.id}-chart-{size}", size) for size, width, height in SIZES)
    seen = {kind for kinds in host.standing.values() for kind, _ in kinds[:1]}
    signs = " ".join(f'<span class="{css(kind)} standing">{SIGNS[kind][0]} {words.standing_text(kind, host.report)}</span>'
                     for kind in STANDINGS if kind in seen)
    some = f", of {len(chart.escapes)} the first {len(chart.arrows)}" if len(chart.escapes) > len(chart.arrows) else ""
    arrows = f" An arrow: an escape{some}." if chart.arrows else ""
    return (f'<section id="{at.id}-chart"><{at.level(2)}>The host in one picture</{at.level(2)}>\n<figure>\n{drawn}\n<figcaption>{signs} '
            f"Dashed: the edge of a delegation. The larger a box, the more cgroups are inside.{arrows}</figcaption></figure></section>")
