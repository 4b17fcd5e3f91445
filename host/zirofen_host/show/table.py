"""From the delegations of a host to a table of the page, the gravest first.

A page's script filters it, and all of it is there without.
"""
from collections import Counter
from dataclasses import dataclass
from functools import cached_property
from typing import Dict, Iterable, Iterator, List, Mapping, Optional, Sequence

from zirofen_host.files import HANDED_OVER
from zirofen_host.show import words
from zirofen_host.show.finding import Place, id_of
from zirofen_host.show.lines import beside
from zirofen_host.show.markup import code, css, fold, text
from zirofen_host.show.view import Host
from zirofen_host.show.words import CONTAINED, QUIET, SIGNS, STANDINGS

# rows that are never folded, those that a long table shows at least, and at most
FEW, LEAST, MOST = 30, 10, 40
# of more folded rows paper has how many there are in each slice
ON_PAPER = 500
COLUMNS = ("Answer", "Where", "Handed to", "By what", "Limits")
# the usual entries, in few words
ALL_THREE = "all three"


@dataclass(frozen=True)
class Table:
    """The table of a host's delegations."""
    host: Host
    at: Place

    @cached_property
    def paths(self) -> List[str]:
        standing = self.host.standing
        return sorted(self.host.delegations, key=lambda path: (STANDINGS.index(standing[path][0][0]), words.in_order(path)))

    def answer(self, path: str) -> str:
        """The gravest answer of a delegation."""
        return self.host.standing[path][0][0]

    @cached_property
    def shown(self) -> int:
        """How many rows aren't folded: all of a few, and else those with something to tell."""
        if len(self.paths) <= FEW:
            return len(self.paths)
        return min(max(sum(self.answer(path) not in QUIET for path in self.paths), LEAST), MOST)

    def html(self) -> str:
        if not self.paths:
            return "<p>There are none.</p>"
        numbers = {each.path: number for number, each in enumerate(self.host.report.subtrees, 1)}
        rows = [self.row(path, numbers.get(path)) for path in self.paths]
        folded = self.folded(dict(zip(self.paths[self.shown:], rows[self.shown:]))) if rows[self.shown:] else ""
        return table(rows[:self.shown], "The gravest first") + folded + self.usual()

    def folded(self, rows: Mapping[str, str]) -> str:
        """The rest of the table behind a fold, which says what is in it; of many rows those of each slice behind one of their own."""
        slices: Dict[str, List[str]] = {}
        for path in rows:
            slices.setdefault("/" + path.split("/")[1], []).append(path)
        kind = "slice closed" if len(rows) > ON_PAPER else "slice"
        inside = (table(list(rows.values()), "The others") if len(rows) <= MOST else
                  "\n".join(fold(f"{len(paths)} in {code(top)}: {self.counts(paths)}", table([rows[path] for path in paths], top), kind)
                            for top, paths in slices.items()))
        return fold(f"{len(rows)} more: {self.counts(rows)}", inside)

    def counts(self, paths: Iterable[str]) -> str:
        """How many of these stand how."""
        answers = Counter(map(self.answer, paths))
        return ", ".join(f"{answers[kind]} {words.standing_text(kind, self.host.report)}" for kind in STANDINGS if answers[kind])

    def usual(self) -> str:
        """What stands for the usual entries, where it does."""
        is_there = any(set(HANDED_OVER) <= set(self.host.entries(path)) for path in self.host.subtrees)
        return (f'<p class="means">{ALL_THREE.capitalize()}: the directory, <code>cgroup.procs</code> and '
                "<code>cgroup.subtree_control</code>.</p>") if is_there else ""

    def row(self, path: str, number: Optional[int]) -> str:
        is_known = path in self.host.subtrees
        where = code(path) + text(beside(self.host.scopes, path))
        cells = (" ".join(self.answers(path)), where, text(self.host.holder(path)) if is_known else "",
                 self.by_what(path) if is_known else "", self.limits(path) if is_known else "")
        name = f' id="{self.at.id}-subtrees-{number}"' if number else ""
        return f"<tr{name}>" + "".join(f"<td>{each}</td>" for each in cells) + "</tr>"

    def answers(self, path: str) -> Iterator[str]:
        """Each kind of answer with its sign, and a link to the finding that says so."""
        known = self.host.subtrees.get(path)
        for kind, number in self.host.standing[path]:
            whom = " against everybody" if kind == CONTAINED and known and known.is_against_everybody else ""
            sign = f'<span aria-hidden="true">{SIGNS[kind][0]}</span> {words.standing_text(kind, self.host.report)}{whom}'
            yield (f'<span class="{css(kind)} standing">{sign}</span>' if number is None else
                   f'<a class="{css(kind)} standing" href="#{id_of(self.at, number)}">{sign}</a>')

    def by_what(self, path: str) -> str:
        entries = self.host.entries(path)
        rest = [each for each in entries if each not in HANDED_OVER]
        if set(HANDED_OVER) <= set(entries):
            return ", ".join([ALL_THREE, *map(code, rest)])
        return ", ".join(text(words.named(each)) if each == "dir" else code(each) for each in entries)

    def limits(self, path: str) -> str:
        return ", ".join(f"{text(file)} {text(value)}" for file, value in self.host.limits(path))


def table(rows: Sequence[str], caption: str) -> str:
    head = "".join(f'<th scope="col">{each}</th>' for each in COLUMNS)
    return (f'<table class="delegations"><caption>{text(caption)}</caption><thead><tr>{head}</tr></thead><tbody>\n'
            + "\n".join(rows) + "\n</tbody></table>")
