"""From the findings of a host to groups: those that differ in names alone are one, with the names of all."""
import re
from dataclasses import dataclass
from typing import Dict, Hashable, Iterator, List, Sequence

from zirofen_host.judge.model import DiffersFinding, EntryFinding, FaultFinding, HeldFinding, PremiseFinding, RootInside, RunsElsewhere
from zirofen_host.show import words
from zirofen_host.show.finding import Article, Place, articles
from zirofen_host.show.markup import commands, css, filled, fold
from zirofen_host.show.view import Host, Part, accepted_of, subtrees_of, whom_of
from zirofen_host.show.words import SIGNS

# members of a group that have a picture and steps of their own
SHOWN = 12
# what of a fault's line is a name or a number
_NAMES = re.compile(r"/\S*|[0-9]+")


def part_in_common(part: Part) -> Hashable:
    """What a part of a finding has but for names."""
    if isinstance(part, FaultFinding):
        return _NAMES.sub("", part.fault), part.made_by is None
    if isinstance(part, DiffersFinding):
        return part.entries
    if isinstance(part, RootInside):
        return part.ways, part.setting
    if isinstance(part, RunsElsewhere):
        return part.is_across, part.why != ()
    if isinstance(part, HeldFinding):
        return part.file, part.is_sure
    if isinstance(part, PremiseFinding):
        return part.what, part.entry
    by, mode = tuple(each.by for each in whom_of(part)), part.owner.mode if part.owner else None
    if isinstance(part, EntryFinding):
        return part.entry, mode, by, words.where(part.path, part.subtrees) if part.subtrees else None
    return part.file, mode, by, part.why


def in_common(article: Article) -> Hashable:
    """What findings have in common that are shown together."""
    finding, broken = article.finding, article.broken
    how: Hashable = None
    if broken:
        steps = tuple(words.operation(line) for line in broken.escape.lines)
        how = steps, broken.steps.breaks.kind if broken.steps else None, broken.shown_before is None
    first = finding.parts[0]
    parts = tuple(map(part_in_common, finding.parts))
    return finding.kind, accepted_of(first), finding.key, parts, len(subtrees_of(first)) > 1, how


@dataclass(frozen=True)
class Group:
    """Findings that are alike, of which the first is shown whole."""
    members: Sequence[Article]

    def html(self, is_open: bool) -> str:
        first = self.members[0]
        kind, others = first.finding.kind, len(self.members) - 1
        return filled("group.html", kind=css(kind), id=f' id="{first.id}"' if not others else "", open=" open" if is_open else "",
                      heading=first.at.level(3), sign=SIGNS[kind][0] if kind in SIGNS else "~", word=kind,
                      title=first.title() + (f", and {others} more {'is' if others == 1 else 'are'} alike" if others else ""),
                      details=self.details() if others else first.html())

    def details(self) -> str:
        """All of them: each behind a fold of its own, and what mends them all at the end."""
        shown = "\n".join(self.member(each) for each in self.members[:SHOWN])
        rest = "\n".join(f'<li class="member" id="{each.id}">{each.what()}</li>' for each in self.members[SHOWN:])
        more = fold(f"{len(self.members) - SHOWN} more", f'<ul class="members">\n{rest}\n</ul>') if rest else ""
        return f'<ul class="members">\n{shown}\n</ul>\n{more}{self.change()}'

    def member(self, each: Article) -> str:
        return f'<li class="member" id="{each.id}"><details><summary>{each.title()}</summary>\n{each.html()}\n</details></li>'

    def change(self) -> str:
        """What mends all of them, a line or more for each."""
        changes = [line for each in self.members for line in each.changes()]
        heading = f"What to change, for all {len(self.members)}"
        if len(changes) > SHOWN:
            return fold(heading, commands(changes))
        level = self.members[0].at.level(4)
        return f"<{level}>{heading}</{level}>{commands(changes)}" if changes else ""


def groups(host: Host, at: Place) -> Iterator[Group]:
    """The groups in the order of the gravest that is in each."""
    found: Dict[Hashable, List[Article]] = {}
    for article in articles(host, at):
        found.setdefault(in_common(article), []).append(article)
    return map(Group, found.values())


def html(host: Host, at: Place) -> str:
    """All findings; the gravest group stands open."""
    return "\n".join(group.html(not number) for number, group in enumerate(groups(host, at)))
