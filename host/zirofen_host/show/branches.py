"""From a host to its tree in the page: what isn't contained with whom it lets in, and the rest by names alone."""
from dataclasses import dataclass
from functools import cached_property
from typing import Iterator, List, Sequence, Set, Tuple, Union

from zirofen_host.judge.model import PremiseFinding
from zirofen_host.profile import ancestors
from zirofen_host.show import words
from zirofen_host.show.finding import Place, id_of
from zirofen_host.show.markup import code, css, items, text
from zirofen_host.show.view import HELD, PREMISES, RUNNING, Host, entry_of, whom_of
from zirofen_host.show.words import ACCEPTED, QUIET, SIGNS

# so many cgroups beside one another of which nothing is to be shown aren't folded: of delegations, and of others
FEW, FEW_OTHERS = 4, 1


@dataclass(frozen=True)
class Below:
    """A cgroup that is left to write; a plain one stands with all below it, and nothing of it folds."""
    path: str
    is_plain: bool = False


@dataclass(frozen=True)
class Quiet:
    """Cgroups beside one another that are left to write, of which nothing is to be shown."""
    paths: Sequence[str]


# what is left to write: cgroups, those that are folded, lists of what root alone has, and markup that is ready
Left = Union[Below, Quiet, List[str], str]


class Branches:
    """The tree of a host as lists that fold; written part by part, since it may be deeper than calls go."""

    def __init__(self, host: Host, at: Place) -> None:
        self.host, self.at = host, at

    @cached_property
    def loud(self) -> Set[str]:
        """The cgroups of which something is to be shown, and what is above them."""
        found = {path for path, kinds in self.host.standing.items() if kinds[0][0] not in QUIET} | set(self.host.notes)
        return {"/", *found, *(above for path in found for above in ancestors(path))}

    def parts(self) -> Iterator[str]:
        left: List[Left] = [Below("/")]
        while left:
            each = left.pop()
            if isinstance(each, (Below, Quiet)):
                opening, below, closing = self.cgroup(each) if isinstance(each, Below) else self.quiet(each.paths)
                yield opening
                left += [closing, *reversed(below)]
            else:
                yield each if isinstance(each, str) else self.folded(each)

    def cgroup(self, each: Below) -> Tuple[str, List[Left], str]:
        """What opens a cgroup's item, what is below it, and what closes the item."""
        path = each.path
        below = self.all_below(path) if each.is_plain else self.below(path)
        head = f'<span class="at"><code>{text(path.rpartition("/")[2] or "/")}</code>{self.standing(path)}'
        head += "".join(f'<span class="told">{detail}</span>' for detail in self.details(path)) + "</span>"
        if not below:
            return f'<li class="leaf">{head}', [], "</li>"
        if each.is_plain:
            return f"<li>{head}<ul>", below, "</ul></li>"
        is_open = " open" if path in self.loud else ""
        return f"<li><details{is_open}><summary>{head}</summary><ul>", below, "</ul></details></li>"

    def all_below(self, path: str) -> List[Left]:
        return [Below(each, True) for each in self.host.children[path]]

    def below(self, path: str) -> List[Left]:
        """What is to be shown below a cgroup, and what is folded there."""
        shown, folded = self.host.split(path)
        quiet = [each for each in shown if each not in self.loud]
        if len(quiet) <= (FEW if any(map(self.has_standing, quiet)) else FEW_OTHERS):
            quiet = []
        items: List[Left] = [Below(each) for each in shown if not quiet or each in self.loud]
        return [*items, *([Quiet(quiet)] if quiet else []), *([folded] if folded else [])]

    def has_standing(self, path: str) -> bool:
        """Whether a cgroup, or one in it, is a delegation or marked as one."""
        return not self.host.standing.keys().isdisjoint(self.host.below(path))

    def quiet(self, paths: Sequence[str]) -> Tuple[str, List[Left], str]:
        """What opens the item of cgroups of which nothing is to be shown, these, and what closes it."""
        within = [each for path in paths for each in self.host.below(path)]
        held = sum(each in self.host.delegations for each in within)
        kinds = {kind for path in within for kind, _ in self.host.standing.get(path, ())}
        quiet = [words.standing_text(kind, self.host.report) for kind in QUIET if kind in kinds]
        with_ = f" with {words.count(held, 'delegation')}: {words.listed(quiet)}" if held else ""
        opening = f'<li class="folded"><details><summary><span class="at">{words.count(len(within), "cgroup")}{with_}</span></summary><ul>'
        return opening, [Below(each, True) for each in paths], "</ul></details></li>"

    def standing(self, path: str) -> str:
        """How a cgroup stands, with a link to the finding that says so."""
        marks = []
        for kind, number in self.host.standing.get(path, ()):
            sign = f'<span class="sign" aria-hidden="true">{SIGNS[kind][0]}</span> {words.standing_text(kind, self.host.report)}'
            marks.append(f'<span class="{css(kind)} standing">{sign}</span>' if number is None else
                         f'<a class="{css(kind)}" href="#{id_of(self.at, number)}">{sign}</a>')
        return "".join(f" {mark}" for mark in marks)

    def details(self, path: str) -> Iterator[str]:
        """Whom its entries let in; to whom delegations were handed, and their limits, is in the table."""
        if path in self.host.standing and path not in self.host.delegations:
            limits = self.host.limits(path)
            if limits:
                yield ", ".join(f"{text(file)} {text(value)}" for file, value in limits)
        for number, finding in self.host.notes.get(path, ()):
            if finding.key == "root_inside":
                yield f'<a class="{css(finding.kind)}" href="#{id_of(self.at, number)}">root inside</a>'
            if finding.key in (RUNNING, HELD, PREMISES):
                first = finding.parts[0]
                label = ("runs elsewhere" if finding.key == RUNNING else f"{first.what}: {first.entry}" if isinstance(first, PremiseFinding)
                         else f"{entry_of(first)} held open")
                yield f'<a class="{css(finding.kind)}" href="#{id_of(self.at, number)}">{text(label)}</a>'
            if finding.key == "entries":
                names = ", ".join(map(entry_of, finding.parts))
                let_in = f"{names} let{'s' if len(finding.parts) == 1 else ''} in {words.who(whom_of(finding.parts[0]))}"
                let_in += f", {ACCEPTED}" if finding.kind == ACCEPTED else ""
                yield f'<a class="{css(finding.kind)}" href="#{id_of(self.at, number)}">{text(let_in)}</a>'

    def folded(self, paths: List[str]) -> str:
        whose = "nobody's but root's" if all(map(self.host.is_roots, paths)) else "no delegation among them"
        listed = items(f'<span class="at">{code(each)}</span>' for each in paths)
        return (f'<li class="folded roots"><details><summary>{words.count(len(paths), "cgroup")}, {whose}</summary>'
                f"<ul>\n{listed}\n</ul></details></li>")
