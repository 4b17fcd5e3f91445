"""From reports of hosts to one page in one file, which loads nothing and works without its script."""
import base64
import hashlib
from dataclasses import dataclass
from string import Template
from typing import Callable, Dict, List, NamedTuple, Sequence, Tuple

from zirofen_host import output
from zirofen_host.judge import limits
from zirofen_host.judge.host_model import Absent
from zirofen_host.judge.model import Difference, Report, ReportNote, RootInside
from zirofen_host.judge.notes import MEANINGS as WHAT_NO_ANSWER_SEES
from zirofen_host.show import against, chart, everybody, groups, insides, words
from zirofen_host.show.branches import Branches
from zirofen_host.show.finding import Place
from zirofen_host.show.joined import fact_of, joined, rest_of
from zirofen_host.show.lines import by_kind
from zirofen_host.show.markup import code, css, filled, fold, paragraph, places, read, text
from zirofen_host.show.table import Table
from zirofen_host.show.view import Host, host_of
from zirofen_host.show.words import (ACCEPTED, COUNTED, ESCAPES, FAULT, MEANINGS, NOT_ASKED, NOT_LOOKED_AT, NOTHING_ASKED, OPENED,
                                     OWN_FAULT, SIGNS, STALE, STANDINGS, UNSETTLED, standing_text, visible)


# reports on one page, and notes of a kind that aren't folded
MOST_REPORTS, NOTES = 20, 12


class Unread(NamedTuple):
    """A report that can't be read, and why."""
    file: str
    why: str


def capital(sentence: str) -> str:
    """A sentence of these words; names in it stay as they are."""
    return sentence[:1].upper() + sentence[1:]


def difference(each: Difference) -> str:
    """What differs from an earlier report, and what it was."""
    before = f"<br>before: {text(each.before)}" if each.before and each.before != each.line else ""
    return text(each.line) + before


@dataclass(frozen=True)
class HostPage:
    """A host's part of the page."""
    host: Host
    at: Place

    @property
    def kind(self) -> str:
        """The gravest that is found of it."""
        return self.host.severity.value

    @property
    def name(self) -> str:
        return words.name_of(self.host.report)

    def source(self) -> str:
        """What it was made of, as far as a report tells."""
        report = self.host.report
        time = f'at <time datetime="{text(report.time)}">{text(report.time)}</time>' if report.time else "at a time that isn't known"
        parts = (f'<span class="name">{text(self.name)}</span>', text(report.kernel), time,
                 f"with {text(words.listed(words.made_by(report)))}" if report.program else "")
        return ", ".join(filter(None, parts))

    def sentence(self) -> str:
        """How the host stands, at once, and what that leaves out."""
        narrowed = limits.line_of(self.host.report)
        said = " ".join(filter(None, (self.said(), everybody.sentence_of(self.host.report))))
        return f"Of what was asked: {said} {capital(narrowed)}." if narrowed else said

    def said(self) -> str:
        """The sentence of how it stands."""
        number = sum(any(kind == self.kind for kind, _ in self.host.standing[path]) for path in self.host.delegations)
        every, one = words.count(len(self.host.delegations), "delegation"), number == 1
        is_, has, it = ("is", "has", "it") if one else ("are", "have", "they")
        sentences = {
            ESCAPES: f"{number} of {every} can be broken by somebody whom {it} should hold.",
            OPENED: f"{self.opened()}, and {self.contained()}.",
            UNSETTLED: f"{number} of {every} {is_} not settled: an entry is open, and nothing was found that breaks the subtree.",
            FAULT: f"{number} of {every} {has} no answer for somebody." if number else f"A look failed, and {self.contained()}.",
            OWN_FAULT: f"{number} of {every} {has} no answer for somebody, which is the making of who holds {it if one else 'them'}.",
            NOT_LOOKED_AT: f"Limits aren't looked at, and {self.contained()}.",
            STALE: f"An acceptance doesn't hold, and {self.contained()}.",
            ACCEPTED: f"{number} of {every} {is_} open by what somebody accepted, and {self.contained(False)}.",
            NOT_ASKED: f"{self.nobodys()}, and {words.count(len(self.host.root_inside), 'container')} of root's.",
            NOTHING_ASKED: "Nothing was found to ask: no subtree and user of which containment could be asked."}
        return sentences.get(self.kind) or self.all_contained()

    def nobodys(self) -> str:
        """What was found where nobody but root was handed anything."""
        return "Root alone holds every delegation that was found" if self.host.delegations else "No delegation was found"

    def contained(self, is_of: bool = True) -> str:
        """How many are shown to be contained, as far as was asked."""
        delegations, contained, _ = self.host.numbers
        of = f" of {words.count(delegations, 'delegation')}" if is_of else ""
        return f"{contained}{of} {'is' if contained == 1 else 'are'} shown to be contained{limits.mark_of(self.host.report)}"

    def all_contained(self) -> str:
        """The sentence of a host of which nothing counts."""
        delegations, contained, _ = self.host.numbers
        every, mark = words.count(delegations, "delegation"), limits.mark_of(self.host.report)
        if not delegations:
            return f"Nothing of {words.count(len(self.host.root_inside), 'container')} of root's counts."
        if contained < delegations:
            return (f"{contained} of {every} are shown to be contained{mark}, and the others lie in what was handed to the same "
                    "person.")
        if delegations == 1:
            return f"The one delegation is shown to be contained{mark}: nobody who was asked can break it, whatever they do."
        return f"All {every} are shown to be contained{mark}: nobody who was asked can break one, whatever they do."

    def opened(self) -> str:
        """What stands open beside the answers."""
        parts = [part for each in self.host.findings if each.kind == OPENED for part in each.parts]
        insides = sum(isinstance(each, RootInside) for each in parts)
        limits = len(parts) - insides
        found = [f"{words.count(limits, 'limit is', 'limits are')} open to somebody"] if limits else []
        found += [f"root in {words.count(insides, 'container')} isn't held"] if insides else []
        return capital(", ".join(found))

    def open_kinds(self) -> str:
        kinds = [(kind, sum(each.kind == kind for each in self.host.findings)) for kind in COUNTED]
        counts = ", ".join(f"{kind} {number}" for kind, number in kinds if number)
        return f" ({counts})" if counts else ""

    def html(self) -> str:
        delegations, contained, open_findings = self.host.numbers
        mark, of_what = limits.mark_of(self.host.report), " of what was asked" if limits.narrowing(self.host.report) else " open"
        findings, picture = groups.html(self.host, self.at), chart.html(self.host, self.at)
        return filled("host.html", id=self.at.id, heading=self.at.level(1), second=self.at.level(2), kind=css(self.kind),
                      sign=SIGNS[self.kind][0],
                      sentence=text(self.sentence()), delegations=delegations, contained=contained, open=open_findings,
                      mark=mark, of_what=of_what,
                      delegations_word=words.noun(delegations, "delegation"), open_word=words.noun(open_findings, "finding"),
                      open_kinds=text(self.open_kinds()), findings=findings or paragraph("There are none."),
                      baseline=self.baseline(), tree="\n".join(Branches(self.host, self.at).parts()), signs=self.signs(),
                      insides=insides.html(self.host, self.at), expected=self.expected(), unseen=self.unseen(),
                      table=Table(self.host, self.at).html(),
                      against=against.html(self.host, self.at), chart=picture,
                      chart_link=f' <a href="#{self.at.id}-chart">Picture</a>' if picture else "",
                      host=text(self.name), source=self.source())

    def baseline(self) -> str:
        """What is new, worse, changed or gone since an earlier report, where one was compared."""
        found = self.host.report.baseline
        if isinstance(found, Absent):
            return ""
        second, third, sections = self.at.level(2), self.at.level(3), []
        for kind, differ in by_kind(found):
            parts = [f'<li id="{self.at.id}-{kind}-{number}">{difference(each)}</li>' for number, each in enumerate(differ, 1)]
            sections += [f"<{third}>{kind.capitalize()}</{third}><ul>", *parts, "</ul>"] if parts else []
        return (f'<section id="{self.at.id}-baseline"><{second}>Since {text(found.time or found.file)}</{second}>\n'
                + "\n".join(sections or ["<p>Nothing is new, worse, changed or gone.</p>"]) + "\n</section>")

    def signs(self) -> str:
        seen = {kind for kinds in self.host.standing.values() for kind, _ in kinds}
        report = self.host.report
        signs = ((css(kind), f"{SIGNS[kind][0]} {standing_text(kind, report)}", MEANINGS[kind]) for kind in STANDINGS if kind in seen)
        return "\n".join(f'<dt class="{kind} standing">{sign}</dt><dd>{meaning}</dd>' for kind, sign, meaning in signs)

    def expected(self) -> str:
        """What lies below what was handed to somebody."""
        above = self.host.report.above
        if not above:
            return ""
        second = self.at.level(2)
        items = "\n".join(f'<li id="{self.at.id}-above-{number}">{text(each.who)}, below {code(each.handed)}: '
                          f'{places(each.subtrees)}</li>' for number, each in enumerate(above, 1))
        return (f'<section id="{self.at.id}-above"><{second}>Expected, and not counted</{second}>'
                f"<p>What lies below what was handed to somebody is open to them.</p><ul>\n{items}\n</ul></section>")

    def unseen(self) -> str:
        """The lines by their kind, each kind with what it means."""
        kinds: Dict[Tuple[str, str], List[str]] = {}
        notes = (("unseen", self.host.report.unseen), ("snapshot", self.host.report.snapshot))
        for key, found in notes:
            numbers = {id(each): number for number, each in enumerate(found, 1)}
            for of in joined(found):
                in_order = sorted(of, key=lambda each: numbers[id(each)])
                kinds.setdefault((key, of[0].kind), []).append(
                    item_of([(f"{self.at.id}-{key}-{numbers[id(each)]}", each) for each in in_order]))
        if not kinds:
            return "<p>This host has nothing of these.</p>"
        heading = self.at.level(3)
        return "\n".join(f"<{heading}>{'Left out of the tree text: ' if key == 'snapshot' else ''}{text(kind)}</{heading}>"
                         f"{paragraph(WHAT_NO_ANSWER_SEES.get(kind, ''))}{list_of(lines)}"
                         for (key, kind), lines in kinds.items())

    def overview(self) -> str:
        """The host in the list of several."""
        delegations, contained, open_findings = self.host.numbers
        mark = limits.mark_of(self.host.report)
        of_what = "of what was asked" if limits.narrowing(self.host.report) else "open"
        link = f'<a href="#{self.at.id}">{text(self.name)}</a>'
        return (f'<li class="{css(self.kind)}">{link} <span class="standing">{SIGNS[self.kind][0]} {self.kind}</span>'
                f"<br>{text(self.sentence())} <br>{words.count(delegations, 'delegation')}, {contained} shown to be contained{mark}, "
                f"{open_findings} {of_what}</li>")


def item_of(of: Sequence[Tuple[str, ReportNote]]) -> str:
    """Notes with one fact, or a note alone, each with its id; of many with one fact the first, and the others behind a fold."""
    (first, head), *others = of
    if not others:
        return f'<li id="{first}">{code(head.place) + ": " if head.place else ""}{text(head.text)}</li>'
    parts = [f'<span id="{each}">{code(note.place) + " " if note.place else ""}{text(rest_of(note))}</span>' for each, note in of]
    return f'<li id="{first}-together">{text(fact_of(head) or "")}: {"; ".join(parts[:NOTES])}{more(parts[NOTES:], "; ".join)}</li>'


def more(parts: Sequence[str], put_together: Callable[[Sequence[str]], str]) -> str:
    """What isn't among the first, behind a fold that says how many they are."""
    return fold(f"{len(parts)} more", put_together(parts)) if parts else ""


def list_of(items: Sequence[str]) -> str:
    """Items of a list, the first of which are always seen."""
    rest = more(items[NOTES:], lambda parts: "<ul>\n" + "\n".join(parts) + "\n</ul>")
    return "<ul>\n" + "\n".join(items[:NOTES]) + f"\n</ul>{rest}"


def sum_of(inline: str) -> str:
    return "'sha256-" + base64.b64encode(hashlib.sha256(inline.encode("utf-8")).digest()).decode("ascii") + "'"


def severity(page: HostPage) -> Tuple[int, List[int]]:
    """The worst first: by the gravest finding, then by how many of each kind there are."""
    counts = [-sum(each.kind == kind for each in page.host.findings) for kind in COUNTED]
    return STANDINGS.index(page.kind), counts


def policy(style: str, script: str) -> str:
    """Nothing but what is in the page may be shown or run; the one picture is that of no icon."""
    return (f"default-src 'none'; img-src data:; style-src {sum_of(style)}; script-src {sum_of(script)}; base-uri 'none'; "
            "form-action 'none'")


def whole(title: str, body: str) -> str:
    """A page with all that it needs in it."""
    style, script = read("page.css"), read("page.js")
    # in the template they are named as files, so that it can be opened by itself
    template = read("page.html").replace('<link rel="stylesheet" href="page.css">', "<style>$style</style>")
    template = template.replace('<script src="page.js"></script>', "<script>$script</script>")
    return Template(template).substitute(policy=policy(style, script), title=title, style=style, script=script, body=body)


def unread_row(each: Unread) -> str:
    """A report that can't be read, in the list of several hosts."""
    return (f'<li class="fault lost"><strong class="name">{text(visible(each.file))}</strong> <span class="standing">'
            f"{SIGNS[FAULT][0]} no report</span><br>{text(visible(each.why))}</li>")


def page(reports: Sequence[Report], unread: Sequence[Unread] = (), above: str = "") -> str:
    """The page of one report or more, with what stands above it; reports that couldn't be read stand first."""
    hosts = [host_of(report) for report in reports]
    is_alone = len(hosts) == 1 and not unread
    pages = sorted((HostPage(host, Place(f"host-{number}", is_alone)) for number, host in enumerate(hosts, 1)), key=severity)
    title = text(words.name_of(hosts[0].report) if is_alone else words.count(len(hosts) + len(unread), "host"))
    overview = filled("overview.html", title=f"Zirofen: cgroup delegations of {title}",
                      hosts="\n".join([*map(unread_row, unread), *(each.overview() for each in pages)]))
    return whole(f"Zirofen: {title}", "\n".join([above, "" if is_alone else overview, *(each.html() for each in pages)]))


def write(file: str, reports: Sequence[Report], unread: Sequence[Unread] = ()) -> None:
    """Writes the page, whole or not at all."""
    output.write(output.STANDARD_OUTPUT if file == "-" else file, [page(reports, unread)], "the page")
