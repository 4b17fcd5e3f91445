"""From a host to what speaks against trusting its sum, which stands in the page's first view."""
from collections import Counter
from typing import Iterator, Sequence

from zirofen_host.collect.notes import FAILED
from zirofen_host.judge.finding_lines import acceptance_line
from zirofen_host.judge.severity import ACCEPTED as STANDS
from zirofen_host.judge.model import ReportNote
from zirofen_host.show import insides, words
from zirofen_host.show.finding import Place, id_of
from zirofen_host.show.markup import code, items, text
from zirofen_host.show.view import Host, present
from zirofen_host.show.words import ACCEPTED


# what no answer looks at, in a few words, by the kind of its notes
IN_WORDS = {
    "deputy": "managers that move processes on request", "elsewhere": "the host beside its text", "subordinate": "other uids of theirs",
    "outside": "processes outside of what users hold", "mark": "marks that owners set", "capability": "processes with capabilities",
    "restart": "limits that a restart loses", "cause": "what gave it away", "container": "users' own containers", "mount": "further mounts",
    "search": "closed directories", "descriptor": "some open files"}


def against(host: Host, at: Place) -> Iterator[str]:
    """The lines, as markup."""
    report = host.report
    faulty = [number for number, each in enumerate(host.findings) if each.key == "faults"]
    if faulty:
        without = {path for each in report.faults for path in each.subtrees}
        yield f'<a href="#{id_of(at, faulty[0])}">{words.count(len(without), "delegation")} without an answer</a> for somebody.'
    yield from insides.against(host, at)
    for each in report.unseen:
        if each.kind == FAILED:
            yield f"A look failed: {code(each.place)} {text(each.text)}"
    yield from accepted(host, at)
    yield from counted(at, "No answer looks at", [each for each in report.unseen if each.kind != FAILED])
    yield from counted(at, "Left out of the tree text", report.snapshot)


def accepted(host: Host, at: Place) -> Iterator[str]:
    """What isn't counted since somebody accepted it, and acceptances that don't hold."""
    known = [number for number, each in enumerate(host.findings) if each.kind == ACCEPTED]
    if known:
        findings = words.count(len(known), "finding")
        yield f'<a href="#{id_of(at, known[0])}">{findings}</a> {"was" if len(known) == 1 else "were"} accepted, and not counted.'
    yield from (f"{text(acceptance_line(each))}." for each in present(host.report.acceptances) if each.state != STANDS)


def counted(at: Place, what: str, found: Sequence[ReportNote]) -> Iterator[str]:
    """How many there are of each kind, with a link to them."""
    if found:
        kinds = Counter(each.kind for each in found)
        kinds_text = ", ".join(f"{text(IN_WORDS[kind])} ({text(kind)} {number})" if kind in IN_WORDS else f"{text(kind)} {number}"
                               for kind, number in kinds.items())
        yield f'{what}: <a href="#{at.id}-unseen">{kinds_text}</a>.'


def html(host: Host, at: Place) -> str:
    points = list(against(host, at))
    if not points:
        return '<p class="against">Nothing was seen beside these answers that speaks against them.</p>'
    return f'<div class="against"><p>What speaks against trusting this sum:</p><ul>\n{items(points)}\n</ul></div>'
