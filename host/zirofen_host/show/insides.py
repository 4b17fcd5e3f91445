"""From the containers of root's in a report to their part of the page: how each stands, and what that means."""
from typing import Iterator

from zirofen_host.judge.finding_lines import INSIDE_MEANS, inside_count, inside_text
from zirofen_host.judge.model import RootInside
from zirofen_host.show import words
from zirofen_host.show.finding import Place, id_of
from zirofen_host.show.lines import beside
from zirofen_host.show.markup import code, items, text
from zirofen_host.show.view import Host


def link(host: Host, at: Place, each: RootInside) -> str:
    """What isn't held, by the finding that says so."""
    number = next(number for number, found in enumerate(host.findings) if each in found.parts)
    return f'<a href="#{id_of(at, number)}">not held</a>'


def lines(host: Host, at: Place) -> Iterator[str]:
    for number, each in enumerate(host.report.containers, 1):
        state = f'<span id="{at.id}-held-{number}">{text(inside_text(each))}</span>' if each.held else link(host, at, each)
        yield f"{code(each.path)}{text(beside(host.scopes, each.path))}: {state} ({text(inside_count(each))})"


def html(host: Host, at: Place) -> str:
    """The section, where there are some."""
    if not host.report.containers:
        return ""
    second = at.level(2)
    return (f'<section id="{at.id}-inside"><{second}>Containers whose processes are root\'s</{second}>'
            f"<p>{text(INSIDE_MEANS.capitalize())}.</p><ul>\n{items(lines(host, at))}\n</ul></section>")


def against(host: Host, at: Place) -> Iterator[str]:
    """What of them speaks against the sum."""
    found = host.report.containers
    if found:
        open_ones = sum(not each.held for each in found)
        state = f"{open_ones} of them not held" if open_ones else "all held"
        yield (f'<a href="#{at.id}-inside">Root inside of {words.count(len(found), "container")}</a>, {state}: '
               f"{text(INSIDE_MEANS)}.")
