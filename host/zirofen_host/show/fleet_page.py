"""From the rows of many hosts to pages in a folder: an index with the worst on top, and a page of each host."""
import hashlib
import os
import re
from typing import Iterator, List

from zirofen_host import output, version
from zirofen_host.judge.model import Report
from zirofen_host.show import page, words
from zirofen_host.show.fleet import LONGEST_NAME, NO_REPORT, ORDER, Alike, Fleet, Row, cut
from zirofen_host.show.fleet_lines import contained, details, some, sum_line, times
from zirofen_host.show.markup import code, css, filled, text
from zirofen_host.show.words import FAULT, SIGNS

INDEX = "index.html"
# a host's name that is a file's as it is; any other has a file by its sum
_PLAIN = re.compile(r"[A-Za-z0-9_][A-Za-z0-9_.@-]{0,99}")
_SUM = re.compile(r"index|host-[0-9a-f]{16}")
# of a time what stands behind its minute
_SECOND = re.compile(r"T([0-9]{2}:[0-9]{2}):[0-9]{2}Z")
# letters of all that stands below the rows of an index: the rows behind have their numbers alone
LONGEST_DETAILS = 500_000
# hosts of one row that aren't folded
FEW = 6
COLUMNS = ("Answer", "Host", "Delegations", "Contained", "Open", "Taken", "What is found")


def file_of(name: str) -> str:
    """The name of a host's page: no path, and no other host's."""
    if _PLAIN.fullmatch(name) and not _SUM.fullmatch(name):
        return f"{name}.html"
    return f"host-{hashlib.sha256(os.fsencode(name)).hexdigest()[:16]}.html"


def link(row: Row) -> str:
    name = text(cut(row.name, LONGEST_NAME))
    return name if row.why is not None else f'<a href="{text(file_of(row.name))}">{name}</a>'


def host_page(name: str, report: Report) -> str:
    """The page of a host, with the way back to the others."""
    return page.page([report], above=f'<p class="up"><a href="{INDEX}">All hosts</a>: {text(cut(name, LONGEST_NAME))}</p>')


class Index:
    """Writes the index, row by row."""

    def __init__(self, fleet: Fleet) -> None:
        self.fleet, self.left = fleet, LONGEST_DETAILS

    def row(self, alike: Alike) -> str:
        first, rows = alike.first, alike.rows
        kind = FAULT if first.kind == NO_REPORT else first.kind
        sign = f'<span class="{css(kind)} standing"><span aria-hidden="true">{SIGNS[kind][0]}</span> {first.kind}</span>'
        who = ", ".join(map(link, rows))
        if len(rows) > FEW:
            who = f"<details><summary>{words.count(len(rows), 'host')}</summary>{who}</details>"
        numbers = ["", "", "", ""] if first.why is not None else [
            some([row.delegations for row in rows]), contained(rows), some([row.open for row in rows]),
            _SECOND.sub(r" \1", times(alike))]
        cells = "".join(f"<td>{each}</td>" for each in (sign, who, *map(text, numbers), self.details(alike)))
        return f'<tr class="{css(kind)}">{cells}</tr>' if first.why is None else f'<tr class="lost">{cells}</tr>'

    def details(self, alike: Alike) -> str:
        """What is found, as long as there is room for it."""
        lines = "<br>".join(text(line) if alike.first.why is not None else code(line) if line in alike.first.lines else text(line)
                            for line in details(alike))
        self.left -= len(lines.encode())
        return lines if self.left > 0 else "its page says" if alike.first.why is None else ""

    def parts(self) -> Iterator[str]:
        groups = self.fleet.groups()
        yield from (self.row(each) + "\n" for each in groups)

    def html(self) -> str:
        rows = self.fleet.rows
        kinds: List[str] = [kind for kind in ORDER if any(row.kind == kind for row in rows)]
        head = "".join(f'<th scope="col">{each}</th>' for each in COLUMNS)
        worst = FAULT if kinds[0] == NO_REPORT else kinds[0]
        return filled("fleet.html", title=words.count(len(rows), "host"), kind=css(worst), sign=SIGNS[worst][0],
                      sentence=text(sum_line(self.fleet)), made=text(version.helper_line()), head=head, rows="".join(self.parts()))


def write_index(folder: str, fleet: Fleet) -> None:
    title = f"Zirofen: {words.count(len(fleet.rows), 'host')}"
    output.write(os.path.join(folder, INDEX), [page.whole(title, Index(fleet).html())], "the index")


def write_host(folder: str, name: str, report: Report) -> None:
    output.write(os.path.join(folder, file_of(name)), [host_page(name, report)], "the page")
