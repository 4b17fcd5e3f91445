"""From the rows of many hosts to lines: a table with the worst on top, in which hosts that are alike are one row."""
from collections import Counter
from typing import Iterator, List, Sequence, Tuple

from zirofen_host import version
from zirofen_host.show import words
from zirofen_host.show.fleet import LONGEST_NAME, NO_REPORT, ORDER, Alike, Fleet, Row, cut

HEAD = ("HOST", "ANSWER", "DELEGATIONS", "CONTAINED", "OPEN", "TAKEN")
# how far the first column is filled up
WIDEST = 32
# names of hosts that are alike
SHOWN = 8


def some(numbers: Sequence[int]) -> str:
    """A number, or from which to which they are."""
    return str(numbers[0]) if min(numbers) == max(numbers) else f"{min(numbers)}-{max(numbers)}"


def times(alike: Alike) -> str:
    """When the reports were made, by day where there are several."""
    found = sorted({row.time for row in alike.rows if row.time})
    days = sorted({time[:10] for time in found})
    return "-" if not found else found[0] if len(found) == 1 else days[0] if len(days) == 1 else f"{days[0]} to {days[-1]}"


def columns(alike: Alike) -> Tuple[str, ...]:
    rows, first = alike.rows, alike.first
    name = cut(first.name, LONGEST_NAME) if len(rows) == 1 else words.count(len(rows), "host")
    if first.why is not None:
        return name, NO_REPORT, "-", "-", "-", "-"
    return (name, first.kind, some([row.delegations for row in rows]), contained(rows), some([row.open for row in rows]), times(alike))


def contained(rows: Sequence[Row]) -> str:
    """How many delegations are shown to be contained, with a mark where an answer is limited."""
    return some([row.contained for row in rows]) + rows[0].mark


def details(alike: Alike) -> Iterator[str]:
    """What stands below a row: why a report doesn't count, or the findings."""
    first, is_one = alike.first, len(alike.rows) == 1
    if first.why is not None:
        yield first.why
    elif first.findings:
        if not is_one:
            yield f"the same {'finding' if first.findings == 1 else words.count(first.findings, 'finding')}:"
        yield from first.lines
        if first.findings > len(first.lines):
            yield f".. and {first.findings - len(first.lines)} more"
    yield from first.notes
    of = [row.of for row in alike.rows if row.of is not None]
    if of:
        yield f"the report is of {of[0]}" if is_one else f"{len(of)} of the reports are of other hosts than their names say"
    others = sum(not row.is_listed for row in alike.rows)
    if others:
        yield f"{'it' if is_one else f'{others} of them'} shouldn't be there"


def names(alike: Alike) -> str:
    """The hosts of a row, of many the first."""
    listed = [cut(row.name, LONGEST_NAME) for row in alike.rows]
    return " ".join(listed[:SHOWN]) + (f" and {len(listed) - SHOWN} more" if len(listed) > SHOWN else "")


def sum_line(fleet: Fleet) -> str:
    counts = Counter(row.kind for row in fleet.rows)
    others = f"; {words.count(fleet.others, 'other file')} passed over" if fleet.others else ""
    if fleet.unknown_limits:
        others += f"; of {words.count(fleet.unknown_limits, 'host')} it isn't known whether all of it was asked about"
    return f"{words.count(len(fleet.rows), 'host')}: " + ", ".join(f"{counts[kind]} {kind}" for kind in ORDER if counts[kind]) + others


def lines_of(fleet: Fleet, is_each: bool) -> Iterator[str]:
    """The table, and the sum in the last line."""
    groups = fleet.groups(is_each)
    table: List[Tuple[str, ...]] = [HEAD, *map(columns, groups)]
    widths = [min(WIDEST, max(len(row[at]) for row in table)) for at in range(len(HEAD))]
    for at, row in enumerate(table):
        yield "  ".join(word.ljust(width) for word, width in zip(row, widths)).rstrip()
        if at:
            yield from (f"    {line}" for line in details(groups[at - 1]))
            if len(groups[at - 1].rows) > 1:
                yield f"    {names(groups[at - 1])}"
    yield f"made with {version.helper_line()}"
    yield sum_line(fleet)
