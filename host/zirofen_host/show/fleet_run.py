"""From the options of `fleet` and a folder of reports to what it was asked to write."""
import functools
import json
import time
from datetime import datetime, timezone
from typing import Callable, Dict, Iterator

from zirofen_host import fault, output
from zirofen_host.judge.model import Report
from zirofen_host.options import FleetOptions
from zirofen_host.show import fleet, fleet_lines, fleet_metrics, fleet_page, formats

Parts = Callable[[], Iterator[str]]


def text_parts(found: fleet.Fleet, is_each: bool) -> Iterator[str]:
    return (f"{fault.plain(line)}\n" for line in fleet_lines.lines_of(found, is_each))


def json_parts(found: fleet.Fleet) -> Iterator[str]:
    yield json.dumps(fleet.value_of(found), indent=1)
    yield "\n"


def tell(options: FleetOptions) -> int:
    """Prints the hosts, and writes what else is wanted of them; the status is the worst of them."""
    ways = formats.ways_of((*options.format, *([formats.JSON] if options.json else [])))
    began = time.monotonic()
    rules = fleet.Rules(datetime.now(timezone.utc), options.older, fleet.hosts_in(options.hosts) if options.hosts else None)
    if options.html:
        output.make_folder(options.html)

    def draw(name: str, report: Report) -> None:
        if options.html:
            fleet_page.write_host(options.html, name, report)
    found = fleet.read_fleet(options.folder, rules, draw)
    if options.html:
        fleet_page.write_index(options.html, found)
    parts: Dict[str, Parts] = {
        "text": functools.partial(text_parts, found, options.each), "json": functools.partial(json_parts, found),
        "metrics": functools.partial(fleet_metrics.parts_of, found, time.monotonic() - began, time.time())}
    for way in ways:
        formats.write_parts(way, parts[way.kind]())
    return found.status
