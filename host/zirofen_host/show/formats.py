"""From a run to its report in each form that was asked for."""
import functools
import importlib
from typing import Callable, Iterable, Iterator, Mapping, Tuple

from zirofen_host import fault, output
from zirofen_host.judge import as_json
from zirofen_host.judge.mends import KINDS
from zirofen_host.options import CheckOptions, Way
from zirofen_host.profile import shown
from zirofen_host.show.run import Run

STANDARD_OUTPUT = "-"
# what --json is
JSON = Way("json")


def ways_to_check(options: CheckOptions) -> Tuple[Way, ...]:
    return ways_of((*options.format, *([JSON] if options.json else []), *options.mends))


def ways_of(ways: Tuple[Way, ...]) -> Tuple[Way, ...]:
    """Each way to write that was asked for; the text goes to standard output where nothing else does."""
    files = [way.file for way in ways]
    if STANDARD_OUTPUT not in files:
        return ways_apart((Way("text"), *ways))
    return ways_apart(ways)


def ways_apart(ways: Tuple[Way, ...]) -> Tuple[Way, ...]:
    """Some ways to write, of which no two go to the same place."""
    files = [way.file for way in ways]
    twice = next((file for file in files if files.count(file) > 1), None)
    if twice is not None:
        place = "standard output" if twice == STANDARD_OUTPUT else shown(twice)
        raise fault.Fault(f"two reports would go to {place}: KIND=FILE puts each into a file of its own")
    return ways


def is_whole(ways: Iterable[Way]) -> bool:
    """Whether a way to write takes the host itself in the report."""
    return any(way.kind in ("json", *KINDS) for way in ways)


def name_of(way: Way) -> str:
    """What is written, as a line tells of it."""
    return "the lines" if way.kind == "text" else "the mends" if way.kind in KINDS else f"the {way.kind}"


def text_parts(run: Run, is_each: bool) -> Iterator[str]:
    """The lines that are printed, which harm no terminal."""
    from zirofen_host.show import lines
    report, compared = run.report, run.comparison
    printed = lines.comparison_lines(report, compared, is_each) if compared else lines.lines_of(report, is_each)
    return (f"{fault.plain(line)}\n" for line in printed)


def json_parts(run: Run) -> Iterator[str]:
    yield from as_json.parts_of(run.report)
    yield "\n"


def parts_of(kind: str, run: Run) -> Iterator[str]:
    """The parts of a report of one kind, each of which is imported where it is written."""
    if kind == "json":
        return json_parts(run)
    if kind in KINDS:
        from zirofen_host.show import mends
        return mends.parts_of(run, kind)
    parts: Callable[[Run], Iterator[str]] = importlib.import_module(f"zirofen_host.show.{kind}").parts_of
    return parts(run)


PARTS: Mapping[str, Callable[[Run], Iterator[str]]] = {
    kind: functools.partial(parts_of, kind) for kind in ("json", "junit", "metrics", "sarif", *KINDS)}


def write(way: Way, run: Run, is_each: bool = False) -> None:
    """Writes a report in one way."""
    write_parts(way, text_parts(run, is_each) if way.kind == "text" else PARTS[way.kind](run))


def write_parts(way: Way, parts: Iterable[str]) -> None:
    """Writes a text to where it goes. Metrics name nobody, so that everybody may read them."""
    if way.file == STANDARD_OUTPUT:
        fault.write(parts)
    else:
        output.write(way.file, parts, name_of(way), is_public=way.kind == "metrics")
