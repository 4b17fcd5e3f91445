"""From what mends findings so that it stays to what root reads first: where to look, with drop-ins, or a script."""
from typing import Iterator

from zirofen_host.fault import plain
from zirofen_host.judge.notes import NoCause
from zirofen_host.judge.mends import SHELL, Mend, mends_of
from zirofen_host.show.lines import made_lines, together
from zirofen_host.show.run import Run

NOTHING = "# nothing is to mend"


def about(mend: Mend) -> Iterator[str]:
    """What is found and what stays of its mend, as comments."""
    yield from (f"# {line}" for line in mend.lines)
    yield from (f"#   {line}" for line in mend.remarks)
    for each in mend.withheld:
        yield f"#   not written, since {each.why}:"
        yield from (f"#     {line}" for line in (each.unit.drop_in, f"[{each.unit.section}]", *each.settings))


def as_drop_ins(mend: Mend) -> Iterator[str]:
    """What is found, with the drop-ins that would keep what stands now, all of them as comments."""
    yield from about(mend)


def as_script(mend: Mend) -> Iterator[str]:
    yield from about(mend)
    yield from together(mend.changes)


def lines_of(run: Run, kind: str) -> Iterator[str]:
    """All mends of a run, an empty line between them."""
    mends = mends_of(run.report, run.findings)
    is_script = kind == SHELL
    if is_script:
        yield "#!/bin/sh"
        yield f"# what mends {run.subject}, for root on that host; it was carried out by nobody"
    yield from (f"# {line}" for line in made_lines(run.report))
    yield ""
    for number, mend in enumerate(mends):
        if number:
            yield ""
        yield from as_script(mend) if is_script else as_drop_ins(mend)
    causes = [each.line for each in run.report.unseen if each.kind == NoCause.kind]
    yield from (line for each in causes for line in ("", f"# {each}"))
    if not mends:
        yield NOTHING


def parts_of(run: Run, kind: str) -> Iterator[str]:
    return (f"{plain(line)}\n" for line in lines_of(run, kind))
