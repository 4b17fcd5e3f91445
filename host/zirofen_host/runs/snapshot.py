"""From the options of `snapshot` to the tree text of this host."""
import argparse
from typing import Iterator

from zirofen_host import fault
from zirofen_host.ask import named
from zirofen_host.collect import elsewhere, fitting, snapshot
from zirofen_host.collect.accounts import accounts_of, charged_user_of
from zirofen_host.collect.makers import makers_in
from zirofen_host.collect.model import Snapshot
from zirofen_host.options import SnapshotOptions


def run(given: argparse.Namespace) -> int:
    options = named.with_only(SnapshotOptions(**vars(given)))
    taken = snapshot.take(options, snapshot.all_that_changes)
    accounts = accounts_of(options.accounts, taken) if options.with_host else None

    def carried(of: Snapshot) -> Iterator[str]:
        yield from fitting.changing_lines(of)
        yield from elsewhere.narrowing(options)
        if accounts:
            yield from elsewhere.carried(of, accounts)
    makers = makers_in(taken, accounts.charged_user if accounts else charged_user_of(options.accounts))
    taken, text = elsewhere.fitting_text(taken, makers, carried, not options.no_processes)
    for line in snapshot.note_lines(taken):
        fault.warn(line)
    fault.write(text)
    return 0
