"""From a tree text to the list of who was handed what."""
import argparse

from zirofen_host import fault
from zirofen_host.ask import accepted
from zirofen_host.ask.delegations import Delegations
from zirofen_host.collect.accounts import accounts_here
from zirofen_host.collect.processes import read_processes
from zirofen_host.options import PROC, DelegationsOptions
from zirofen_host.show import listing


def run(given: argparse.Namespace) -> int:
    options = DelegationsOptions(**vars(given))
    tree = accepted.accept(options.tree or "-", options.program).tree
    proc = options.proc or (None if options.accounts else PROC)
    running = read_processes(proc).values() if proc else ()
    found = Delegations(tree, accounts_here(options.accounts, running))
    return 0 if listing.write_lines(found) else fault.FAULT
