"""From the options of `ask` to the answer of one user and one subtree."""
import argparse
import dataclasses

from zirofen_host import fault
from zirofen_host.ask import accepted, named
from zirofen_host.ask.program import program_at
from zirofen_host.installed import NAME
from zirofen_host.judge import explained, may, one
from zirofen_host.options import AskOptions
from zirofen_host.profile import path_of


def run(given: argparse.Namespace) -> int:
    options = AskOptions(**vars(given))
    options = named.with_only(dataclasses.replace(options, program=program_at(options.program)))
    taken = accepted.take(options, lambda found, _: [path_of(named.place_in(options.path, found, options))])
    options = dataclasses.replace(options, path=named.place_in(options.path, taken, options))
    if options.may:
        fault.write_lines(may.may(taken, options, lambda line: fault.warn(f"{NAME} ask: {line}")))
        return 0
    asking = explained.explain if options.explain else one.ask
    lines, status = asking(taken, options, lambda line: fault.warn(f"{NAME} ask: {line}"))
    fault.write_lines(lines)
    return status
