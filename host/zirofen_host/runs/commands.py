"""From the options of `commands` and operations to shell commands."""
import argparse

from zirofen_host import fault
from zirofen_host.arguments import parser_of
from zirofen_host.collect import bounded
from zirofen_host.collect.model import User
from zirofen_host.judge import replayed, shell
from zirofen_host.options import CommandsOptions


def run(given: argparse.Namespace) -> int:
    given.gid = tuple(given.gid)
    options = CommandsOptions(**vars(given))
    if options.uid is None and options.gid:
        parser_of("commands").error("--gid goes with --uid")
    user = None if options.uid is None else User(options.uid, options.gid)
    given_in = bounded.read_named(bounded.STANDARD_INPUT, bounded.OPERATIONS)
    if given_in.is_cut:
        raise fault.Fault(f"the operations are longer than {bounded.OPERATIONS} bytes")
    try:
        text = given_in.text("ascii")
    except UnicodeDecodeError:
        raise fault.Fault("the operations aren't ASCII") from None
    # what is no operation is a fault, before the host is looked at
    made = shell.commands(options.mount, text, user)
    fault.write_lines(replayed.commands(options, text, user) if user else made)
    return 0
