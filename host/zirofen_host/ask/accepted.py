"""From options to the snapshot that is asked about: of this host, or of a text that the program takes first."""
import atexit
import contextlib
import os
from dataclasses import replace

from zirofen_host import output
from zirofen_host.ask.program import Program
from zirofen_host.collect import bounded, elsewhere
from zirofen_host.collect import snapshot as snapshots
from zirofen_host.collect.agreement import unanswerable_of
from zirofen_host.collect.elsewhere import Accepted
from zirofen_host.collect.model import Snapshot
from zirofen_host.collect.snapshot import SubtreesOf
from zirofen_host.collect.tree import read_tree
from zirofen_host.fault import Fault
from zirofen_host.options import Options
from zirofen_host.profile import LONGEST_TEXT


def take(options: Options, subtrees_of: SubtreesOf) -> Snapshot:
    """A snapshot of this host, or of a text."""
    if not options.tree:
        return snapshots.take(options, subtrees_of)
    if options.only or options.keep or options.tree_format:
        raise Fault("--only, --keep and --tree-format go with a host, and not with --tree")
    found = elsewhere.read(accept(options.tree, options.program), options.mount)
    subtrees = subtrees_of(found, found.changing) if found.changing else ()
    return replace(found, unanswerable=unanswerable_of(found.changing, subtrees))


def accept(file: str, program: str) -> Accepted:
    """A text that the program takes; what it refuses is a fault."""
    try:
        # one byte more than a text has tells the program that it is too long
        content = bounded.read_named(file, LONGEST_TEXT + 1).data
    except OSError as error:
        raise Fault(f"can't read the tree text: {error.strerror}") from None
    # the file stands for as long as it may be asked of
    standing = contextlib.ExitStack()
    atexit.register(standing.close)
    copy = os.path.join(standing.enter_context(output.temporary_folder()), "tree.toml")
    output.make(copy, content)
    Program(program, copy).refuse_text()
    text = content.decode("utf-8-sig", "replace")
    return Accepted(copy, text, read_tree(text))
