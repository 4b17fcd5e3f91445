"""From a host or a report to a tree in a terminal."""
import argparse
import dataclasses
import sys

from zirofen_host.ask import named
from zirofen_host.ask.program import program_at
from zirofen_host.ask.questions import subtrees_by
from zirofen_host.collect import snapshot
from zirofen_host.judge import check, saved
from zirofen_host.options import TreeOptions
from zirofen_host.show import tree_view


def run(given: argparse.Namespace) -> int:
    options = TreeOptions(**vars(given))
    options = named.with_only(dataclasses.replace(options, program=program_at(options.program)))
    environment, is_terminal = tree_view.environment_of_start(), sys.stdout.isatty()
    if options.report:
        report = saved.read(options.report)
    else:
        report = check.report(snapshot.take(options, subtrees_by(options)), options, True)
    drawing = tree_view.drawing_of(options, environment, is_terminal)
    tree_view.show(tree_view.draw(report, drawing), tree_view.pager_of(options, environment, is_terminal),
                   "ascii" if drawing.is_ascii else "utf-8")
    return 0
