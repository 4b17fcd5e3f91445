"""From the options of `plan` to what the changes would be answered."""
import argparse
import dataclasses

from zirofen_host import fault
from zirofen_host.ask.program import program_at
from zirofen_host.installed import NAME
from zirofen_host.judge import plan
from zirofen_host.options import PlanOptions
from zirofen_host.show import plan_lines


def run(given: argparse.Namespace) -> int:
    given.unit = tuple(given.unit)
    options = PlanOptions(**vars(given))
    options = dataclasses.replace(options, program=program_at(options.program))
    if bool(options.ops) == bool(options.unit):
        raise fault.Fault("either --ops or --unit is wanted")
    if options.tree == options.ops == "-":
        raise fault.Fault("the tree and the changes can't both be standard input")
    if options.print == "lines" and options.ops:
        fault.write_lines(plan.as_read(plan.operations(options.ops)))
        return 0
    found = plan.before(options)
    planned = plan.planned_lines(found, options)
    if options.print == "lines":
        fault.write_lines([*(f"# not known: {each}" for each in planned.named), *plan.as_read(planned.lines)])
        return plan.status_of_printed(planned)
    text, planned = plan.text_behind(found, planned, options)
    if options.print == "text":
        for each in planned.named:
            fault.warn(f"{NAME} plan: not known: {each}")
        fault.write(text)
        return plan.status_of_printed(planned)
    report = plan.compared(found, text, options, planned)
    return plan_lines.write(report, options.json)
