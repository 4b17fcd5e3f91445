"""What is shown of a report, or of the value that JSON carries of one; and that value."""
import json

import made_up  # noqa: F401
from zirofen_host.judge import as_json
from zirofen_host.judge.model import Report, Subtree
from zirofen_host.judge.saved import LACKING
from zirofen_host.show import lines


class Value(dict):
    """The value of a report, with the report: what is printed is made of notes, which JSON has the texts of alone."""
    report = None


def value_of(report):
    value = Value(json.loads("".join(as_json.parts_of(report))))
    value.report = report
    return value


def made(value, kind=Report):
    """The report of a value, as it was made where nothing in the value was changed since, or else as it is read."""
    if isinstance(value, kind):
        return value
    report = getattr(value, "report", None)
    return report if report and value == value_of(report) else as_json.made_of(kind, value, "report", LACKING)


def lines_of(report):
    return lines.lines_of(made(report))


def rows_of(subtree):
    return lines.rows_of(made(subtree, Subtree))


def comparison_lines(report):
    """Of a report with a comparison."""
    report = made(report)
    return without_makers(lines.comparison_lines(report, report.baseline))


def without_makers(told):
    """Lines but for the one before the last, which says which program and which helper they are of."""
    *before, makers, last = told
    assert makers.startswith("made with "), makers
    return [*before, last]
