"""A run of a check, of which each form is made: its report, and what isn't in it."""
from dataclasses import dataclass, replace
from functools import cached_property
from typing import Mapping, Optional, Tuple

from zirofen_host.judge.host_model import Absent
from zirofen_host.judge.model import Comparison, Report
from zirofen_host.judge.rules import Finding, findings_of


@dataclass(frozen=True)
class Run:
    """A run that has a report."""
    report: Report
    # what the helper ends with
    status: int
    # the tree text as it was named, and the copy that was judged
    tree: Optional[str] = None
    text: Optional[str] = None
    # how long it took, and when it ended: seconds since 1970
    seconds: float = 0.0
    ended: float = 0.0
    # the page on the web that says what each finding means
    help_uri: Optional[str] = None

    @property
    def comparison(self) -> Optional[Comparison]:
        return None if isinstance(self.report.baseline, Absent) else self.report.baseline

    @property
    def subject(self) -> str:
        """What the report is of: a host, or a tree text."""
        return self.report.host or (self.tree if self.tree and self.tree != "-" else "a tree text")

    @cached_property
    def states(self) -> Mapping[str, str]:
        """By their lines, how findings stand beside an earlier report: what isn't here is as it was there, and accepted."""
        compared = self.comparison
        kinds = (("new", compared.new), ("updated", compared.worse), ("unchanged", compared.stand)) if compared else ()
        return {each.line: state for state, found in kinds for each in found}

    @cached_property
    def findings(self) -> Tuple[Finding, ...]:
        """Everything that the report tells of; what an earlier report has and somebody accepted there is accepted."""
        return tuple(replace(each, accepted=f"in the baseline {self.comparison.file}") if self.comparison and each.is_counted
                     and each.line not in self.states else each for each in findings_of(self.report))
