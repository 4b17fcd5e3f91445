"""From an answer, a fault or a word to its severity, which is one order of all, and from that to a status.

By that order everything is counted, sorted, coloured and summed.
"""
from enum import Enum
from typing import Dict, Iterable, Mapping, Tuple, Union

from zirofen_host.ask.program import CONTAINED, ESCAPES, UNSETTLED, WORDS
from zirofen_host.fault import FAULT
from zirofen_host.judge.host_model import ABSENT, Absent
from zirofen_host.judge.model import NOTHING_ASKED, FaultFinding

# how an acceptance stands that is in force
ACCEPTED = "accepted"


class Severity(Enum):
    """The gravest first, each by the word that stands for it. A fault of a holder's own making stands behind what was found, so that
    nobody hides another's."""
    FAULT = "fault"
    ESCAPES = "escapes"
    # it is seen, and not proved
    OPENED = "opened"
    UNSETTLED = "unsettled"
    OWN_FAULT = "own fault"
    NOTHING_ASKED = "nothing asked"
    # the limits of version 1
    NOT_LOOKED_AT = "not looked at"
    # an acceptance that is over, meets nothing or got worse
    STALE = "stale"
    # nothing was found in what was asked, which is not all of it
    LIMITED = "limited"
    ACCEPTED = "accepted"
    # of subtrees nothing was asked, since there are none
    NOT_ASKED = "not asked"
    ABOVE = "above"
    CONTAINED = "contained"

    @property
    def status(self) -> int:
        return STATUSES.get(self, CONTAINED)

    @property
    def rank(self) -> int:
        return RANKS[self.value]


# those that count; all others have the status of what is contained
STATUSES = {Severity.FAULT: FAULT, Severity.ESCAPES: ESCAPES, Severity.OPENED: ESCAPES, Severity.UNSETTLED: UNSETTLED,
            Severity.OWN_FAULT: FAULT, Severity.NOTHING_ASKED: NOTHING_ASKED, Severity.NOT_LOOKED_AT: UNSETTLED,
            Severity.STALE: UNSETTLED}
# by their words
RANKS: Mapping[str, int] = {each.value: rank for rank, each in enumerate(Severity)}
ANSWERS = {ESCAPES: Severity.ESCAPES, UNSETTLED: Severity.UNSETTLED, CONTAINED: Severity.CONTAINED}
# what stands for a status of which nothing else is known
OF_STATUS: Dict[int, Severity] = {FAULT: Severity.FAULT, **ANSWERS, NOTHING_ASKED: Severity.NOTHING_ASKED}


def of_answer(word: str) -> Severity:
    """The severity of an answer by its word; what is no answer is a fault."""
    return ANSWERS.get(WORDS.get(word, FAULT), Severity.FAULT)


def of_fault(found: FaultFinding) -> Severity:
    return Severity.FAULT if found.made_by is None else Severity.OWN_FAULT


def of_premise(is_broken: bool) -> Severity:
    """The severity of what an answer takes not to be: it is so, or it may be."""
    return Severity.OPENED if is_broken else Severity.UNSETTLED


def unless(accepted: Union[str, Absent], severity: Severity) -> Severity:
    """The severity of what somebody may have accepted."""
    return severity if accepted is ABSENT else Severity.ACCEPTED


def worst(found: Iterable[Severity]) -> Severity:
    return min(found, key=lambda each: each.rank, default=Severity.CONTAINED)


def place(word: str) -> Tuple[int, str]:
    """Where what is counted by a word stands among others: the gravest first, and behind them what is no severity."""
    return RANKS.get(word, len(RANKS)), word
