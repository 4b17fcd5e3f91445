"""From notes to lists of those that are one fact of several, which each form shows together."""
from typing import Dict, Iterable, List, Optional, Tuple

from zirofen_host.judge.host_model import Absent
from zirofen_host.judge.model import ReportNote


def fact_of(note: ReportNote) -> Optional[str]:
    """What a note has in common with others, as far as its text begins so."""
    return None if isinstance(note.fact, Absent) or not note.text.startswith(f"{note.fact}: ") else note.fact


def rest_of(note: ReportNote) -> str:
    """What is of a note alone."""
    return note.text[len(f"{fact_of(note)}: "):]


def joined(found: Iterable[ReportNote]) -> List[List[ReportNote]]:
    """Notes in their order, those of one kind with the same fact together: of each person one, and then further ones."""
    facts: Dict[Tuple[object, ...], List[ReportNote]] = {}
    for number, each in enumerate(found):
        fact = fact_of(each)
        facts.setdefault((number,) if fact is None else (each.kind, fact), []).append(each)
    return [in_turn(of) for of in facts.values()]


def in_turn(found: List[ReportNote]) -> List[ReportNote]:
    first = {each.within: each for each in reversed(found)}
    return [*reversed(first.values()), *(each for each in found if first[each.within] is not each)]
