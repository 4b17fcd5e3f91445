"""From questions and a time limit to the answers that were there in time, and why others are missing.

All is asked at once where that goes, else of what each person holds by itself, of whoever holds the most last.
"""
import time
from collections import defaultdict
from dataclasses import dataclass, replace
from typing import Callable, DefaultDict, Dict, List, Sequence, Tuple

from zirofen_host.ask.model import Question
from zirofen_host.ask.program import Answered, Late, Program
from zirofen_host.collect import turns
from zirofen_host.collect.reasons import Reason
from zirofen_host.fault import seconds_to_ask
from zirofen_host.profile import CgroupPath

# the person by whom a subtree is held
HolderOf = Callable[[CgroupPath], int]


@dataclass(frozen=True)
class NotInTime(Reason):
    """There was no time to ask of it."""
    # with what whose the time was spent, and how much of how much
    person: int
    spent: int
    seconds: int

    def __str__(self) -> str:
        return f"there was no time to ask of it: of {self.seconds} seconds {self.spent} went to what uid {self.person} holds"


def ask_in_time(program: Program, questions: Sequence[Question],
                holder_of: HolderOf) -> Tuple[Answered, Dict[CgroupPath, Reason]]:
    """The answers that aren't contained, and the subtrees for which there was no time."""
    left = seconds_to_ask()
    turns.turn_to(turns.HOST)
    if left is None:
        return program.ask(questions), {}
    try:
        return replace(program, limit=time.monotonic() + left / 2).ask(questions), {}
    except Late:
        return ask_in_turn(program, by_holder(questions, holder_of), left)


def by_holder(questions: Sequence[Question], holder_of: HolderOf) -> Dict[int, List[Question]]:
    """The questions of what each person holds; those first of whom the fewest answers are asked."""
    found: DefaultDict[int, List[Question]] = defaultdict(list)
    for users, subtrees in questions:
        paths: DefaultDict[int, List[CgroupPath]] = defaultdict(list)
        for path in subtrees:
            paths[holder_of(path)].append(path)
        for person, some in paths.items():
            found[person].append(Question(users, tuple(some)))
    pairs = {person: sum(len(each.users) * len(each.subtrees) for each in asked) for person, asked in found.items()}
    return {person: found[person] for person in sorted(found, key=lambda person: (pairs[person], person))}


def ask_in_turn(program: Program, shares: Dict[int, List[Question]], seconds: float) -> Tuple[Answered, Dict[CgroupPath, Reason]]:
    """Each person's questions by themselves, for which there is as much of what is left of the time as for each behind them."""
    found: Answered = {}
    late: List[CgroupPath] = []
    spent: Dict[int, float] = {}
    for number, (person, questions) in enumerate(shares.items()):
        began = time.monotonic()
        turns.turn_to(person)
        limit = began + (seconds_to_ask() or 0.0) / (len(shares) - number)
        try:
            found.update(replace(program, limit=limit).ask(questions))
        except Late:
            late += [path for each in questions for path in each.subtrees]
        spent[person] = time.monotonic() - began
    turns.turn_to(turns.HOST)
    most = max(spent, key=lambda person: spent[person])
    return found, dict.fromkeys(late, NotInTime(most, round(spent[most]), round(seconds)))
