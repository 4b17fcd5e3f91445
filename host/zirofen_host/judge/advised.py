"""From the pairs of each text that aren't contained to what to change: the program is asked for advice once in each."""
from collections import defaultdict
from dataclasses import dataclass
from itertools import chain, zip_longest
from typing import DefaultDict, Dict, Iterable, Iterator, List, Mapping, Sequence, Tuple, Union

from zirofen_host.ask.model import Advice, Pair
from zirofen_host.ask.program import Refused, at_once
from zirofen_host.collect import bounded
from zirofen_host.collect.model import User
from zirofen_host.fault import Fault
from zirofen_host.judge.checked import Checked
from zirofen_host.judge.judged import LetsIn, Place
from zirofen_host.judge.shell import Change
from zirofen_host.profile import CgroupPath, path_of


@dataclass(frozen=True)
class Advised:
    """What to change of each entry, for all whom it lets in; the pairs of which no advice was given, by why; and of how many
    entries nothing is advised."""
    changes: Mapping[Place, Sequence[Change]]
    faults: Mapping[Tuple[User, str], Sequence[CgroupPath]]
    unasked: int = 0

    def changes_of(self, found: LetsIn) -> Sequence[Change]:
        """The changes for one entry."""
        return self.changes.get(found.place, ())


def advise(checked: Checked) -> Advised:
    """Asks for advice, in each text of all its pairs at once."""
    faults = {key: list(subtrees) for key, subtrees in checked.judged.faults.items()}
    if not checked.answers.has_advise:
        return Advised({}, faults)
    changes: DefaultDict[Place, List[Change]] = defaultdict(list)
    runs = runs_of(checked)
    memory = max((checked.programs.of[pairs[0].subtree].memory for pairs in runs), default=0)
    for pairs, advice in zip(runs, at_once(lambda pairs: advice_of(checked, pairs), runs, memory)):
        if isinstance(advice, str):
            for user, subtree in pairs:
                faults.setdefault((user, advice), []).append(subtree)
            continue
        for place, changed in by_place(advice):
            changes[place].extend(changed)
    unasked = sum(place not in changes for place in checked.judged.entries)
    return Advised(changes, faults, unasked)


def by_place(advice: Iterable[Advice]) -> Iterator[Tuple[Place, Sequence[Change]]]:
    """The changes for each entry that fails; what is no entry has the guard's own word as its name."""
    for fails, changes in advice:
        yield Place(path_of(fails[1]), fails[2] if len(fails) > 2 else fails[0]), changes


def runs_of(checked: Checked) -> List[List[Pair]]:
    """The pairs of each text, of no more texts than are asked: first of what root made, then of each person's in turn, so that
    nobody keeps another from advice."""
    of_text: Dict[str, List[Pair]] = {}
    for pair in checked.judged.let_in:
        of_text.setdefault(checked.programs.of[pair.subtree].tree, []).append(pair)
    by_maker: DefaultDict[int, List[List[Pair]]] = defaultdict(list)
    for pairs in of_text.values():
        by_maker[min(checked.makers.within(pair.subtree) or 0 for pair in pairs)].append(pairs)
    in_turn = chain.from_iterable(zip_longest(*(runs for maker, runs in sorted(by_maker.items()) if maker)))
    return [*by_maker[0], *(pairs for pairs in in_turn if pairs)][:bounded.ADVICE]


def advice_of(checked: Checked, pairs: Sequence[Pair]) -> Union[str, List[Advice]]:
    """What the program advises for pairs of one text, or the line of its fault."""
    try:
        advice = checked.programs.advise(pairs)
        for _, changes in advice:
            checked.commands(changes)
        return advice
    except (Refused, Fault) as fault:
        return str(fault)
