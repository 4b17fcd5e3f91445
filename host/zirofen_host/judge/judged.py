"""From answers to what they come to: the holders' own, what is expected above, and entries that let somebody in."""
from collections import defaultdict
from dataclasses import dataclass
from typing import DefaultDict, Dict, FrozenSet, Iterable, List, Mapping, NamedTuple, Optional, Sequence, Set, Tuple

from zirofen_host.ask.guards import OVER, UNKNOWN
from zirofen_host.ask.model import Answer, Answers, Pair
from zirofen_host.ask.program import worst
from zirofen_host.ask.questions import Questions
from zirofen_host.collect import bounded
from zirofen_host.collect.bounded import Spent
from zirofen_host.collect.model import GROUP, OTHERS, OWNER, Entry, User
from zirofen_host.fault import FAULT
from zirofen_host.profile import ANYBODY, MOST_GROUPS, CgroupPath, is_inside, tree_order


class Place(NamedTuple):
    """An entry of a cgroup, by its name."""
    path: CgroupPath
    name: str


class LetIn(NamedTuple):
    """Somebody that an entry lets in: by its owner, by its group or with everybody, and the uids that were found so."""
    by: str
    id: Optional[int]
    uids: FrozenSet[int]


class Own(NamedTuple):
    """The worst answer of a uid that holds a subtree, and as whom it was asked."""
    user: User
    answer: Answer
    is_above: bool


class Uncontained(NamedTuple):
    """A pair that isn't contained, and the topmost place that is theirs above it, where that explains the answer."""
    pair: Pair
    answer: Answer
    handed: Optional[CgroupPath]


@dataclass(frozen=True)
class LetsIn:
    """What lets somebody in, with all whom it does and to what."""
    place: Place
    # of what is no entry, none
    entry: Optional[Entry]
    # the worst answer, and whose it is
    worst: Pair
    answer: Answer
    whom: Tuple[LetIn, ...]
    # of those inside one another the outermost, in the order of their tree
    subtrees: Tuple[CgroupPath, ...]


@dataclass(frozen=True)
class Judged:
    """The pairs that aren't contained, each where it belongs."""
    entries: Mapping[Place, LetsIn]
    faults: Mapping[Tuple[User, str], Sequence[CgroupPath]]
    # by uid and the topmost place that is theirs
    above: Mapping[Tuple[int, CgroupPath], Set[CgroupPath]]
    own: Mapping[Tuple[int, CgroupPath], Own]
    # those that some entry lets in, to be advised of
    let_in: Sequence[Pair]
    # what is reported of entries, by whose making it is
    spent: Spent


def judge(questions: Questions, answers: Answers) -> Judged:
    found, spent = uncontained(questions, answers), Spent(bounded.ENTRIES, questions.accounts.charged_user)
    let_in = [each for each in found if each.answer.status != FAULT and not each.handed and is_reported(questions, each.pair, spent)]
    return Judged(entries_of(questions, let_in), faults_of(found), above_of(questions, answers, found), own_of(questions, found),
                  [each.pair for each in let_in], spent)


def is_reported(questions: Questions, pair: Pair, spent: Spent) -> bool:
    """Whether what lets somebody in to a subtree is reported: of what somebody made there may be any number."""
    maker = questions.makers.within(pair.subtree)
    return maker is None or not spent.is_over(maker) and spent.take(maker, len(failing(questions, pair)))


def uncontained(questions: Questions, answers: Answers) -> List[Uncontained]:
    """Every pair that isn't contained, those that weren't asked first, and the others in the order of the tree."""
    found = []
    for each in answers.plan.cut:
        line = f"{each.count} of their groups matter here, and the program takes {MOST_GROUPS}: nothing was asked"
        found.append(Uncontained(Pair(each.user, each.subtree), Answer(FAULT, (line,)), None))
    for pair in sorted(answers.found, key=in_turn):
        answer = answers.found[pair]
        found.append(Uncontained(pair, answer, None if answer.status == FAULT else questions.handed_above(*pair)))
    return found


def in_turn(pair: Pair) -> Tuple[bytes, bool, User]:
    return tree_order(pair.subtree), pair.user.uid != ANYBODY, pair.user


def faults_of(found: Iterable[Uncontained]) -> Mapping[Tuple[User, str], Sequence[CgroupPath]]:
    faults: DefaultDict[Tuple[User, str], List[CgroupPath]] = defaultdict(list)
    for pair, answer, _ in found:
        if answer.status == FAULT:
            faults[pair.user, answer.lines[0]].append(pair.subtree)
    return faults


def above_of(questions: Questions, answers: Answers, found: Iterable[Uncontained]) -> Mapping[Tuple[int, CgroupPath], Set[CgroupPath]]:
    """What is expected of whoever has something above: of what was asked, and of what wasn't since it is."""
    above: DefaultDict[Tuple[int, CgroupPath], Set[CgroupPath]] = defaultdict(set)
    for uid, place, subtree in questions.expected_above(answers.plan):
        above[uid, place].add(subtree)
    for pair, _, handed in found:
        if handed:
            above[pair.user.uid, handed].add(pair.subtree)
    return above


def entries_of(questions: Questions, let_in: Iterable[Uncontained]) -> Mapping[Place, LetsIn]:
    """What each answer that counts rests on."""
    by_place: DefaultDict[Place, List[Uncontained]] = defaultdict(list)
    for each in let_in:
        for place, _ in failing(questions, each.pair):
            by_place[place].append(each)
    return {place: lets_in(questions, place, some) for place, some in by_place.items()}


def lets_in(questions: Questions, place: Place, found: Sequence[Uncontained]) -> LetsIn:
    """What lets somebody in by the answers that rest on it, which come in the order of the tree."""
    entry = None if place.name in (OVER, UNKNOWN) else questions.delegations.entry(*place)
    uids: DefaultDict[Tuple[str, Optional[int]], Set[int]] = defaultdict(set)
    subtrees: List[CgroupPath] = []
    for pair, _, _ in found:
        by, number = class_of(pair.user, entry)
        uids[by, number].add(pair.user.uid)
        if not subtrees or not is_inside(pair.subtree, subtrees[-1]):
            subtrees.append(pair.subtree)
    status = worst({answer.status for _, answer, _ in found})
    gravest = next(each for each in found if each.answer.status == status)
    whom = sorted(LetIn(by, number, frozenset(of)) for (by, number), of in uids.items())
    return LetsIn(place, entry, gravest.pair, gravest.answer, tuple(whom), tuple(subtrees))


def class_of(user: User, entry: Optional[Entry]) -> Tuple[str, Optional[int]]:
    """By which class somebody is let in, and the uid or the gid that it is; what is no entry lets in each by themselves."""
    by = user.class_of(entry) if entry else OTHERS if user.uid == ANYBODY else OWNER
    return by, None if by == OTHERS else entry.gid if entry and by == GROUP else user.uid


def own_of(questions: Questions, found: Iterable[Uncontained]) -> Mapping[Tuple[int, CgroupPath], Own]:
    """The worst answer of each uid that holds a subtree."""
    own: Dict[Tuple[int, CgroupPath], Own] = {}
    for pair, answer, handed in found:
        if questions.is_holder(*pair):
            key, of_pair = (pair.user.uid, pair.subtree), Own(pair.user, answer, handed is not None)
            own[key] = worse_of(own[key], of_pair) if key in own else of_pair
    return own


def worse_of(before: Own, own: Own) -> Own:
    """The worse of two answers of a uid, else the first; what counts goes before what is expected."""
    if own.is_above != before.is_above:
        return own if before.is_above else before
    return before if worst({before.answer.status, own.answer.status}) == before.answer.status else own


def failing(questions: Questions, pair: Pair) -> List[Tuple[Place, Optional[Entry]]]:
    """The entries that a guard stands on and that a user reaches; what the program answered rests on one of these."""
    found: List[Tuple[Place, Optional[Entry]]] = []
    for each in questions.guarded(pair.subtree):
        entry = questions.delegations.entry(each.path, each.name)
        if pair.user.reaches(entry):
            found.append((Place(each.path, each.name), entry))
    if questions.already_over(pair.subtree):
        found.append((Place(pair.subtree, OVER), None))
    return found or [(Place(pair.subtree, UNKNOWN), None)]
