"""From the questions of one text to the runs of the program in which they are asked: each run reads the whole text, so that questions of
few pairs are asked together, where the program takes lines of pairs, and those of many each by itself."""
from typing import Callable, Dict, Iterable, Iterator, List, NamedTuple, Optional, Sequence, Tuple, TypeVar, Union

from zirofen_host.ask.model import Pair, Question
from zirofen_host.collect.model import User
from zirofen_host.profile import text_of

# bytes of one run's arguments, each with its pointer, or of its lines of pairs; a kernel takes two millions of arguments at least, with
# the environment
ROOM = 900_000
# a question of more pairs is asked by itself: as long as the program takes to go over so many lines it takes to read a text
ALONE = 4096
# of so many pairs at least is a run beside another one
SHARED = 512

Item = TypeVar("Item")


class Pairs(NamedTuple):
    """Pairs that are named one by one."""
    pairs: Tuple[Pair, ...]


Run = Union[Question, Pairs]


def size(words: Iterable[str]) -> int:
    return sum(len(word) + 9 for word in words)


def user_word(user: User) -> str:
    return f"{user.uid}:{','.join(map(str, user.gids))}" if user.gids else str(user.uid)


def pair_line(pair: Pair) -> str:
    return f"pair {user_word(pair.user)} {text_of(pair.subtree)}"


def pairs_of(run: Run) -> Tuple[Pair, ...]:
    """All pairs that a run asks of, those of one subtree together."""
    if isinstance(run, Pairs):
        return run.pairs
    return tuple(Pair(user, path) for path in run.subtrees for user in run.users)


def halves_of(run: Run) -> List[Run]:
    """A run in two; none where it is of one pair."""
    if isinstance(run, Pairs):
        return [Pairs(some) for some in shares_of(run.pairs, 2)] if len(run.pairs) > 1 else []
    if len(run.subtrees) > 1:
        return [Question(run.users, some) for some in shares_of(run.subtrees, 2)]
    return [Question(some, run.subtrees) for some in shares_of(run.users, 2)] if len(run.users) > 1 else []


def fitting(questions: Iterable[Question]) -> Iterator[Question]:
    """The questions in parts whose words fit into one run each."""
    for question in questions:
        for users in blocks_of(question.users, lambda user: ["--uid", user_word(user)], ROOM // 2):
            for subtrees in blocks_of(question.subtrees, lambda path: ["--subtree", text_of(path)], ROOM // 2):
                yield Question(tuple(users), tuple(subtrees))


def gathered(questions: Sequence[Question], most_at_once: int) -> List[Run]:
    """The runs in which questions are asked of a program that takes lines of pairs, and of which so many go at once."""
    if len(questions) < 2:
        return [*fitting(questions)]
    alone: List[Question] = []
    named: Dict[Pair, None] = {}
    for question in questions:
        if len(question.users) * len(question.subtrees) > ALONE:
            alone.append(question)
        else:
            named.update(dict.fromkeys(pairs_of(question)))
    shares = shares_of(list(named), max(min(len(named) // SHARED, most_at_once), 1))
    return [*fitting(alone), *(Pairs(tuple(some)) for share in shares for some in blocks_of(share, lambda pair: [pair_line(pair)], ROOM))]


def blocks_of(items: Iterable[Item], words: Callable[[Item], Iterable[str]], room: int,
              most: Optional[int] = None) -> Iterator[List[Item]]:
    """Items in lists whose words fit, of so many at most."""
    block: List[Item] = []
    used = 0
    for item in items:
        cost = size(words(item))
        if block and (used + cost > room or len(block) == most):
            yield block
            block, used = [], 0
        block.append(item)
        used += cost
    if block:
        yield block


def shares_of(items: Sequence[Item], count: int) -> List[Tuple[Item, ...]]:
    """Items in at most so many parts of about one length, in their order."""
    length = max(-(-len(items) // count), 1)
    return [tuple(items[start:start + length]) for start in range(0, len(items), length)]
