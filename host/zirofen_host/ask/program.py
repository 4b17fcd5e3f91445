"""From a tree text with questions to the program's answers: every pair that isn't contained, and what to change.

By `audit --all` every pair is asked of, or by `audit --pairs`, where the program has it; where its --help has `audit --settle`, it is asked
of what is left unsettled, with everybody together.
"""
import os
import signal
import subprocess
import time
from concurrent.futures import ThreadPoolExecutor
from dataclasses import dataclass, replace
from typing import Callable, Collection, Container, Dict, Iterable, List, NamedTuple, Optional, Sequence, Set, Tuple, TypeVar

from zirofen_host import ending, output, progress
from zirofen_host.ask.gathered import ROOM, Pairs, Run, blocks_of, fitting, gathered, halves_of, pair_line, pairs_of, size, user_word
from zirofen_host.ask.model import Abilities, Advice, Answer, Pair, Question
from zirofen_host.collect.model import User
from zirofen_host.fault import FAULT, Fault, out_of_time, seconds_left, seconds_to_ask
from zirofen_host.installed import WRAPPER
from zirofen_host.profile import CgroupPath, text_of

CONTAINED, ESCAPES, UNSETTLED = 0, 1, 2
# the worst first: an answer that is missing may be any
WORST_FIRST = (FAULT, ESCAPES, UNSETTLED, CONTAINED)
WORDS = {"contained": CONTAINED, "escapes": ESCAPES, "unsettled": UNSETTLED}
NOT_BUILT = 70
NO_MEMORY = "fault: memory"
# how the program begins its line of a text that is no tree
FAULT_OF_TREE = "fault: tree"
NO_TIME = "the program took too long"
# runs at once, and bytes of memory that these take together, as long as one doesn't take more by itself
MOST_AT_ONCE, MOST_MEMORY = 16, 1 << 30
# so long subtrees are settled, so many in a run
SETTLING_SECONDS, SETTLED = 300, 16

Item = TypeVar("Item")
Result = TypeVar("Result")
Answered = Dict[Pair, Answer]


class Ended(NamedTuple):
    """How a run ended that is no fault."""
    status: int
    lines: List[str]


NOTHING_FOUND = Ended(CONTAINED, ["contained"])


class TooLarge(Fault):
    """A large text for which the program has too little memory or time."""


class TreeRefused(Fault):
    """A text that the program takes as no tree."""


class Refused(Exception):
    """The program's fault for one run; of the whole text, or maybe of one pair alone."""

    def __init__(self, line: str, is_whole: bool, help_lines: Iterable[str] = (), is_too_large: bool = False,
                 is_of_tree: bool = False) -> None:
        super().__init__(line)
        self.is_whole, self.help_lines, self.is_too_large, self.is_of_tree = is_whole, tuple(help_lines), is_too_large, is_of_tree

    def fault(self) -> BaseException:
        if self.is_too_large:
            return TooLarge(str(self))
        return (TreeRefused if self.is_of_tree else Fault)(str(self), self.help_lines)


class Late(Refused):
    """There was no time for a run; by itself it ends all of what was to be answered."""

    def __init__(self) -> None:
        super().__init__(NO_TIME, True)

    def fault(self) -> BaseException:
        return out_of_time()


def user_words(user: User) -> List[str]:
    return ["--uid", str(user.uid), *(word for gid in user.gids for word in ("--gid", str(gid)))]


def answer_of(ended: Optional[int], lines: Sequence[str]) -> Answer:
    """An answer by its lines, which the status has to go with."""
    status = WORDS.get(lines[0].split(" ")[0]) if lines else None
    if status is None or status != ended:
        raise Refused(f"ended with status {ended} and {lines[0] if lines else 'no line'!r}", False)
    return Answer(status, tuple(lines))


def program_at(path: str) -> str:
    """The program itself: a clone's wrapper sums all sources at each call, and is asked once which program it would run."""
    if not os.path.isfile(path) or os.path.realpath(path) != os.path.realpath(WRAPPER):
        return path
    try:
        ended = ending.run([path, "--which"])
    except OSError:
        return path
    found = ended.stdout.rstrip("\n")
    return found if not ended.returncode and os.path.isabs(found) and os.access(found, os.X_OK) else path


@dataclass(frozen=True)
class Program:
    """The program, and the tree text that it is asked of."""
    path: str
    tree: str
    # bytes of memory that a run takes at most, as far as that is known
    memory: int = 0
    is_large: bool = False
    # when what is asked in a large text has to have ended
    end: Optional[float] = None
    # when a run has to have ended by itself
    limit: Optional[float] = None
    # whether it takes lines of pairs to be asked of
    takes_pairs: bool = False

    def until(self, end: float) -> "Program":
        """The same, where the text is large as long as there is time."""
        return replace(self, end=end) if self.is_large else self

    def in_half(self) -> "Program":
        """The same, of which a run takes half of what is left of the time, so that the other half is there to tell what is known."""
        left = seconds_left()
        return self if left is None else replace(self, limit=time.monotonic() + left / 2)

    def start(self, words: Sequence[str]) -> "subprocess.CompletedProcess[str]":
        bounds = (seconds_left(), *(None if end is None else max(end - time.monotonic(), 0.0) for end in (self.end, self.limit)))
        return ending.run([self.path, *words], min((each for each in bounds if each is not None), default=None))

    def try_start(self, words: Sequence[str]) -> "subprocess.CompletedProcess[str]":
        try:
            return self.start(words)
        except OSError as error:
            raise Fault(f"can't run {self.path}: {error.strerror}") from None
        except subprocess.TimeoutExpired:
            if self.end is not None:
                raise Refused(NO_TIME, True, (), True) from None
            raise Late from None

    def run(self, *words: str) -> Ended:
        ended = self.try_start(words)
        if ended.returncode in (CONTAINED, ESCAPES, UNSETTLED) and ended.stdout:
            return Ended(ended.returncode, ended.stdout.splitlines())
        error = error_lines(ended)
        is_too_large = self.is_large and (error[0] == NO_MEMORY or ended.returncode == -signal.SIGKILL)
        is_of_tree = error[0].startswith(FAULT_OF_TREE)
        is_whole = is_too_large or ended.returncode == NOT_BUILT or is_of_tree
        raise Refused(error[0], is_whole, help_below(error), is_too_large, is_of_tree)

    def refuse_text(self) -> None:
        """Ends with the program's fault line where it doesn't take the text: no operation is tried in it."""
        ended = self.try_start(["replay", "--tree", self.tree, "--uid", "65534", "--ops", os.devnull])
        if ended.returncode != CONTAINED:
            error = error_lines(ended)
            raise Fault(error[0], help_below(error))

    def breaks(self, user: User, subtree: CgroupPath, operations: Sequence[str]) -> bool:
        """Whether a user's operations come to their end and break a subtree; Refused is for the caller."""
        file = self.lines_file("ops", (line.encode("ascii", "replace") for line in operations))
        words = ("replay", "--tree", self.tree, *user_words(user), "--ops", file, "--subtree", text_of(subtree))
        return self.in_half().run(*words).status == ESCAPES

    def ask(self, questions: Iterable[Question]) -> Answered:
        """The answers that aren't contained."""
        found: Answered = {}
        runs = gathered(list(questions), most_at_once(self.memory)) if self.takes_pairs else [*fitting(questions)]
        try:
            for answers in at_once(self.in_halves, runs, self.memory):
                found.update(answers)
        except Refused as refused:
            if isinstance(refused, Late) and self.limit is not None:
                raise
            raise refused.fault() from None
        return found

    def audit(self, users: Sequence[User], subtrees: Sequence[CgroupPath], *options: str) -> Ended:
        words = [word for user in users for word in ("--uid", user_word(user))]
        return self.run("audit", *options, "--tree", self.tree, *words, *subtree_words(subtrees))

    def held(self, subtrees: Sequence[CgroupPath]) -> Set[CgroupPath]:
        """Those of some subtrees that are contained against everybody but root; Refused is for the caller."""
        paths = {text_of(path): path for path in subtrees}
        if not paths:
            return set()
        file = self.lines_file("subtrees", (word.encode("ascii") for word in paths))
        ended = self.run("audit", "--everybody", "--tree", self.tree, "--subtrees", file)
        return {*subtrees} - {paths[word] for word in listed_in(ended, paths)}

    def settled(self, found: Answered, users: Sequence[User], made: Container[CgroupPath] = ()) -> Answered:
        """The answers, with what `audit --settle` says of those that are unsettled, where all users can be asked of in one run: it
        holds of them together. What somebody made comes last, since there is a bound of time."""
        unsettled = {pair.subtree for pair, answer in found.items() if answer.status == UNSETTLED}
        left = sorted(unsettled, key=lambda path: (path in made, path))
        asked: Dict[Pair, Optional[Answer]] = {}
        together = set(users)
        if sum(size(["--uid", user_word(user)]) for user in users) <= ROOM // 2:
            seconds = seconds_to_ask()
            bounded = replace(self, end=time.monotonic() + (SETTLING_SECONDS if seconds is None else min(seconds, SETTLING_SECONDS)))
            for subtrees in blocks_of(left, lambda path: ["--subtree", text_of(path)], ROOM // 2, SETTLED):
                progress.tell(f"settling {len(subtrees)} subtrees")
                try:
                    answers = bounded.listed(users, subtrees, "--all", "--settle")
                except Refused as refused:
                    if refused.is_too_large or isinstance(refused, Late):
                        break
                    if refused.is_whole:
                        raise refused.fault() from None
                    continue
                asked.update({pair: answers.get(pair) for pair in found if pair.subtree in subtrees and pair.user in together})
        changed = {pair: asked.get(pair, answer) if answer.status == UNSETTLED else answer for pair, answer in found.items()}
        return {pair: answer for pair, answer in changed.items() if answer is not None}

    def in_halves(self, run: Run) -> Answered:
        """The answers of a run; where it ends with a fault, those of its halves, down to the pair that has it."""
        try:
            return self.named(run.pairs) if isinstance(run, Pairs) else self.listed(run.users, run.subtrees, "--all")
        except Refused as refused:
            if refused.is_whole:
                raise
            halves = halves_of(run)
            if not halves:
                return {pair: Answer(FAULT, (str(refused),)) for pair in pairs_of(run)}
        found: Answered = {}
        for half in halves:
            found.update(self.in_halves(half))
        return found

    def listed(self, users: Sequence[User], subtrees: Sequence[CgroupPath], *options: str) -> Answered:
        """The answers of all pairs that an audit lists."""
        by_word, paths = {user_word(user): user for user in users}, {text_of(path): path for path in subtrees}
        return answers_in(self.audit(users, subtrees, *options), lambda word, path: (
            Pair(by_word[word], paths[path]) if word in by_word and path in paths else None))

    def named(self, pairs: Sequence[Pair]) -> Answered:
        """The answers of pairs that are named one by one."""
        asked = {(user_word(pair.user), text_of(pair.subtree)): pair for pair in pairs}
        return answers_in(self.run("audit", *self.pair_words(pairs)), lambda word, path: asked.get((word, path)))

    def pair_words(self, pairs: Iterable[Pair]) -> Sequence[str]:
        """The words by which the program is asked of pairs, whose lines go into a file."""
        file = self.lines_file("pairs", (pair_line(pair).encode("ascii") for pair in pairs))
        return "--tree", self.tree, "--pairs", file

    def lines_file(self, kind: str, lines: Iterable[bytes]) -> str:
        """Makes a file of lines beside the tree text, which goes with it."""
        file = f"{self.tree}.{os.urandom(8).hex()}.{kind}"
        output.make(file, b"".join(line + b"\n" for line in lines))
        return file

    def advise(self, pairs: Sequence[Pair]) -> List[Advice]:
        """What fails for pairs of a user and a subtree, each with its changes, as words; Refused is for the caller."""
        ended = self.run("advise", *self.pair_words(pairs))
        lines = [tuple(line.split(" ")) for line in ended.lines]
        starts = [number for number, words in enumerate(lines) if words[0] == "fails"]
        return [Advice(lines[start][1:], tuple(lines[start + 1:end])) for start, end in zip(starts, [*starts[1:], len(lines)])]


def abilities_of(path: str) -> Abilities:
    """What the program can do, by what it says of itself."""
    program = Program(path, "")
    audit, advise = help_of(program, "audit"), help_of(program, "advise")
    return Abilities("--all" in audit.split(), "--pairs" in advise.split(), version_of(program), "--settle" in audit.split(),
                     "--subtree" in help_of(program, "explain").split(), "--pairs" in audit.split(), "--subtrees" in audit.split())


def subtree_words(subtrees: Iterable[CgroupPath]) -> List[str]:
    return [word for path in subtrees for word in ("--subtree", text_of(path))]


def help_of(program: Program, *words: str) -> str:
    try:
        return "\n".join(program.run(*words, "--help").lines)
    except Refused as refused:
        if refused.is_whole:
            raise refused.fault() from None
        return ""


def version_of(program: Program) -> Optional[str]:
    try:
        return program.run("--version").lines[0]
    except Refused:
        return None


def most_at_once(memory: int) -> int:
    """How many runs go at once, each of which takes so many bytes."""
    return max(min(os.cpu_count() or 1, MOST_AT_ONCE, MOST_MEMORY // max(memory, 1)), 1)


def at_once(call: Callable[[Item], Result], items: Sequence[Item], memory: int) -> List[Result]:
    """Calls with each of the items, each of which takes so many bytes, several at once; the results in their order."""
    results = []
    with ThreadPoolExecutor(most_at_once(memory)) as workers:
        for result in workers.map(call, items):
            results.append(result)
            progress.tell(f"{len(results)} of {len(items)} runs of the program are done")
    return results


def error_lines(ended: "subprocess.CompletedProcess[str]") -> List[str]:
    """The lines of a fault; the first is the fault. Where a signal ended the program, whatever it wrote is none."""
    if ended.returncode < 0:
        return [f"the program was ended by the signal {signal_name(-ended.returncode)}, which is no answer: "
                "maybe it has too little stack or memory (ulimit -s, -v)"]
    return [line for line in ended.stderr.split("\n") if line] or [f"ended with status {ended.returncode}"]


def help_below(lines: Sequence[str]) -> List[str]:
    """The lines of help below a fault, which stand two spaces in."""
    return [line for line in lines[1:] if line.startswith("  ")]


def signal_name(number: int) -> str:
    try:
        return signal.Signals(number).name
    except ValueError:
        return str(number)


def answers_in(ended: Ended, pair_of: Callable[[str, str], Optional[Pair]]) -> Answered:
    """The answers that an audit lists, by the pair of each user's word and subtree's, which has to be one that was asked of."""
    found: Answered = {}
    for head, lines in sections(ended.lines):
        word, path = (head.split(" ") + ["", ""])[1:3]
        pair = pair_of(word, path)
        if head != f"pair {word} {path}" or pair is None or pair in found:
            raise Refused(f"an answer that wasn't asked for: {head!r}", False)
        found[pair] = answer_of(WORDS.get(lines[0].split(" ")[0] if lines else ""), lines)
    statuses = {answer.status for answer in found.values()}
    if CONTAINED in statuses or ended.status != worst(statuses) or not found and ended.lines != NOTHING_FOUND.lines:
        raise Refused(f"ended with status {ended.status}, which its answers don't have", False)
    return found


def listed_in(ended: Ended, asked: Container[str]) -> List[str]:
    """The subtrees that an audit against everybody lists, each of which was asked of and has lines of what fails."""
    found = sections(ended.lines, "subtree")
    for head, lines in found:
        if head.partition(" ")[2] not in asked or not lines or any(not line.startswith("fails ") for line in lines):
            raise Refused(f"an answer that wasn't asked for: {head!r}", False)
    if ended.status != (ESCAPES if found else CONTAINED) or not found and ended.lines != NOTHING_FOUND.lines:
        raise Refused(f"ended with status {ended.status}, which its answers don't have", False)
    return [head.partition(" ")[2] for head, _ in found]


def sections(lines: Iterable[str], word: str = "pair") -> List[Tuple[str, List[str]]]:
    """The lines behind each that begins with a word."""
    found: List[Tuple[str, List[str]]] = []
    for line in lines:
        if line.startswith(f"{word} "):
            found.append((line, []))
        elif found:
            found[-1][1].append(line)
    return found


def worst(statuses: Collection[int]) -> int:
    return next((status for status in WORST_FIRST if status in statuses), CONTAINED)
