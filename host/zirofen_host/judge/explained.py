"""From one user and one subtree to why they are answered so: what each guard asks, in words and with names.

All of it is what the program's `explain` prints. Its second row of guards, and the answer that may stand on it, rest on every cgroup of
the host: where the text hasn't all of them they are left out.
"""
from typing import Dict, Iterator, List, Sequence, Tuple

from zirofen_host.ask.gathered import pair_line, user_word
from zirofen_host.ask.guards import GUARDS
from zirofen_host.ask.model import Answer, Pair
from zirofen_host.ask.program import CONTAINED, UNSETTLED, WORDS, Refused, abilities_of, answer_of, sections, worst
from zirofen_host.collect.model import Snapshot, User
from zirofen_host.fault import FAULT, Fault
from zirofen_host.files import COUNTING
from zirofen_host.judge.names import Names, names_of
from zirofen_host.judge.one import One, Standing, Warn, standing
from zirofen_host.options import AskOptions
from zirofen_host.profile import MOST_GROUPS, text_of

BY = {"owner": "as its owner", "group": "through its group", "others": "as one of all others"}
STAYS = {"spared": "the subtree stays: they don't write the directory where it would be removed",
         "upheld": "the subtree stays: a cgroup below it does", "removed": "the subtree may be removed"}
CONTROL = {"on": "stays enabled", "off": "stays off", "turned": "may be enabled or disabled"}
FILES = {"spared": "they reach no limit file of the subtree", "reached": "they reach a limit file of the subtree"}
TAKES = {"spared": "they move no process there", "enabling": "no process goes there, since it goes on enabling memory",
         "takes": "they may move a process there"}
GROWS = {"spared": "they make no cgroup in it", "full": "a limit leaves no room for a cgroup in it",
         "grows": "they may make a cgroup in it"}
# lines of the second row of guards
FURTHER = ("stays", "control", "files", "shut")


def entry_text(names: Names, words: Sequence[str]) -> str:
    """An entry on which a guard stands, its owner, group and mode, and who reaches it."""
    guard, path, entry, owner, mode, *by = words
    uid, _, gid = owner.partition(":")
    whose = f"{'the directory' if entry == 'dir' else entry} of {path} ({names.user(int(uid))}, {names.group(int(gid))}, {mode})"
    return f"{whose} {f'is theirs {BY[by[0]]}' if by else 'is out of their reach'}: whoever writes it {GUARDS[guard].deed}"


def text_of_words(names: Names, words: Sequence[str]) -> str:
    """What a guard asks, and by what that is so."""
    kind, path, *rest = words
    if kind == "already-over":
        file, number, most = rest
        return f"{number} {COUNTING[file]} below {path}, and {'no limit' if most == 'max' else f'{most} at most'}"
    if kind == "stays":
        return STAYS[rest[0]]
    if kind == "control":
        return f"{rest[0]} {CONTROL[rest[1]]} in {path}"
    if kind == "files":
        return FILES[rest[0]]
    if kind == "shut":
        return f"{path}: {TAKES[rest[0]]}; {GROWS[rest[1]]}"
    return entry_text(names, words)


def line_of(names: Names, line: str) -> str:
    """A line in words; one that isn't understood stands as it is."""
    verdict, *words = line.split(" ")
    try:
        return f"{verdict}: {text_of_words(names, words)}"
    except (KeyError, IndexError, ValueError):
        return line


def is_further(line: str) -> bool:
    return line.split(" ")[1:2] in [[kind] for kind in FURTHER]


def answer_in(at: Standing, lines: Sequence[str]) -> Answer:
    """What is said of a pair, behind the line that names it: the last line is the answer."""
    if at.is_whole:
        return Answer(WORDS[lines[-1].split(" ")[0]], tuple(lines))
    first = [line for line in lines[:-1] if not is_further(line)]
    held = all(line.startswith("holds ") for line in first)
    return Answer(CONTAINED if held else UNSETTLED, (*first, "contained" if held else "unsettled"))


def answer(at: Standing, user: User, too_many: int) -> Answer:
    if too_many:
        return Answer(FAULT, (f"{too_many} of their groups matter here, and the program takes {MOST_GROUPS}",))
    one: One = at.one
    try:
        ended = one.program.run("explain", "--tree", one.program.tree, "--uid", user_word(user), "--subtree", text_of(one.path))
        if len(ended.lines) < 2 or ended.lines[0] != f"pair {user_word(user)} {text_of(one.path)}":
            raise Refused(f"an answer that wasn't asked for: {ended.lines[0]!r}", False)
        answer_of(ended.status, ended.lines[-1:])
        return answer_in(at, ended.lines[1:])
    except Refused as refused:
        return Answer(FAULT, (str(refused), *refused.help_lines))


def together(at: Standing, users: Sequence[User]) -> Dict[User, Answer]:
    """What is said of several lists of groups, asked in one run; nothing where that isn't what was asked for, or a fault, which each is
    then asked for by itself."""
    pairs, program = [Pair(user, at.one.path) for user in users], at.one.program
    try:
        ended = program.run("explain", *program.pair_words(pairs))
    except Refused:
        return {}
    said = sections(ended.lines)
    statuses = {WORDS.get(lines[-1].split(" ")[0]) if lines else None for _, lines in said}
    if [head for head, _ in said] != list(map(pair_line, pairs)) or ended.status != worst({each for each in statuses if each is not None}):
        return {}
    return {} if None in statuses else {user: answer_in(at, lines) for user, (_, lines) in zip(users, said)}


def answers_of(at: Standing, takes_pairs: bool) -> Dict[User, Answer]:
    few = [user for user, too_many in at.users.items() if not too_many]
    is_there = at.one.path in at.one.delegations.tree.rows
    found = together(at, few) if takes_pairs and is_there and len(few) > 1 else {}
    return {user: found.get(user) or answer(at, user, too_many) for user, too_many in at.users.items()}


def lines_of(at: Standing, answers: Dict[User, Answer]) -> Iterator[str]:
    """What is said of each list of groups that somebody was seen with."""
    names = names_of(at.accounts)
    for user, each in answers.items():
        groups = f", groups {','.join(map(str, user.gids))}" if user.gids else ""
        yield f"{names.who(user)}{groups} in {text_of(at.one.path)}:"
        *reasons, last = each.lines if each.status != FAULT else (each.lines[0],)
        yield from (f"    {line_of(names, line)}" for line in reasons)
        yield last
    if not at.is_whole:
        yield "# the text hasn't every cgroup of this host: what else may keep a subtree, where a guard fails, isn't known"


def explain(snapshot: Snapshot, options: AskOptions, warn: Warn) -> Tuple[List[str], int]:
    """Why one user and one subtree are answered so, and the status."""
    abilities = abilities_of(options.program)
    if not abilities.has_explain:
        raise Fault("this zirofen has no explain")
    with standing(snapshot, options, warn) as at:
        answers = answers_of(at, abilities.has_pairs)
        return at.lines_and_status(answers, lines_of(at, answers))
