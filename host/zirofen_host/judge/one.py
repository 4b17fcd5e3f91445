"""From one user and one subtree, by name, to their answer and its status."""
import contextlib
import os
import pwd
from dataclasses import dataclass, replace
from typing import AbstractSet, Callable, Dict, Iterable, Iterator, List, Mapping, Optional, Tuple

from zirofen_host import output
from zirofen_host.ask.asking import has_all_cgroups
from zirofen_host.ask.delegations import Delegations
from zirofen_host.ask.held import movers
from zirofen_host.ask.model import Answer, Holders, Pair
from zirofen_host.ask.program import Program, Refused, abilities_of, answer_of, user_words, worst
from zirofen_host.ask.questions import holders_of, with_groups
from zirofen_host.ask.texts import Programs, texts_of, write
from zirofen_host.ask.unanswerable import changed_in, is_spared
from zirofen_host.collect.accounts import Accounts, accounts_of, is_id
from zirofen_host.collect.model import OTHERS, Snapshot, Tree, User
from zirofen_host.fault import FAULT, Fault
from zirofen_host.judge import premises
from zirofen_host.judge.shell import change_commands
from zirofen_host.options import AskOptions
from zirofen_host.profile import MOST_GROUPS, CgroupPath, ancestors, is_root, path_of, shown, text_of

Warn = Callable[[str], None]


@dataclass(frozen=True)
class One:
    """A subtree on a mount, and the program with a text that has it."""
    path: CgroupPath
    mount: str
    delegations: Delegations
    program: Program
    # which is asked: settle, where the program has it and the text has all cgroups, else check
    command: str


def uid_of(word: str, accounts: Accounts, on_host: bool) -> Optional[int]:
    """The uid of a name or of a number; a name is looked up as the host does, also where it isn't listed."""
    if is_id(word):
        return int(word)
    for account in accounts.lists.accounts:
        if account.name == word:
            return account.uid
    try:
        return pwd.getpwnam(word).pw_uid if on_host else None
    except (KeyError, ValueError):
        return None


def users_of(word: str, accounts: Accounts, on_host: bool) -> List[User]:
    """The users behind a name or a uid, one for each list of groups that they were seen with."""
    uid = uid_of(word, accounts, on_host)
    if uid is None:
        raise Fault(f"there is no account {word!r}")
    users = accounts.users_of(uid)
    if on_host:
        try:
            account = pwd.getpwuid(uid)
            others = set(os.getgrouplist(account.pw_name, account.pw_gid)) - {account.pw_gid}
            users.append(User(uid, (account.pw_gid, *sorted(others))))
        except (KeyError, OverflowError):
            pass
    return users


def is_known(user: User, tree: Tree, accounts: Accounts) -> bool:
    """Whether a uid has anything here: an account, a process, an entry that it owns or writes as itself or in a group."""
    return (user.uid in accounts.names or any(user.uid == uid for _, uid, _ in tree.processes)
            or any(user.reaches(entry) and user.class_of(entry) != OTHERS for row in tree.rows.values()
                   for entry in (row.directory, *row.files.values())))


def holders_at(delegations: Delegations, path: CgroupPath) -> Optional[Holders]:
    return holders_of(delegations, path, False) if path in delegations.tree.rows else None


def program_for(snapshot: Snapshot, options: AskOptions, folder: str, delegations: Delegations, uids: AbstractSet[int]) -> Programs:
    """The program, with a text that has the subtree; where there is none, the program says so of the root alone."""
    path, tree, changed = path_of(options.path), snapshot.tree, changed_in(snapshot, delegations.accounts)
    for place in (path, *ancestors(path)) if options.path.startswith("/") else ():
        if place in snapshot.unanswerable and not is_spared(snapshot, delegations.accounts, changed, holders_at(delegations, place), place):
            raise Fault(f"nothing is asked of {shown(options.path)}: {snapshot.unanswerable[place]}")
    if path not in tree.rows or is_root(path):
        root = path_of("/")
        tree = replace(tree, rows={root: tree.rows[root]}, processes=())
    texts = texts_of(tree, [path], not options.no_processes)
    if texts.refused:
        raise Fault(f"nothing is asked of {options.path}: {texts.refused[path]}")
    texts.fill(lambda _: uids)
    return write(texts, options, f"{folder}/", snapshot)


def as_asked(one: One, users: Iterable[User], warn: Warn) -> Dict[User, int]:
    """Each list of groups once, as far as it matters, with how many groups matter where these are too many, else none."""
    is_there = one.path in one.delegations.tree.rows and not is_root(one.path)
    guarded = one.delegations.guarded(one.path) if is_there else ()
    matter = {one.delegations.entry(each.path, each.name).gid for each in guarded}
    found = {}
    for user in users:
        few, count = with_groups(user, matter, one.delegations.gids_of_tree)
        if few and count:
            warn(f"{count} of their groups that are in the tree are left out: no entry that a guard is about has them")
        found[few or user] = 0 if few else count
    return found


def answer(one: One, user: User, too_many: int) -> Answer:
    if too_many:
        return Answer(FAULT, (f"{too_many} of their groups matter here, and the program takes {MOST_GROUPS}",))
    try:
        ended = one.program.run(one.command, "--tree", one.program.tree, *user_words(user), "--subtree", text_of(one.path))
        return answer_of(ended.status, ended.lines)
    except Refused as refused:
        return Answer(FAULT, (str(refused), *refused.help_lines))


def changes(one: One, user: User) -> Iterator[str]:
    """What fails, with the commands that change it."""
    try:
        advice = one.program.advise([Pair(user, one.path)])
    except Refused as refused:
        raise refused.fault() from None
    for fails, changed in advice:
        yield f"fails {' '.join(fails)}"
        for command in change_commands(one.mount, changed, lambda path, name: one.delegations.entry(path_of(path), name)):
            yield f"    change: {command}"


def lines_of(one: One, answers: Dict[User, Answer]) -> Iterator[str]:
    """The lines of the answers; where they differ by the groups, each has these at its head."""
    differ = len({each.lines for each in answers.values()}) > 1
    is_advised = any(each.status not in (0, FAULT) for each in answers.values()) and abilities_of(one.program.path).has_advise
    for number, (user, each) in enumerate(answers.items()):
        if differ:
            yield f"# uid {user.uid}, groups {','.join(map(str, user.gids)) or '-'}"
        elif number:
            continue
        yield from each.lines
        if each.status not in (0, FAULT) and is_advised:
            yield from (f"# {line}" for line in changes(one, user))
    if any(each.lines[0] == "escapes" for each in answers.values()):
        # for whoever makes commands of it
        yield f"# subtree {text_of(one.path)}"


@dataclass(frozen=True)
class Standing:
    """Who is asked of what, and whether the text has every cgroup of the host."""
    one: One
    accounts: Accounts
    # each list of groups, with how many of them matter where these are too many
    users: Dict[User, int]
    is_whole: bool
    # statuses besides those of answers
    statuses: AbstractSet[int]

    def lines_and_status(self, answers: Mapping[User, Answer], lines: Iterable[str]) -> Tuple[List[str], int]:
        """The lines and the worst status; a fault where nobody has an answer."""
        if all(each.status == FAULT for each in answers.values()):
            line, *help_lines = next(iter(answers.values())).lines
            raise Fault(line, help_lines)
        return list(lines), worst({each.status for each in answers.values()} | self.statuses)


@contextlib.contextmanager
def standing(snapshot: Snapshot, options: AskOptions, warn: Warn) -> Iterator[Standing]:
    """One user and one subtree, by name, and the program with a text, as long as that stands."""
    accounts = accounts_of(options.accounts, snapshot)
    users = users_of(options.user, accounts, not options.accounts and snapshot.source.file is None)
    if not any(is_known(user, snapshot.tree, accounts) for user in users):
        warn(f"uid {users[0].uid} owns nothing, writes nothing of their own, has no process and no account here")
    with output.temporary_folder() as folder:
        delegations = Delegations(snapshot.tree, accounts)
        programs = program_for(snapshot, options, folder, delegations, {user.uid for user in users})
        for note in programs.failed:
            warn(note.text)
        is_whole = has_all_cgroups(snapshot, options, programs.texts)
        is_moving = any(user.uid in movers(snapshot, accounts) for user in users)
        for line in premises.lines_of(snapshot, accounts, users, path_of(options.path)):
            warn(line)
        one = One(path_of(options.path), snapshot.mount, delegations, programs.of[path_of(options.path)],
                  "settle" if is_whole and not is_moving and abilities_of(options.program).has_settle else "check")
        asked = dict(sorted(as_asked(one, users, warn).items()))
        yield Standing(one, accounts, asked, is_whole, {FAULT} if programs.failed else set())


def ask(snapshot: Snapshot, options: AskOptions, warn: Warn) -> Tuple[List[str], int]:
    """The report of one user and one subtree, and its status."""
    with standing(snapshot, options, warn) as at:
        answers = {user: answer(at.one, user, count) for user, count in at.users.items()}
        return at.lines_and_status(answers, lines_of(at.one, answers))
