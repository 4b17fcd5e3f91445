"""From a snapshot to its questions, the texts in which they are asked, and everybody's answers."""
from dataclasses import dataclass, replace
from typing import AbstractSet, Callable, Iterable, List, Mapping, Sequence

from zirofen_host.ask.held import movers
from zirofen_host.ask.in_time import NotInTime
from zirofen_host.ask.model import Answers, Plan, Question
from zirofen_host.ask.program import UNSETTLED, TooLarge, abilities_of
from zirofen_host.ask.affordable import Runs, bounded_further, bounded_plan
from zirofen_host.ask.questions import Questions, further_of, plan_of, questions_of
from zirofen_host.ask.unanswerable import unanswerable
from zirofen_host.ask.texts import Programs, Text, texts_of, write
from zirofen_host.collect import bounded, turns
from zirofen_host.collect.accounts import Accounts
from zirofen_host.collect.bounded import Spent
from zirofen_host.collect.model import Snapshot, Tree, User
from zirofen_host.collect.notes import LEFT_OUT
from zirofen_host.fault import Fault
from zirofen_host.options import Options
from zirofen_host.profile import CgroupPath


@dataclass(frozen=True)
class Asked:
    """What was asked and answered, and the program, to be asked for advice."""
    questions: Questions
    answers: Answers
    programs: Programs


def everybody(tree: Tree, plan: Plan, further: Iterable[Question]) -> List[User]:
    """All who are asked of anything, and whoever else owns something in the tree."""
    asked = {user for users, _ in (*plan.questions, *further) for user in users}
    uids = {user.uid for user in asked}
    owners = {entry.uid for row in tree.rows.values() for entry in (row.directory, *row.files.values())} - {0}
    return sorted(asked | {User(uid, ()) for uid in owners - uids})


def has_all_cgroups(snapshot: Snapshot, options: Options, texts: Sequence[Text]) -> bool:
    """Whether the first text has every cgroup of the host, on all of which an answer rests that isn't the guards'."""
    is_all = options.only is None and not options.shallow and snapshot.source.options.only is None and not snapshot.changing
    return (is_all and bool(texts) and len(texts[0].rows) == len(snapshot.tree.rows)
            and not any(note.kind in LEFT_OUT for note in snapshot.notes))


def settleable(is_whole: bool, plan: Plan, not_asked: Mapping[CgroupPath, int]) -> Callable[[CgroupPath], bool]:
    """Of which subtrees more may be asked than the guards: it rests on all cgroups and on all users, with all their groups."""
    is_asked = is_whole and not plan.cut and not any(plan.left_out.values())
    return lambda path: is_asked and not not_asked.get(path)


def ask_all(snapshot: Snapshot, accounts: Accounts, options: Options, folder: str) -> Asked:
    """Asks the program of everybody who can matter for a subtree, in texts that stand in a folder: in small ones alone where it has too
    little memory or time for larger ones."""
    turns.turn_to(turns.HOST)
    try:
        return ask_in_texts(snapshot, accounts, options, folder, True)
    except TooLarge:
        return ask_in_texts(snapshot, accounts, options, folder, False)


def runs_of(questions: Questions) -> Runs:
    return Runs(questions.makers, Spent(bounded.RUNS, questions.accounts.charged_user))


def plan_of_listed(questions: Questions, held: AbstractSet[CgroupPath]) -> Plan:
    """What to ask of people: of the subtrees that aren't held against everybody. Where everybody is let in to one of them, whoever has
    something elsewhere is asked of it, too."""
    listed = questions.without(held)
    if not held or not any(map(listed.is_open, listed.subtrees)):
        return plan_of(listed)
    plan = plan_of(questions)
    some = (Question(users, tuple(path for path in paths if path not in held)) for users, paths in plan.questions)
    return replace(plan, questions=tuple(each for each in some if each.subtrees),
                   cut=tuple(each for each in plan.cut if each.subtree not in held))


def ask_in_texts(snapshot: Snapshot, accounts: Accounts, options: Options, folder: str, is_large: bool) -> Asked:
    questions = questions_of(snapshot, accounts)
    lost = unanswerable(snapshot, questions)
    questions = questions.without(lost)
    made = {path for path in questions.subtrees if questions.makers.within(path)}
    texts = texts_of(snapshot.tree, questions.subtrees, not options.no_processes, made, is_large)
    lost.update(texts.refused)
    questions = questions.without(texts.refused)
    texts.fill(lambda path: questions.holders[path].uids)
    programs = write(texts, options, f"{folder}/{'' if is_large else 'small-'}", snapshot)
    abilities = abilities_of(options.program)
    if not abilities.has_audit_all:
        raise Fault(f"{options.program} has no audit --all, which zirofen has since 0.2.0: name a newer one by --zirofen")
    programs = programs.able_to(abilities)
    held = programs.held() if abilities.has_everybody else None
    runs = runs_of(questions)
    plan, over = bounded_plan(questions.without(held or ()), plan_of_listed(questions, held or frozenset()), runs)
    lost.update(over)
    questions = questions.without(over)
    found, refused = programs.ask(plan.questions, questions.person_of)
    questions = questions.without({path for path, why in refused.items() if isinstance(why, NotInTime)})
    further, not_asked = bounded_further(*further_of(questions, plan, found), runs)
    more, refused_then = programs.ask(further, questions.person_of)
    found.update(more)
    if abilities.has_settle and any(answer.status == UNSETTLED for answer in found.values()):
        # it rests on all users, also on those of what is held
        whole = bounded_plan(questions, plan_of(questions), runs_of(questions))[0] if held else plan
        settled = programs.settled(found, everybody(snapshot.tree, whole, further), settleable(
            has_all_cgroups(snapshot, options, texts.texts), whole, not_asked), made)
        moving = movers(snapshot, accounts)
        found = {**settled, **{pair: answer for pair, answer in found.items() if pair.user.uid in moving}}
    refused = {**lost, **refused, **refused_then}
    return Asked(questions.without(refused),
                 Answers(plan, further, found, not_asked, refused, () if options.no_processes else texts.without_processes(),
                         abilities.version, abilities.has_advise, held), programs)
