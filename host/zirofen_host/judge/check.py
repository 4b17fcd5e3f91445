"""From a snapshot to a report: everybody is asked of everything in it, and the answers are judged."""
from collections import defaultdict
from dataclasses import replace
from typing import Dict, FrozenSet, List, Optional, Tuple

from zirofen_host import output, version
from zirofen_host.ask.asking import ask_all
from zirofen_host.ask.model import Answer
from zirofen_host.ask.program import CONTAINED
from zirofen_host.ask.questions import unit_of
from zirofen_host.collect.accounts import Accounts, accounts_of
from zirofen_host.collect.makers import makers_in
from zirofen_host.collect.attempts import Attempts
from zirofen_host.collect.model import GROUP, OWNER, Scope, Snapshot, User
from zirofen_host.collect.notes import Note
from zirofen_host.fault import Fault
from zirofen_host.judge import capable, held, hierarchy, inside, long_lists, running, unseen, whole
from zirofen_host.judge.advised import Advised, advise
from zirofen_host.judge.checked import Checked
from zirofen_host.judge.finding_lines import SHOWN
from zirofen_host.judge.findings import above_findings, differs_findings, entry_findings, fault_findings, opened_findings
from zirofen_host.judge.host_model import ABSENT, NamedScope
from zirofen_host.judge.standing import severity_of
from zirofen_host.judge.judged import Own, judge
from zirofen_host.judge.limits import limits_of
from zirofen_host.judge.lists import shown_lists
from zirofen_host.judge.marked import marked
from zirofen_host.judge.model import VERSION, HeldBy, HolderAnswer, Report, ReportNote, Subtree
from zirofen_host.judge.names import names_of
from zirofen_host.judge.settings import Settings
from zirofen_host.options import Options
from zirofen_host.profile import ANYBODY, CgroupPath, path_of, shown, text_of

NO_SETTINGS: Settings = {}


def ask(snapshot: Snapshot, options: Options, folder: str, settings: Settings) -> Checked:
    """Everybody asked of everything, with texts that stand in a folder."""
    attempts = Attempts()
    accounts = attempts.at("accounts", lambda: accounts_of(options.accounts, snapshot), Accounts(), True)
    snapshot = replace(snapshot, notes=(*snapshot.notes, *attempts.failed))
    found = ask_all(snapshot, accounts, options, folder)
    answers = found.answers
    asked_of: Dict[CgroupPath, List[FrozenSet[User]]] = defaultdict(list)
    for users, subtrees in (*answers.plan.questions, *answers.further):
        together = frozenset(users)
        for path in subtrees:
            asked_of[path].append(together)
    asked: Dict[int, List[User]] = defaultdict(list)
    for user in sorted({user for users, _ in (*answers.plan.questions, *answers.further) for user in users}):
        asked[user.uid].append(user)
    return Checked(snapshot, options, names_of(accounts), found.questions, answers, found.programs,
                   judge(found.questions, answers), asked, asked_of, makers_in(snapshot, accounts.charged_user),
                   settings)


def subtree_of(checked: Checked, path: CgroupPath) -> Subtree:
    holders = checked.questions.holders[path]
    return Subtree(text_of(path), checked.questions.meant.get(path), unit_of(path), HeldBy(holders.by, holders.ids),
                   answers_of(checked, path), checked.within(path), against=checked.against.of(path))


def answers_of(checked: Checked, subtree: CgroupPath) -> Tuple[HolderAnswer, ...]:
    """What those who hold a subtree were answered, each answer once with whom it is of."""
    groups: Dict[Tuple[Tuple[str, ...], bool], List[Tuple[int, Own]]] = defaultdict(list)
    uids = checked.questions.holders[subtree].uids
    for uid in sorted(uids):
        own = checked.judged.own.get((uid, subtree)) or contained(checked, uid, subtree)
        if own:
            groups[own.answer.lines, own.is_above].append((uid, own))
        elif not checked.questions.is_above(uid, subtree):
            raise Fault(f"uid {uid} holds {text_of(subtree)} and wasn't asked of it: this helper is wrong")
    if uids and not groups:
        raise Fault(f"nobody was asked of {text_of(subtree)}: this helper is wrong")
    return tuple(answer_of(checked, subtree, lines, is_above, dict(found)) for (lines, is_above), found in sorted(groups.items()))


def contained(checked: Checked, uid: int, subtree: CgroupPath) -> Optional[Own]:
    """The answer of a uid that was asked of a subtree and isn't reported, by the longest list of groups; against everybody it is theirs
    whatever their groups are."""
    if subtree in checked.against_everybody:
        return Own(User(uid, ()), Answer(CONTAINED, ("contained",)), False)
    asked = [user for user in checked.asked.get(uid, ()) if checked.questions.is_holder(user, subtree)
             and any(user in users for users in checked.asked_of[subtree])]
    return Own(max(asked, key=lambda user: len(user.gids)), Answer(CONTAINED, ("contained",)), False) if asked else None


def answer_of(checked: Checked, subtree: CgroupPath, lines: Tuple[str, ...], is_above: bool, found: Dict[int, Own]) -> HolderAnswer:
    holders, uids = checked.questions.holders[subtree], tuple(found)
    gids = found[uids[0]].user.gids if len(uids) == 1 else holders.ids if holders.by == GROUP else ()
    # whoever has nothing but everybody's bits has no number of their own
    names = ["anybody" if uid == ANYBODY and holders.by != OWNER else str(uid) for uid in uids]
    who = ",".join(names) if len(uids) <= 3 else f"{len(uids)} users"
    is_named = len(uids) <= 3 and any(uid in checked.names.users or checked.names.range_of(uid) for uid in uids) and "anybody" not in names
    kept = long_lists.kept(lines, uids[0], text_of(subtree), checked.options.carried)
    made = HolderAnswer(who, uids[:SHOWN], len(uids), gids, kept, is_above)
    return replace(made, names=tuple(name_of(checked, uid) for uid in uids)) if is_named else made


def name_of(checked: Checked, uid: int) -> str:
    """A uid by its account, or with the range that it is of."""
    range_name = checked.names.range_of(uid)
    return checked.names.user(uid) if uid in checked.names.users else f"{uid} ({range_name})" if range_name else str(uid)


def report_of(checked: Checked, is_whole: bool) -> Report:
    """The report on a host that was asked. What fails of it is reported, and all else stands."""
    snapshot, about, answers, attempts = checked.snapshot, checked.snapshot.about, checked.answers, checked.attempts
    attempts.failed += checked.programs.failed
    advised = attempts.at("advice", lambda: advise(checked), Advised({}, checked.judged.faults))
    subtrees = attempts.each("answers", checked.questions.subtrees, lambda path: subtree_of(checked, path))
    entries = entry_findings(checked, advised, attempts)
    opened = dict(attempts.all("opened", lambda: opened_findings(checked)))
    faults = attempts.all("faults", lambda: fault_findings(checked, advised))
    differs = attempts.all("differs", lambda: differs_findings(checked, opened))
    above = attempts.all("above", lambda: above_findings(checked))
    unseen_notes = unseen.lines(checked, advised, attempts)
    runs = attempts.all("threads", lambda: running.findings(checked))
    entries_held = attempts.all("descriptors", lambda: held.findings(checked))
    premises = (*attempts.all("hierarchy", lambda: hierarchy.findings(checked)),
                *attempts.all("capabilities", lambda: capable.findings(checked)))
    notes = tuple(noted(checked, note) for note in snapshot.notes)
    made = Report(
        VERSION, answers.version, about.host or "", about.kernel or "",
        about.time or "", snapshot.mount, checked.is_asked, answers.has_advise,
        subtrees=marked(subtrees, runs, entries_held, premises),
        entries=entries, opened=tuple(opened.values()), faults=faults, differs=differs, above=above,
        unseen=unseen_notes, snapshot=notes, status=CONTAINED, version_1=snapshot.version_1,
        lists=attempts.all("lists", lambda: shown_lists(checked, subtrees, entries)),
        root_inside=attempts.all("root-inside", lambda: inside.findings(checked)) or ABSENT,
        scopes=attempts.each("containers", snapshot.scopes, lambda each: named_scope(checked, each)) or ABSENT,
        runs_elsewhere=runs or ABSENT, held_entries=entries_held or ABSENT, premises=premises or ABSENT,
        limits=tuple(limits_of(checked, [*snapshot.notes, *(each.note for each in unseen_notes if each.note)])),
        options=checked.options.carried, helper=version.helper_line(),
        wanted={text_of(path): wanted for path, wanted in checked.wanted.items()})
    if is_whole:
        made = replace(made, users=attempts.all("users", lambda: whole.users_of(checked)),
                       groups=attempts.all("groups", lambda: whole.groups_of(checked)), cgroups=whole.cgroups_of(checked, attempts),
                       processes=attempts.all("processes", lambda: whole.processes_of(checked)))
    made = replace(made, unseen=(*(noted(checked, note) for note in attempts.failed), *unseen_notes))
    return replace(made, status=severity_of(made).status)


def named_scope(checked: Checked, each: Scope) -> NamedScope:
    holder = None if each.holder is None else "somebody" if each.holder < 0 else checked.names.user(each.holder)
    word = checked.word_of(each)
    return NamedScope(text_of(each.path), each.engine, each.id, None if each.name is None else shown(each.name), holder,
                      ABSENT if each.name is None or word is None else word)


def noted(checked: Checked, note: Note) -> ReportNote:
    # a name that isn't shown as it is stands quoted, as what stands alone
    place = note.place[2:] if note.place[:2] in ("b'", 'b"') else note.place
    return ReportNote.of(note, checked.within(path_of(place)))


def report(snapshot: Snapshot, options: Options, is_whole: bool, settings: Settings = NO_SETTINGS) -> Report:
    """The report on a host, with the host itself where it is to be whole, and with the settings of units from before it was
    looked at, where they are to be compared."""
    with output.temporary_folder() as folder:
        return report_of(ask(snapshot, options, folder, settings), is_whole)
