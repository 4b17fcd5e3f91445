"""From a plan of questions to the plan without what is over a person's budget, and why that is left out."""
from collections import Counter
from dataclasses import dataclass, replace
from typing import Dict, Iterable, List, Mapping, Tuple

from zirofen_host.ask.model import Plan, Question
from zirofen_host.ask.questions import Questions
from zirofen_host.collect import bounded
from zirofen_host.collect.bounded import Spent
from zirofen_host.collect.makers import Makers
from zirofen_host.collect.reasons import Reason
from zirofen_host.profile import CgroupPath


@dataclass(frozen=True)
class Runs:
    """What the questions for what each person made have cost."""
    makers: Makers
    spent: Spent

    def affordable(self, asked: Iterable[Question]) -> Tuple[List[Question], Dict[CgroupPath, Reason]]:
        """Questions without what is over somebody's budget, and the subtrees that this is, each with why."""
        kept: List[Question] = []
        over: Dict[CgroupPath, Reason] = {}
        for each in asked:
            makers = {path: self.makers.within(path) or 0 for path in each.subtrees}
            dropped = {maker for maker in set(makers.values()) if not self.spent.take(maker)}
            over.update({path: self.spent.budget.exceeded_by(maker) for path, maker in makers.items() if maker in dropped})
            kept.append(Question(each.users, tuple(path for path in each.subtrees if makers[path] not in dropped)))
        return [each for each in kept if each.subtrees], over


def bounded_plan(questions: Questions, plan: Plan, runs: Runs) -> Tuple[Plan, Dict[CgroupPath, Reason]]:
    """A plan with no more uids of one person's than are asked of, and no more questions for what one person made: of what is over
    these budgets nothing is asked, and these subtrees come out, each with why."""
    charged_user = questions.accounts.charged_user
    users = Spent(bounded.USERS, charged_user)
    uids = {user.uid for each in plan.questions for user in each.users}
    left_out = {uid for uid in sorted(uids, key=lambda uid: (charged_user(uid) != uid, uid)) if not users.take(uid)}
    asked, over = runs.affordable(plan.questions)
    kept = [Question(tuple(user for user in each.users if user.uid not in left_out), each.subtrees) for each in asked]
    lost = {charged_user(uid) for uid in left_out}
    over.update({path: bounded.USERS.exceeded_by(person) for path in questions.subtrees for person in lost
                 if any(charged_user(uid) == person for uid in questions.holders[path].uids)} if lost else {})
    return replace(plan, questions=tuple(each for each in kept if each.users)), over


def bounded_further(further: Iterable[Question], not_asked: Mapping[CgroupPath, int],
                    runs: Runs) -> Tuple[Tuple[Question, ...], Dict[CgroupPath, int]]:
    """Further questions without what is over somebody's budget, and of how many users each subtree isn't asked about."""
    further = tuple(further)
    kept, over = runs.affordable(further)
    left: Dict[CgroupPath, int] = Counter(not_asked)
    for users, paths in further:
        for path in paths:
            left[path] += len(users) if path in over else 0
    return tuple(kept), {path: count for path, count in left.items() if count}
