"""The second model: what settles a subtree that check leaves unsettled, by the words of docs/MODEL.md. Written from that page alone, as
rules.py is.

Of a list that breaks such a subtree nothing is said but that it does, so more than one answer may be right, and an answer is judged.
"""
from . import lasting, rules

MOST_OPERATIONS = 65535


def is_contained(state, users, top):
    return lasting.second_row_holds(state, users, top)


def known(state, user, top):
    """The one right answer, or None where it is unsettled as check says it, or any list that breaks the subtree."""
    found = rules.answer(state, user, top)
    if found[0] != "unsettled":
        return found
    return ("contained",) if is_contained(state, [user], top) else None


def is_right(state, user, top, answer):
    """Whether an answer is one where more than one may be."""
    if answer[0] == "escapes":
        return is_escape(state, user, top, answer[1])
    return answer == rules.answer(state, user, top)


def is_escape(state, user, top, operations):
    """Whether nothing of a list is refused, and it breaks the subtree at its last operation and not before."""
    states = [state]
    for operation in operations:
        after, refusal = rules.step(states[-1], user, operation)
        if refusal:
            return False
        states.append(after)
    return len(operations) <= MOST_OPERATIONS and rules.verdict(states, top).startswith(f"broken {len(operations)} ")


def are_listed(state, users, tops, listed):
    """Whether the pairs of a list that have an answer, by (user, top), are those that aren't contained, with an answer that is right."""
    return all(is_listed(state, users, top, {user: listed.get((user, top)) for user in users}) for top in tops)


def is_listed(state, users, top, listed):
    """Whether the answers of a subtree's users, None of whom isn't listed, are right: of all who have no list the second row is asked
    together."""
    answers = {user: rules.answer(state, user, top) for user in users}
    others = [user for user in users if listed[user] is None or listed[user][0] != "escapes"]
    holds = is_contained(state, others, top)
    return all(listed[user] == answers[user] if answers[user][0] == "escapes" else
               is_escape(state, user, top, listed[user][1]) if user not in others else
               listed[user] == (None if holds or answers[user][0] == "contained" else answers[user]) for user in users)


def is_first(state, users, before, pair, answer):
    """Whether an answer may be that of a pair which is the first to be listed, behind some that aren't."""
    user, top = pair
    unlisted = {each: [one for one, other in before if other == each] for _, each in before}
    if not all(may_be_unlisted(state, users, those, each) for each, those in unlisted.items()):
        return False
    found = rules.answer(state, user, top)
    if found[0] == "unsettled" and answer[0] == "escapes":
        return is_escape(state, user, top, answer[1])
    if answer != found or found[0] != "unsettled":
        return answer == found and found[0] == "escapes"
    settled_so = [one for one in unlisted.get(top, []) if rules.answer(state, one, top)[0] == "unsettled"]
    return not settled_so and not is_contained(state, without_escapes(state, users, top), top)


def without_escapes(state, users, top):
    return [user for user in users if rules.answer(state, user, top)[0] != "escapes"]


def may_be_unlisted(state, users, those, top):
    """Whether some of a subtree's users may have no answer in a list: the second row holds for all without one, where as many of the
    other users have a list as may."""
    answers = {user: rules.answer(state, user, top)[0] for user in users}
    others = [user for user in users if user in those or answers[user] == "contained"
              or answers[user] == "unsettled" and is_contained(state, [user], top)]
    kinds = {answers[user] for user in those}
    return "escapes" not in kinds and ("unsettled" not in kinds or is_contained(state, others, top))
