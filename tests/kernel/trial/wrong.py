"""Wrong programs: each says of some pairs that they are contained which aren't. Each turn carries out what they alone call contained,
and has to break some of it for each of them; a run with one of them in place of the program (--wrong) has to fail."""
from second import rules, texts
from trial import mutants
from trials import row_mutants


def without(is_forgotten):
    """A program that forgets some of the entries of which a guard fails."""
    def says(state, user, top):
        return all(is_forgotten(state, user, top, *failed) for failed in rules.failures(state, user, top))
    return says


def of_guard(*guards):
    return without(lambda _state, _user, _top, guard, _path, _name: guard in guards)


def of_class(name):
    """A program that forgets a class of modes: an entry is told by the class in which it lets the user in."""
    def is_forgotten(state, user, _top, _guard, path, entry):
        return entry is not None and rules.class_of(user, state.cgroups[path].entries[entry]) == name
    return without(is_forgotten)


def reached_alone(state, user, _top, _guard, path, entry):
    """Whether somebody opens the entry by a chmod alone."""
    return entry is not None and not rules.writes(user, state.cgroups[path].entries[entry])


def first_group(state, user, top):
    return not rules.failures(state, (user[0], user[1][:1]), top)


# the kind of the cases that wrong programs alone call contained
KIND = "wrong programs"
# of check and audit whether such a program says contained of a pair
CHECKS = {
    "forgets groups": lambda state, user, top: not rules.failures(state, (user[0], ()), top),
    "asks of the first group alone": first_group,
    "forgets the class of all others": of_class("others"),
    "forgets what a user owns": of_class("owner"),
    "forgets what a user opens by a chmod": without(reached_alone),
    "forgets the ancestors but for the parent": without(
        lambda _state, _user, top, guard, path, _name: guard == "common-ancestor" and path != top[:-1]),
    "forgets the parent's cgroup.procs": without(
        lambda _state, _user, top, guard, path, _name: guard == "common-ancestor" and path == top[:-1]),
    "forgets limit files": of_guard("limit-file"),
    "forgets the parent's cgroup.subtree_control": of_guard("parent-control"),
    "forgets the parent's directory": of_guard("parent-dir"),
    "forgets what is over a limit": of_guard("already-over"),
    "asks of the first user alone": lambda _state, user, _top: user[0] != 1001,
}
# of settle, where check leaves a pair unsettled
SETTLES = {
    "settle says contained of all that is left": lambda _state, _user, _top: True,
    **{f"settle: {name}": lambda state, user, top, name=name: row_mutants.holds(name, state, [user], top)
       for name in ("every cgroup stays", "no process is moved")},
}
OF_MADE = [*CHECKS, *SETTLES]
# those of limit files whose values are texts have trees of their own
NAMES = [*OF_MADE, mutants.FORGETS]


def says_contained(name, text, users, top):
    """Whether a wrong program says contained of a subtree against all of some users."""
    state = texts.tree_of(text.encode())
    says = mutants.forgets if name == mutants.FORGETS else CHECKS.get(name)
    return says is not None and all(not rules.failures(state, user, top) or says(state, user, top) for user in users)


def settles(name, text, user, top):
    return name in SETTLES and SETTLES[name](texts.tree_of(text.encode()), user, top)
