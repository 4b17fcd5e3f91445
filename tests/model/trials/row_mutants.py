"""Mutants of the second row, with one thing changed, each of which says of a subtree that a search breaks that it is contained."""
from second import lasting, rules


def first_users_reach(state, users, path, name):
    return REAL["is_reached"](state, users[:1], path, name)


def away_at_the_parent(state, _off, path, controller):
    return controller not in rules.available(state, path)


def bounds_by_all(state, users, found, top, path):
    return REAL["bounds"](state, users, lasting.Lasting(set(state.cgroups), found.on, found.off), top, path)


def bounds_of_all(state, users, found, top, path):
    return REAL["bounds"](state, [], found, top, path)


def stays_as_is(state, users):
    found = REAL["lasting_of"](state, users)
    return lasting.Lasting(set(state.cgroups), found.on, found.off)


def on_by_itself(_state, _users, _on, _path, _controller):
    return True


def nothing_made(_state, _users, _found, _path):
    return True


def nothing_taken(_state, _users, _found, _path):
    return True


# what is changed: the function that is replaced, and by which
MUTANTS = {
    "the first user's reach for all of them": ("is_reached", first_users_reach),
    "a controller is away for good where it is away": ("is_away", away_at_the_parent),
    "cgroups that can go leave no room": ("bounds", bounds_by_all),
    "a limit that a user raises leaves no room": ("bounds", bounds_of_all),
    "every cgroup stays": ("lasting_of", stays_as_is),
    "a controller is never disabled": ("is_on", on_by_itself),
    "no cgroup is made": ("grows_none", nothing_made),
    "no process is moved": ("takes_none", nothing_taken),
}
# random trees seldom break these: the tests have trees by hand that do
RARE = ("cgroups that can go leave no room", "a limit that a user raises leaves no room")
SEARCHED = [name for name in MUTANTS if name not in RARE]
REAL = {name: getattr(lasting, name) for name, _ in MUTANTS.values()}


def holds(name, state, users, top):
    """Whether a mutant of the second row holds."""
    attribute, function = MUTANTS[name]
    setattr(lasting, attribute, function)
    try:
        return lasting.second_row_holds(state, users, top)
    finally:
        setattr(lasting, attribute, REAL[attribute])
