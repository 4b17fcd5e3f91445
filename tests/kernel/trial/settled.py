"""Cases of what `settle` says where `check` leaves a subtree unsettled: the lists that break it, and what is contained by the second row
of guards, which the user tries to break beside a third who moves, forks and ends processes as root does, on their side of the edge.
"""
import itertools

from second import lasting, rules
from trial import asking, making
from trials import trees

ESCAPES, CONTAINED = "settled escapes", "settled contained"
TRIES, THIRD = 70, (0, (0,))


def unsettled_tree(rng, program, controllers):
    """A small tree with its text and its state, where check leaves its user and its subtree unsettled; or None."""
    is_wide = rng.random() < making.OF_FORMAT_4
    drawn = trees.tree_of_state(rng, wide=is_wide) if rng.random() < 0.8 else making.drawn_tree(rng)
    tree, text, state = making.settled(rng, drawn, controllers)
    if not state or not tree.subtree or not making.is_small(tree):
        return None
    first, _ = asking.check(program, text, tree.user, tree.subtree)
    return (tree, text, state) if first.startswith("unsettled") else None


def of_escape(rng, program, controllers):
    """A case whose steps are a list that settle prints, or none."""
    found = unsettled_tree(rng, program, controllers)
    if not found or lasting.second_row_holds(found[2], [found[0].user], found[0].subtree):
        return []
    tree, text, state = found
    _, escape = asking.settle(program, text, tree.user, tree.subtree)
    return [making.Case(ESCAPES, text, [(tree.user, step) for step in escape], [tree.subtree], state)] if escape else []


def of_contained(rng, program, controllers):
    """A case of what a user tries beside a third, against a subtree that the second row of guards alone keeps, or none."""
    found = unsettled_tree(rng, program, controllers)
    if not found or not found[2].live or asking.settle(program, found[1], found[0].user, found[0].subtree)[0] != "contained":
        return []
    tree, text, state = found
    return [making.Case(CONTAINED, text, [], [tree.subtree], state, tries=beside_a_third(rng, tree, state))]


def beside_a_third(rng, tree, state):
    """So many operations of the user, and after each of them mostly one of the third."""
    tries = []
    for number in range(TRIES):
        for user, step in making.tries_of(rng, tree, state, [tree.user], 1, number):
            state = rules.step(state, user, step)[0] if step[0] in rules.BARS else state
            tries.append((user, step))
        if state.live and rng.random() < 0.7:
            step = step_of_third(rng, state, tree.subtree)
            state = rules.next_state(state, THIRD, step)
            tries.append((THIRD, step))
    return tries


def step_of_third(rng, state, top):
    """A move of a process that stays on its side, a fork, or an end; processes don't get fewer than two by it."""
    pid = rng.choice(sorted(state.live))
    kind = rng.choice(["move", "move", "move", "fork", "exit"] if len(state.live) > 2 else ["move", "move", "fork"])
    if kind == "exit":
        return kind, pid
    if kind == "fork":
        return kind, pid, next(child for child in itertools.count(7001) if child not in state.used)
    is_in = rules.inside(state.live[pid][1], top)
    takers = [path for path, cgroup in state.cgroups.items() if rules.inside(path, top) == is_in and (not path or not cgroup.enabled)]
    return kind, pid, rng.choice(takers or [state.live[pid][1]])


MAKERS = {ESCAPES: of_escape, CONTAINED: of_contained}
