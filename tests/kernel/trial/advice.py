"""Pairs of a user and a subtree that isn't contained, and cases in which what the program advises is carried out."""
import itertools
import random
from dataclasses import replace

from second import commands, rules
from second.rules import text_of
from trial import asking, making, mutants
from trial.shown import WEIGHT
from trials import spelling, trees
from trials.format_4 import OTHERS

# so many operations are tried after the changes and the escape
TRIES = 24
# so many pairs at most are advised on at once
MOST_PAIRS = 5
# so many cases of each mutant
WRONG_CASES = 6
USER = (1000, (5,))
ABOVE, TOP, BESIDE, BELOW = ("above",), ("above", "top"), ("above", "beside"), ("above", "top", "a")
# how the user comes to an entry: as its owner, with and without the bit, by its group, as one of all, and by two of these
WAYS = ({"uid": 1000}, {"uid": 1000, "mode": 0o444}, {"gid": 5, "mode": 0o664}, {"mode": 0o646},
        {"uid": 1000, "gid": 5, "mode": 0o664})


def changed(state, lines):
    """A tree with the changes that lines say."""
    for line in lines:
        word, path, name, value = line.split(" ")
        state = CHANGES[word](state, rules.path_of(path), name, value)
    return state


def with_owner(state, path, name, value):
    uid, gid = map(int, value.split(":"))
    return rules.with_entry(state, path, name, uid=uid, gid=gid)


CHANGES = {"chown": with_owner,
           "chmod": lambda state, path, name, value: rules.after_chmod(state, None, path, name, int(value, 8)),
           "set": lambda state, path, name, value: rules.after_set(state, None, path, name, int(value))}


def text_of_state(state):
    """The text of a tree that a kernel has; the weight 0 of what is idle is written as 1."""
    for path in [path for path, row in state.cgroups.items() if row.values.get(WEIGHT) == 0]:
        state = rules.with_entry(state, path, WEIGHT, value=1)
    document = commands.document_of(state)
    return spelling.document(random.Random(0), document).decode().removeprefix("\ufeff")


def cases_of(rng, program, tree, text, state, tries=TRIES):
    """The escape of a pair that isn't contained, where it has one, and a case in which what is advised is carried out before it."""
    user, top = tree.user, tree.subtree
    mends = asking.advise(program, text, user, top)
    if not mends:
        return []
    steps = [(user, step) for step in asking.check(program, text, user, top)[1]]
    after = changed(state, mends)
    for _, step in steps:
        after = rules.step(after, user, step)[0]
    case = making.Case("advice", text, steps, [top], state, mends, making.tries_of(rng, tree, after, [user], tries))
    return [making.Case("escapes", text, steps, [top], state), case] if steps else [case]


def random_cases(rng, program, controllers):
    made = making.random_tree(rng, controllers)
    return cases_of_pairs(rng, program, *made) if rng.random() < 0.5 else cases_of(rng, program, *made)


def random_pairs(rng, tree, state):
    """Some users, each with some subtrees."""
    users = [tree.user, *(making.group_user(trees.user_of(rng)) for _ in range(rng.choice([1, 1, 2])))]
    tops = list({tree.subtree, *rng.sample([path for path in state.cgroups if path], k=1)})
    pairs = list(dict.fromkeys(itertools.product(users, tops)))
    return rng.sample(pairs, k=min(len(pairs), rng.randrange(2, MOST_PAIRS + 1)))


def cases_of_pairs(rng, program, tree, text, state):
    """Of each pair that isn't contained a case in which what is advised for several at once is carried out before its escape and
    operations of all who are named with its subtree."""
    pairs = random_pairs(rng, tree, state)
    mends = asking.advise_pairs(program, text, pairs)
    found = []
    for user, top in pairs if mends and len(pairs) > 1 else ():
        steps = [(user, step) for step in asking.check(program, text, user, top)[1]]
        after = changed(state, mends)
        for _, step in steps:
            after = rules.step(after, user, step)[0]
        users = list({other: None for other, subtree in pairs if subtree == top})
        if steps:
            found.append(making.Case("advice", text, steps, [top], state, mends, making.tries_of(rng, tree, after, users, TRIES)))
    return found


def bare_tree():
    """A delegated subtree with a process, and a cgroup beside it that is the user's, too; no guard of it fails."""
    rows = {path: {"path": text_of(path)} for path in ((), ABOVE, TOP, BELOW, BESIDE)}
    for path in ((), ABOVE):
        rows[path]["enabled"] = list(rules.CONTROLLERS)
    places = [{"pid": pid, "uid": USER[0], "at": text_of(path)} for pid, path in ((10, TOP), (11, BESIDE))]
    tree = trees.Tree(2, list(rules.CONTROLLERS), rows, places, USER, TOP)
    for path in (TOP, BELOW, BESIDE):
        for name in rules.STANDING:
            tree.entry(path, name)["uid"] = USER[0]
    return tree


def made_trees():
    """Of each guarded entry alone, and of all together, a tree for each way to reach it; and the two counts."""
    state = settled(bare_tree())[2]
    guarded = [(path, name) for _, path, name in rules.guarded(state, TOP) if rules.is_shown(state, path, name)]
    for way in WAYS:
        for opened in [[each] for each in guarded] + [guarded]:
            tree = bare_tree()
            for each in opened:
                tree.entry(*each).update(way)
            if opened == [(ABOVE, rules.DIR)]:
                # so that it can be removed
                del tree.rows[BELOW], tree.processes[0]
            yield tree
    for file in (rules.DESCENDANTS, rules.DEPTH):
        tree = bare_tree()
        tree.entry(TOP, file)["value"] = 0
        yield tree


def trees_of_others(controllers):
    """Of each controller but cpu, memory and pids a tree whose user enables it at the subtree's parent, and one whose user disables it."""
    for name, enabled in itertools.product([name for name in OTHERS if name in controllers], ([], [True])):
        tree = bare_tree()
        tree.form, tree.rows[()]["enabled"], tree.rows[ABOVE]["enabled"] = 4, [name], [name for _ in enabled]
        tree.entry(ABOVE, rules.CONTROL)["uid"] = USER[0]
        yield tree


def settled(tree, controllers=rules.CONTROLLERS):
    return making.settled(random.Random("made"), tree, controllers)


def made_cases(program, controllers):
    return [case for number, tree in enumerate([*made_trees(), *trees_of_others(controllers)])
            for case in cases_of(random.Random(f"made {number}"), program, *settled(tree, controllers))]


def wrong_cases(made):
    """Of each mutant some of the made cases, with the changes that it would advise."""
    found = []
    right = [case for case in made if case.kind == "advice" and (case.steps or rules.over(case.state, TOP))]
    for name, turn in mutants.ADVICE.items():
        able = [(case, turn(case.mends)) for case in right if turn(case.mends) != case.mends]
        found += [replace(case, kind="wrong advice", turned=name, mends=mends, tries=case.tries[:4])
                  for case, mends in able[::max(1, len(able) // WRONG_CASES)][:WRONG_CASES]]
    return found
