"""Steps of the exact model, each of which has to be one of the machine that refuses as little as containment takes."""
from second import machine, rules
from second.rules import STANDING
from trials import cases, trees


def compared(rng, state, tree, user, count):
    """How many of so many random operations the model carries out, and those that are no act of the machine with that effect."""
    tree = tree or trees.Tree(state.form, [], {path: {} for path in state.cgroups}, [], user, ())
    steps, wrong, last = 0, [], []
    for _ in range(count):
        operation = cases.next_operation(rng, tree, state, user, last)
        last = [cases.commands.spelling(operation).encode("ascii")]
        after, refusal = rules.step(state, user, operation)
        if refusal is None:
            steps += 1
            before, left = machine.view(state), machine.view(after)
            if machine.step(before, user, act_of(operation, before, left)) != (left, True):
                wrong.append(f"no act of the machine: {last[0].decode('ascii')}")
        state = after
    return steps, wrong


def act_of(operation, before, left):
    """The act that an operation is, with what the exact model has stand then."""
    kind, *words = operation
    if kind == "mkdir":
        return "mkdir", words[0], left.cgroups[words[0]]
    if kind == "set":
        return "write", words[0], words[1], {words[1]: words[2]}
    if kind == "chmod":
        return "chmod", *words[:2], before.cgroups[words[0]][words[1]][0].gid, words[2]
    if kind == "control":
        children = [path for path in left.cgroups if machine.is_child(path, words[0])]
        return "enable", words[0], {path: {name: file for name, file in left.cgroups[path].items() if name not in STANDING}
                                    for path in children}
    return operation
