"""Mutants of the program: each turns one clause of what the program says of a case. Comparing has to find every one of them.

Those of `MUTANTS`, and of `OF_FORMAT_4` and `OF_LIMIT_FILES` in trees of that format, say other outcomes of the operations, and are held
against what a kernel made of them. The changes that those of `ADVICE` advise are carried out on a kernel in place of the program's.
"""
from second import rules
from second.limit_files import TEXT_FILES
from trials.format_4 import OTHERS


def lets(word):
    """A program without a clause: what is refused by it is let through."""
    return lambda _state, _user, _step, said: "ok" if said.startswith(f"refused {word}") else said


def source_alone(state, _user, step, said):
    """Asks nothing of the common ancestor of a move."""
    if step[0] != "move" or not said.startswith("refused no-access") or said.split(" ")[2] == rules.text_of(step[2]):
        return said
    return "ok"


def owner_asked(state, user, step, said):
    """Asks that a moved process be the mover's own."""
    if step[0] == "move" and said == "ok" and state.live[step[1]][0] != user[0]:
        return f"refused not-yours {step[1]}"
    return said


def root_not_exempt(state, _user, step, said):
    """Asks of the root too that it enable nothing where processes are."""
    at_root = step[0] == "move" and step[2] == () and state.cgroups[()].enabled
    return "refused internal-process /" if said == "ok" and at_root else said


def first_group(state, user, step, said):
    """Knows a user's first group alone."""
    if said != "ok" or step[0] not in ("set", "control"):
        return said
    name = rules.CONTROL if step[0] == "control" else step[2]
    found = rules.entry_bar(state, (user[0], user[1][:1]), step[1], name)
    return f"refused {found[0]}" if found else said


MUTANTS = {
    "asks nothing of the common ancestor": source_alone,
    "moves its own processes alone": owner_asked,
    "doesn't exempt the root": root_not_exempt,
    "knows the first group alone": first_group,
    "sets modes of what is another's": lets("not-owner"),
    "enables what isn't available": lets("not-available"),
    "disables what a child uses": lets("child-uses"),
    "has no limit of descendants": lets("descendant-limit"),
    "has no limit of depth": lets("depth-limit"),
    "removes what has children": lets("has-children"),
    "removes what has processes": lets("has-processes"),
    "ends processes of others": lets("not-yours"),
}


def lets_of_others(word):
    """A program that has a clause for cpu, memory and pids alone: what is refused by it for another controller is let through."""
    def turn(_state, _user, _step, said):
        return "ok" if said.startswith(f"refused {word}") and said.split(" ")[2] in OTHERS else said
    return turn


def internal_process_of_three(state, _user, step, said):
    """Knows internal processes where cpu, memory or pids is enabled alone."""
    if not said.startswith("refused internal-process"):
        return said
    enabled = state.cgroups[step[2]].enabled if step[0] == "move" else rules.enabled_after(state, *step[1:])
    return "ok" if enabled <= {*OTHERS} else said


def has_three(_state, _user, step, said):
    """Has the controllers cpu, memory and pids alone."""
    found = [name for sign, name in step[2] if sign == "+" and name in OTHERS] if step[0] == "control" and said == "ok" else []
    return f"refused not-available {found[0]}" if found else said


OF_FORMAT_4 = {
    "has cpu, memory and pids alone": has_three,
    "takes processes where another controller is enabled": internal_process_of_three,
    "disables another controller that a child uses": lets_of_others("child-uses"),
    "enables another controller that isn't available": lets_of_others("not-available"),
}


def lets_of_files(kind, word):
    """A program that has a clause for other entries alone: what is refused by it for a limit file whose values are texts is let through."""
    def turn(_state, _user, step, said):
        return "ok" if step[0] == kind and step[2] in TEXT_FILES and said.startswith(f"refused {word}") else said
    return turn


def unnamed_of_root(state, _user, step, said):
    """Takes for root's every limit file that nothing named."""
    if said != "ok" or step[0] != "set" or step[2] not in TEXT_FILES or rules.is_shown(state, step[1], step[2]):
        return said
    return f"refused no-access {rules.text_of(step[1])} {step[2]}"


OF_LIMIT_FILES = {
    "lets anyone set a limit file": lets_of_files("set", "no-access"),
    "lets anyone set the mode of a limit file": lets_of_files("chmod", "not-owner"),
    "takes limit files that a user brings for root's": unnamed_of_root,
}
# says contained where no other guard fails than that of a limit file whose values are texts
FORGETS = "check forgets limit files whose values are texts"


def forgets(state, user, top):
    """Whether that program says contained of a pair that this one says otherwise of."""
    failures = rules.failures(state, user, top)
    return bool(failures) and all(name in TEXT_FILES for _, _, name in failures)


def answers_of(turn, case, answers):
    """What a mutant would say of a case's steps."""
    state, turned = case.state, []
    for (user, step), said in zip(case.steps, answers):
        turned.append(turn(state, user, step, said))
        state = rules.step(state, user, step)[0]
    return turned


def rewritten(word, value_of):
    """A program that advises another value in the lines of a word."""
    def turn(lines):
        split = [line.rpartition(" ") for line in lines]
        return [f"{head} {value_of(value)}" if head.split(" ")[0] == word else f"{head} {value}" for head, _, value in split]
    return turn


ADVICE = {
    "leaves a change out": lambda lines: lines[1:],
    "gives an entry to the wrong owner": rewritten("chown", lambda value: "1000:" + value.partition(":")[2]),
    "leaves the bits by which the user writes": rewritten("chmod", lambda value: f"{int(value, 8) | 0o022:03o}"),
    "sets a limit below what is there": rewritten("set", lambda value: str(int(value) - 1)),
}
