"""The second model: the lines that answers as JSON stand for, by the words of docs/FORMATS.md, "Answers as JSON". Written from that page
alone, and from no code of crates/; keep it so.
"""


def lines_of(words, objects):
    """The lines that a command with these words writes in place of these objects."""
    if words[0] in ("may", "replay"):
        return [step_line(each) for each in objects]
    of_one = {"explain": explained_lines, "advise": advice_lines}.get(words[0], answer_lines)
    if "--everybody" in words:
        of_one = {"audit": everybody_lines, "advise": advice_to_everybody_lines, "explain": explained_to_everybody_lines}[words[0]]
    elif words[0] == "audit":
        is_listed = bool(options_of(words) & {"--all", "--pairs"})
        of_one = lambda each: audited_lines(each, is_listed)
    return [line for each in objects for line in of_one(each)]


def options_of(words):
    """Each word that may be an option, without what stands behind its equals sign."""
    return {word.partition("=")[0] for word in words}


def spelled(*words):
    return " ".join(str(word) for word in words if word is not None)


def step_line(step):
    if step["answer"] == "refused":
        return spelled("refused", step["refusal"], *[step.get(name) for name in ("path", "entry", "controller", "pid")])
    return spelled(step["answer"], step.get("after"), step.get("what"), step.get("pid"))


def first_line(answer):
    return spelled(answer["answer"], answer.get("guard"), answer.get("path"))


def answer_lines(answer):
    return [first_line(answer), *[operation_line(each) for each in answer.get("operations", [])]]


def operation_line(each):
    kind = each["operation"]
    if kind == "move":
        return spelled(kind, each["pid"], each["path"])
    if kind == "chown":
        return spelled(kind, each["path"], each["entry"], owner(each))
    names = ["pid", "child", "path", "entry", "mode", "value"]
    return spelled(kind, *[each.get(name) for name in names], *each.get("changes", []))


def owner(at):
    return f"{at['uid']}:{at['gid']}"


def pair_line(pair, is_listed):
    gids = ",".join(map(str, pair["gids"]))
    return spelled("pair", f"{pair['uid']}:{gids}" if gids and is_listed else pair["uid"], pair["subtree"])


def audited_lines(pair, is_listed):
    return ([pair_line(pair, is_listed)] if "subtree" in pair else []) + answer_lines(pair)


def entry_words(at):
    return [at["guard"], at["path"], at["entry"], owner(at), at["mode"]]


def guard_line(at):
    word = "holds" if at["holds"] else "fails"
    if "mode" in at:
        return spelled(word, *entry_words(at), at.get("class"))
    names = ["guard", "path", "controller", "by", "takes", "grows", "entry", "count", "limit"]
    return spelled(word, *[at.get(name) for name in names])


def explained_lines(pair):
    return [pair_line(pair, True), *map(guard_line, pair["guards"]), first_line(pair)]


def failing_lines(at):
    told = [[*entry_words(at), name] for name in at["classes"]] if "classes" in at else [[at["guard"], at["path"]]]
    return [spelled("fails", *words) for words in told] + [operation_line(each) for each in at.get("changes", [])]


def advice_lines(advice):
    return [line for at in advice["fails"] for line in failing_lines(at)] if "fails" in advice else [first_line(advice)]


def everybody_lines(found):
    lines = ["contained"] * (found["answer"] == "contained")
    for each in found["subtrees"]:
        lines += [f"subtree {each['subtree']}", *[line for at in each["fails"] for line in failing_lines(at)]]
    return lines + premise_lines(found)


def advice_to_everybody_lines(found):
    return advice_lines(found) + premise_lines(found)


def explained_to_everybody_lines(found):
    told = [line for each in found["subtrees"] for line in (f"subtree {each['subtree']}", *map(guard_line, each["guards"]))]
    return told + premise_lines(found)


def premise_lines(found):
    groups = [f"group {each['gid']}={','.join(map(str, each['uids']))}" for each in found["groups"]]
    return [f"but {uid}" for uid in found["but"]] + groups
