"""The second model: answers as JSON, by the words of docs/FORMATS.md, "Answers as JSON". Written from that page alone, and from no code of
crates/; keep it so.
"""
import json

from . import commands, from_json
from .rules import text_of

ENTRY_WORDS = "path", "entry", "owner", "mode"
# of each kind of line what stands behind its first word, or behind `holds` and `fails` behind the guard's name
OPERATIONS = {"move": ("pid", "path"), "control": ("path", "changes"), "mkdir": ("path",), "rmdir": ("path",),
              "set": ("path", "entry", "value"), "fork": ("pid", "child"), "exit": ("pid",), "chmod": ("path", "entry", "mode")}
REFUSALS = {"no-such-cgroup": ("path",), "no-access": ("path", "entry"), "no-such-process": ("pid",), "internal-process": ("path",),
            "not-available": ("controller",), "child-uses": ("controller",), "exists": ("path",), "descendant-limit": ("path",),
            "depth-limit": ("path",), "root-cgroup": (), "has-children": ("path",), "has-processes": ("path",),
            "no-such-file": ("path", "entry"), "bad-value": ("entry",), "not-yours": ("pid",), "pid-used": ("pid",),
            "not-owner": ("path", "entry")}
GUARDS = {**dict.fromkeys(("common-ancestor", "limit-file", "parent-control", "parent-dir"), (*ENTRY_WORDS, "class")),
          "already-over": ("path", "entry", "count", "limit"), "stays": ("path", "by"), "control": ("path", "controller", "by"),
          "files": ("path", "by"), "shut": ("path", "takes", "grows")}
NUMBERS = "pid", "child", "after", "count", "uid", "gid"


def respond(words, stdin, files):
    """What `commands.respond` gives, with JSON in place of the lines where the words ask for that."""
    return in_json(words, stdin, files) if asks_for_json(words) else commands.respond(words, stdin, files)


def asks_for_json(words):
    try:
        return commands.Call(words).format == commands.JSON
    except commands.Fault:
        return False


def in_json(words, stdin, files):
    """What `commands.respond` gives, with JSON in place of the lines."""
    if is_first_alone(words):
        return of_first_pair(*in_json([*words, "--all"], stdin, files))
    lines, status, fault = commands.respond(words, stdin, files)
    if lines and isinstance(lines[0], commands.Open):
        return [commands.Open(lambda said, given: is_right(words, lines[0], said, given))], status, fault
    return [text_of_object(each) for each in objects_of(words, lines)], status, fault


def names_first_alone(words):
    """Whether an audit says its first pair alone, which its lines name by the uid alone."""
    return words[:1] == ["audit"] and not from_json.options_of(words) & {"--all", "--pairs", "--everybody"}


def is_first_alone(words):
    """Whether that is so where no more than one list may be right."""
    return names_first_alone(words) and "--settle" not in words


def of_first_pair(texts, status, fault):
    """The first of the pairs with its own status; a fault is that of all of them."""
    answer = json.loads(texts[0])["answer"] if texts else None
    return texts[:1], status if answer is None else commands.STATUS[answer], fault


def is_right(words, of_lines, said, status):
    """Whether texts are those of lines of which more than one may be right."""
    try:
        objects = [json.loads(text) for text in said]
        lines = from_json.lines_of([*words, "--all"] if names_first_alone(words) else words, objects)
    except (ValueError, KeyError, TypeError, AttributeError):
        return False
    gids = {"gids": True} if names_first_alone(words) else {}
    return said == [text_of_object(each) for each in objects] and of_lines.is_right(lines, status, **gids)


def text_of_object(value):
    return json.dumps(value, sort_keys=True, separators=(",", ":"))


def objects_of(words, lines):
    """The objects of the lines that a command writes."""
    if words[0] in ("may", "replay"):
        return [step_of(line) for line in lines]
    if "--everybody" in words:
        return [OF_EVERYBODY[words[0]](lines)] if lines else []
    if words[0] in ("audit", "explain"):
        return pairs_of(words, lines)
    if words[0] == "advise":
        return [advice_of(lines)] if lines else []
    return [answer_of(lines)] if lines else []


def fields(names, words):
    """The members of some words, each by its name; an owner is two."""
    members = {}
    for name, word in zip(names, words):
        if name == "owner":
            members["uid"], members["gid"] = map(int, word.split(":"))
        else:
            members[name] = int(word) if name in NUMBERS or name == "limit" and word != "max" else word
    return members


def step_of(line):
    """The object of a move's answer, of an outcome or of a verdict."""
    answer, *rest = line.split(" ")
    if answer == "refused":
        return {"answer": answer, "refusal": rest[0], **fields(REFUSALS[rest[0]], rest[1:])}
    return {"answer": answer, **fields(("after", "what", "pid"), rest)}


def answer_of(lines):
    """The object of the lines of an answer."""
    answer, *rest = lines[0].split(" ")
    more = {"operations": [operation_of(line) for line in lines[1:]]} if answer == "escapes" else {}
    return {"answer": answer, **fields(("guard", "path"), rest), **more}


def operation_of(line):
    """The object of an operation's line, or of a chown's, which advice has."""
    if line.startswith("chown "):
        return {"operation": "chown", **fields(("path", "entry", "owner"), line.split(" ")[1:])}
    kind, *parts = commands.operation_of(line.encode(), 4)
    return {"operation": kind, **{name: operand(name, part) for name, part in zip(OPERATIONS[kind], parts)}}


def operand(name, part):
    if name == "changes":
        return [sign + controller for sign, controller in part]
    return f"{part:03o}" if name == "mode" else text_of(part) if name == "path" else part


def pairs_of(words, lines):
    """An object for each pair; of an audit that lists none one that says so."""
    starts = [at for at, line in enumerate(lines) if line.startswith("pair ")]
    if not starts:
        return [answer_of(lines)] if lines else []
    of_pair = told_of if words[0] == "explain" else answer_of
    return [{**pair_of(lines[start]), **of_pair(lines[start + 1:end])} for start, end in zip(starts, [*starts[1:], None])]


def pair_of(line):
    _, user, subtree = line.split(" ")
    uid, _, gids = user.partition(":")
    return {"uid": int(uid), "gids": [int(gid) for gid in gids.split(",") if gid], "subtree": subtree}


def told_of(lines):
    """What is told of a pair, and the first line of its answer."""
    told = [line for line in lines if line.startswith(("holds ", "fails "))]
    answer, *rest = lines[len(told)].split(" ")
    return {"guards": [guard_of(line) for line in told], "answer": answer, **fields(("guard", "path"), rest)}


def guard_of(line):
    word, guard, *rest = line.split(" ")
    return {"holds": word == "holds", "guard": guard, **fields(GUARDS[guard], rest)}


def failing(lines):
    """The objects of lines `fails`, one for all classes of an entry, with the changes below them."""
    found = []
    for line in lines:
        word, guard, *rest = line.split(" ")
        if word != "fails":
            found[-1].setdefault("changes", []).append(operation_of(line))
            continue
        at = {"guard": guard, **fields(ENTRY_WORDS, rest)}
        if not found or any(found[-1].get(name) != at.get(name) for name in ("guard", "path", "entry")):
            found.append({**at, "classes": []} if rest[1:] else at)
        if rest[1:]:
            found[-1]["classes"].append(rest[-1])
    return found


def advice_of(lines):
    return {"answer": "contained"} if lines == ["contained"] else {"answer": "fails", "fails": failing(lines)}


def by_subtrees(lines):
    """The lines below that of each subtree, by the subtree."""
    found = {}
    for line in lines:
        word, *rest = line.split(" ")
        if word == "subtree":
            found[rest[0]] = below = []
        if word in ("holds", "fails"):
            below.append(line)
    return found


def premises_of(lines):
    """Whom everybody leaves out, and who may be in groups."""
    return {"but": [int(line.split(" ")[1]) for line in lines if line.startswith("but ")],
            "groups": [group_of(line) for line in lines if line.startswith("group ")]}


def everybody_of(lines):
    """The object of an audit against everybody."""
    subtrees = [{"subtree": path, "fails": failing(below)} for path, below in by_subtrees(lines).items()]
    return {"answer": "fails" if subtrees else "contained", "subtrees": subtrees, **premises_of(lines)}


def advice_to_everybody_of(lines):
    """The object of the advice against everybody."""
    return {**advice_of([line for line in lines if line.split(" ")[0] not in ("but", "group")]), **premises_of(lines)}


def explained_to_everybody_of(lines):
    """The object of whom each guarded entry lets in."""
    subtrees = [{"subtree": path, "guards": [guard_of(line) for line in below]} for path, below in by_subtrees(lines).items()]
    holds = all(guard["holds"] for each in subtrees for guard in each["guards"])
    return {"answer": "contained" if holds else "fails", "subtrees": subtrees, **premises_of(lines)}


def group_of(line):
    gid, _, uids = line.split(" ")[1].partition("=")
    return {"gid": int(gid), "uids": [int(uid) for uid in uids.split(",") if uid]}


OF_EVERYBODY = {"audit": everybody_of, "advise": advice_to_everybody_of, "explain": explained_to_everybody_of}
