"""A second model of Zirofen: operation lines, command lines and reports. Written from docs/MODEL.md and docs/FORMATS.md
alone, and from no code of crates/; keep it so.
"""
import functools
import itertools
import re

from . import everybody, explained, rules, settled, written
from .controllers import controllers_in
from .documents import Fault
from .limit_files import MAX, files_in, is_text, is_value, value_written
from .rules import text_of
from .texts import LAST_ID, tree_of

MOST_GIDS, MOST_STEPS, LONGEST_LINE, LONGEST_LIST = 32, 65536, 8192, 16777216
# what an audit writes where it has no pair to list
NOTHING_LISTED = b"contained\n"
NUMBER = r"0|[1-9][0-9]*"
# a number of the command line
PLAIN = "[0-9]+"
# of each command its options: whether one must be there, and whether it may come again
OPTIONS = {
    "may": {"--tree": "", "--uid": "must", "--gid": "again", "--pid": "must", "--to": "must", "--format": ""},
    "check": {"--tree": "", "--uid": "must", "--gid": "again", "--subtree": "must", "--format": ""},
    "settle": {"--tree": "", "--uid": "must", "--gid": "again", "--subtree": "must", "--format": ""},
    "audit": {"--tree": "", "--uid": "again", "--subtree": "again", "--pairs": "", "--all": "flag", "--settle": "flag",
              "--everybody": "flag", "--subtrees": "", "--but": "again", "--group": "again", "--format": ""},
    "explain": {"--tree": "", "--uid": "again", "--subtree": "again", "--pairs": "", "--everybody": "flag", "--subtrees": "",
                "--but": "again", "--group": "again", "--format": ""},
    "replay": {"--tree": "", "--uid": "must", "--gid": "again", "--ops": "must", "--subtree": "", "--format": ""},
    "upgrade": {"--tree": ""},
    "advise": {"--tree": "", "--uid": "again", "--gid": "again", "--subtree": "again", "--pairs": "",
               "--settle": "flag", "--everybody": "flag", "--subtrees": "", "--but": "again", "--group": "again", "--format": ""},
}
# what `--format` takes; the first where it is left out
FORMATS = LINES, JSON = "lines", "json"
# what says whom `--everybody` means
OF_EVERYBODY = "--but", "--group"
# those of one user and one subtree
OF_ONE = tuple(name for name, options in OPTIONS.items() if options == OPTIONS["check"])


@functools.lru_cache(maxsize=1024)
def operation_of(line, form=2):
    """The operation of a line without its newline, of a tree of a format, or None."""
    try:
        kind, *rest = line.decode("ascii").split(" ")
    except UnicodeDecodeError:
        return None
    if kind == "control" and rest:
        read = [rules.path_of(rest[0]), tuple(change_word(word, form) for word in rest[1:])]
        return None if read[0] is None or None in read[1] else (kind, *read)
    value = value_word
    if kind == "set" and rest[1:] and limit_word(rest[1], form) and is_text(rest[1]):
        rest, value = [*rest[:2], " ".join(rest[2:])], text_word
    forms = {"move": (pid_word, rules.path_of), "mkdir": (rules.path_of,), "rmdir": (rules.path_of,), "fork": (pid_word, pid_word),
             "set": (rules.path_of, lambda word: limit_word(word, form), value), "exit": (pid_word,),
             "chmod": (rules.path_of, lambda word: entry_word(word, form), mode_word)}
    if len(forms.get(kind, ())) != len(rest) or kind not in forms:
        return None
    read = [each(word) for each, word in zip(forms[kind], rest)]
    return None if None in read else (kind, *read)


def pid_word(word):
    found = int(word) if re.fullmatch(NUMBER, word) else 0
    return found if 1 <= found <= rules.LAST_PID else None


def change_word(word, form):
    return (word[0], word[1:]) if word[:1] in ("+", "-") and word[1:] in controllers_in(form) else None


def limit_word(word, form):
    return word if word in files_in(form) else None


def text_word(word):
    """The value of a limit file whose values are texts, which is the rest of its line."""
    return word if is_value(word) else None


def value_word(word):
    if word == MAX:
        return word
    return int(word) if re.fullmatch(NUMBER, word) and int(word) < 2 ** 64 else None


def entry_word(word, form):
    return word if word in rules.STANDING else limit_word(word, form)


def mode_word(word):
    return int(word, 8) if re.fullmatch("[0-7]{3}", word) else None


def spelling(operation):
    kind, *rest = operation
    if kind == "control":
        return " ".join([kind, text_of(rest[0]), *(sign + controller for sign, controller in rest[1])])
    words = [text_of(part) if isinstance(part, tuple) else str(part) for part in rest]
    if kind == "chmod":
        words[2] = f"{rest[2]:03o}"
    return " ".join([kind, *words])


def lines_of(data, form):
    """Each line's operation, of a tree of a format; raises the fault that ends them."""
    *lines, end = data.split(b"\n")
    for number, line in enumerate(lines + ([end] if end else []), 1):
        if number > MOST_STEPS:
            raise Fault("too-many-steps")
        if len(line) > LONGEST_LINE:
            raise Fault(f"line {number} too-long")
        if number > len(lines):
            raise Fault(f"line {number} cut")
        operation = operation_of(line, form)
        if operation is None:
            raise Fault(f"line {number} bad-word")
        yield operation


def pairs_of(data):
    """Each pair of a user and a subtree that a text names; raises the fault that ends them."""
    *lines, end = data[:LONGEST_LIST].split(b"\n")
    pairs = []
    for number, line in enumerate(lines, 1):
        if line.startswith(b"pair "):
            pairs.append(pair_of(line[len(b"pair "):]))
            if pairs[-1] is None:
                raise Fault(f"line {number} bad-word")
        elif not is_audited(line):
            raise Fault(f"line {number} bad-word")
    test_end(data, lines, end)
    if not pairs and data != NOTHING_LISTED:
        raise Fault("no-pair")
    return pairs


def test_end(data, lines, end):
    """Raises the fault of a list that doesn't end behind its last line."""
    if len(data) > LONGEST_LIST:
        raise Fault(f"line {len(lines) + 1} too-long")
    if end:
        raise Fault(f"line {len(lines) + 1} cut")


def subtrees_of(data):
    """Each subtree that a text names, by a path a line; raises the fault that ends them."""
    *lines, end = data[:LONGEST_LIST].split(b"\n")
    words = [line.decode("latin-1") for line in lines]
    for number, word in enumerate(words, 1):
        if rules.path_of(word) is None:
            raise Fault(f"line {number} bad-word")
    test_end(data, lines, end)
    if not words:
        raise Fault("line 1 cut")
    return words


def is_audited(line):
    """Whether a line that names no pair is one that an audit of all pairs writes."""
    is_answer = line in (b"contained", b"escapes") or line.startswith(b"unsettled ")
    return is_answer or len(line) <= LONGEST_LINE and operation_of(line, 4) is not None


def pair_of(words):
    """The pair of a user, a space and a path, or None."""
    try:
        user, _, path = words.decode("ascii").partition(" ")
        return None if rules.path_of(path) is None else (listed_user(user), path)
    except (UnicodeDecodeError, Fault):
        return None


# Command lines


class Call:
    """A command with its options: of each its words, in order."""

    def __init__(self, words):
        if not words or words[0] not in OPTIONS:
            raise Fault("usage")
        self.command, self.given = words[0], {}
        rest = iter(words[1:])
        for word in rest:
            self.take(word, rest)
        for option, kind in OPTIONS[self.command].items():
            given = self.given.get(option, [])
            if "must" in kind and not given or "again" not in kind and len(given) > 1:
                raise Fault("usage")
        self.format = self.given.get("--format", [LINES])[0]
        if self.format not in FORMATS:
            raise Fault("usage")
        self.users = self.read_users()
        self.asked = everybody.Asked(tuple(map(plain_number, self.given.get("--but", []))),
                                     tuple(map(listed_group, self.given.get("--group", []))))
        self.pid = plain_number(self.given["--pid"][0]) if self.command == "may" else None

    def take(self, word, rest):
        option, equals, value = word.partition("=")
        kind = OPTIONS[self.command].get(option)
        if kind is None or (kind == "flag" and equals):
            raise Fault("usage")
        if kind != "flag" and not equals:
            value = next(rest, None)
            if value is None or re.match("-.", value):
                raise Fault("usage")
        self.given.setdefault(option, []).append(value)

    def read_users(self):
        if self.command == "upgrade":
            return []
        return self.several_users() if self.command in ("audit", "explain", "advise") else self.one_user()

    def several_users(self):
        """None where pairs name them, or where everybody is meant; of `advise` one user and their groups, too."""
        if "--pairs" in self.given:
            if self.given.keys() & {"--uid", "--gid", "--subtree", "--subtrees", "--settle", "--everybody", *OF_EVERYBODY}:
                raise Fault("usage")
            return []
        if "--everybody" in self.given:
            if self.given.keys() & {"--uid", "--gid", "--all", "--settle"} or len(self.given.keys() & {"--subtree", "--subtrees"}) != 1:
                raise Fault("usage")
            return []
        if self.given.keys() & {"--subtrees", *OF_EVERYBODY} or not {"--uid", "--subtree"} <= self.given.keys():
            raise Fault("usage")
        if self.command == "advise" and len(self.given["--uid"]) == 1 and re.fullmatch(PLAIN, self.given["--uid"][0]):
            return self.one_user()
        if "--gid" in self.given:
            raise Fault("usage")
        return self.listed_users()

    def one_user(self):
        return [(plain_number(self.given["--uid"][0]), tuple(map(plain_number, self.given.get("--gid", []))))]

    def listed_users(self):
        return [listed_user(word) for word in self.given["--uid"]]

    def one(self, option):
        return self.given.get(option, [None])[0]

    def subtrees(self):
        return self.given.get("--subtree", [])


def plain_number(word):
    if not re.fullmatch(PLAIN, word) or int(word) > LAST_ID:
        raise Fault("usage")
    return int(word)


def listed_user(word):
    if not re.fullmatch("[0-9]+(:[0-9]+(,[0-9]+)*)?", word):
        raise Fault("usage")
    uid, *gids = [int(number) for number in re.split("[:,]", word)]
    if max(uid, *gids, 0) > LAST_ID:
        raise Fault("usage")
    return uid, tuple(gids)


def listed_group(word):
    if not re.fullmatch("[0-9]+=([0-9]+(,[0-9]+)*)?", word):
        raise Fault("usage")
    gid, *uids = map(plain_number, re.findall("[0-9]+", word))
    return gid, tuple(uids)


# Reports


class Open:
    """A report of which more than one is right: it tells of a report's lines and status whether it is."""

    def __init__(self, is_right):
        self.is_right = is_right

    def __str__(self):
        return "another report: of these more than one is right"


def respond(words, stdin, files):
    """The lines of standard output, the status and the first line of standard error, or an `Open` in place of the lines, without a
    status; lines also where `--format` says otherwise, of which as_json.py has the rest. A tree that is read from what isn't a file is None in `files`, and so is a folder's name, which opens and can't be read,
    with the value False."""
    lines = []
    try:
        return lines, report(words, stdin, files, lines), ""
    except Fault as fault:
        return lines, 3, f"fault: {fault}"


def report(words, stdin, files, lines):
    call = Call(words)
    files = {**files, "-": stdin}
    named = "-" if call.one("--tree") is None else call.one("--tree")
    if "-" == named in (call.one("--ops"), call.one("--pairs"), call.one("--subtrees")):
        raise Fault("usage")
    tree = files.get(named)
    if not isinstance(tree, bytes) or call.command == "replay" and files.get(call.one("--ops")) is None:
        raise Fault("read")
    subtrees = named_in(call, files)
    if call.one("--pairs") is not None:
        pairs = pairs_of(text_in(files, call.one("--pairs")))
        call.users, subtrees = [user for user, _ in pairs], [path for _, path in pairs]
    test_arguments(call, subtrees)
    state = tree_of(tree)
    tops = [subtree_of(state, word) for word in subtrees]
    return REPORTS[call.command](call, state, tops, files, lines)


def named_in(call, files):
    """The subtrees that words name, or the lines of a text."""
    return call.subtrees() if call.one("--subtrees") is None else subtrees_of(text_in(files, call.one("--subtrees")))


def text_in(files, name):
    if not isinstance(files.get(name), bytes):
        raise Fault("read")
    return files[name]


def test_arguments(call, subtrees):
    for uid, gids in call.users:
        if uid == 0:
            raise Fault("uid")
        if len(gids) > MOST_GIDS:
            raise Fault("gid")
    if call.pid is not None and not 1 <= call.pid <= rules.LAST_PID:
        raise Fault("pid")
    if any(rules.path_of(word) is None for word in [*call.given.get("--to", []), *subtrees]):
        raise Fault("path")


def subtree_of(state, word):
    path = rules.path_of(word)
    if path == ():
        raise Fault("subtree root")
    if path not in state.cgroups:
        raise Fault("subtree missing")
    return path


def may(call, state, _tops, _files, lines):
    found = rules.bars(state, call.users[0], ("move", call.pid, rules.path_of(call.one("--to"))))
    lines.append(f"refused {found[0]}" if found else "granted")
    return 1 if found else 0


def answer_lines(answer):
    kind, *rest = answer
    if kind == "escapes":
        return [kind] + [spelling(operation) for operation in rest[0]]
    return [kind] if kind == "contained" else [f"{kind} {rest[0]} {text_of(rest[1])}"]


STATUS = {"contained": 0, "escapes": 1, "unsettled": 2}


def worst(kinds):
    """The status of several answers."""
    return STATUS[next((kind for kind in ("escapes", "unsettled") if kind in kinds), "contained")]


def check(call, state, tops, _files, lines):
    answer = rules.answer(state, call.users[0], tops[0])
    lines += answer_lines(answer)
    return STATUS[answer[0]]


def answer_of(lines, form=2):
    """The answer of a tree of a format that lines spell, or None."""
    kind, *words = lines[0].split(" ") if lines else [""]
    if kind == "escapes" and not words:
        operations = [operation_of(line.encode(), form) if len(line) <= LONGEST_LINE else None for line in lines[1:]]
        return None if None in operations else (kind, operations)
    if len(lines) != 1 or kind not in STATUS or len(words) != (2 if kind == "unsettled" else 0):
        return None
    return (kind, words[0], rules.path_of(words[1])) if words else (kind,)


def settle(call, state, tops, _files, lines):
    user, top = call.users[0], tops[0]
    known = settled.known(state, user, top)
    if known is None:
        lines.append(Open(lambda said, status: is_said(
            state.form, said, status, lambda answer: settled.is_right(state, user, top, answer))))
        return None
    lines += answer_lines(known)
    return STATUS[known[0]]


def is_said(form, lines, status, is_right):
    """Whether lines spell an answer that is right, with its status."""
    answer = answer_of(lines, form)
    return answer is not None and status == STATUS[answer[0]] and is_right(answer)


def settled_audit(call, state, tops, lines):
    """Against whom a list is found is left to the program, and so whom it lists."""
    users, tops = list(dict.fromkeys(call.users)), list(dict.fromkeys(tops))
    if "--all" in call.given:
        lines.append(Open(lambda said, status: is_list_said(state, users, tops, said, status)))
    else:
        lines.append(Open(lambda said, status, gids=False: is_first_said(state, users, tops, said, status, gids)))


def is_first_said(state, users, tops, said, status, gids):
    """Whether lines are those of the first pair, which they name by the uid alone, or with its groups."""
    if said == ["contained"]:
        return status == 0 and settled.are_listed(state, users, tops, {})
    pairs = list(itertools.product(users, tops))
    named = [at for at, (user, top) in enumerate(pairs) if said[:1] == [head_of(user if gids else user[:1], top)]]
    return is_said(state.form, said[1:], status,
                   lambda answer: any(settled.is_first(state, users, pairs[:at], pairs[at], answer) for at in named))


def is_list_said(state, users, tops, said, status):
    heads = {head_of(user, top): (user, top) for user, top in itertools.product(users, tops)}
    starts = [at for at, line in enumerate(said) if line in heads]
    listed = {heads[said[start]]: answer_of(said[start + 1:end], state.form) for start, end in zip(starts, [*starts[1:], None])}
    if not starts:
        return said == ["contained"] and status == 0 and settled.are_listed(state, users, tops, {})
    in_order = starts[0] == 0 and [said[start] for start in starts] == [head for head, pair in heads.items() if pair in listed]
    return in_order and None not in listed.values() and status == worst({answer[0] for answer in listed.values()}) \
        and settled.are_listed(state, users, tops, listed)


def head_of(user, top):
    """The line of a pair, with the user's groups where these are given."""
    gids = ":" + ",".join(map(str, user[1])) if user[1:] and user[1] else ""
    return f"pair {user[0]}{gids} {text_of(top)}"


def asked(call, tops):
    """The pairs as they are named, or each user with each subtree; of these who or what is named again counts once."""
    if "--pairs" in call.given:
        return list(zip(call.users, tops))
    return list(itertools.product(dict.fromkeys(call.users), dict.fromkeys(tops)))


def audit_of_everybody(call, state, tops, lines):
    for top in dict.fromkeys(tops):
        found = everybody.lines_of(state, top, call.asked)
        lines += [f"subtree {text_of(top)}", *found] if found else []
    return ended(call, lines)


def ended(call, lines):
    """What stands below the lines of what isn't held against everybody, or in their place, and the status."""
    is_held = not lines
    lines += ["contained"] * is_held + call.asked.lines()
    return 0 if is_held else 1


def audit(call, state, tops, _files, lines):
    if "--everybody" in call.given:
        return audit_of_everybody(call, state, tops, lines)
    if "--settle" in call.given:
        return settled_audit(call, state, tops, lines)
    listed = bool(call.given.keys() & {"--all", "--pairs"})
    kinds = set()
    for user, top in asked(call, tops):
        answer = rules.answer(state, user, top)
        if answer[0] != "contained":
            lines += [head_of(user if listed else user[:1], top), *answer_lines(answer)]
            kinds.add(answer[0])
            if not listed:
                return STATUS[answer[0]]
    if not kinds:
        lines.append("contained")
    return worst(kinds)


def replay(call, state, tops, files, lines):
    if files[call.one("--ops")] is False:
        raise Fault("read")
    states = [state]
    for operation in lines_of(files[call.one("--ops")], state.form):
        state, refusal = rules.step(state, call.users[0], operation)
        lines.append(f"refused {refusal}" if refusal else "ok")
        states.append(state)
    if not tops:
        return 0
    lines.append(rules.verdict(states, tops[0]))
    return 0 if lines[-1] == "kept" else 1


def explain_of_everybody(call, state, tops, lines):
    for top, told in {top: everybody.told_of(state, top, call.asked) for top in tops}.items():
        lines += [f"subtree {text_of(top)}", *told]
    is_held = all(not line.startswith("fails ") for line in lines)
    lines += call.asked.lines()
    return 0 if is_held else 1


def explain(call, state, tops, _files, lines):
    if "--everybody" in call.given:
        return explain_of_everybody(call, state, tops, lines)
    told = [(user, top, [head_of(user, top), *explained.lines_of(state, user, top)]) for user, top in asked(call, tops)]
    ends = [settled.known(state, user, top) for user, top, _ in told]
    if None in ends:
        lines.append(Open(lambda said, status: is_told(state, told, said, status)))
        return None
    for (_, _, some), end in zip(told, ends):
        lines += [*some, *answer_lines(end)[:1]]
    return worst({end[0] for end in ends})


def is_told(state, told, said, status):
    """Whether lines tell of each pair what they should, and then the first line of an answer that settle may give."""
    kinds = set()
    for user, top, lines in told:
        known, end = settled.known(state, user, top), said[len(lines):][:1]
        right = [known] if known else [("escapes", []), rules.answer(state, user, top)]
        if said[:len(lines)] != lines or end not in [answer_lines(answer)[:1] for answer in right]:
            return False
        kinds.add(end[0].split(" ")[0])
        said = said[len(lines) + 1:]
    return not said and status == worst(kinds)


def advise(call, state, tops, _files, lines):
    """With --settle nothing is to be changed where of each subtree the second row holds for all users together."""
    if "--everybody" in call.given:
        lines += everybody.advice(state, tops, call.asked)
        return ended(call, lines)
    if "--settle" not in call.given or not all(settled.is_contained(state, call.users, top) for top in tops):
        pairs = zip(call.users, tops) if "--pairs" in call.given else itertools.product(call.users, tops)
        lines += rules.advice(state, list(dict.fromkeys(pairs)))
    if lines:
        return 1
    lines.append("contained")
    return 0


def upgrade(_call, state, _tops, _files, lines):
    lines += written.lines_of(document_of(state))
    return 0


def document_of(state):
    rows = [full_row(state, path) for path in sorted(state.cgroups)]
    processes = [{"pid": pid, "uid": uid, "at": text_of(path)} for pid, (uid, path) in sorted(state.live.items())]
    controllers = [c for c in rules.ALL_CONTROLLERS if c in state.controllers]
    return {"format": state.form, "controllers": controllers, "cgroup": rows, "process": processes}


def full_row(state, path):
    cgroup = state.cgroups[path]
    tables = {name: table_of(name, entry) for name, entry in cgroup.entries.items() if rules.is_shown(state, path, name)}
    enabled = [c for c in rules.ALL_CONTROLLERS if c in cgroup.enabled]
    return {"path": text_of(path), "enabled": enabled, "dir": tables.pop(rules.DIR), "files": tables}


def table_of(name, entry):
    value = {} if entry.value is None else {"value": value_written(name, entry.value)}
    return {"uid": entry.uid, "gid": entry.gid, "mode": entry.mode, **value}


REPORTS = {"may": may, "check": check, "settle": settle, "audit": audit, "explain": explain, "replay": replay, "advise": advise,
           "upgrade": upgrade}
