"""Random cases: a command line, a tree text and operations, weighted so that each answer and fault comes up."""
import random
from dataclasses import dataclass, field, replace

from second import as_json, commands, documents, rules, texts
from second.controllers import controllers_in
from second.limit_files import MAX, NUMBER_FILES, TEXT_FILES, is_text
from second.rules import text_of
from trials import directed, faults, format_4, limit_files, small, spelling, trees

TREE, OPS, PAIRS, SUBTREES = "tree.toml", "list.ops", "list.pairs", "list.subtrees"
# the first case of format 4 that may be of a large text, or of many rows: by then most mutants are told apart, which are asked of it
FIRST_HEAVY, ONE_LARGE_OF = 400, 30
# the last of so many cases is a directed one
ONE_DIRECTED_OF = 5
# what a program's help has that writes answers as JSON, and how often that is asked for
FORMAT, AS_JSON = "--format", 0.2


@dataclass
class Case:
    """What the program is given: words, standard input, and the files beside it; `folder` is a folder there."""
    words: list
    stdin: bytes = b""
    files: dict = field(default_factory=dict)
    full: bool = False

    def as_record(self):
        return {"words": self.words, "stdin": self.stdin.decode("latin-1"), "full": self.full,
                "files": {name: data.decode("latin-1") for name, data in self.files.items()}}

    @staticmethod
    def of_record(record):
        files = {name: data.encode("latin-1") for name, data in record["files"].items()}
        return Case(record["words"], record["stdin"].encode("latin-1"), files, record["full"])

    def expected(self, respond=as_json.respond):
        """The lines of standard output, the status and the first line of standard error; raises documents.Unsure."""
        lines, status, fault = respond(self.words, self.stdin, {**self.files, "folder": False})
        if self.full and lines and not fault:
            return [], 3, "fault: write"
        return lines, status, fault


def is_wide(seed, number, known):
    """Whether a case is mostly of format 4, where the program reads that; by a number of its own, so that all other cases are those of a
    program that doesn't."""
    row = directed_row(number)
    if row is not None:
        return format_4.FORMAT_4 in known and directed.is_wide(row)
    return is_wide_draw(seed, number - number // ONE_DIRECTED_OF, known)


def is_wide_draw(seed, number, known):
    return format_4.FORMAT_4 in known and (is_large(number) or random.Random(f"format {seed} {number}").random() < 0.3)


def is_large(number):
    """Whether a drawn case is of a text of about as many bytes as may be: every so many, each of another kind."""
    return number >= FIRST_HEAVY and number % ONE_LARGE_OF == 0


def directed_row(number):
    """The row of a directed case, or None of one that is drawn."""
    return number // ONE_DIRECTED_OF if number % ONE_DIRECTED_OF == ONE_DIRECTED_OF - 1 else None


def random_case(seed, number, known):
    """The case of a seed and a number, of the commands that the program has; one that is drawn at times as JSON where it has that, by a number
    of its own, so that all other cases are those of a program that doesn't."""
    case, rng = case_of_lines(seed, number, known), random.Random(f"json {seed} {number}")
    if FORMAT in known and directed_row(number) is None and rng.random() < AS_JSON:
        give_format(rng, case)
    return case


def give_format(rng, case):
    """Asks for JSON; at times for lines, for what there isn't, or twice."""
    word = commands.JSON if rng.random() < 0.9 else rng.choice([commands.LINES, "", "JSON", "jso", "json ", "yaml", "-", "1"])
    words = rng.choice([[FORMAT, word], [FORMAT, word], [f"{FORMAT}={word}"]])
    case.words[1:1] = words * (2 if rng.random() < 0.03 else 1)
    if rng.random() < 0.03:
        case.words += [FORMAT]


def case_of_lines(seed, number, known):
    """A case that asks for no format: a directed one where the program has what it asks."""
    row = directed_row(number)
    if row is None:
        return drawn_case(seed, number - number // ONE_DIRECTED_OF, known)
    rng = random.Random(f"directed {seed} {row}")
    tree, words, lines = directed.drawn(rng, row)
    if words[0] not in known or directed.is_wide(row) and format_4.FORMAT_4 not in known:
        return drawn_case(f"{seed} directed", row, known)
    case = Case([*words, "--ops", OPS], files={OPS: b"".join(line + b"\n" for line in lines)}) if lines else Case(words)
    give_tree(rng, case, spelling.document(rng, tree.document(rng)))
    return case


def drawn_case(seed, number, known):
    """A case that is drawn at random."""
    rng, wide = random.Random(f"{seed} {number}"), is_wide_draw(seed, number, known)
    large = wide and is_large(number)
    tree = trees.random_tree(rng)
    data = text_of_tree(rng, tree, wide)
    if large:
        data = format_4.large_text(rng, tree.document(rng), number // ONE_LARGE_OF)
    able = [name for name in MAKERS if name.removesuffix(" alone") in known]
    command = rng.choices(able, [WEIGHTS[name] for name in able])[0]
    if not large and ("settle" in command and rng.random() < 0.75 or command == "explain" and rng.random() < 0.5):
        tree = trees.tree_of_state(rng, 35 if command in ("audit --settle", "advise --settle") else 9, wide)
        if wide and rng.random() < 0.4:
            limit_files.name_some(rng, tree)
        data = spelling.document(rng, tree.document(rng))
    if wide and not large and command.startswith("replay") and tree.form == 4 and tree.subtree and state_of(data) and rng.random() < 0.8:
        limit_files.make_room(rng, tree)
        limit_files.name_some(rng, tree)
        data = spelling.document(rng, tree.document(rng))
    if (wide and not large and command.split(" ")[0] in ("check", "settle", "audit") and tree.form == 4 and tree.subtree
            and rng.random() < 0.7 and state_of(data)):
        limit_files.open_device(rng, tree)
        data = spelling.document(rng, tree.document(rng))
    if command in AGAINST_EVERYBODY and not large and rng.random() < 0.5:
        data = closed_text(rng, tree.subtree, data)
    case = Case(MAKERS[command](rng, tree, state_of(data)))
    if command.startswith("replay"):
        case.files[OPS] = operations(rng, tree, data, case.words, wide)
    if command.endswith(" --pairs"):
        case.files[PAIRS] = pair_lines(rng, tree, state_of(data))
    if command.endswith(" --subtrees"):
        case.files[SUBTREES] = subtree_lines(rng, tree, state_of(data))
    if wide and number >= FIRST_HEAVY and command in ("may", "upgrade") and rng.random() < 0.06:
        data = format_4.with_many(rng, data)
    give_tree(rng, case, data)
    if rng.random() < 0.15 and not large:
        for _ in range(rng.choice([1, 1, 1, 2, 3])):
            turn_words(rng, case)
    case.full = not command.startswith("replay") and rng.random() < 0.01
    return case


def text_of_tree(rng, tree, wide):
    """A tree's text, mostly of format 4 where that is asked for; at times a faulty one, or one of about as many bytes as may be."""
    if wide and rng.random() < 0.9:
        format_4.widen(rng, tree)
        if rng.random() < 0.5:
            limit_files.name_some(rng, tree)
    parts = tree.document(rng)
    if rng.random() < (0.32 if wide else 0.25):
        (format_4 if wide and rng.random() < 0.6 else faults).turn_document(rng, parts)
    data = spelling.document(rng, parts)
    if rng.random() < 0.05:
        data = faults.turn_bytes(rng, data)
    if rng.random() < 0.006:
        data += b"#" * (documents.MOST_BYTES + rng.choice([0, 0, 1]) - len(data))
    return data


def closed_text(rng, top, data):
    """A tree's text, if it is read, in which few of a subtree's guarded entries let anybody in, or none."""
    state = state_of(data)
    if not state or not top or top not in state.cgroups:
        return data
    often = rng.choice([0.8, 0.95, 1])
    for _, path, name in [each for each in rules.guarded(state, top) if rules.is_shown(state, *each[1:])]:
        entries = state.cgroups[path].entries
        if rng.random() < often:
            entries[name] = replace(entries[name], uid=0, mode=entries[name].mode & 0o755)
    return spelling.document(rng, commands.document_of(state))


def give_tree(rng, case, data):
    """As standard input or as a file, beside pairs or subtrees, which then may be standard input."""
    if rng.random() < 0.5:
        case.stdin = data
        return
    case.files[TREE] = data
    case.words[1:1] = ["--tree", TREE]
    for name in {PAIRS, SUBTREES} & case.files.keys():
        if rng.random() < 0.3:
            case.stdin = case.files.pop(name)
            case.words[case.words.index(name)] = "-"


def state_of(data):
    try:
        return texts.tree_of(data)
    except (documents.Fault, documents.Unsure):
        return None


def path_word(rng, tree, state):
    """Mostly a path of the tree, else one beside it or no path."""
    chance = rng.random()
    paths = list(state.cgroups) if state else list(tree.rows)
    if chance < 0.85:
        return text_of(rng.choice(paths))
    if chance < 0.96:
        return text_of(rng.choice(paths) + (rng.choice(trees.NAMES),))
    return rng.choice(["", "a", "/a/", "//", "/.", "/zz/y", "/cgroup.procs", "/pids.max/a", "/é", "/" + "a" * 256])


def user_words(user):
    return ["--uid", str(user[0])] + [word for gid in user[1] for word in ("--gid", str(gid))]


def subtree_word(rng, tree, state):
    return text_of(tree.subtree) if tree.subtree and rng.random() < 0.8 else path_word(rng, tree, state)


def asked_user(rng, tree):
    return tree.user if rng.random() < 0.85 else trees.user_of(rng)


def may_words(rng, tree, state):
    live = [process["pid"] for process in tree.processes if "pid" in process] or [7]
    pid = rng.choice(live) if rng.random() < 0.87 else rng.choice([98, 4194303, 0, 4194304])
    user = asked_user(rng, tree)
    to = path_word(rng, tree, state)
    if state and rng.random() < 0.6:
        written = [path for path, cgroup in state.cgroups.items() if rules.writes(user, cgroup.entries[rules.PROCS])]
        full = [path for path in written if path and state.cgroups[path].enabled]
        to = text_of(rng.choice(full if full and rng.random() < 0.4 else written)) if written else to
    return ["may", *user_words(user), "--pid", str(pid), "--to", to]


def check_words(rng, tree, state):
    return ["check", *user_words(asked_user(rng, tree)), "--subtree", subtree_word(rng, tree, state)]


def of_one(command):
    """The words of a command of one user and one subtree, as those of check."""
    return lambda rng, tree, state: [command, *check_words(rng, tree, state)[1:]]


def advise_words(rng, tree, state):
    if rng.random() < 0.5:
        return ["advise", *check_words(rng, tree, state)[1:]]
    words = ["advise"]
    for _ in range(rng.choice([1, 2, 2, 3])):
        words += ["--uid", listed_user(rng, *rng.choice([tree.user, trees.user_of(rng), other_user(rng, tree)]))]
    for _ in range(rng.choice([1, 1, 2, 3])):
        words += ["--subtree", subtree_word(rng, tree, state)]
    return words + (["--gid", "5"] if rng.random() < 0.05 else [])


def pairs_words(_rng, _tree, _state):
    return ["advise", "--pairs", PAIRS]


def audit_pairs_words(rng, _tree, _state):
    return ["audit", "--pairs", PAIRS, *["--all"] * (rng.random() < 0.1), *["--settle"] * (rng.random() < 0.03)]


def explain_pairs_words(_rng, _tree, _state):
    return ["explain", "--pairs", PAIRS]


def pair_lines(rng, tree, state):
    """Lines of pairs among others, as `audit --all` prints them, and at times one that is none."""
    below = [path for path in tree.rows if path]
    lines = []
    for _ in range(rng.choice([0, 1, 1, 2, 2, 3, 5])):
        user = listed_user(rng, *rng.choice([tree.user, trees.user_of(rng), other_user(rng, tree)]))
        top = text_of(rng.choice(below)) if below and rng.random() < 0.5 else subtree_word(rng, tree, state)
        if rules.path_of(top) is not None or rng.random() < 0.05:
            lines.append(f"pair {user} {top}".encode())
        lines += rng.choice([[], [b"escapes", b"move 7 /"], [b"unsettled parent-dir /"], [b"contained"], lines[:1],
                             [b"escapes", b"chmod /a cpu.max 246", b"set /a cpu.max 1000 100000", b"control /a +io"]])
    if not lines:
        lines = rng.choice([[], [b"contained"], [b"contained"], [b"contained", b"contained"], [b"escapes", b"move 7 /"]])
    if rng.random() < 0.16:
        lines.insert(rng.randrange(len(lines) + 1), bad_pair(rng, lines))
    if rng.random() < 0.03:
        long = commands.LONGEST_LIST - sum(len(line) + 1 for line in lines) - rng.choice([1, 1, 1, 0])
        lines.append(b"unsettled ".ljust(long, b"#"))
    return b"".join(line + b"\n" for line in lines) + (rng.choice([b"pair 1000 /a", b"x"]) if rng.random() < 0.04 else b"")


def bad_pair(rng, lines):
    """A line that is none of an audit's, or whose user or subtree is at fault."""
    near = next((line for line in lines if line.startswith(b"pair ")), b"pair 1000 /a")
    many = ",".join(map(str, range(rng.choice([32, 33])))).encode()
    return rng.choice([
        b"pair ", b"pair  ", near + b" ", near + b"\r", near.replace(b" ", b"  ", 1), near + b"/", near + b"\0", b"pair /a", b"pair 1000",
        b"pair 1000 ", b"pair 1000 a", b"pair 1000: /a", b"pair 1000:5, /a", b"pair +1000 /a", b"pair 4294967296 /a", b"pair x /a",
        b"pair 1000 /\xc3\xa9", b"pair 1000 /\xff", b"pair \xff /a", b"pair 1000 /cgroup.procs", b"pair 1000 /" + b"a" * 256,
        b"# by hand", b"", b"pairs /", b"pair:1000 /a", b" " + near, near.upper(), near.replace(b" ", b"\t", 1), b"\xef\xbb\xbf" + near,
        b"escapes ", b"contained by none", b"unsettled", b"granted", b"move 0 /", b"set /a cpu.max max  1", b"control /a +misc2",
        b"set /a cpu.max " + b"1 " * 4100 + b"1", b"pair 0 /a", b"pair 1000:" + many + b" /a", b"pair 1000 /", b"pair 1000 /nowhere",
        *2 * [b"pair 1000 /nowhere\npair 1000 /"]])


def audit_words(rng, tree, state):
    words, users, tops = ["audit"], rng.choice([1, 1, 2, 3, 4]), rng.choice([1, 1, 2, 3])
    below = [path for path in tree.rows if path]
    many = rng.random() < (0.15 if len(below) < 12 else 0.6)
    if many:
        users, tops = rng.choice([(40, 1), (40, 2), (20, 5), (9, 9), (3, 20), (40, 20)])
    for _ in range(users):
        words += ["--uid", listed_user(rng, *rng.choice([tree.user, trees.user_of(rng), other_user(rng, tree)]))]
    for _ in range(tops):
        words += ["--subtree", text_of(rng.choice(below)) if below and many else subtree_word(rng, tree, state)]
    return words


def listed_user(rng, uid, gids):
    zeros = rng.choice(["", "", "", "00"])
    return f"{zeros}{uid}" + (":" + ",".join(map(str, gids)) if gids else "")


def other_user(rng, tree):
    """Who is the tree's user but for the uid or the order of the groups."""
    uid, gids = tree.user
    return rng.choice([(rng.randrange(2000, 2040), ()), (rng.randrange(2000, 2040), gids), (uid, gids[::-1]), (uid, gids[1:])])


def all_words(rng, tree, state):
    return [*audit_words(rng, tree, state), "--all"]


def everybody_words(rng, tree, state, command="audit"):
    """Often of many subtrees, of which some are held; at times with words that it excludes."""
    below, words = [path for path in tree.rows if path], [command, "--everybody"]
    words += ["--subtree", subtree_word(rng, tree, state)]
    for _ in range(rng.choice([0, 0, 0, 1, 2, 3, 9])):
        words += ["--subtree", text_of(rng.choice(below)) if below and rng.random() < 0.9 else subtree_word(rng, tree, state)]
    words += left_out(rng)
    return words + rng.choice([["--all"], ["--settle"], ["--uid", "1000"]]) if rng.random() < 0.03 else words


def against_everybody(command):
    def words(rng, tree, state):
        found = everybody_words(rng, tree, state, command)
        return found + ["--gid", "5"] if rng.random() < 0.03 else found

    return words


def left_out(rng):
    """At times who is left out, and who is in a group."""
    words, ids = [], (0, 5, 7, 1000, 1001, 1002)
    while rng.random() < 0.25:
        uids = ",".join(str(rng.choice(ids)) for _ in range(rng.choice([0, 1, 1, 2])))
        words += rng.choice([["--but", str(rng.choice(ids))], ["--group", f"{rng.choice(ids)}={uids}"]])
    return words


def subtrees_words(rng, _tree, _state):
    words = ["audit", "--everybody", "--subtrees", SUBTREES, *left_out(rng)]
    return words + rng.choice([["--all"], ["--settle"], ["--uid", "1000"], ["--subtree", "/a"]]) if rng.random() < 0.03 else words


def subtree_lines(rng, tree, state):
    """Lines of paths, and at times one that is none."""
    below = [path for path in tree.rows if path]
    words = [text_of(rng.choice(below)) if below and rng.random() < 0.85 else subtree_word(rng, tree, state)
             for _ in range(rng.choice([0, 1, 1, 2, 3, 3, 5]))]
    lines = [word.encode() for word in words if rules.path_of(word) is not None or rng.random() < 0.05]
    if rng.random() < 0.14:
        near = lines[0] if lines else b"/a"
        lines.insert(rng.randrange(len(lines) + 1), rng.choice([
            b"", near + b" ", near + b"\r", b" " + near, near + b"/", near + b"\0", near[1:], b"pair 1000 " + near, b"subtree " + near, b"# by hand",
            b"/\xc3\xa9", b"/\xff", b"/cgroup.procs", b"/" + b"a" * 256, b"\xef\xbb\xbf" + near, b"/", b"/nowhere", near + b"\t" + near]))
    if rng.random() < 0.02:
        lines.append(b"/a".ljust(commands.LONGEST_LIST - sum(len(line) + 1 for line in lines) - rng.choice([1, 1, 0]), b"#"))
    return b"".join(line + b"\n" for line in lines) + (rng.choice([b"/a", b"x", b"/"]) if rng.random() < 0.06 else b"")


def settled_audit_words(rng, tree, state):
    return ["audit", *settled_pairs(rng, tree, state), "--settle", *["--all"] * (rng.random() < 0.75)]


def settled_pairs(rng, tree, state):
    """Often the two users of a small state, who may do together what neither can alone."""
    if rng.random() < 0.6:
        return few_pairs(rng, tree, state, [0, 1, 1, 2])
    return pair_words(rng, tree, state, rng.sample(small.USERS, 2), [0, 1, 1, 2])


def few_pairs(rng, tree, state, more):
    users = [tree.user, *small.USERS, trees.user_of(rng), other_user(rng, tree)]
    return pair_words(rng, tree, state, rng.sample(users, rng.choice([1, 2, 2, 3])), more)


def pair_words(rng, tree, state, users, more):
    words = [word for user in users for word in ("--uid", listed_user(rng, *user))]
    below = [path for path in tree.rows if path] or [()]
    words += ["--subtree", subtree_word(rng, tree, state)]
    for _ in range(rng.choice(more)):
        words += ["--subtree", text_of(rng.choice(below)) if rng.random() < 0.7 else subtree_word(rng, tree, state)]
    return words


def explain_words(rng, tree, state):
    return ["explain", *few_pairs(rng, tree, state, [0, 0, 1, 2])]


def settled_advice_words(rng, tree, state):
    if rng.random() < 0.85:
        return ["advise", *settled_pairs(rng, tree, state), "--settle"]
    return [*advise_words(rng, tree, state), "--settle"]


def replay_words(rng, tree, state):
    return [*replay_alone_words(rng, tree, state), "--subtree", subtree_word(rng, tree, state)]


def replay_alone_words(rng, tree, _state):
    return ["replay", *user_words(asked_user(rng, tree)), "--ops", OPS]


def upgrade_words(_rng, _tree, _state):
    return ["upgrade"]


MAKERS = {"may": may_words, "check": check_words, "audit": audit_words, "audit --all": all_words, "advise": advise_words,
          "advise --pairs": pairs_words, "settle": of_one("settle"), "audit --settle": settled_audit_words,
          "advise --settle": settled_advice_words, "explain": explain_words, "replay": replay_words,
          "replay alone": replay_alone_words, "upgrade": upgrade_words, "audit --pairs": audit_pairs_words,
          "explain --pairs": explain_pairs_words, "audit --everybody": everybody_words, "audit --subtrees": subtrees_words,
          "advise --everybody": against_everybody("advise"), "explain --everybody": against_everybody("explain")}
WEIGHTS = {"may": 14, "check": 30, "audit": 12, "audit --all": 12, "advise": 14, "advise --pairs": 12, "settle": 24,
           "audit --settle": 14, "advise --settle": 8, "explain": 18, "replay": 28, "replay alone": 6, "upgrade": 7,
           "audit --pairs": 10, "explain --pairs": 5, "audit --everybody": 12, "audit --subtrees": 8,
           "advise --everybody": 10, "explain --everybody": 5}
# of one user and one subtree, with no weight of its own
OTHERS_OF_ONE = [name for name in commands.OF_ONE if name not in MAKERS]
MAKERS.update((name, of_one(name)) for name in OTHERS_OF_ONE)
WEIGHTS.update((name, 5) for name in OTHERS_OF_ONE)
# commands that came when a seed was fixed by which mutants are told apart: fresh cases have them
AGAINST_EVERYBODY = "audit --everybody", "audit --subtrees", "advise --everybody", "explain --everybody"
LATER = frozenset({"audit --pairs", "explain --pairs", *AGAINST_EVERYBODY, *OTHERS_OF_ONE})


# Operations


def operations(rng, tree, data, words, wide=False):
    """A list of operations, most of which are chosen in the tree that those before them leave."""
    if rng.random() < 0.018:
        count = rng.choice([commands.MOST_STEPS, commands.MOST_STEPS + 1]) if rng.random() < 0.85 else commands.MOST_STEPS - 1
        return b"exit 99\n" * count + rng.choice([b"", b"\n", b"x"])
    state, lines = state_of(data), []
    user = asked_in(words)
    if state:
        lines = escape_lines(rng, state, user, tree)
        several = limit_files.some_operations(rng, state, user) if wide and state.form == 4 else []
        count = rng.choice([0, 1, 3, 6, 10, 16]) if rng.random() < 0.98 else rng.choice([60, 200, 500])
        for _ in range(count + len(several)):
            operation = next_operation(rng, tree, state, user, lines[-1:]) if not several or rng.random() < 0.1 else several.pop(0)
            state = rules.step(state, user, operation)[0]
            lines.append(commands.spelling(operation).encode("ascii"))
    if rng.random() < 0.16:
        near = format_4.bad_line(rng) if wide and rng.random() < 0.6 else bad_line(rng, lines)
        lines.insert(rng.randrange(len(lines) + 1), near)
    if wide and tree.form == 4 and rng.random() < 0.4:
        lines.append(limit_files.bad_line(rng))
    if wide and tree.form != 4:
        lines.insert(rng.randrange(len(lines) + 1), rng.choice([format_4, limit_files]).later_line(rng))
    return b"".join(line + b"\n" for line in lines) + (rng.choice([b"exit 7", b"x", b" "]) if rng.random() < 0.04 else b"")


def asked_in(words):
    numbers = [(words[at - 1], int(words[at])) for at in range(1, len(words)) if words[at - 1] in ("--uid", "--gid")]
    return numbers[0][1], tuple(number for option, number in numbers if option == "--gid")


def escape_lines(rng, state, user, tree):
    if rng.random() > 0.3 or tree.subtree not in state.cgroups or not tree.subtree:
        return []
    answer = rules.answer(state, user, tree.subtree)
    shown = [each for each in rules.plain_tries(state, tree.subtree) if not each or each[0][0] != "set" or rules.is_shown(state, *each[0][1:3])]
    found = answer[1] if answer[0] == "escapes" else rng.choice(shown)
    return [commands.spelling(operation).encode("ascii") for operation in found]


def next_operation(rng, tree, state, user, last):
    """A random one, or one that follows from the last: a move of a child, a fork of a PID that was used, a set of a file that came; of
    format 4 at times one of a limit file whose values are texts."""
    if state.form == 4 and rng.random() < 0.12:
        return limit_files.some_operation(rng, state, user)
    kind, *words = last[0].decode("ascii").split(" ") if last and rng.random() < 0.6 else [""]
    if kind in ("exit", "fork") and rng.random() < 0.4:
        return "fork", some_pid(rng, state, user), int(words[-1])
    if kind == "fork":
        return "move", int(words[1]), written_path(rng, state, user, rules.PROCS)
    below = rules.children(state, rules.path_of(words[0])) if kind == "control" and rules.path_of(words[0]) in state.cgroups else []
    if below and words[-1][0] == "+":
        child = rng.choice(below)
        if state.form == 4 and rng.random() < 0.5:
            return limit_files.some_deed(rng, state, child)
        file = rng.choice([file for file in rules.files_at(state, child) if not is_text(file)])
        return rng.choice([("set", child, file, 1), ("chmod", child, file, 0o600)])
    return random_operation(rng, tree, state, user)


def random_operation(rng, tree, state, user):
    kind = rng.choices(list(OPERATIONS), [5, 6 if state.form < 4 else 12, 6, 4, 4, 5, 2, 4])[0]
    return (kind, *OPERATIONS[kind](rng, tree, state, user))


def some_path(rng, state, new=0.06):
    path = rng.choice(list(state.cgroups))
    return path + (rng.choice(trees.NAMES),) if rng.random() < new else path


def some_pid(rng, state, user):
    """Mostly a live one, and of these mostly one of the user's."""
    own = [pid for pid, (uid, _) in state.live.items() if uid == user[0]]
    if rng.random() < 0.85 and state.live:
        return rng.choice(own if own and rng.random() < 0.5 else list(state.live))
    return rng.choice(trees.PIDS)


def entry_where(rng, state, holds):
    """A path and an entry of it for which something holds, where there is one; mostly. No limit file whose values are texts."""
    found = [(path, name) for path, cgroup in state.cgroups.items() for name, entry in cgroup.entries.items()
             if name not in TEXT_FILES and holds(entry)]
    if found and rng.random() < 0.7:
        return rng.choice(found)
    return some_path(rng, state, 0.2), rng.choice([*rules.STANDING, *NUMBER_FILES])


def written_path(rng, state, user, name):
    """Mostly a path whose entry the user writes."""
    written = [path for path, cgroup in state.cgroups.items() if rules.writes(user, cgroup.entries[name])]
    return rng.choice(written) if written and rng.random() < 0.6 else some_path(rng, state)


def some_control(rng, tree, state, user):
    if state.form == 4 and rng.random() < 0.5:
        return format_4.some_control(rng, tree, state, user)
    path = written_path(rng, state, user, rules.CONTROL)
    if path in state.cgroups and state.cgroups[path].enabled and rng.random() < 0.3:
        return path, (("-", rng.choice(sorted(state.cgroups[path].enabled))),)
    every = controllers_in(state.form)
    able = [c for c in every if path in state.cgroups and c in rules.available(state, path)]
    controllers = able if able and rng.random() < 0.7 else every
    return path, tuple((rng.choice("++-"), rng.choice(controllers)) for _ in range(rng.choice([0, 1, 1, 1, 2, 3, 4])))


def some_child(rng, _tree, state, user):
    if rng.random() < 0.1:
        return (some_path(rng, state) + ("zz", "y"),)
    parent = written_path(rng, state, user, rules.DIR)
    return (parent + (rng.choice(trees.NAMES),) if rng.random() < 0.9 else parent,)


def some_removal(rng, _tree, state, user):
    bare = [path for path in state.cgroups if path and not rules.children(state, path)]
    own = [path for path in state.cgroups if path and rules.writes(user, state.cgroups[path[:-1]].entries[rules.DIR])]
    full = [path for path in own if rules.lives_at(state, path)]
    return (rng.choice(rng.choice([bare, own, full]) or list(state.cgroups)) if rng.random() < 0.7 else some_path(rng, state),)


def some_value(rng, _tree, state, user):
    path, file = entry_where(rng, state, lambda entry: rules.writes(user, entry))
    if file in rules.STANDING:
        file = rng.choice(NUMBER_FILES[:3])
    return path, file, rng.choice([MAX, *trees.NUMBERS, 2 ** 63, 2 ** 64 - 1])


def some_mode(rng, _tree, state, user):
    path, name = entry_where(rng, state, lambda entry: rules.owns(user, entry))
    return path, name, rng.choice([0o000, 0o222, 0o444, 0o644, 0o755, 0o666, 0o777, 0o070])


OPERATIONS = {
    "move": lambda rng, _tree, state, user: (some_pid(rng, state, user), some_path(rng, state)),
    "control": some_control,
    "mkdir": some_child,
    "rmdir": some_removal,
    "set": some_value,
    "fork": lambda rng, _tree, state, user: (some_pid(rng, state, user), rng.choice([*state.used, 500, 500, 501])),
    "exit": lambda rng, _tree, state, user: (some_pid(rng, state, user),),
    "chmod": some_mode,
}


def bad_line(rng, lines):
    """A line that is no operation's, too long or near to it."""
    near = rng.choice(lines) if lines else b"exit 7"
    return rng.choice([
        b"", b" ", near + b" ", near + b"\r", b" " + near, near.replace(b" ", b"  ", 1), near.upper(), b"move 010 /", b"move 0 /",
        b"move 4194304 /", b"move +7 /", b"mkdir a", b"mkdir /cgroup.procs", b"mkdir /\xc3\xa9", b"control", b"control / +",
        b"control / + cpu", b"control / +io", b"set / cgroup.procs 1", b"set / pids.max 00", b"set / pids.max -1",
        *[b"set / pids.max 18446744073709551616"] * 6, b"chmod / dir 0755", b"chmod / dir 75", b"chmod / dir 789", b"fork 7", b"exit",
        b"\xff", near + b"\0", b"exit 7 ", b"exit -0", b"exit 07", b"x" * 8192, b"x" * 8192, b"x" * 8193, b"mkdir /" + b"a" * 8186,
        b"control /" + b" +cpu" * 1635 + b" +memory", b"control /" + b" +pids" * 1364])


# Command lines that are turned

FLAGS = ("--all", "--settle", "--everybody")
# whose users are named with their groups in one word
OF_SEVERAL = (["audit"], ["explain"])


def turn_words(rng, case):
    TURNS[rng.randrange(len(TURNS))](rng, case)


def replace_after(rng, case, option, word):
    """Another word behind an option, one of those that are given."""
    given = [at for at, each in enumerate(case.words[:-1]) if each == option]
    if given:
        case.words[rng.choice(given) + 1] = word


def turn_number(rng, case):
    option = rng.choice(["--uid", "--uid", "--gid", "--pid"])
    replace_after(rng, case, option, rng.choice(["x", "", "4294967296", "1e3", "0x10", " 5", "5 ", "1.0", "99999999999999999999"]))


def spell_number(rng, case):
    option = rng.choice(["--uid", "--gid", "--pid"])
    replace_after(rng, case, option, rng.choice(["+1000", "01000", "0001000", "+0"]))


def many_groups(rng, case):
    if case.words[:1] in OF_SEVERAL:
        replace_after(rng, case, "--uid", "1000:" + ",".join(map(str, range(rng.choice([32, 33])))))
    else:
        case.words += [word for gid in range(rng.choice([32, 33])) for word in ("--gid", str(gid))]


def odd_listed_user(rng, case):
    replace_after(rng, case, "--uid", rng.choice(["1000:", "1000:1,", "1000: 5", ":5", "1000:,", "1000:4294967296", "1000:+5", "0:5",
                                             "1000:5:6", "0001000:007"]))


def uid_0(rng, case):
    replace_after(rng, case, "--uid", rng.choice(["0", "00"]))


def odd_pid(rng, case):
    replace_after(rng, case, "--pid", rng.choice(["0", "4194304", "4294967295"]))


def odd_path(rng, case):
    replace_after(rng, case, "--to" if "--to" in case.words else "--subtree",
                  rng.choice(["", "c0", "/a/", "/cgroup.procs", "/é", "/a b"]))


def odd_subtree(rng, case):
    if case.words[:1] in OF_SEVERAL and rng.random() < 0.6:
        case.words += rng.sample(["--subtree=/", "--subtree=/nowhere"], 2)
    replace_after(rng, case, "--subtree", rng.choice(["/", "/nowhere"]))


def lose_word(rng, case):
    if case.words:
        del case.words[rng.randrange(len(case.words))]


def double_option(rng, case):
    options = [at for at in range(1, len(case.words) - 1) if case.words[at].startswith("--")]
    if options:
        at = rng.choice(options)
        case.words += case.words[at:at + 2]


def unknown_word(rng, case):
    case.words.insert(rng.randrange(len(case.words) + 1), rng.choice(["--nothing", "extra", "--uidd"]))


def join_option(rng, case):
    options = [at for at, word in enumerate(case.words[:-1]) if at and word.startswith("--") and word not in FLAGS]
    if options:
        at = rng.choice(options)
        case.words[at:at + 2] = [f"{case.words[at]}={case.words[at + 1]}"]


def no_file(rng, case):
    given = [option for option in ("--tree", "--ops", "--pairs", "--subtrees") if option in case.words] or ["--tree"]
    replace_after(rng, case, rng.choice(given), rng.choice(["none.toml", "folder", "none/none", ""]))


def odd_users(rng, case):
    """Two users of an audit, each with a fault of their own."""
    if case.words[:1] in OF_SEVERAL:
        case.words += rng.sample(["--uid=0", "--uid=5:" + ",".join(map(str, range(33)))], 2)


def two_words(rng, case):
    """Two faults, or three, that follow one another in their order."""
    in_order = [no_file, uid_0, many_groups, *[odd_pid] * ("--pid" in case.words), odd_path, *[odd_subtree] * ("--subtree" in case.words)]
    at = rng.randrange(len(in_order) - 1)
    for turn in in_order[at:at + rng.choice([2, 2, 3])]:
        turn(rng, case)


TURNS = [turn_number, spell_number, many_groups, odd_listed_user, uid_0, odd_pid, odd_path, odd_subtree, lose_word, double_option,
         unknown_word, join_option, no_file, *[odd_users] * 2, *[two_words] * 4]
