"""The second model in the places of a kernel and of the program, for tests of what runs them."""
import errno
from dataclasses import replace
from urllib.parse import quote

from second import commands, rules, settled, texts
from second.controllers import ALL_CONTROLLERS
from second.limit_files import TEXT_FILES
from second.rules import text_of
from trial import advice, classes, comparing, script, shown

CONTROLLERS = [name for name in ALL_CONTROLLERS if name != "dmem"]
BARE = f"""format = 4
controllers = {CONTROLLERS}
[[cgroup]]
path = "/"
""".encode()


def report_of(_program, text, command, *words):
    """What the program would say of a tree."""
    files = {}
    for name in [name for option, name in zip(words, words[1:]) if option in ("--ops", "--pairs")]:
        with open(name, "rb") as lines:
            files[name] = lines.read()
    if "--help" in words:
        return ["help"]
    lines, status, fault = commands.respond([command, *words], text.encode(), files)
    if lines and isinstance(lines[0], commands.Open):
        call = commands.Call([command, *words])
        lines, status = unsettled_lines(texts.tree_of(text.encode()), call.users[0], rules.path_of(call.one("--subtree")))
    assert status in (0, 1, 2), fault
    return [commands.spelling(line) if isinstance(line, tuple) else line for line in lines]


def unsettled_lines(state, user, top):
    """Of what is left unsettled an emptied subtree's end, where that breaks it."""
    inside = sorted((path for path in state.cgroups if rules.inside(path, top)), reverse=True)
    ops = [("exit", pid) for pid, (_, place) in state.live.items() if rules.inside(place, top)] + [("rmdir", path) for path in inside]
    if settled.is_escape(state, user, top, ops):
        return ["escapes", *map(commands.spelling, ops)], 1
    return commands.answer_lines(rules.answer(state, user, top)), 2


class Kernel:
    """What init would write of a script."""

    def __init__(self):
        self.said, self.told, self.state, self.user, self.watched, self.shown = [], set(), None, None, [], {}

    def run(self, lines):
        self.said = ["controllers " + " ".join(CONTROLLERS)]
        for line in lines.splitlines():
            kind, _, rest = line.partition(" ")
            TAKERS[kind](self, line, rest)
        return "\n".join(self.said) + "\nend\n"

    def start(self, line, _rest):
        self.said.append(line)
        self.told, self.state, self.watched, self.shown = set(), texts.tree_of(BARE), [], {}

    def watch(self, _line, rest):
        self.watched = [file for file in rest.split(" ") if file in shown.TAKERS]

    def build(self, line, _rest):
        number = self.number_of((0, (0,)), commands.operation_of(line.encode(), 4))
        self.said += [f"! {number} {line}"] if number else []

    def number_of(self, user, operation):
        """Carries an operation out; its error number."""
        path, file = (operation[1:3] + (None,))[:2]
        refusal = rules.step(self.state, user, operation)[1]
        if refusal:
            return min(comparing.NUMBERS[refusal.split(" ")[0]])
        if operation[0] == "set" and (file in TEXT_FILES or file == shown.WEIGHT):
            turned = shown.turned_by(file, operation[3], self.shown_at(path))
            if turned is None:
                return errno.EINVAL
            self.shown.setdefault(path, {}).update(turned)
        self.state = rules.next_state(self.state, user, operation)
        self.shown = {path: {file: text for file, text in self.shown[path].items() if file in rules.files_at(self.state, path)}
                      for path in self.shown if path in self.state.cgroups}
        return 0

    def shown_at(self, path):
        first = {file: text for file, text in shown.FIRST.items() if file in rules.files_at(self.state, path)}
        return {**first, **self.shown.get(path, {})}

    def line_of(self, path, row):
        """A cgroup's, with what it has of the limit files that are watched."""
        watched = [file for file in self.watched if file in rules.files_at(self.state, path)]
        texts_there = self.shown_at(path)
        values = {**{file: value for file, value in row.values.items() if file not in TEXT_FILES},
                  **{file: texts_there.get(file, "") for file in watched}}
        if shown.IDLE in texts_there and shown.WEIGHT in values:
            values[shown.WEIGHT] = (*shown.weights_of(texts_there), values[shown.WEIGHT])[texts_there[shown.IDLE] != "1"]
        entries = {name: row.entries[name] for name in (*rules.STANDING, *values)}
        return line_of(path, entries, values, row.enabled, rules.brought(self.state, path))

    def process(self, _line, rest):
        pid, uid, path = rest.split(" ")
        live = {**self.state.live, int(pid): (int(uid), rules.path_of(path))}
        self.state = replace(self.state, live=live, used=frozenset(live))

    def own(self, _line, rest):
        path, name, uid, gid, mode = rest.split(" ")
        if name != "cgroup.threads":
            self.state = advice.changed(self.state, [f"chown {path} {name} {uid}:{gid}", f"chmod {path} {name} {mode}"])

    def name(self, _line, rest):
        uid, *gids = map(int, rest.split(" "))
        self.user = (uid, tuple(gids))

    def mend(self, _line, rest):
        self.state = advice.changed(self.state, [rest])
        self.said.append("o 0")
        self.tell()

    def operate(self, line, rest):
        if rest.split(" ")[0] not in rules.BARS:
            self.said += [f"o {errno.EPERM}", "."]
            return
        number = self.number_of(self.user, commands.operation_of(rest.encode(), 4))
        self.said.append(f"o {number}")
        if number and line.startswith("try"):
            self.said.append(".")
        else:
            self.tell()

    def refuse(self, _line, rest):
        """Two cases, each refused unless it is opened."""
        answer = "not ok" if rest == "--opened" else "ok"
        self.said += [f"t {line}" for line in ("TAP version 13", "1..2", f"{answer} 1 move", "# why", f"{answer} 2 rmdir")]

    def way(self, _line, rest):
        self.said.append(" ".join(["w", rest, *map(str, classes.WAYS[rest.replace("-", " ")])]))

    def tell(self, *_):
        now = {f"p {pid} {uid} {text_of(path)}" for pid, (uid, path) in self.state.live.items()}
        now |= {self.line_of(path, row) for path, row in self.state.cgroups.items()}
        self.said += ["-" + line for line in self.told - now] + ["+" + line for line in now - self.told] + ["."]
        self.told = now


def line_of(path, entries, values, enabled, brought):
    spelled = {name: f"{entry.uid}:{entry.gid}:{entry.mode:o}" for name, entry in entries.items()}
    words = [spelled[name] for name in rules.STANDING]
    words += [f"{name}={spelled[name]}:{quote(str(value), safe=':=')}" for name, value in values.items()]
    words += [script.OTHERS[name] for name in sorted(brought & script.OTHERS.keys())]
    return " ".join(["c", text_of(path), ",".join(sorted(enabled)) or "-", *words])


TAKERS = {"case": Kernel.start, "watch": Kernel.watch, "mkdir": Kernel.build, "control": Kernel.build, "set": Kernel.build,
          "process": Kernel.process, "own": Kernel.own, "user": Kernel.name, "mend": Kernel.mend, "do": Kernel.operate,
          "try": Kernel.operate, "state": Kernel.tell, "refusals": Kernel.refuse, "way": Kernel.way, "files": lambda *_: None,
          "others": lambda *_: None, "selftests": lambda *_: None}
