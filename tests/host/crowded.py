"""A report of a host with many delegations, of which a tenth have a finding, of six kinds in turn; made up, and asked of nobody."""
import example

CHANGE = "/sys/fs/cgroup"
CONTROL = ("cgroup.procs", "cgroup.subtree_control")
VALUES = {"memory.max": "max", "pids.max": "max"}
SIZE = 2**30
# a crowd of so many has a note on each user
NOTED = 1000
KINDS = ("limit", "parent", "group", "opened", "fault", "differs")


def owner(uid, gid=None, mode="644"):
    return {"uid": uid, "gid": uid if gid is None else gid, "mode": mode}


class Crowd:
    """Builds the report; names have so many characters at least, and delegations lie so deep."""

    def __init__(self, length=0, depth=1):
        self.length, self.depth, self.paths = length, depth, set()
        self.report = {**example.kept(), **{key: [] for key in (
            "subtrees", "entries", "opened", "faults", "differs", "above", "users", "groups", "processes", "cgroups", "lists")}}
        self.report["groups"] = [{"gid": 50, "name": "team"}]
        self.add("/", 0)
        self.add("/user.slice", 0)
        self.add("/system.slice", 0)

    def add(self, path, uid, name=None, **values):
        """A cgroup, whose three usual entries are a uid's."""
        files = {each: owner(uid) for each in CONTROL}
        files.update({each: {**owner(0), "value": value} for each, value in {**VALUES, **values}.items()} if path != "/" else {})
        unit = path.rpartition("/")[2]
        row = {"path": path, "dir": owner(uid, mode="755"), "enabled": [], "marks": {}, "files": files,
               "unit": unit if unit.endswith((".service", ".scope", ".slice")) else None}
        self.report["cgroups"].append(row)
        self.paths.add(path)
        return row

    def named(self, name, kind):
        """A unit's name, as long as is wanted."""
        return f"{name}-{'x' * (self.length - len(name) - len(kind) - 1)}{kind}" if self.length else f"{name}{kind}"

    def below(self, path, uid):
        """A way down to where a delegation lies."""
        for number in range(self.depth - 1):
            path = f"{path.rstrip('/')}/{self.named(f'd{number}', '.slice')}"
            if path not in self.paths:
                self.add(path, uid)
        return path

    def delegation(self, path, uid, answer=("contained",), **values):
        row = self.add(path, uid, **values)
        row["marks"] = {"trusted.delegate": "1"}
        self.report["subtrees"].append({
            "path": path, "meant": "trusted.delegate", "unit": row["unit"], "held_by": {"by": "owner", "ids": [uid]},
            "answers": [{"who": str(uid), "uids": [uid], "users": 1, "gids": [uid], "lines": list(answer), "is_above": False}]})
        self.report["users"].append({"uid": uid, "name": f"user{uid}", "groups": [[uid]]})
        return row

    def entry(self, path, entry, of, whom, answer, subtree, changes, example=None):
        self.report["entries"].append({"path": path, "entry": entry, "owner": of, "answer": answer, "whom": [whom],
                                       "subtrees": [subtree], "example": example, "changes": changes, "setting": None})

    def process(self, pid, uid, at, name):
        self.report["processes"].append({"pid": pid, "uid": uid, "at": at, "name": name, "capabilities": []})

    def manager(self, uid, is_broken=False):
        """A user with a manager, and a session of theirs beside it."""
        top = f"{self.below('/user.slice', 0)}/{self.named(f'user-{uid}', '.slice')}"
        held, session = f"{top}/{self.named(f'user@{uid}', '.service')}", f"{top}/session-{uid}.scope"
        self.add(top, uid if is_broken else 0)
        escape = ("escapes", f"move {uid + 100000} {held}/init.scope")
        self.delegation(held, uid, escape if is_broken else ("contained",), **{"memory.max": SIZE})
        self.add(f"{held}/init.scope", uid)
        self.add(f"{held}/app.slice", uid)
        self.add(session, uid)
        self.process(uid + 100000, uid, session, "bash")
        if is_broken:
            whom = {"by": "owner", "id": uid, "name": f"user{uid}({uid})", "users": []}
            for entry in (*CONTROL, "dir"):
                place = f"{CHANGE}{top}" + ("" if entry == "dir" else f"/{entry}")
                self.entry(top, entry, owner(uid, mode="755" if entry == "dir" else "644"), whom, "escapes", held,
                           [f"chown root {place}"])

    def service(self, uid, kind=None):
        path = f"{self.below('/system.slice', 0)}/{self.named(f'job{uid}', '.service')}"
        whom = {"by": "owner", "id": uid, "name": f"user{uid}({uid})", "users": []}
        answer = ("escapes", f"set {path} memory.max max") if kind == "limit" else ("contained",)
        row = self.delegation(path, uid, answer, **{"memory.max": 4 * SIZE, "pids.max": 500})
        self.process(uid + 100000, uid, path, "make")
        if kind == "limit":
            row["files"]["memory.max"].update(owner(uid))
            self.entry(path, "memory.max", owner(uid), whom, "escapes", path, [f"chown root {CHANGE}{path}/memory.max"])
        elif kind == "opened":
            row["files"]["cpu.max"] = {**owner(0, mode="666"), "value": "20000 100000"}
            self.report["opened"].append({
                "path": path, "file": "cpu.max", "owner": owner(0, mode="666"), "setting": None, "why": None,
                "whom": [{"by": "others", "id": None, "name": "everybody", "users": []}],
                "changes": [f"chmod o-w {CHANGE}{path}/cpu.max"]})
        elif kind == "fault":
            self.report["faults"].append({"who": f"user{uid}({uid})", "uid": uid, "gids": [uid], "subtrees": [path],
                                          "fault": "fault: too-many-steps", "made_by": None})
        elif kind == "differs":
            self.report["differs"].append({"path": path, "entries": ["cgroup.threads"], "setting": f"Delegate= and User= of {row['unit']}",
                                           "changes": [f"chown {uid}:{uid} {CHANGE}{path}/cgroup.threads"]})

    def batch(self, uid):
        """A slice into which a group moves."""
        top = f"{self.below('/', 0).rstrip('/')}/{self.named(f'batch{uid}', '.slice')}"
        row, held = self.add(top, 0), f"{top}/{self.named(f'night{uid}', '.service')}"
        row["files"]["cgroup.procs"] = owner(0, 50, "664")
        self.delegation(held, uid, **{"memory.max": SIZE})
        lines = [f"unsettled common-ancestor {top}"]
        self.entry(top, "cgroup.procs", owner(0, 50, "664"), {"by": "group", "id": 50, "name": "group team(50)", "users": ["carol(1002)"]},
                   "unsettled", held, [f"chmod 644 {CHANGE}{top}/cgroup.procs"],
                   {"who": "carol(1002)", "uid": 1002, "gids": [1002, 50], "subtree": held, "lines": lines})

    def one(self, uid, kind):
        if kind == "group":
            self.batch(uid)
        elif kind == "parent" or kind is None and uid % 2:
            self.manager(uid, kind == "parent")
        else:
            self.service(uid, kind)


def report(count, length=0, depth=1):
    """A report of so many delegations."""
    crowd = Crowd(length, depth)
    for number in range(count):
        crowd.one(10000 + number, KINDS[number // 10 % len(KINDS)] if number % 10 == 0 else None)
    made = crowd.report
    if count >= NOTED:
        fact = "the service manager moves their processes, from anywhere, on request"
        made["unseen"] = [{"kind": "deputy", "place": f"user{each['uid']}({each['uid']})", "fact": fact, "text": f"{fact}: into some unit"}
                          for each in made["users"]]
    for key in ("subtrees", "entries", "opened", "differs"):
        made[key].sort(key=lambda each: each["path"].split("/"))
    return made
