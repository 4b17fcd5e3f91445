#!/usr/bin/env python3
"""Carries out the commands of docs/TUTORIAL.md and docs/HOSTS.md as they stand there, and holds what the pages say of their output and
their status. By hand, as root, on a machine with systemd, podman, Docker, sudo and sshd that may be thrown away:

  pages_trial.py HOST_FOLDER [--docs FOLDER] [--page NAME]

HOST_FOLDER has zirofen-host and zirofen, FOLDER (/usr/share/doc/zirofen) docs/ and examples/. Whoever types is the user alice, who may
use sudo, in a folder like a clone. What stands below a command is in its output, in that order; what the page says in sentences, the rows
here have, each with the sentence: a row without its command or its sentence has failed, and so has a command without a row and without
lines below it. Words that stand for something (FILE, ..) are filled in. The last line is 'N passed, M failed'.
"""
import argparse
import contextlib
import json
import os
import pwd
import re
import shutil
import subprocess
import sys
import time
import tomllib
from dataclasses import dataclass, field
from typing import Callable, Mapping, Optional, Tuple

from elsewhere_trial import image_of, ready_docker

USER, HOME, MOUNT = "alice", "/home/alice", "/sys/fs/cgroup"
ROOM = f"{HOME}/clone"
KEPT = "/srv/zirofen-pages"
# whatever a host may be found to be
ANY = (0, 1, 2, 4)
FOUND = re.compile(r"(?:sudo |podman |mkdir |\./zirofen |host/zirofen-host )")
SPAN = re.compile(r"`((?:systemctl|journalctl)\s[^`]*|zirofen-host\scheck\s--baseline-update\s[^`]*)`")
LIMIT = "/user.slice/user-{uid}.slice/user@{uid}.service"


@dataclass
class Ended:
    """How a command ended, and what it said."""
    status: int
    said: str


@dataclass
class Row:
    """What a page says of a command."""
    begins: str
    status: Tuple[int, ...] = (0,)
    # what stands in what it says, as regular expressions
    said: Tuple[str, ...] = ()
    # the page's sentence
    page: str = ""
    # what is put for words that stand for something
    fill: Mapping[str, str] = field(default_factory=dict)
    before: Optional[Callable[[], None]] = None
    # whether what came of it is right, where words don't tell
    holds: Optional[Callable[[Ended], bool]] = None


def uid_of(name=USER):
    return pwd.getpwnam(name).pw_uid


def root(command, **more):
    return subprocess.run(command, shell=True, check=True, **more)


def typed(command):
    """What comes of a command that alice types, in their session."""
    uid = uid_of()
    of_user = (f"XDG_RUNTIME_DIR=/run/user/{uid}", f"DBUS_SESSION_BUS_ADDRESS=unix:path=/run/user/{uid}/bus", f"HOME={HOME}",
               f"USER={USER}", f"LOGNAME={USER}", "PAGER=cat", "PATH=/usr/local/bin:/usr/bin:/bin:/usr/local/sbin:/usr/sbin:/sbin")
    ended = subprocess.run(["runuser", "-u", USER, "--", "env", "-i", "-C", ROOM, *of_user, "bash", "-c", command],
                           stdin=subprocess.DEVNULL, stdout=subprocess.PIPE, stderr=subprocess.STDOUT, text=True)
    return Ended(ended.returncode, ended.stdout)


# what is there before


def ready(given):
    """A user, who may use sudo, with a session's manager, and a folder like a clone."""
    if subprocess.run(["id", USER], capture_output=True).returncode:
        root(f"useradd --create-home --shell /bin/bash {USER}")
    with open("/etc/sudoers.d/zirofen-pages", "w", encoding="ascii") as out:
        out.write(f"{USER} ALL=(ALL) NOPASSWD: ALL\n")
    root(f"loginctl enable-linger {USER}; systemctl start user@{uid_of()}.service; mkdir -p {ROOM}/host {KEPT}")
    links = {"zirofen": f"{given.host}/zirofen", "host/zirofen-host": f"{given.host}/zirofen-host", "examples": f"{given.docs}/examples"}
    for name, to in links.items():
        with contextlib.suppress(FileExistsError):
            os.symlink(to, f"{ROOM}/{name}")
    root(f"chown -R {USER}: {ROOM}")


def ready_podman():
    """An image by the page's name, since there is no network."""
    image = image_of(KEPT, "alpine")
    root(f"mkdir -p {HOME}/.config/containers && printf '[containers]\\nnetns = \"none\"\\n' >{HOME}/.config/containers/containers.conf "
         f"&& chown -R {USER}: {HOME}/.config && chmod -R a+rX {KEPT}")
    ended = typed(f"tar -C {image} -c . | podman import - docker.io/library/alpine:latest")
    if ended.status:
        raise SystemExit(f"no image: {ended.said}")


def ready_hosts(given):
    """A container and a limit that alice may lift, two hosts that are this machine, and files by the names that rows fill in."""
    ready_docker(KEPT)
    root("docker rm -f web >/dev/null 2>&1; docker run -d --network none --name web busy sleep 100000")
    os.chown(f"{MOUNT}{manager()}/memory.max", uid_of(), 0)
    root("mkdir -p /opt/zirofen/host /run/sshd /root/.ssh; grep -q web1 /etc/hosts || echo 127.0.0.1 web1 web2 >>/etc/hosts")
    with contextlib.suppress(FileExistsError):
        os.symlink(f"{given.host}/zirofen-host", "/opt/zirofen/host/zirofen-host")
    typed("mkdir -p -m 700 ~/.ssh; [ -e ~/.ssh/id_ed25519 ] || ssh-keygen -q -t ed25519 -N '' -f ~/.ssh/id_ed25519; "
          "printf 'StrictHostKeyChecking no\\nLogLevel ERROR\\n' >~/.ssh/config; printf 'web1\\nweb2\\n' >hosts; "
          "cp examples/lab-slip.plan slip.plan; "
          "printf '[Service]\\nUser=nobody\\nDelegate=yes\\nMemoryMax=100M\\nExecStart=/bin/true\\n' >app.service")
    root(f"cp {HOME}/.ssh/id_ed25519.pub /root/.ssh/authorized_keys; chmod 700 /root/.ssh; systemctl restart ssh")


def manager():
    return LIMIT.format(uid=uid_of())


# the pages' commands


def is_whole(command):
    return subprocess.run(["bash", "-n", "-c", command], capture_output=True).returncode == 0


def without_words(line):
    """A command without what a list of commands says behind it."""
    return re.sub(r"(?<=\S)\s{2,}[^\s].*$", "", line) if not line.startswith(" ") else line


def commands_of(text):
    """The commands of a page, in its order: of blocks, with the lines below each, and of sentences."""
    found, last = [], None
    for place, line in lines_of(text):
        if not line.startswith("    "):
            last = None
            continue
        line = line[4:]
        if last is not None and not is_whole(last[1]):
            last[1] += f"\n{line}"
        elif FOUND.match(line):
            last = [place, without_words(line), []]
            found.append(last)
        elif last is not None:
            last[2].append(line)
    spans = [[each.start(), " ".join(each[1].split()), []] for each in SPAN.finditer(text)]
    return [(command, lines) for _, command, lines in sorted(found + spans, key=lambda each: each[0])]


def lines_of(text):
    place = 0
    for line in text.splitlines():
        yield place, line
        place += len(line) + 1


def filled(command, row):
    for word, by in row.fill.items():
        command = command.replace(word, by)
    return command


# what the pages say


def is_json(name, *keys):
    """Whether a file of the clone is JSON with these keys."""
    def holds(_):
        with open(os.path.join(ROOM, name), encoding="utf-8") as text:
            found = json.load(text)
        return all(key in found for key in keys)
    return holds


def is_tree(_):
    with open(f"{ROOM}/tree.toml", "rb") as text:
        return "cgroup" in tomllib.load(text)


def has_page(name):
    def holds(_):
        with open(os.path.join(ROOM, name), encoding="utf-8") as text:
            return text.read(15).lower() == "<!doctype html>"
    return holds


def do_they_work(ended):
    """Carries out what was printed: the kernel lets that user."""
    lines = [line for line in ended.said.splitlines() if line.startswith("setpriv ")]
    works = [subprocess.run(["sh", "-c", line]).returncode == 0 for line in lines]
    return bool(works) and all(works)


def check_by_service():
    subprocess.run(["systemctl", "start", "zirofen-check.service"], stderr=subprocess.DEVNULL)


def open_while_watched():
    """Opens an entry as the page shows it, and closes it once it was told."""
    def told(word):
        for _ in range(120):
            said = subprocess.run(["journalctl", "--unit", "zirofen-watch", "--output", "cat"], capture_output=True, text=True).stdout
            if word in said:
                return
            time.sleep(1)
    told("were asked of")
    os.chmod(f"{MOUNT}/cgroup.procs", 0o666)
    told("new: / cgroup.procs")
    os.chmod(f"{MOUNT}/cgroup.procs", 0o644)
    told("mended: / cgroup.procs")


LAB = "sudo host/zirofen-host check --only /lab"
TUTORIAL = (
    Row("host/zirofen-host plan --tree examples/delegation.toml --ops examples/lab-slip.plan", (1,), page="The status is 1."),
    Row("host/zirofen-host plan --tree examples/delegation.toml --ops examples/lab-slip.plan --print text"),
    Row("./zirofen advise --tree lab.toml --uid 1002 --subtree /lab | grep"),
    Row("sudo mkdir /sys/fs/cgroup/lab"),
    Row("sudo chown -R 1002:1002"),
    Row(LAB, (1,), (r"^/lab .*escapes", "^ *change: ", r"^1 by "),
        "The table says `escapes`, the next part which entries let uid 1002 in, each with `change:`, and the last line `1 by ..`, the "
        "status."),
    Row("sudo host/zirofen-host ask 1002 /lab |", said=("^setpriv --reuid 1002 ",), holds=do_they_work,
        page="print the escape as a command that runs as that user, and run what it prints:"),
    Row(f"{LAB} --mends", (1,), page="write the fixes as a script"),
    Row("sudo sh /root/lab.sh"),
    Row(LAB, (0, 2), (r"contained \[limited\] +/lab$",), "Now the answer is `contained [limited]`"),
    Row("sudo rmdir /sys/fs/cgroup/lab"),
    Row("sudo host/zirofen-host check", ANY, ("^[0-4][ ;]",)),
    Row("sudo systemd-run --unit=lab"),
    Row("sudo host/zirofen-host check --only /system.slice/lab.service", (0, 2), (r"contained .*/system.slice/lab.service",),
        "with the managers' defaults, such a service was `contained`"),
    Row("podman run -d --name lab", said=("^[0-9a-f]{64}$",)),
    Row('sudo host/zirofen-host check --only "podman:', (0, 2), (rf"podman:{USER}/lab", "contained"),
        "and so was the user's manager that holds the container"),
)
CHECK = "sudo host/zirofen-host check"
OF = {"/user.slice/..": "$(cat manager)", "FILE": "slip.plan"}
HOSTS = (
    Row("host/zirofen-host check --tree", said=("contained", "^0; ")),
    Row(CHECK, (1,), (r"memory\.max", "escapes", "What none of these answers looks at", "^1 by "), "and what no answer covers"),
    Row(f"{CHECK} --only /user.slice", (1,), ("escapes", "^1 by "), "that cgroup, its ancestors and what is inside it"),
    Row(f"{CHECK} --only docker:web", (0, 1, 2), ("docker:web",), "the same for a container, by its name"),
    Row(f"{CHECK} --json", (1,), page="the same for programs", fill={"--json": "--json > REPORT.json"},
        holds=is_json("REPORT.json", "subtrees")),
    Row(f"{CHECK} --accept FILE", (0, 2), ("accepted",), "each accepted for a reason and until a day",
        {"FILE": "/root/accept.toml"}, lambda: accept()),
    Row("host/zirofen-host accept", said=(r"\[\[accept\]\]", 'reason = "it is split"'), page="a draft of such a FILE",
        fill={"--reason ..": "--reason 'it is split'"}),
    Row(f"{CHECK} --mends shell", (1,), ("^chown ",), "fixes as a script"),
    Row(f"{CHECK} --baseline FILE", (1,), ("^1 finding is open since .*memory.max", "^1 by 1 that have been open"),
        "since an earlier --json", {"FILE": "/root/REPORT.json"}),
    Row("sudo host/zirofen-host plan --ops FILE", (1,), ("^new: /lab memory.max",), "how planned changes would be answered", OF),
    Row("sudo host/zirofen-host ask alice", (1,), ("escapes",), "one user and one subtree", OF),
    Row("sudo host/zirofen-host snapshot", page="the tree text alone", holds=is_tree),
    Row("sudo host/zirofen-host tree", said=("escapes", r"alice\(")),
    Row(f"{CHECK} --html /root/it.html", (1,), page="the answers, and one page of them", holds=has_page("/root/it.html")),
    Row(f"{CHECK} --format sarif=FILE", (1,), fill={"FILE": "/root/out.sarif"}, page="for code scanning",
        holds=is_json("/root/out.sarif", "runs")),
    Row("host/zirofen-host fleet FOLDER", (1,), ("REPORT.json|trials",), "a table with the worst on top, a page of each",
        {"FOLDER": "fleet", "OUT": "fleet-pages"}, lambda: root(f"mkdir -p {ROOM}/fleet; cp {ROOM}/REPORT.json {ROOM}/fleet/web1.json"),
        has_page("fleet-pages/index.html")),
    Row("mkdir -p reports", (1,), ("^web1: status 1", "^web2: status 1"), holds=has_page("pages/index.html")),
    Row("sudo host/zirofen-host plan --ops FILE", (1,), ("^new: /lab memory.max",), "of this host", OF),
    Row("sudo host/zirofen-host plan --unit app.service", said=("app.service",), page="what starting a unit would change"),
    Row("host/zirofen-host plan --tree tree.toml", (1, 2), ("^new: /lab memory.max",), "of a text, without root and without a host", OF),
    Row("host/zirofen-host ask 1000 --may", said=("cgroup.procs",), page="lists the entries of the subtree"),
    Row("host/zirofen-host ask 1000 --explain", said=("/c0",), page="says in words, with names"),
    Row("sudo host/zirofen-host ask alice", said=("^setpriv --reuid 1000 ",), page="prints the operations as commands under", fill=OF,
        holds=do_they_work),
    Row("systemctl enable --now zirofen-check.timer", page="switches it on"),
    Row("journalctl -u zirofen-check", said=(" by ",), page="has the lines", before=check_by_service),
    Row("zirofen-host check --baseline-update", ANY, page="accepts what is there now"),
    Row("systemctl enable --now zirofen-watch.service"),
    Row("journalctl -u zirofen-watch", said=(r"new: / cgroup.procs \(0:0 666\): escapes, by everybody", r"mended: / cgroup.procs"),
        before=open_while_watched),
)


def accept():
    """A draft of acceptances, as the page's next command makes it; it and the report where root alone writes."""
    typed("host/zirofen-host accept REPORT.json --reason 'it is split' | sudo tee /root/accept.toml; sudo cp REPORT.json /root")


# what comes of it


def rows_of(text, rows):
    """Each command of a page, with the lines below it and its row: the first that is left for it."""
    left = list(rows)
    for command, lines in commands_of(text):
        row = next((each for each in left if command.startswith(each.begins)), None)
        if row:
            left.remove(row)
        yield command, lines, row
    yield from ((None, [], row) for row in left)


def what_is_lacking(text, command, lines, row):
    """What a page and its rows lack of one another."""
    if command is None:
        yield f"no command of the page is it: {row.begins}"
    elif row is None and not lines:
        yield "the trial has no row for it"
    if row and row.page not in " ".join(text.split()):
        yield f"the page doesn't say: {row.page}"


def in_order(lines, said):
    left = iter(said.splitlines())
    return all(line in left for line in lines)


def what_is_wrong(row, lines, ended):
    """What of what a page says doesn't hold."""
    if row.status and ended.status not in row.status:
        yield f"status {ended.status}, not {row.status}"
    yield from (f"nothing like {each}" for each in row.said if not re.search(each, ended.said, re.M))
    if not in_order(lines, ended.said):
        yield f"not these lines: {lines}"
    try:
        if row.holds and not row.holds(ended):
            yield "what came of it is otherwise"
    except (OSError, ValueError) as error:
        yield str(error)


def carried_out(text, rows):
    """Each command of a page, and each row that is left, with what is wrong of it, and what it said."""
    for command, lines, row in rows_of(text, rows):
        wrong = list(what_is_lacking(text, command, lines, row))
        if command is None or row is None and not lines:
            yield command or row.begins, wrong, ""
            continue
        row = row or Row(command, ())
        if row.before:
            row.before()
        # a command of a sentence is root's
        does = filled(command, row)
        ended = typed(f"sudo {does}" if SPAN.fullmatch(f"`{command}`") else does)
        yield does, [*wrong, *what_is_wrong(row, lines, ended)], ended.said


def arguments():
    parser = argparse.ArgumentParser()
    parser.add_argument("host")
    parser.add_argument("--docs", default="/usr/share/doc/zirofen")
    parser.add_argument("--page", choices=("TUTORIAL", "HOSTS"))
    return parser.parse_args()


def main():
    given = arguments()
    ready(given)
    counts = [0, 0]
    for name, rows, prepare in (("TUTORIAL", TUTORIAL, ready_podman), ("HOSTS", HOSTS, lambda: ready_hosts(given))):
        if given.page not in (None, name):
            continue
        prepare()
        with open(f"{ROOM}/manager", "w", encoding="ascii") as out:
            out.write(manager())
        with open(f"{given.docs}/docs/{name}.md", encoding="utf-8") as page:
            text = page.read()
        for command, wrong, said in carried_out(text, rows):
            print(f"{'FAILED' if wrong else 'ok'}: {command}", flush=True)
            counts[bool(wrong)] += 1
            if wrong:
                print("\n".join(f"  {each}" for each in wrong), said[-4000:], sep="\n", flush=True)
    shutil.rmtree(KEPT, ignore_errors=True)
    print(f"{counts[0]} passed, {counts[1]} failed")
    return 1 if counts[1] else 0


if __name__ == "__main__":
    sys.exit(main())
