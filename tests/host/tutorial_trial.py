"""Carries out the part of docs/TUTORIAL.md that takes a machine, as root: tests/host/tutorial_trial.py [MOUNT]

MOUNT is where cgroup v2 is mounted (/sys/fs/cgroup). It makes the cgroup lab there, and removes it. The last line is 'N passed, M failed'.
"""
import os
import subprocess
import sys
import tempfile

TOP = os.path.dirname(os.path.dirname(os.path.dirname(os.path.abspath(__file__))))
MOUNT = "/sys/fs/cgroup"
# what each command has to write, by its beginning: of one that stands twice in turn
WANTED = {"host/zirofen-host check --only /lab": ["escapes", "contained"], "host/zirofen-host ask": ["setpriv --reuid 1002"]}


def commands_of(page):
    """Its commands as root carries them out: without sudo."""
    with open(page, encoding="ascii") as text:
        part = text.read().partition("\n## On a machine\n")[2].partition("\n## ")[0]
    return [line[4:].replace("sudo ", "") for line in part.splitlines() if line.startswith("    ")]


def carried_out(command, mount, room):
    """What a command writes, and its status, on this mount."""
    command = command.replace("/root/", f"{room}/").replace(f"{MOUNT}/", f"{mount}/")
    for name in ("check", "ask", "commands"):
        command = command.replace(f"zirofen-host {name} ", f"zirofen-host {name} --mount {mount} ")
    ended = subprocess.run(["bash", "-c", command], cwd=TOP, capture_output=True, text=True)
    return ended.returncode, ended.stdout + ended.stderr


def tried(mount, room):
    """Each command with whether it did what the page says."""
    seen = {name: iter(wanted) for name, wanted in WANTED.items()}
    for command in commands_of(f"{TOP}/docs/TUTORIAL.md"):
        status, said = carried_out(command, mount, room)
        name = next((it for it in seen if command.startswith(it) and "--mends" not in command), None)
        if name:
            yield command, next(seen[name]) in said, said
        else:
            yield command, status == 0 or command.startswith("host/"), said
        # what was printed is what that user does: the kernel lets them
        if command.startswith("host/zirofen-host ask"):
            for does in (line for line in said.splitlines() if line.startswith("setpriv")):
                status, said = carried_out(does, MOUNT, room)
                yield does, status == 0, said


def main(mount=MOUNT):
    passed = failed = 0
    with tempfile.TemporaryDirectory() as room:
        for command, is_right, said in tried(mount, room):
            print(f"{'ok' if is_right else 'FAILED'}: {command}")
            if is_right:
                passed += 1
            else:
                failed += 1
                print(said)
    print(f"{passed} passed, {failed} failed")
    return 1 if failed else 0


if __name__ == "__main__":
    sys.exit(main(*sys.argv[1:]))
