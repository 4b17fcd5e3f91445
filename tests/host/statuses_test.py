"""Tests of statuses: each that a command's help tells of comes about by a command line, and no other; and so does each word of the table
of how a host stands."""
import json
import os
import re
import subprocess
import sys
import tempfile
import unittest

from called import called
from check_test import REAL_PROGRAM, owned
from made_up import TOP, MadeUp, MadeUpTest
from made_up_hosts import CHOWN, IMAGE, MEMORY_OF_V1, NAMESPACES, OF_FIRST, OWN_ROOT
from zirofen_host.arguments import DESCRIPTIONS
from zirofen_host.collect.bounded import CGROUP_BYTES
from zirofen_host.judge import saved, standing
from zirofen_host.judge.severity import Severity

sys.path.append(f"{TOP}/tests/program")
from of_one import OF_ONE  # noqa: E402

GOOD, OPEN = f"{TOP}/examples/delegation.toml", f"{TOP}/examples/delegation-limit-writable.toml"
UNSETTLED, FAULT = f"{TOP}/examples/parent-procs-no-process.toml", f"{TOP}/examples/fault-no-parent.toml"
OPERATIONS = f"{TOP}/examples/delegation-filled.ops"
MANAGER = "/user.slice/user-1000.slice/user@1000.service"
# of each command of the program a call for each status
PROGRAM = {
    "may": {0: (GOOD, "--uid 1000 --pid 11 --to /c0/c01"), 1: (GOOD, "--uid 1000 --pid 10 --to /c0/c00"), 3: (GOOD, "--uid 1000")},
    **{command: {0: (GOOD, "--uid 1000 --subtree /c0"), 1: (OPEN, "--uid 1000 --subtree /c0"), 2: (UNSETTLED, "--uid 1000 --subtree /p/s"),
                 3: (FAULT, "--uid 1000 --subtree /c0")} for command in OF_ONE},
    "audit": {0: (GOOD, "--uid 1000 --subtree /c0"), 1: (OPEN, "--uid 1000 --subtree /c0"), 2: (UNSETTLED, "--uid 1000 --subtree /p/s"),
              3: (GOOD, "--uid 1000")},
    "explain": {0: (GOOD, "--uid 1000 --subtree /c0"), 1: (OPEN, "--uid 1000 --subtree /c0"), 2: (UNSETTLED, "--uid 1000 --subtree /p/s"),
                3: (FAULT, "--uid 1000 --subtree /c0")},
    "advise": {0: (GOOD, "--uid 1000 --subtree /c0"), 1: (OPEN, "--uid 1000 --subtree /c0"), 3: (GOOD, "--uid -0 --subtree /c0")},
    "replay": {0: (GOOD, f"--uid 1000 --ops {OPERATIONS} --subtree /c0"), 1: (OPEN, f"--uid 1000 --ops {OPERATIONS} --subtree /c0"),
               3: (GOOD, f"--uid 1000 --ops {OPERATIONS} --subtree /none")},
    "upgrade": {0: (GOOD, ""), 3: (FAULT, "")}}
ACCEPTED = """[[accept]]
what = "opened"
path = "{}"
entry = "cgroup.kill"
whom = "everybody"
reason = "a test host"
until = 2099-01-01
"""
ASKED = ("--zirofen", REAL_PROGRAM)
EMPTY = 'format = 4\ncontrollers = []\n\n[[cgroup]]\npath = "/"\n'
NEW = "mkdir /new\n" + "".join(f"chown /new {entry} 1001:1001\n" for entry in ("dir", "cgroup.procs", "cgroup.subtree_control"))
# of each command of the helper that asks of a text a call for each status, and what it is given
OF_TEXTS = {
    "ask": {0: ((*ASKED, "--tree", GOOD, "1000", "/c0"), None), 1: ((*ASKED, "--tree", OPEN, "1000", "/c0"), None),
            2: ((*ASKED, "--tree", UNSETTLED, "1000", "/p/s"), None), 3: ((*ASKED, "--tree", FAULT, "1000", "/c0"), None)},
    "plan": {0: ((*ASKED, "--tree", GOOD, "--ops", "-"), NEW), 1: ((*ASKED, "--tree", GOOD, "--ops", "-"), "chown / cgroup.procs 1000:0\n"),
             2: ((*ASKED, "--tree", GOOD, "--ops", "-"), f"{NEW}chown /new cgroup.type 1001:1001\n"),
             3: ((*ASKED, "--tree", GOOD, "--ops", "-"), "mkdir /c0\n"), 4: ((*ASKED, "--tree", "-", "--ops", "/dev/null"), EMPTY)},
    "delegations": {0: (("--tree", GOOD), None), 3: ((*ASKED,), "format = 9\n")}}


def ended(*words, given=None):
    return subprocess.run(words, input=given, capture_output=True, text=True, check=False)


@unittest.skipUnless(REAL_PROGRAM, "there is no program")
class ProgramTest(unittest.TestCase):
    def test_each_status_of_each_command_comes_about(self):
        listed = re.findall(r"^  (\w+)  ", ended(REAL_PROGRAM, "--help").stdout.partition("\nCommands:\n")[2].partition("\n\n")[0], re.M)
        self.assertEqual(set(listed) - {"help"}, set(PROGRAM))
        for command, calls in PROGRAM.items():
            told = re.search(r"^Status: (.*)$", ended(REAL_PROGRAM, command, "--help").stdout, re.M)[1]
            self.assertEqual(set(map(int, re.findall(r"(?:^|, )(?:and \w+ )?([0-4])(?= )", told))), set(calls), (command, told))
            for status, (tree, words) in calls.items():
                with self.subTest(command, status=status):
                    said = ended(REAL_PROGRAM, command, "--tree", tree, *words.split())
                    self.assertEqual(said.returncode, status, said)
                    self.assertEqual(said.stderr.startswith("fault: "), status == 3, said)


@unittest.skipUnless(REAL_PROGRAM and not os.geteuid(), "owners of files are root's to give")
class HostTest(MadeUpTest):
    """A made-up host, of which texts are written and asked by real command lines."""

    def setUp(self):
        super().setUp()
        self.host.accounts(passwd="alice:x:1000:1000::/:/bin/sh\nbob:x:1001:1001::/:/bin/sh\n", group="alice:x:1000:\n")
        self.host.cgroup("/", enabled="memory")
        self.host.cgroup("/init.scope", pids=(1,))
        self.host.process_of_root(1, OF_FIRST, OWN_ROOT)
        os.makedirs(f"{self.host.proc}/self")
        self.mounts(f"30 25 0:26 / {self.host.mount} rw - cgroup2 cgroup2 rw,nsdelegate,memory_recursiveprot\n")

    def mounts(self, line):
        with open(f"{self.host.proc}/self/mountinfo", "a", encoding="ascii") as out:
            out.write(line)

    def of_host(self, command, *words):
        """A command of the helper on this host."""
        return called(command, "--plain-folder", "--mount", self.host.mount, "--proc", self.host.proc, "--accounts", self.host.etc, *words)

    def text(self):
        """A text of this host with all that a check elsewhere needs, as one of a mount."""
        said = self.of_host("snapshot", "--with-host")
        self.assertEqual(said.returncode, 0, said.stderr)
        with open(f"{self.host.folder}/host.toml", "w", encoding="ascii") as out:
            out.write(re.sub('#= {"options":.*\n', "", said.stdout))
        return out.name

    def put(self, name, text):
        """A file of root's."""
        with open(f"{self.host.folder}/{name}", "w", encoding="ascii") as out:
            out.write(text)
        os.chmod(out.name, 0o644)
        return out.name

    def contained(self):
        self.host.cgroup("/s", owners=owned(1000))

    def fault(self):
        """What a manager handed to a user, and can't be read."""
        self.host.cgroup("/user.slice")
        self.host.cgroup("/user.slice/user-1000.slice")
        self.host.cgroup(MANAGER, without=("cgroup.procs",))

    def escapes(self):
        self.host.cgroup("/s", owners={**owned(1000), "memory.max": 1000})

    def opened(self):
        self.contained()
        self.host.cgroup("/x", more=("cgroup.kill",), modes={"cgroup.kill": 0o666})

    def unsettled(self):
        """No process stands where it could be moved from."""
        self.host.cgroup("/p", owners={"cgroup.procs": 1000})
        self.host.cgroup("/p/s", owners=owned(1000))

    def own_fault(self):
        self.contained()
        os.truncate(f"{self.host.mount}/s/memory.max", CGROUP_BYTES.most + 1)

    def nothing_asked(self):
        """As it is."""

    def not_looked_at(self):
        self.contained()
        self.mounts(MEMORY_OF_V1)

    def accept(self, path):
        self.opened()
        return "--accept", self.put("accept.toml", ACCEPTED.format(path))

    def stale(self):
        return [*self.accept("/x")[:1], self.put("accept.toml", ACCEPTED.format("/x") + ACCEPTED.format("/gone"))]

    def accepted(self):
        return self.accept("/x")

    def not_asked(self):
        """A container of root's alone, which is held."""
        self.host.cgroup("/system.slice")
        self.host.cgroup("/system.slice/c.service", pids=(9,))
        self.host.process_of_root(9, NAMESPACES, IMAGE.format("/system.slice/c.service"), CHOWN)

    def limited(self):
        self.contained()

    def test_each_word_of_the_table_comes_about(self):
        """By a check, whose report fleet reads; of a folder and not of a text what a text doesn't carry."""
        for severity in set(Severity) - {Severity.ABOVE}:
            with self.subTest(severity):
                self.setUp()
                given = getattr(self, severity.value.replace(" ", "_"))() or ()
                of_host = severity in (Severity.OWN_FAULT, Severity.LIMITED)
                words = ("--zirofen", REAL_PROGRAM, "--json", *given)
                said = self.of_host("check", *words) if of_host else called("check", "--tree", self.text(), *words)
                self.assertEqual((said.returncode, said.stderr), (severity.status, ""))
                self.assertEqual(standing.is_empty(saved.check(json.loads(said.stdout), "it")), severity is Severity.NOTHING_ASKED)
                os.mkdir(f"{self.host.folder}/reports")
                self.put("reports/host.json", said.stdout)
                fleet = called("fleet", f"{self.host.folder}/reports")
                self.assertEqual((fleet.returncode, fleet.stderr), (severity.status, ""))
                self.assertEqual(re.split("  +", fleet.stdout.splitlines()[1])[1], severity.value)


class HelperTest(unittest.TestCase):
    """The other commands of the helper, on texts."""

    def test_each_status_of_each_command_comes_about(self):
        with tempfile.TemporaryDirectory() as folder:
            calls = {**OF_TEXTS, **self.of_files(folder)}
            # a watch goes on until it is ended: watch_run_test
            self.assertEqual({*calls, "check", "fleet", "watch"}, set(DESCRIPTIONS))
            for command, by_status in calls.items():
                told = DESCRIPTIONS[command].partition("The status is ")[2]
                self.assertEqual(set(map(int, re.findall(r"\b[0-4]\b", told))), set(by_status), command)
                for status, (words, given) in by_status.items():
                    with self.subTest(command, status=status):
                        said = called(command, *words, given=given)
                        self.assertEqual(said.returncode, status, said)

    def of_files(self, folder):
        """Calls that read a report, and what a made-up host is."""
        file, host = f"{folder}/report.json", MadeUp(f"{folder}/host")
        with open(file, "w", encoding="utf-8") as out:
            out.write(called("check", *ASKED, "--tree", GOOD, "--json").stdout)
        host.cgroup("/")
        on_host = ("--plain-folder", "--mount", host.mount, "--proc", host.proc, "--accounts", host.etc)
        return {"accept": {0: ((file, "--reason", "known"), None), 3: ((f"{folder}/none.json", "--reason", "known"), None)},
                "page": {0: ((file,), None), 3: ((f"{folder}/none.json",), None)},
                "tree": {0: ((file,), None), 3: ((GOOD,), None)},
                "snapshot": {0: (on_host, None), 3: (("--mount", folder), None)},
                "commands": {0: (("--mount", host.mount), "mkdir /a\n"), 3: (("--mount", host.mount), "mkdir\n")}}


if __name__ == "__main__":
    unittest.main()
