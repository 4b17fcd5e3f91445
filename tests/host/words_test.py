"""Words that somebody chose stay one word each: in changes that are planned, in commands, and in what mends findings."""
import random
import shlex
import subprocess
import unittest
from unittest import mock

import made_up  # noqa: F401  the helpers' folder is found by it
from zirofen_host.collect.model import AccountLists, Entry, Row, Tree
from zirofen_host.collect.unit_files import Setting, UnitFile, UnitName
from zirofen_host.fault import Fault
from zirofen_host.judge import mends, shell, units
from zirofen_host.profile import ROOT, is_line, is_number
from zirofen_host.show import mends as written

PARTS = ("/", "a", "..", ".", " ", "\n", "\t", "\r", "\x1b[2J", "'", '"', "\\", "\\x0a", "$(id)", "`id`", ";", "&", "|", ">", "<", "*",
         "~", "#", "-", "--", "=", "%I", "{", "}", "\0", "é", "\u2028", "chown", "0:0", "cgroup.procs", "max", "END", ".service", ".slice")
COUNT = 10_000
MOUNT = "/sys/fs/cgroup"


def hostile_words():
    rng = random.Random(92)
    return ["".join(rng.choice(PARTS) for _ in range(rng.randrange(1, 6))) for _ in range(COUNT)]


class WordsTest(unittest.TestCase):
    words = hostile_words()

    def test_a_unit(self):
        """What a unit says is a name, or isn't planned; each line is of a known change with as many words as it has."""
        tree = Tree(("memory", "pids"), {ROOT: Row(ROOT, enabled=("memory", "pids"))})
        taken = mock.Mock(tree=tree, mount=MOUNT)
        for word in self.words:
            for setting in ("DelegateSubgroup", "Slice", "MemoryMax", "User", "TasksMax"):
                pairs = ("ExecStart", "/bin/true"), ("Delegate", "yes"), (setting, word.replace("%", ""))
                given = [Setting("Service", *each) for each in pairs]
                try:
                    lines = units.planned(taken, AccountLists(), [UnitFile(UnitName("web.service"), given)], 257, {}).lines
                except Fault:
                    continue
                for line in lines:
                    self.assertEqual(" ".join(line).split(), list(line))
                    self.assertTrue(" ".join(line).isprintable() and ".." not in line[1].split("/"), (word, line))
                    self.assertIn(line[0], ("mkdir", "control", "mark", "chown", "chmod", "set", "process"))

    def test_an_advice(self):
        """A command is the one that is meant, with one place below the mount; what is no change is a fault."""
        made = 0
        for word in self.words:
            for change in (("chown", word, "dir", "0:0"), ("chown", "/a", word, "0:0"), ("chown", "/a", "dir", word),
                           (word, "/a", "dir", "0:0"), ("chmod", f"/{word}", "dir", "755"), ("chmod", "/a", "memory.max", word),
                           ("set", "/a", "memory.max", word)):
                try:
                    commands = shell.change_commands(MOUNT, [change], lambda *_: Entry(0, 0, 0o644))
                except Fault:
                    continue
                for command in commands:
                    made += 1
                    words = shlex.split(command.replace(">", "", 1) if command.startswith("echo ") else command)
                    self.assertEqual(len(words), 3, (word, command))
                    self.assertTrue(f"{words[-1]}/".startswith(f"{MOUNT}/") and ".." not in words[-1].split("/"), (word, command))
        self.assertGreater(made, 1000)

    def test_operations(self):
        """A line of operations is one command, a comment, or a fault."""
        for word in self.words:
            for line in (f"mkdir {word}", f"move 1 {word}", f"set /a {word} 1", f"set /a memory.max {word}", f"set /a io.max {word}",
                         f"chmod /a {word} 755", f"control /a {word}", f"# {word}"):
                try:
                    found = shell.commands(MOUNT, line)
                except Fault:
                    continue
                for command in found:
                    self.assertTrue(command.isprintable(), (word, command))
                    if not command.startswith("#"):
                        words = shlex.split(command)
                        self.assertTrue(words[-1].lstrip(">").startswith(MOUNT), (word, command))
                        self.assertLessEqual(len(words), 4, (word, command))

    def test_units_names(self):
        """A unit that is written into a file or named in a command has a manager's letters alone."""
        for word in self.words:
            for path in (f"/system.slice/{word}.service", f"/{word}.slice", f"/a.slice/{word}.slice/b.service"):
                unit = mends.unit_at(path) if "\0" not in path else None
                if unit:
                    self.assertRegex(unit, r"\A[A-Za-z0-9:_.@\\-]+\Z")
                    withheld = mends.Withheld(mends.Unit(unit), ("MemoryMax=1",), "it is none of root's")
                    for line in written.as_script(mends.Mend((), (), (), (withheld,))):
                        self.assertTrue(line.startswith("#") and line.isprintable())

    def test_a_value_is_echoed_as_it_is(self):
        """Of those that a limit takes a shell writes what they are."""
        some = [word for word in self.words if is_line(word) and not is_number(word)][:200]
        script = "\n".join(shell.echoed(word) for word in some)
        self.assertEqual(subprocess.run(["sh", "-c", script], capture_output=True, text=True).stdout.split("\n"), [*some, ""])
