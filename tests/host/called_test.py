"""Tests that a call by a process that is there already says what zirofen-host does where it is started."""
import os
import re
import subprocess
import sys
import unittest
from unittest import mock

from called import PROGRAM, called
from made_up import COMMAND, DELEGATED, MadeUpTest
from zirofen_host import command

TIME = re.compile(r"\d{4}-\d\d-\d\dT[\d:]+Z")
ANY = {**os.environ, "MADE_UP": "all,advise,explain", "CALLS": os.devnull}


@unittest.skipUnless(os.geteuid() == 0, "only root gives files away")
class CalledTest(MadeUpTest):
    def setUp(self):
        super().setUp()
        self.host.accounts(passwd="alice:x:1000:1000::/:/bin/sh\n", group="", subuid="", subgid="")
        self.host.cgroup("/", enabled="memory")
        self.host.cgroup("/good", owners=DELEGATED)
        self.host.cgroup("/bad", owners={**DELEGATED, "memory.max": 1000})

    def place(self):
        return ("--plain-folder", "--mount", self.host.mount, "--proc", self.host.proc)

    def both(self, *words, given="", **more):
        """What both say, which is the same."""
        started = subprocess.run([sys.executable, COMMAND, *words], input=given, capture_output=True, text=True, **more)
        ended = called(*words, given=given, **more)
        self.assertEqual((ended.returncode, TIME.sub("now", ended.stdout), ended.stderr),
                         (started.returncode, TIME.sub("now", started.stdout), started.stderr))
        return ended

    def test_words(self):
        for words, status in (((), 3), (("--help",), 0), (("check", "--help"), 0), (("none",), 3), (("check", "--none"), 3)):
            self.assertEqual(self.both(*words).returncode, status)

    def test_answers(self):
        for words in (("check",), ("tree", "--ascii", "--only", "/bad")):
            ended = self.both(*words, *self.place(), "--accounts", self.host.etc, "--zirofen", PROGRAM, env=ANY)
            self.assertIn("/bad", ended.stdout)

    def test_standard_input_and_folder(self):
        text = self.both("snapshot", *self.place()).stdout
        self.assertEqual(self.both("check", "--tree", "-", "--zirofen", PROGRAM, given=text, env=ANY).returncode, 1)
        with open(f"{self.host.folder}/text", "w", encoding="ascii") as out:
            out.write(text)
        self.assertEqual(self.both("check", "--tree", "text", env={**ANY, "ZIROFEN": PROGRAM}, cwd=self.host.folder).returncode, 1)
        self.assertEqual(self.both("check", "--tree", "text", env={**ANY, "ZIROFEN": PROGRAM}).returncode, 3)

    def test_a_call_leaves_nothing_to_the_next(self):
        calls = f"{self.host.folder}/calls"
        words = ("check", *self.place(), "--accounts", self.host.etc, "--zirofen", PROGRAM, "--seconds", "100")
        first = called(*words, env={**ANY, "CALLS": calls})
        with open(calls, encoding="ascii") as told:
            before = told.read()
        self.assertIn("audit --all", before)
        again = called(*words, env=ANY)
        self.assertEqual((first.returncode, first.stdout, first.stderr), (again.returncode, again.stdout, again.stderr))
        with open(calls, encoding="ascii") as told:
            self.assertEqual(told.read(), before)
        self.assertEqual(self.both(*words, env={**ANY, "MADE_UP": "70"}).returncode, 3)

    def test_a_patch_of_a_test_is_not_there(self):
        with mock.patch.object(command, "help_text", lambda: "another"):
            self.assertNotIn("another", self.both("--help").stdout)
