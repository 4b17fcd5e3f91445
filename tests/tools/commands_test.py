"""Tests that each command of the program, as its --help lists them, is in every table that goes over commands."""
import os
import re
import subprocess
import sys
import unittest

TOP = os.path.dirname(os.path.dirname(os.path.dirname(os.path.abspath(__file__))))
sys.path[:0] = [os.path.join(TOP, folder) for folder in ("tests/model", "tests/program")]

import answers  # noqa: E402
import device_rows  # noqa: E402
import help as told_below  # noqa: E402
import json_rows  # noqa: E402
import trial_rows  # noqa: E402
import words  # noqa: E402
from second import commands  # noqa: E402
from trials import cases  # noqa: E402


PROGRAM = f"{TOP}/release/zirofen"


def program_commands():
    """The commands that the released program lists, and the options of each."""
    def said(*asked):
        return subprocess.run([PROGRAM, *asked, "--help"], capture_output=True, text=True, check=True).stdout
    listed = re.findall(r"^  (\w+)  ", said().partition("\nCommands:\n")[2].partition("\n\n")[0], re.M)
    return {name: set(re.findall(r"^ +(?:-\w, )?(--\w+)", said(name), re.M)) - {"--help"} for name in listed if name != "help"}


def source(path):
    with open(f"{TOP}/crates/{path}", encoding="utf-8") as text:
        return text.read()


class CommandsTest(unittest.TestCase):
    @classmethod
    def setUpClass(cls):
        cls.options = program_commands()
        cls.commands = set(cls.options)

    def test_tables_of_calls(self):
        listed = {
            "answers.py": {it.words[0] for it in answers.cases(PROGRAM) if it.words},
            "device_rows.py": {it[1].split()[0] for it in (*device_rows.ANSWERS, *device_rows.ASKED)},
            "device_rows.py's groups": set(device_rows.COMMANDS),
            "help.py": {it.words[0] for it in told_below.rows(PROGRAM) if it.words},
            "trial_rows.py": {re.split("_(?:all|settled|pairs|bytes)", it[0])[0] for it in trial_rows.byte_trials()},
        }
        for table, found in listed.items():
            self.assertEqual(self.commands - found, set(), table)

    def test_tables_of_json(self):
        asked = {name for name, options in self.options.items() if "--format" in options}
        self.assertEqual(asked - {it.words[0] for it in json_rows.rows(PROGRAM) if it.lines}, set())
        self.assertEqual(asked - {it[1].split()[0] for it in device_rows.ASKED if "--format json" in it[1]}, set())
        self.assertEqual(asked - {it[0] for it, is_usage in words.of_formats() if not is_usage}, set())

    def test_words_that_are_numbers(self):
        asked = {it[0] for it, _ in words.spelled() if it and isinstance(it[0], str)}
        self.assertEqual({name for name, options in self.options.items() if "--uid" in options} - asked, set())

    def test_second_model(self):
        self.assertEqual(commands.OPTIONS.keys(), self.commands)
        # a released program may be from before that option
        later = set() if json_rows.has_format(PROGRAM) else {"--format"}
        self.assertEqual({name: set(options) - later for name, options in commands.OPTIONS.items()}, self.options)
        self.assertEqual(commands.REPORTS.keys(), self.commands)
        self.assertEqual({it.split()[0] for it in cases.MAKERS}, self.commands)

    def test_crates(self):
        variants = re.search(r"pub enum Request<'a> \{\n(.*?)\n\}", source("arguments/src/request.rt"), re.S)[1]
        asked = {re.sub("(?:pairs|everybody|subtrees)$", "", it.lower()) for it in re.findall(r"^    (\w+)\(", variants, re.M)}
        # several commands share the requests of everybody, which begin with none's name
        self.assertEqual(asked - {"help", ""}, self.commands)
        clauses = source("theorems/src/lib.rt").partition("pub fn the_program()")[2]
        self.assertEqual(self.commands - set(re.findall(r"ensures (\w+) \{", clauses)), set())


if __name__ == "__main__":
    unittest.main()
