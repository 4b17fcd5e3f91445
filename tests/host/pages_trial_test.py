"""The rows of pages_trial.py beside its pages: each command has a row, or lines below it, and each row a command and its sentence; and what
docs/HOSTS.md asks of the examples is as its rows have it."""
import os
import subprocess
import tempfile
import unittest

import pages_trial
from made_up import TOP

PAGES = {"TUTORIAL": pages_trial.TUTORIAL, "HOSTS": pages_trial.HOSTS}


def text_of(name):
    with open(f"{TOP}/docs/{name}.md", encoding="utf-8") as page:
        return page.read()


class PagesTrialTest(unittest.TestCase):
    def test_pages_and_rows(self):
        for name, rows in PAGES.items():
            text = text_of(name)
            lacking = [(command, each) for command, lines, row in pages_trial.rows_of(text, rows)
                       for each in pages_trial.what_is_lacking(text, command, lines, row)]
            self.assertEqual(lacking, [])

    def test_what_is_lacking_is_seen(self):
        text = "It says so.\n\n    sudo it  of this host\n    yes\n    mkdir a; while b; do\n        c; done\n"
        rows = [pages_trial.Row("sudo it", page="says so"), pages_trial.Row("sudo other", page="not so")]
        found = [(command, lines, list(pages_trial.what_is_lacking(text, command, lines, row)))
                 for command, lines, row in pages_trial.rows_of(text, rows)]
        self.assertEqual(found, [("sudo it", ["yes"], []), ("mkdir a; while b; do\n    c; done", [], ["the trial has no row for it"]),
                                 (None, [], ["no command of the page is it: sudo other", "the page doesn't say: not so"])])

    def test_commands_of_sentences(self):
        found = pages_trial.commands_of("By `systemctl enable\nit`, `systemctl` alone and `zirofen-host check --baseline-update\nFILE`.\n")
        self.assertEqual([command for command, _ in found], ["systemctl enable it", "zirofen-host check --baseline-update FILE"])

    def test_what_is_asked_of_examples(self):
        rows = list(pages_trial.rows_of(text_of("HOSTS"), pages_trial.HOSTS))
        of_examples = [(command, row) for command, _, row in rows if command and "--tree examples/" in command]
        self.assertGreater(len(of_examples), 2)
        with tempfile.TemporaryDirectory() as room:
            for name in ("host", "examples"):
                os.symlink(f"{TOP}/{name}", f"{room}/{name}")
            for command, row in of_examples:
                ended = subprocess.run(["bash", "-c", command], cwd=room, stdout=subprocess.PIPE, stderr=subprocess.STDOUT, text=True,
                                       env={**os.environ, "ZIROFEN": f"{TOP}/release/zirofen"})
                self.assertEqual(list(pages_trial.what_is_wrong(row, [], pages_trial.Ended(ended.returncode, ended.stdout))), [], command)


if __name__ == "__main__":
    unittest.main()
