"""Tests of the terminal's tree, against files that were looked at."""
import itertools
import json
import os
import pty
import re
import subprocess
import sys
import tempfile
import unittest

import example
from called import called
from check_test import HostTest, owned
from made_up import COMMAND, HERE, TOP
from page_test import HOSTILE, REAL, hostile, many, real
from shown import made
from zirofen_host.options import TreeOptions
from zirofen_host.show import tree_view, words
from zirofen_host.fault import Fault
from zirofen_host.show.tree_view import Drawing
from zirofen_host.show.view import host_of

COLOUR = re.compile("\x1b\\[[0-9;]*m")
KEPT = f"{HERE}/data/tree"
WAYS = list(itertools.product((40, 80, 200), (False, True), (False, True)))


def name_of(width, is_ascii, is_coloured):
    return f"{KEPT}/{width}-{'ascii' if is_ascii else 'utf-8'}-{'coloured' if is_coloured else 'plain'}.txt"


def drawn(report, *how, **more):
    return tree_view.draw(made(report), Drawing(*how, **more))


class TreeTest(unittest.TestCase):
    maxDiff = None

    def test_as_the_files_have_it(self):
        for way in WAYS:
            with self.subTest(way), open(name_of(*way), encoding="utf-8") as kept:
                self.assertEqual("".join(f"{line}\n" for line in drawn(example.kept(), *way)), kept.read())

    def test_no_line_is_wider_than_the_terminal(self):
        for report in (example.kept(), hostile(example.kept()), *map(real, REAL)):
            for width in (20, 40, 80, 200):
                for is_all in (False, True):
                    for line in drawn(report, width, True, False, is_all):
                        self.assertLessEqual(len(line), width, line)
                        self.assertTrue(line.isascii() and line.isprintable(), line)

    def test_colours_are_never_the_only_sign(self):
        for report in (example.kept(), hostile(example.kept())):
            coloured = drawn(report, 80, False, True)
            self.assertEqual([COLOUR.sub("", line) for line in coloured], drawn(report, 80, False, False))
            self.assertNotEqual(coloured, drawn(report, 80))
            self.assertTrue(all(COLOUR.sub("", line).isprintable() for line in coloured))

    def test_every_delegation_is_told_with_how_it_stands(self):
        for report in (example.kept(), many(3), *map(real, REAL)):
            host, lines = host_of(made(report)), drawn(report)
            for path in host.subtrees:
                name = path.rpartition("/")[2]
                told = ", ".join(f"{words.SIGNS[kind][0]} {kind}" for kind, _ in host.standing[path])
                self.assertTrue(any(line.endswith(f"─{name}  {told}") for line in lines), path)
            self.assertEqual(sum(bool(re.match("[│ ]*to ", line)) for line in lines), len(host.subtrees))

    def test_folded_and_unfolded(self):
        report = example.kept()
        text = "\n".join(drawn(report))
        self.assertIn("└─.. 9 cgroups, nobody's but root's", text)
        self.assertNotIn("cron.service", text)
        whole = drawn(report, is_all=True)
        self.assertIn("│ ├─cron.service", whole)
        self.assertNotIn("..", "".join(whole))
        self.assertEqual(sum("─" in line for line in whole), len(report["cgroups"]) - 1)
        next(each for each in report["cgroups"] if each["path"].endswith("cron.service"))["files"]["pids.max"]["uid"] = 1000
        self.assertIn("└─.. 9 cgroups, no delegation among them", "\n".join(drawn(report)))

    def test_a_part(self):
        lines = drawn(example.kept(), only="/user.slice/user-1001.slice")
        self.assertEqual(lines[1], "/user.slice/user-1001.slice")
        self.assertIn("├─user@1001.service  ✓ contained", lines)
        self.assertNotIn("system.slice", "\n".join(lines))
        self.assertIn("The whole host has 6 delegations: 3 shown to be contained; 4 findings open", lines)
        self.assertFalse([line for line in lines if "opened" in line])
        with self.assertRaisesRegex(Fault, "there is no cgroup '/none' in the report"):
            drawn(example.kept(), only="/none")

    def test_the_readme_shows_a_part(self):
        with open(f"{TOP}/README.md", encoding="ascii") as page:
            _, _, shown = page.read().partition("    sudo host/zirofen-host tree --only /user.slice\n")
        lines = drawn(example.kept(), 80, True, only="/user.slice")
        self.assertTrue(shown.startswith("".join(f"    {line}\n" for line in lines[1:lines.index("")]) + "\n"), lines)

    def test_a_long_name_keeps_its_end(self):
        report = example.kept()
        for each in (*report["cgroups"], *report["subtrees"], *report["processes"]):
            for key in ("path", "at"):
                if key in each:
                    each[key] = each[key].replace("web.service", "w" * 200 + ".service")
        line = next(line for line in drawn(report, 60) if "www" in line)
        self.assertRegex(line, "^│ ├─…w+\\.service  ✓ contained$")
        self.assertEqual(len(line), 60)

    def test_a_deep_tree_keeps_room_for_its_names(self):
        report = example.kept()
        row = next(each for each in report["cgroups"] if each["path"] == "/init.scope")
        for depth in range(1, 1500):
            report["cgroups"].append({**row, "path": "/init.scope" + "/deep" * depth})
        report["opened"][0]["path"] = report["cgroups"][-1]["path"]
        lines = drawn(report, 80)
        self.assertEqual(sum(line.endswith("─deep") for line in lines), 1498)
        self.assertTrue(any(line.endswith("─deep  ! opened") for line in lines))

    def test_a_subtree_that_has_gone(self):
        report = example.kept()
        report["faults"].append({"who": "everybody", "fault": "it changes all the time", "subtrees": ["/gone"]})
        lines = drawn(report)
        self.assertIn("∅ /gone: it changes all the time", lines)
        self.assertIn("7 delegations: 3 shown to be contained; 5 findings open", lines)

    def test_control_bytes_arent_written(self):
        text = "\n".join(drawn(hostile(example.kept())))
        self.assertIn("\\u202e", text)
        self.assertNotIn(HOSTILE[6], text)


@unittest.skipUnless(os.geteuid() == 0, "only root gives files away")
class LiveTest(HostTest):
    """The script on a made-up host."""

    def test_a_host_is_looked_at_as_by_a_check(self):
        self.host.cgroup("/bad", owners={**owned(1000), "memory.max": 1000})
        self.host.cgroup("/other", owners=owned(1001))
        place = ["--plain-folder", "--mount", self.host.mount, "--proc", self.host.proc, "--accounts", self.host.etc,
                 "--zirofen", self.program]
        checked = called("check", "--json", *place).stdout
        for only in ("/", "/bad"):
            ended = called("tree", "--ascii", *place, *(["--only", only] if only != "/" else []))
            self.assertEqual((ended.returncode, ended.stderr), (0, ""))
            lines, told = drawn(json.loads(checked), None, True, only=only), ended.stdout.splitlines()
            # the time is another, and of a part alone no more is counted
            self.assertEqual(told[1:told.index("")], lines[1:lines.index("")])


class LocaleTest(unittest.TestCase):
    def test_ascii_where_the_locale_has_no_utf8(self):
        for environment, is_utf8 in (
                ({}, False), ({"LANG": "C"}, False), ({"LANG": "de_DE.UTF-8"}, True), ({"LANG": "C.utf8"}, True),
                ({"LC_ALL": "C", "LANG": "C.UTF-8"}, False), ({"LC_CTYPE": "en_GB.utf-8", "LANG": "C"}, True),
                ({"LANG": "de_DE"}, False), ({"LC_ALL": "", "LANG": "C.UTF-8"}, True)):
            self.assertEqual(tree_view.is_utf8(environment), is_utf8, environment)

    def test_colours_and_width_by_what_the_output_is(self):
        def options(**more):
            return TreeOptions(**more)

        def is_coloured(environment, is_terminal, **more):
            return tree_view.drawing_of(options(**more), environment, is_terminal).is_coloured

        self.assertTrue(is_coloured({}, True))
        self.assertTrue(is_coloured({"NO_COLOR": ""}, True))
        self.assertFalse(is_coloured({"NO_COLOR": "1"}, True))
        self.assertFalse(is_coloured({"TERM": "dumb"}, True))
        self.assertFalse(is_coloured({}, False))
        self.assertTrue(is_coloured({"NO_COLOR": "1"}, False, colour="always"))
        self.assertFalse(is_coloured({}, True, colour="never"))
        self.assertIsNone(tree_view.drawing_of(options(), {}, False).width)
        self.assertEqual(tree_view.drawing_of(options(width=50), {}, False).width, 50)


class ScriptTest(unittest.TestCase):
    """The script from outside."""

    def words(self, *given):
        return [sys.executable, COMMAND, "tree", *given]

    def environment(self, **more):
        without = ("LC_ALL", "LC_CTYPE", "NO_COLOR", "PAGER", "COLUMNS")
        kept = {key: value for key, value in os.environ.items() if key not in without}
        return {**kept, "LANG": "C.UTF-8", "TERM": "xterm", **more}

    def run_script(self, *given, **more):
        return subprocess.run(self.words(*given), capture_output=True, text=True, encoding="utf-8",
                              env=self.environment(**more))

    def test_a_report_is_drawn(self):
        for more, is_ascii in (({}, False), ({"LANG": "C"}, True), ({"LC_ALL": "POSIX"}, True)):
            ended = self.run_script(example.KEPT, **more)
            self.assertEqual((ended.stdout.splitlines(), ended.returncode), (drawn(example.kept(), None, is_ascii), 0))
        self.assertEqual(self.run_script(example.KEPT, "--width", "40", "--colour", "always").stdout.splitlines(),
                         drawn(example.kept(), 40, False, True))

    def test_faults(self):
        for given in (("--none",), ("--width", "5"), ("--width", "x"), ("--colour", "red"), (f"{HERE}/none.json",),
                      (example.__file__,), (example.KEPT, "--only", "/none")):
            ended = self.run_script(*given)
            self.assertEqual((ended.returncode, ended.stdout), (3, ""), given)
            self.assertNotIn("Traceback", ended.stderr)

    def on_a_terminal(self, *given, **more):
        """What the script writes to a terminal of 80 columns."""
        above, below = pty.openpty()
        started = subprocess.Popen(self.words(*given), stdin=below, stdout=below, stderr=below,
                                   env=self.environment(COLUMNS="80", **more))
        os.close(below)
        text = b""
        while True:
            try:
                got = os.read(above, 65536)
            except OSError:
                break
            if not got:
                break
            text += got
        os.close(above)
        return text.decode().replace("\r\n", "\n"), started.wait()

    def test_on_a_terminal(self):
        text, status = self.on_a_terminal(example.KEPT, "--no-pager")
        self.assertEqual((text.splitlines(), status), (drawn(example.kept(), 80, False, True), 0))
        text, _ = self.on_a_terminal(example.KEPT, "--no-pager", NO_COLOR="1")
        self.assertEqual(text.splitlines(), drawn(example.kept(), 80))

    def test_through_a_pager(self):
        with tempfile.TemporaryDirectory() as folder:
            text, status = self.on_a_terminal(example.KEPT, PAGER=f"echo $LESSSECURE $LESS; cat >{folder}/out")
            self.assertEqual((text, status), ("1 FRSX\n", 0))
            with open(f"{folder}/out", encoding="utf-8") as out:
                self.assertEqual(out.read().splitlines(), drawn(example.kept(), 80, False, True))
            for pager in ("", " ", "cat", "head -1", "none-of-this-name"):
                text, status = self.on_a_terminal(example.KEPT, PAGER=pager)
                self.assertEqual((text.splitlines()[0], status), (drawn(example.kept(), 80, False, True)[0], 0), pager)


def main():
    """Writes the files anew, to be looked at."""
    os.makedirs(KEPT, exist_ok=True)
    for way in WAYS:
        with open(name_of(*way), "w", encoding="utf-8") as out:
            out.writelines(f"{line}\n" for line in drawn(example.kept(), *way))


if __name__ == "__main__":
    main()
