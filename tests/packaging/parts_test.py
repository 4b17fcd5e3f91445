"""Tests of the parts of tools/package that take no program: archives, pages, completions, and what is installed beside it."""
import io
import json
import os
import shutil
import subprocess
import sys
import tarfile
import tempfile
import unittest

import archive
import changes
import completions
import manual

TOP = os.path.dirname(os.path.dirname(os.path.dirname(os.path.abspath(__file__))))
HERE = f"{TOP}/tools/packaging"
UNITS = "zirofen-check", "zirofen-watch"
FILES = [archive.File("usr/bin/it", 0o755, b"it"), archive.File("usr/share/it/text", 0o644, b"text\n")]
HELP = """Says what it does

Usage: it <COMMAND>

Commands:
  look  Looks: at something
  help  Print this message

Options:
  -h, --help     Print help
"""
LOOK = """Looks: at something

Usage: it look [OPTIONS] --at <PATH>

Options:
      --tree <FILE>  The tree's text
      --at <PATH>    Where
  -h, --help         Print help
"""


def files_of(folder):
    """What stands in a folder, but for what Python keeps beside it."""
    found = (os.path.relpath(f"{at}/{name}", folder) for at, _, names in os.walk(folder) for name in names)
    return sorted(each for each in found if "__pycache__" not in each)


class ArchiveTest(unittest.TestCase):
    def test_order_of_files_changes_nothing(self):
        self.assertEqual(archive.tar(FILES), archive.tar(FILES[::-1]))

    def test_each_folder_comes_before_what_is_in_it(self):
        with tarfile.open(fileobj=io.BytesIO(archive.tar(FILES))) as files:
            names = files.getnames()
        self.assertEqual(names, [".", "./usr", "./usr/bin", "./usr/share", "./usr/share/it", "./usr/bin/it", "./usr/share/it/text"])

    def test_members_of_an_outer_archive_begin_at_even_places(self):
        data = archive.ar([("one", b"odd"), ("two", b"even")])
        self.assertEqual((data[:8], len(data) % 2, data[8 + 60:8 + 64]), (b"!<arch>\n", 0, b"odd\n"))


class TextTest(unittest.TestCase):
    def test_markdown_as_a_page(self):
        text = "## Head\n\nA `word` and [a link](x).\n\n| A | B |\n|---|---|\n| `k` | told |\n\n- one\n- two\n\n    code-line"
        self.assertEqual(manual.from_markdown(text, 2), [
            ".SH HEAD", ".PP", "A \\fBword\\fR and a link.", ".TP", "\\fBk\\fR", "told.", ".PP",
            ".IP \\(bu 3", "one", ".IP \\(bu 3", "two", ".PP", ".PP", ".RS 4", ".nf", "code\\-line", ".fi", ".RE"])

    def test_a_section_ends_before_the_next_of_its_depth(self):
        self.assertEqual(manual.section("# A\n\n## B\n\nb\n\n### C\n\nc\n\n## D", "B"), "## B\n\nb\n\n### C\n\nc\n")
        self.assertEqual(manual.section("## B\n\n```\n# no heading\n```\n\n## D", "B"), "## B\n\n```\n# no heading\n```\n")

    def test_changes_as_debian_writes_them(self):
        told = changes.debian("# Changes\n\n## Unreleased\n\n- Later.\n\n## 0.2.0, 2026-11-25\n\n- One\n  thing.\n\n## 0.1.0, 2026-11-20\n\n- Other.\n", "They <they@it>",
                              "it", "1")
        self.assertEqual(told.splitlines()[:5], ["it (0.2.0-1) unstable; urgency=medium", "", "  * One thing.", "",
                                                 " -- They <they@it>  Wed, 25 Nov 2026 12:00:00 +0000"])
        self.assertIn("it (0.1.0-1) unstable", told)

    def test_formats_are_those_of_help(self):
        told = "How the answer is written: lines, or json for a JSON object a line; lines where this is left out"
        option = completions.Option("--format", "FORMAT", told)
        self.assertEqual(option.choices, ["lines", "json"])
        known = {"look": ("Looks", [option])}
        for shell, words in ((completions.bash, "compgen -W 'lines json'"), (completions.zsh, ":format:(lines json)"), (completions.fish, "-x -a 'lines json'")):
            self.assertIn(words, shell("it", known))

    def test_commands_and_options_are_those_of_help(self):
        known = completions.read(lambda *words: LOOK if words else HELP)
        self.assertEqual(known, {"look": ("Looks: at something", [
            completions.Option("--tree", "FILE", "The tree's text"), completions.Option("--at", "PATH", "Where"),
            completions.Option("--help", "", "Print help")])})
        for shell in (completions.bash, completions.zsh, completions.fish):
            self.assertIn("look", shell("it", known))


class InstalledTest(unittest.TestCase):
    def setUp(self):
        room = tempfile.TemporaryDirectory()
        self.addCleanup(room.cleanup)
        self.room = room.name

    def unit(self, name="zirofen-check"):
        """The settings of the service, of those that stand twice the last."""
        with open(f"{HERE}/systemd/{name}.service", encoding="ascii") as text:
            return dict(line.split("=", 1) for line in text.read().splitlines() if "=" in line and line[:1] != "#")

    def test_the_unit_calls_the_helper_by_its_path_with_options_that_it_has(self):
        words = self.unit()["ExecStart"].split()
        self.assertEqual((words[:2], words[-1]), (["/usr/bin/zirofen-host", "check"], "$OPTIONS"))
        self.assertEqual(words[words.index("--accept") + 1], "/etc/zirofen/accept.toml")
        helps = self.host("check", "--help").stdout
        for option in words[2:-1]:
            self.assertTrue(option[:2] != "--" or f"  {option} " in helps, option)
        # it ends itself before it is ended
        self.assertEqual((words[words.index("--seconds") + 1], self.unit()["TimeoutStartSec"]), ("1500", "30min"))
        with open(f"{HERE}/debian/zirofen-check.default", encoding="ascii") as text:
            self.assertEqual([line for line in text.read().splitlines() if line[:1] != "#"], ["OPTIONS="])
        with open(f"{HERE}/debian/zirofen-host/conffiles", encoding="ascii") as text:
            self.assertEqual(text.read(), "".join(f"/{self.unit(name)['EnvironmentFile'][2:]}\n" for name in UNITS) + "/etc/zirofen/accept.toml\n")

    def test_the_watch_begins_with_what_the_check_knows(self):
        """And waits for no watchdog before it is ready."""
        check, watch = self.unit()["ExecStart"].split(), self.unit("zirofen-watch")
        words, helps = watch["ExecStart"].split(), self.host("watch", "--help").stdout
        self.assertEqual((words[:2], words[-1], watch["Type"]), (["/usr/bin/zirofen-host", "watch"], "$OPTIONS", "notify"))
        for option in ("--baseline", "--accept"):
            self.assertEqual(words[words.index(option) + 1], check[check.index(option) + 1])
        for option in words[2:-1]:
            self.assertTrue(option[:2] != "--" or f"  {option}" in helps, option)
        self.assertIn("WatchdogSec", watch)
        with open(f"{HERE}/debian/zirofen-watch.default", encoding="ascii") as text:
            self.assertEqual([line for line in text.read().splitlines() if line[:1] != "#"], ["OPTIONS="])

    def test_the_watch_is_confined_as_the_check(self):
        """By the same settings, but for the calls that tell of events, and that it comes before others."""
        with open(f"{HERE}/systemd/zirofen-watch.service", encoding="ascii") as text:
            filters = [line for line in text.read().splitlines() if line.startswith("SystemCallFilter=")]
        self.assertEqual(filters, ["SystemCallFilter=@system-service", "SystemCallFilter=~@privileged @resources",
                                   "SystemCallFilter=fanotify_init fanotify_mark open_by_handle_at setpriority"])
        check, watch = self.unit(), self.unit("zirofen-watch")
        others = {"Description", "Type", "EnvironmentFile", "ExecStart", "SuccessExitStatus", "Nice", "TimeoutStartSec", "SystemCallFilter"}
        self.assertEqual({name: watch.get(name) for name in check if name not in others},
                         {name: value for name, value in check.items() if name not in others})

    def test_the_acceptances_that_are_installed_are_none(self):
        """And what they show behind # is one that is taken."""
        with open(f"{HERE}/debian/accept.toml", encoding="ascii") as text:
            whole = text.read()
        shown = "".join(line[4:] for line in whole.splitlines(True) if line.startswith("#   "))
        for given, numbers in ((whole, 0), (shown, 1)):
            file = f"{self.room}/accept.toml"
            with open(file, "w", encoding="ascii") as out:
                out.write(given)
            tree = f"{TOP}/examples/delegation.toml"
            said = subprocess.run([f"{TOP}/host/zirofen-host", "check", "--tree", tree, "--accept", file, "--json"], capture_output=True,
                                  text=True)
            self.assertEqual(len(json.loads(said.stdout)["acceptances"]), numbers, said.stderr)

    def test_what_the_unit_writes(self):
        unit = self.unit()
        self.assertEqual((unit["ReadWritePaths"], unit["StateDirectory"]), ("-/var/lib/prometheus/node-exporter", "zirofen"))
        with open(f"{HERE}/debian/zirofen-check.default", encoding="ascii") as text:
            self.assertIn(f"metrics={unit['ReadWritePaths'][1:]}/", text.read())

    def test_the_unit_is_exposed_by_two_at_most(self):
        """And nothing in it hides what a check by hand sees."""
        for name in UNITS:
            unit = f"{HERE}/systemd/{name}.service"
            said = subprocess.run(["systemd-analyze", "security", "--offline=true", "--no-pager", "--threshold=20", unit],
                                  capture_output=True, text=True)
            self.assertEqual(said.returncode, 0, said.stdout + said.stderr)
        settings = self.unit()
        self.assertEqual(settings["CapabilityBoundingSet"], "CAP_DAC_READ_SEARCH CAP_SYS_PTRACE CAP_SYS_ADMIN")
        self.assertLessEqual({"TimeoutStartSec", "MemoryMax", "ReadOnlyPaths"}, settings.keys())
        self.assertFalse({"ProtectProc", "ProcSubset", "PrivateUsers", "PrivatePIDs", "DynamicUser", "User"} & settings.keys())

    def test_nothing_is_switched_on(self):
        for name in files_of(f"{HERE}/debian"):
            with open(f"{HERE}/debian/{name}", encoding="ascii") as text:
                self.assertNotRegex(text.read(), r"systemctl.*(enable|start)|deb-systemd-(helper|invoke) (enable|start)")
        # nor by a first boot that goes by presets: Debian's enables whatever can be
        with open(f"{HERE}/zirofen.preset", encoding="ascii") as text:
            disabled = [line for line in text.read().splitlines() if line[:1] != "#"]
        wanted = []
        for name in sorted(files_of(f"{HERE}/systemd")):
            with open(f"{HERE}/systemd/{name}", encoding="ascii") as text:
                wanted += [f"disable {name}"] if "[Install]" in text.read() else []
        self.assertEqual(disabled, wanted)

    def test_the_helpers_as_a_package(self):
        """By Debian's pip, with all that stands in the package's folder, and a command."""
        shutil.copytree(f"{TOP}/host", f"{self.room}/host", ignore=shutil.ignore_patterns("__pycache__"))
        into = f"{self.room}/into"
        options = ("--quiet", "--root-user-action", "ignore", "--no-index", "--no-build-isolation", "--no-deps", "--no-cache-dir",
                   "--no-compile")
        ended = subprocess.run(["/usr/bin/python3", "-m", "pip", "install", *options, "--target", into, f"{self.room}/host"],
                               capture_output=True, text=True)
        self.assertEqual((ended.returncode, ended.stderr), (0, ""))
        self.assertEqual(files_of(f"{into}/zirofen_host"), files_of(f"{TOP}/host/zirofen_host"))
        ended = subprocess.run([f"{into}/bin/zirofen-host", "--help"], env={"PYTHONPATH": into}, capture_output=True, text=True)
        self.assertEqual(ended.stdout, self.host("--help").stdout)

    def host(self, *words):
        environment = {**os.environ, "ZIROFEN": f"{self.room}/none"}
        return subprocess.run([sys.executable, f"{TOP}/host/zirofen-host", *words], env=environment, capture_output=True, text=True)

    def test_how_package_is_called(self):
        before = os.listdir(self.room)
        for words, status in ((["--help"], 0), (["-h"], 0), (["-x"], 2), (["--bilt"], 2), (["one", "two"], 2)):
            ended = subprocess.run([f"{TOP}/tools/package", *words], cwd=self.room, capture_output=True, text=True)
            self.assertEqual((ended.returncode, os.listdir(self.room)), (status, before), words)
            self.assertIn("usage: tools/package [--built] [FOLDER]", ended.stderr if status else ended.stdout)

    def test_one_command_for_the_helpers(self):
        helpers = completions.commands_of(self.host("--help").stdout)
        self.assertEqual(list(helpers), ["accept", "ask", "check", "commands", "delegations", "fleet", "page", "plan", "snapshot", "tree", "watch"])
        for name in helpers:
            ended = self.host(name, "--help")
            self.assertEqual((ended.returncode, ended.stdout.split("[")[0]), (0, f"usage: zirofen-host {name} "))
        for words in ((), ("none",), ("../package",)):
            self.assertEqual((self.host(*words).stdout, self.host(*words).returncode), ("", 3))

    def test_without_the_program_there_is_no_version(self):
        ended = self.host("--version")
        self.assertEqual((ended.stdout, ended.returncode, len(ended.stderr.splitlines())), ("", 3, 1))
        with open(f"{self.room}/none", "w", encoding="ascii") as script:
            script.write("#!/bin/sh\nkill -SEGV $$\n")
        os.chmod(script.name, 0o755)
        ended = self.host("--version")
        self.assertEqual((ended.stdout, ended.returncode, len(ended.stderr.splitlines())), ("", 3, 1))


if __name__ == "__main__":
    unittest.main()
