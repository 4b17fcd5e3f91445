"""Tests of commands that are printed: each carries the options of its run, and answers of the same tree."""
import html
import os
import re
import shlex

from called import called
from check_test import HostTest, owned
from zirofen_host.collect.snapshot import tree_text
from zirofen_host.judge import check
from zirofen_host.options import CheckOptions, TreeOptions
from zirofen_host.ask import accepted
from zirofen_host.ask.questions import subtrees_by
from zirofen_host.show import page, tree_view
from zirofen_host.show.lines import lines_of
from zirofen_host.show.tree_view import Drawing

NAME = "/it's.slice"
ASKED = re.compile(r"zirofen-host (?:ask|check) .*?(?=$|</code>|, or zirofen-host)", re.M)


class PrintedTest(HostTest):
    """A host on another mount, with names that have blanks and quotes."""

    def setUp(self):
        super().setUp()
        self.can("all", "explain", "advise")
        mount = f"{self.host.folder}/a 'mount'"
        os.rename(self.host.mount, mount)
        self.host.mount = mount
        self.host.cgroup(NAME, enabled="memory", owners={"cgroup.procs": 1001})
        self.host.cgroup(f"{NAME}/it", owners={**owned(1000), "memory.max": 1000})

    def kept(self, report):
        """The forms of a report that have commands, as they are shown."""
        return {"text": "\n".join(lines_of(report)), "page": html.unescape(page.page([report])),
                "tree": "\n".join(tree_view.draw(report, Drawing()))}

    def run_it(self, command):
        environment = {**os.environ, "ZIROFEN": self.program}
        name, *words = shlex.split(command)
        self.assertEqual(name, "zirofen-host")
        return called(*words, env=environment, cwd=self.host.folder)

    def each_command_answers(self, report, of):
        """Each command that asks, run as it is printed: of the tree that it is printed of."""
        seen = set()
        for form, said in self.kept(report).items():
            found = set(ASKED.findall(said))
            self.assertTrue(found, form)
            seen |= found
        for command in seen:
            with self.subTest(command):
                ended = self.run_it(command)
                self.assertIn(ended.returncode, (0, 1, 2), ended.stderr)
                self.assertIn(of, ended.stdout)
        return seen

    def test_of_a_host_on_another_mount(self):
        options = self.options(CheckOptions, plain_folder=True)
        report = check.report(self.host.snapshot(), options, True)
        seen = self.each_command_answers(report, NAME)
        self.assertTrue(all("--mount" in each and "--proc" in each and "--accounts" in each for each in seen), seen)

    def test_of_a_text_with_accounts(self):
        file = f"{self.host.folder}/a 'text'.toml"
        with open(file, "w", encoding="ascii") as out:
            out.write(tree_text(self.host.snapshot(), True))
        options = self.options(CheckOptions, tree=file)
        report = check.report(accepted.take(options, subtrees_by(options)), options, True)
        seen = self.each_command_answers(report, NAME)
        self.assertTrue(all(shlex.quote(file) in each and "--accounts" in each and "--mount" not in each for each in seen), seen)

    def test_each_change_names_an_entry_of_the_mount(self):
        report = check.report(self.host.snapshot(), self.options(), True)
        said = self.kept(report)
        changes = re.findall(r"change: (.*)", said["text"])
        self.assertTrue(changes)
        for command in changes:
            word, what, *places = shlex.split(command)
            self.assertIn(word, ("chown", "chmod"))
            self.assertTrue(places)
            for place in places:
                self.assertTrue(place.startswith(f"{self.host.mount}{NAME}") and os.path.exists(place), place)
            self.assertIn(html.escape(command), page.page([report]))

    def test_the_words_of_a_run(self):
        self.assertEqual(CheckOptions().carried, ())
        self.assertEqual(CheckOptions(mount="/a b", only=b"/x\xff", tree_format=2, no_processes=True, plain_folder=True).carried, (
            "--mount", "/a b", "--only", "/x\udcff", "--tree-format", "2", "--no-processes", "--plain-folder"))
        self.assertEqual(TreeOptions(tree="t", mount="/m", accounts="/e", plain_folder=True).carried, ("--tree", "t", "--accounts", "/e"))
