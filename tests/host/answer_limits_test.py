"""Tests of what narrows an answer: each form tells it, on hosts in which what was left out is broken."""
import errno
import json
import os
import re
import subprocess
import tempfile
import time
import unittest
from dataclasses import replace
from unittest import mock

from check_test import GROUP, PASSWD, PROGRAM, REAL_PROGRAM, SUBORDINATE, HostTest, of_options, owned
from made_up import MEMORY, MadeUp
from shown import made
from zirofen_host import fault
from zirofen_host.ask import accepted
from zirofen_host.ask.program import Program
from zirofen_host.ask.questions import subtrees_by
from zirofen_host.collect import bounded, elsewhere
from zirofen_host.collect import snapshot as snapshots
from zirofen_host.collect.accounts import accounts_of
from zirofen_host.collect.bounded import Budget
from zirofen_host.collect.mount import Mounts
from zirofen_host.collect.processes import lacking_notes
from zirofen_host.collect.snapshot import tree_text
from zirofen_host.judge import check, limits
from zirofen_host.judge.host_model import ABSENT
from zirofen_host.judge.rules import findings_of
from zirofen_host.show import fleet, fleet_lines, junit, metrics, page, sarif, tree_view
from zirofen_host.show.lines import lines_of
from zirofen_host.show.run import Run
from zirofen_host.show.tree_view import Drawing

WHOLE = fleet.Rules(None)


class AnswerLimitsTest(HostTest):
    """A host of two delegations, of which everybody breaks one."""

    def setUp(self):
        super().setUp()
        self.host.cgroup("/a", owners=owned(1000))
        self.host.cgroup("/b", owners={**owned(1001), "memory.max": (0, 0)}, modes={"memory.max": 0o666})

    def narrowed(self, **more):
        options = self.options(**more)
        taken = self.host.snapshot(only=options.only, tree_format=options.tree_format)
        return check.report(taken, options, True)

    def run_of(self, report):
        return Run(report, status=report.status, seconds=1.0, ended=1795736189.0)

    def part(self, report, only):
        """The end of the tree below a path."""
        return "\n".join(tree_view.draw(report, Drawing(only=only)))

    def fleet_of(self, *reports):
        with tempfile.TemporaryDirectory() as folder:
            for number, report in enumerate(reports):
                with open(os.path.join(folder, f"host{number}.json"), "w", encoding="utf-8") as out:
                    out.write(json.dumps(self.value_of(report)))
            return fleet.read_fleet(folder, WHOLE, lambda name, found: None)

    def forms_of(self, report):
        """What each form says, by its name."""
        run = self.run_of(report)
        return {"text": "\n".join(lines_of(report)), "tree": "\n".join(tree_view.draw(report, Drawing())), "page": page.page([report]),
                "json": json.dumps(self.value_of(report)), "sarif": "".join(sarif.parts_of(run)), "junit": "".join(junit.parts_of(run)),
                "fleet": "\n".join(fleet_lines.lines_of(self.fleet_of(report), True))}

    def test_a_whole_answer_has_none(self):
        report = self.narrowed()
        self.assertEqual((report.limits, limits.line_of(report)), ((), ""))
        for name, said in self.forms_of(report).items():
            self.assertNotIn(limits.HEAD, said, name)
            self.assertNotIn(limits.MARK, said, name)
        self.assertIn("The whole host has 2", self.part(report, "/a"))
        self.assertIn('zirofen_answer_limits{kind="only"} 0', "".join(metrics.parts_of(self.run_of(report))))

    def anew(self):
        """A host of two delegations that are contained, with what was said of one before gone."""
        folder = tempfile.TemporaryDirectory(dir=MEMORY)
        self.addCleanup(folder.cleanup)
        self.host = MadeUp(folder.name)
        self.host.accounts(passwd=PASSWD, group=GROUP, subuid=SUBORDINATE, subgid=SUBORDINATE)
        self.host.cgroup("/", enabled="memory")
        for path, uid in (("/a", 1000), ("/b", 1001)):
            self.host.cgroup(path, owners=owned(uid))

    def alice_holds_bobs(self, number=3):
        """A process of hers holds a limit of his open."""
        self.anew()
        self.host.process(7, uid=1000, gid=1000)
        self.host.opens(7, number, "/b/memory.max", os.O_WRONLY)

    def written(self, change=lambda text: text, is_carried=True, **more):
        """A text of the host, by some options."""
        options = self.options(**{"plain_folder": False, **more})
        file, taken = f"{self.host.folder}/host.toml", self.host.snapshot(only=options.only, tree_format=options.tree_format)
        lines = [*elsewhere.narrowing(options), *(elsewhere.carried(taken, accounts_of(self.host.etc, taken)) if is_carried else ())]
        with open(file, "w", encoding="ascii") as out:
            out.write(change(elsewhere.text_with(taken, lines, not options.no_processes) if lines else tree_text(taken, True)))
        return file

    def of_text(self, file, **more):
        options = self.options(**{"tree": file, "accounts": None, **more})
        return check.report(accepted.take(options, subtrees_by(options)), options, True)

    def as_a_host(self):
        """The report of the host as if it were one: a service manager's, without the options that it mounts with."""
        mounts = Mounts(f"3 1 0:29 / {self.host.mount} rw - cgroup2 cgroup2 rw\n")
        options = self.options(plain_folder=False)
        with mock.patch.object(snapshots, "refuse_what_is_no_host", lambda _: mounts), self.host.owned(), \
                mock.patch.object(snapshots, "lacking_notes", lambda _: ()), \
                mock.patch.object(snapshots.containers, "scopes", lambda _: ()):
            return check.report(snapshots.take(options, subtrees_by(options)), options, True)

    def pairs(self):
        """For each thing that narrows an answer a host in which what was left out is broken: its report without that, which says so, and
        with it."""
        for name in ("options", "texts", "what_was_found", "without_time"):
            yield from getattr(self, f"pairs_by_{name}")()

    def pairs_by_options(self):
        yield (limits.ONLY,), self.narrowed(), self.narrowed(only=b"/a")
        self.host.cgroup("/b", owners=owned(1001), more=("memory.swap.max",), modes={"memory.swap.max": 0o666})
        # of what stands in no text is seen that it is open, and not what comes of it
        yield (limits.TREE_FORMAT,), self.narrowed(), self.narrowed(tree_format=2)
        # a process that its user moves out, and nothing that could be moved
        self.anew()
        self.host.cgroup("/b", owners=owned(1001), pids=(7,))
        self.host.cgroup("/", enabled="memory", owners={"cgroup.procs": 1001})
        self.host.process(7, uid=1001, gid=1001)
        self.program = REAL_PROGRAM
        yield (limits.NO_PROCESSES,), self.narrowed(), self.narrowed(no_processes=True)
        self.program = PROGRAM
        self.anew()
        self.host.cgroup("/init.scope")
        with mock.patch.object(limits, "of_options", of_options):
            yield (limits.PLAIN_FOLDER,), self.as_a_host(), self.narrowed()

    def pairs_by_texts(self):
        self.alice_holds_bobs()
        whole, text = self.narrowed(), self.written(is_carried=False)
        yield (limits.ACCOUNTS, limits.PREMISES), whole, self.of_text(text)
        yield (limits.PREMISES,), whole, self.of_text(text, accounts=self.host.etc)
        whole = self.of_text(self.written())
        later = self.written(lambda text: text.replace('#= {"held":', '#= {"held-by-a-later-one":'))
        yield (limits.LATER,), whole, self.of_text(later)

    def pairs_by_what_was_found(self):
        self.anew()
        self.host.cgroup("/c", owners={**owned(1002), "memory.max": 1002})
        whole = self.narrowed()
        os.rename(f"{self.host.mount}/c", f"{self.host.mount}/a name that no text has")
        yield (limits.WALK,), whole, self.narrowed()
        self.alice_holds_bobs(4)
        self.host.opens(7, 3, "/a/memory.max", os.O_RDONLY)
        whole = self.narrowed()
        with mock.patch.object(bounded, "DESCRIPTORS", Budget("open files with a path", 1)):
            yield (limits.BUDGETS,), whole, self.narrowed()
        yield (limits.LACKING,), whole, self.without_ptrace()
        self.anew()
        self.host.cgroup("/b", owners=owned(1001), modes={"memory.max": 0o666})
        whole = self.narrowed()
        self.anew()
        self.host.cgroup("/", enabled="")
        self.host.cgroup("/b", owners=owned(1001), without=("memory.max",))
        os.makedirs(f"{self.host.proc}/self")
        with open(f"{self.host.proc}/self/mountinfo", "w", encoding="ascii") as out:
            out.write("9 1 0:30 / /sys/fs/cgroup/memory rw - cgroup cgroup rw,memory\n")
        yield (limits.VERSION_1,), whole, self.narrowed()

    def without_ptrace(self):
        """As a helper sees it that hasn't the capability by which others' descriptors are read."""
        read = bounded.read_link

        def refused(place):
            if "/fd/" in os.fsdecode(place):
                raise PermissionError(errno.EACCES, "Permission denied")
            return read(place)
        os.makedirs(f"{self.host.proc}/self")
        with open(f"{self.host.proc}/self/status", "w", encoding="ascii") as out:
            out.write("CapEff:\t000001fffff7ffff\n")
        with mock.patch.object(bounded, "read_link", refused):
            taken = self.host.snapshot()
            return check.report(replace(taken, notes=(*taken.notes, *lacking_notes(self.host.proc))), self.options(), True)

    def pairs_by_without_time(self):
        """A program that comes to no end where it is asked of what is broken."""
        self.anew()
        self.host.cgroup("/b", owners=owned(1001), modes={"memory.max": 0o666})
        whole, start = self.narrowed(), Program.start

        def started(of, words):
            if "/b" in words:
                raise subprocess.TimeoutExpired(words, 1)
            return start(words)
        clock = mock.patch.multiple(fault._Clock, end_of_asking=time.monotonic() + 100, end=time.monotonic() + 200)
        with clock, mock.patch.object(Program, "start", started):
            yield (limits.TIME,), whole, self.narrowed()

    def test_each_is_told_in_each_form(self):
        kinds = set()
        for told, whole, report in self.pairs():
            kinds.update(told)
            with self.subTest(told):
                self.assertEqual((whole.limits, whole.status), ((), 2 if limits.PLAIN_FOLDER in told else 1))
                # what is broken isn't seen, and that is why
                lost = {each.rule.id for each in findings_of(whole)} - {each.rule.id for each in findings_of(report)}
                self.assertTrue(lost, told)
                self.assertEqual(tuple(each.kind for each in report.limits), told)
                self.each_form_tells(report)
                said = "".join(metrics.parts_of(self.run_of(report)))
                for kind in limits.KINDS:
                    self.assertIn(f'zirofen_answer_limits{{kind="{kind}"}} {int(kind in told)}', said)
        self.assertEqual(kinds, set(limits.KINDS))

    def each_form_tells(self, report):
        """Each limit is told, and no form has a yes to more than was asked."""
        for name, said in self.forms_of(report).items():
            for each in report.limits:
                self.assertIn(each.text.replace("'", "&#x27;") if name == "page" else each.text, said, name)
            self.assertNotIn("The whole host", said, name)
            self.assertNotIn("findings open", said, name)
            if name != "json":
                # an answer, and not the word of a heading
                plain = re.search(r"[0-9✓+] contained(?! \[)|^contained|\S  contained(?! \[)", said, re.MULTILINE)
                self.assertFalse(plain, (name, plain))
        self.assertNotIn('zirofen_subtrees{answer="contained"} 1', "".join(metrics.parts_of(self.run_of(report))))
        self.assertNotEqual([row.kind for row in self.fleet_of(report).rows], ["contained"])

    @mock.patch.object(limits, "of_options", of_options)
    def test_a_text_tells_by_which_options_less_was_looked_at(self):
        self.anew()
        self.assertEqual(self.of_text(self.written()).limits, ())
        for kind, more in ((limits.ONLY, {"only": b"/a"}), (limits.NO_PROCESSES, {"no_processes": True}),
                           (limits.TREE_FORMAT, {"tree_format": 2}), (limits.PLAIN_FOLDER, {"plain_folder": True})):
            with self.subTest(kind):
                report = self.of_text(self.written(**more))
                self.assertEqual([each.kind for each in report.limits], [kind])
                self.each_form_tells(report)
                alone = self.of_text(self.written(is_carried=False, **more), accounts=self.host.etc)
                self.assertEqual([each.kind for each in alone.limits], [kind, limits.PREMISES])
        # what both the text and the run leave out is told once
        report = self.of_text(self.written(no_processes=True), no_processes=True)
        self.assertEqual([each.kind for each in report.limits], [limits.NO_PROCESSES])
        for wrong in ('"tree_format":3', '"tree_format":true', '"no_processes":0', '"only":7'):
            with self.assertRaisesRegex(fault.Fault, "what it carries isn't known"):
                self.of_text(self.written(lambda text: re.sub(wrong.partition(":")[0] + r":[^,]*", wrong, text), only=b"/a"))

    def test_what_is_contained_is_marked(self):
        report = self.narrowed(only=b"/a")
        self.assertEqual([each.path for each in report.subtrees], ["/a"])
        self.assertEqual((report.status, list(findings_of(report))), (0, []))
        row = next(line for line in lines_of(report) if line.endswith("/a"))
        self.assertIn("contained [limited]", row)
        self.assertIn("Of what was asked: 1 delegation", self.part(report, "/a"))

    def test_no_such_host_counts_as_contained(self):
        found = self.fleet_of(self.narrowed(only=b"/a"))
        self.assertEqual([(row.kind, row.status) for row in found.rows], [("limited", 0)])
        self.assertTrue(fleet_lines.sum_line(found).startswith("1 host: 1 limited"))

    def test_reports_that_dont_tell_it(self):
        earlier = replace(self.narrowed(only=b"/a"), limits=ABSENT)
        self.assertEqual(limits.narrowing(earlier), ())
        self.assertEqual(made(self.value_of(earlier)).limits, ABSENT)
        said = fleet_lines.sum_line(self.fleet_of(earlier, self.narrowed()))
        self.assertIn("of 1 host it isn't known whether all of it was asked about", said)


if __name__ == "__main__":
    unittest.main()
