"""Tests of containers by their names wherever a finding is: what was accepted of one holds for the one that is made anew."""
import json
import os
import re
import tempfile
import unittest
from dataclasses import replace
from unittest import mock

import report_schema
from check_test import owned
from hierarchy_test import HierarchyTest
from shown import comparison_lines, lines_of, made
from zirofen_host.ask import named
from zirofen_host.collect import containers
from zirofen_host.collect.model import Scope
from zirofen_host.fault import Fault
from zirofen_host.judge import baseline
from zirofen_host.judge.host_model import ABSENT, NamedScope, PlaceNames
from zirofen_host.judge.rules import findings_of
from zirofen_host.profile import path_of, text_of
from zirofen_host.show import junit, sarif
from zirofen_host.show.run import Run

ROW = {"what": "opened", "entry": "cpu.max", "whom": "everybody", "reason": "a test host", "until": "2026-12-31"}


class NamesTest(HierarchyTest):
    """A host with a container whose cpu.max everybody writes, made again and again under an id of its own."""

    def made_again(self, number, engine="docker", name="web", holder=None, path=None, scopes=(), modes=0o646, inside=""):
        """The report of a host on which the container has another id."""
        path = path or f"/{engine}-{number:064x}.scope"
        self.host.cgroup(path)
        self.host.cgroup(path + inside, more=("cpu.max",), modes={"cpu.max": modes})
        scope = Scope(path_of(path), engine, f"{number:012x}", name, holder)
        report = self.of(scopes=(scope, *scopes))
        for each in (path + inside, path):
            if os.path.isdir(self.host.mount + each):
                for file in os.listdir(self.host.mount + each):
                    os.remove(f"{self.host.mount}{each}/{file}")
                os.rmdir(self.host.mount + each)
        return report

    def state(self, report, **row):
        found = self.applied(report, {**ROW, **row})
        return found.acceptances[0].state, found.status

    def test_ten_of_ten_of_each_engine(self):
        for engine, name, inside in (("docker", "web", ""), ("podman", "web", "/container"), ("podman", "pod-web", "/container"),
                                     ("containerd", "shop/web-0/nginx", ""), ("machine", "box", "/payload"), ("slurm", "1", "/step_0")):
            path = f"{engine}:{name}" + (f":{inside}" if inside else "")
            found = [self.state(self.made_again(number, engine, name, inside=inside), path=path) for number in range(10)]
            self.assertEqual(found, [("accepted", 0)] * 10, engine)

    def test_where_the_new_one_is_worse_it_doesnt_hold(self):
        row = {"path": "docker:web", "whom": "group team(50): carol(1002)"}
        self.host.cgroup("/docker-1.scope")
        for modes, state in ((0o646, ("worse", 1)), (0o644, ("unmet", 2))):
            self.assertEqual(self.state(self.made_again(1, modes=modes), **row), state)
        self.assertEqual(self.state(self.made_again(2, name="other"), path="docker:web"), ("unmet", 1))

    def test_by_path_it_stays_good_and_the_name_is_told(self):
        path = f"/docker-{7:064x}.scope"
        found = self.applied(self.made_again(7), {**ROW, "path": path})
        self.assertEqual((found.acceptances[0].state, found.acceptances[0].name), ("accepted", "docker:web"))
        self.assertTrue(any(line.startswith("accepted: ") and line.endswith('; path = "docker:web" holds too when it is made again')
                            for line in lines_of(found)))
        self.assertEqual(self.state(self.made_again(8), path=path)[0], "unmet")
        by_name = self.applied(self.made_again(7), {**ROW, "path": "docker:web"})
        self.assertFalse(any("made again" in line for line in lines_of(by_name)))

    def test_a_name_that_two_claim_names_none(self):
        self.host.cgroup("/other.scope")
        other = Scope(path_of("/other.scope"), "docker", "1", "web", None)
        report = self.made_again(1, scopes=(other,))
        self.assertEqual(self.state(report, path="docker:web"), ("unmet", 1))
        self.assertEqual(self.state(report, path=f"/docker-{1:064x}.scope"), ("accepted", 0))
        self.assertIn(f"claimed-name: docker:web: 2 have that name, so that it names none of them: /docker-{1:064x}.scope /other.scope",
                      list(lines_of(report)))

    def test_a_users_own_is_theirs_and_claims_no_other(self):
        self.host.cgroup("/a/libpod-1.scope")
        for name, word in (("web", "podman:alice/web"), ("../web", "podman:alice/../web"), ("a\x1b[31m", "podman:alice/'a\\x1b[31m'")):
            own = Scope(path_of("/a/libpod-1.scope"), "podman", "1", name, 1000)
            report = self.made_again(1, "podman", scopes=(own,))
            scope = next(each for each in report.scopes if each.path == "/a/libpod-1.scope")
            self.assertEqual((scope.word, scope.of), (word, "alice(1000)"))
            self.assertEqual(self.state(report, path="podman:web"), ("accepted", 0))
            self.assertIn(f"container: containers of theirs, by their own names, inside of what they hold: alice(1000) {word}",
                          re.sub(r"(container): (alice\(1000\)): (.*): (\S+)$", r"\1: \3: \2 \4", "\n".join(lines_of(report)), flags=re.M))

    def test_a_baseline_goes_by_the_name(self):
        before, again = self.made_again(1), self.made_again(2)
        for accepted, status in ((True, 0), (False, 1)):
            compared = baseline.compared(again, replace(before, accepted=accepted), "before.json")
            self.assertEqual((compared.new, compared.worse, compared.gone, compared.changed, compared.status), ((), (), (), (), status))
        worse = self.made_again(3, modes=0o644)
        self.assertEqual([each.what for each in baseline.compared(worse, before, "b").gone], ["opened"])
        self.assertEqual([each.what for each in baseline.compared(before, worse, "b").new], ["opened"])
        # one of a report that has no names of its containers is good where the path is there still
        without = replace(before, scopes=tuple(replace(each, word=ABSENT) for each in before.scopes))
        compared = baseline.compared(before, replace(without, accepted=True), "before.json")
        self.assertEqual((compared.new, compared.gone, compared.status), ((), (), 0))
        self.assertTrue(list(comparison_lines(replace(again, baseline=baseline.compared(again, before, "b")))))

    def test_fingerprints_and_names_of_what_others_read(self):
        found = []
        for number in (1, 2):
            run = Run(self.made_again(number), status=1, seconds=1.0, ended=1795736189.0)
            log = json.loads("".join(sarif.parts_of(run)))
            result, = [each for each in log["runs"][0]["results"] if each["ruleId"] == "opened"]
            cases = re.findall('<testcase classname="([^"]*)" name="opened cpu.max"', "".join(junit.parts_of(run)))
            found.append((result["partialFingerprints"], result["locations"][0]["logicalLocations"][0]["name"], cases))
        self.assertEqual(found[0], found[1])
        self.assertEqual(found[0][1:], ("docker:web", ["docker:web"]))

    def test_processes_outside_are_in_each_form(self):
        self.host.cgroup("/cron", pids=(7,))
        self.host.process(7, uid=1000)
        for name, said in self.forms_of(self.of()).items():
            if name in ("text", "json", "sarif", "junit", "page"):
                self.assertIn("processes of theirs are outside of what they hold", said, name)

    def test_where_they_are_is_told_by_a_containers_name(self):
        """A job of theirs, which is one of root's containers, and several processes in it."""
        self.host.cgroup("/job_1")
        for pid, path in ((7, "/job_1/step_0"), (8, "/job_1/step_1"), (9, "/cron")):
            self.host.cgroup(path, pids=(pid,))
            self.host.process(pid, uid=1000)
        scope = Scope(path_of("/job_1"), "slurm", "1", "1", None)
        for name, said in self.forms_of(self.of(scopes=(scope,))).items():
            if name in ("text", "json", "sarif", "junit", "page"):
                self.assertRegex(said, r"alice\(1000\)[^\n]* in (<code>)?/cron(</code> <code>| )slurm:1", name)

    def test_hosts_with_the_same_share_a_row_in_a_fleet(self):
        for number in (1, 2):
            self.assertIn("opened docker:web cpu.max by everybody", self.forms_of(self.made_again(number))["fleet"])

    def test_json_is_as_the_schema_says(self):
        report = self.made_again(1)
        value = self.value_of(report)
        self.assertEqual((report_schema.faults_of(value), value["scopes"][0]["word"]), ([], "docker:web"))
        del value["scopes"][0]["word"]
        self.assertEqual([each.name for each in findings_of(made(dict(value)))], [None])

    def test_places_inside(self):
        names = PlaceNames((NamedScope("/s/a.scope", "docker", "1", "web", None, "docker:web"),
                            NamedScope("/s/a.scope/b", "lxc", "2", "in", None, "lxc:in")))
        self.assertEqual([names.of(path) for path in ("/s/a.scope", "/s/a.scope/x/y", "/s/a.scope/b", "/s/a.scope2", "/s", "/", "")],
                         ["docker:web", "docker:web:/x/y", "lxc:in", None, None, None, None])


class CommandLineTest(HierarchyTest):
    """A container that is named in place of a path."""

    def place(self, text, *scopes):
        return named.place_among(text, scopes, self.options())

    def test_by_word_and_what_is_inside(self):
        web = Scope(path_of("/docker-1.scope"), "docker", "1", "web", None)
        own = Scope(path_of("/a/libpod-1.scope"), "podman", "1", "app", 1000)
        for text, path in (("docker:web", "/docker-1.scope"), ("docker:web:/x", "/docker-1.scope/x"),
                           ("podman:alice/app", "/a/libpod-1.scope")):
            self.assertEqual(self.place(text, web, own), path)
        for text in ("docker:we", "docker:web2", "podman:app", "docker:web:x", "docker:1"):
            with self.assertRaisesRegex(Fault, "no container has that name"):
                self.place(text, web, own)
        with self.assertRaisesRegex(Fault, "docker:web: 2 containers have that name: /docker-1.scope /x"):
            self.place("docker:web", web, web._replace(path=path_of("/x")))

    def test_only(self):
        self.host.cgroup("/lxc.payload.web", owners=owned(1001))
        options = named.with_only(self.options(only=b"lxc:web"))
        self.assertEqual(options.only, b"/lxc.payload.web")
        self.assertEqual(named.with_only(self.options(only=b"/a")).only, b"/a")
        self.assertIsNone(named.with_only(self.options()).only)
        taken = self.host.snapshot()
        self.assertEqual([named.place_in(text, taken, options) for text in ("/a", "lxc:web", "lxc:web:/b")],
                         ["/a", "/lxc.payload.web", "/lxc.payload.web/b"])


@unittest.skipIf(os.geteuid(), "only root gives files away")
class OwnNamesTest(unittest.TestCase):
    """Names in a user's own files, which are theirs to choose and to spoil."""

    def setUp(self):
        folder = tempfile.TemporaryDirectory(dir="/dev/shm" if os.path.isdir("/dev/shm") else None)
        self.addCleanup(folder.cleanup)
        self.top = folder.name
        os.chmod(self.top, 0o755)
        self.file = f"{self.top}/home/.local/share/containers/storage/overlay-containers/containers.json"
        os.makedirs(os.path.dirname(self.file))
        self.names = containers.Names(self.top, lambda uid: "/home")

    def write(self, text, owner=1000):
        with open(self.file, "w", encoding="ascii") as out:
            out.write(text)
        os.chown(self.file, owner, owner)
        self.names.own.clear()
        return self.names.name(containers.Known("podman", "4fb0"), 1000)

    def test_what_their_list_tells(self):
        self.assertEqual(self.write(json.dumps([{"id": "4fb0", "names": ["app"]}])), "app")
        self.assertEqual(self.write(json.dumps([{"id": "4fb0", "names": ["x" * 500]}])), "x" * 96)
        for text in ("", "{", "[1]", "[{}]", '{"id": 1}', "[" * 100000, '[{"id": "4fb0", "names": []}]'):
            self.assertIsNone(self.write(text))

    def test_each_driver_of_storage_has_a_list(self):
        """On Debian 12 a user's podman takes vfs, where nothing else was chosen."""
        for driver in ("vfs", "btrfs", "zfs", "overlay"):
            self.file = f"{self.top}/home/.local/share/containers/storage/{driver}-containers/containers.json"
            os.makedirs(os.path.dirname(self.file), exist_ok=True)
            self.assertEqual(self.write(json.dumps([{"id": "4fb0", "names": [driver]}])), driver)
            os.remove(self.file)

    def test_pods_of_theirs(self):
        """By podman's database in their home, of either kind."""
        identity = "4fb08751" + 56 * "a"
        known = containers.known(path_of(f"/user.slice/user-libpod_pod_{identity}.slice"))
        for file in ("db.sql", "libpod/bolt_state.db"):
            self.file = f"{self.top}/home/.local/share/containers/storage/{file}"
            os.makedirs(os.path.dirname(self.file), exist_ok=True)
            for text, owner, name in ((f'{{"id":"{identity}","name":"shop","labels"', 1000, "shop"), ("{" * 100000, 1000, None),
                                      (f'{{"id":"{identity}","name":"shop","labels"', 1001, None)):
                self.write(text, owner)
                self.assertEqual(self.names.name(known, 1000), name, (file, text[:20]))
            os.remove(self.file)

    def test_whose_it_has_to_be(self):
        text = json.dumps([{"id": "4fb0", "names": ["app"]}])
        self.assertIsNone(self.write(text, 1001))
        self.assertEqual(self.write(text, 0), "app")
        os.remove(self.file)
        os.symlink("/etc/passwd", self.file)
        self.names.own.clear()
        self.assertIsNone(self.names.name(containers.Known("podman", "4fb0"), 1000))
        os.remove(self.file)
        os.mkfifo(self.file)
        os.chown(self.file, 1000, 0)
        self.assertIsNone(self.names.name(containers.Known("podman", "4fb0"), 1000))

    def test_no_file_system_of_theirs_is_asked(self):
        self.write(json.dumps([{"id": "4fb0", "names": ["app"]}]))
        with mock.patch.object(containers, "mounts_of_host", lambda: mock.Mock(types={})):
            names = containers.Names(self.top, lambda uid: "/home")
            self.assertIsNone(names.name(containers.Known("podman", "4fb0"), 1000))

    def test_names_that_a_cgroup_has(self):
        for path, word in (("/lxc.payload.web", "lxc:web"), ("/machine.slice/machine-nsp2.scope", "machine:nsp2"),
                           ("/machine.slice/machine-lxc\\x2d2401\\x2dvbox.scope", "libvirt:vbox"),
                           ("/machine.slice/systemd-nspawn@box.service", "machine:box"),
                           ("/system.slice/box_slurmstepd.scope/job_12", "slurm:12")):
            known = containers.known(path_of(path))
            scope = Scope(path_of(path), known.engine, known.id, self.names.name(known), None)
            self.assertEqual(containers.word_of(scope, None), word)
            self.assertEqual(text_of(scope.path), path)


if __name__ == "__main__":
    unittest.main()
