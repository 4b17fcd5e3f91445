"""Tests of how long a report on a host of containers is: what is alike is told once, and what is of no use isn't told."""
import re
import unittest
from dataclasses import replace

from check_test import owned
from inside_test import ADMIN, MODULE, RAWIO, SEARCH, InsideTest
from shown import made
from zirofen_host.collect.model import Scope
from zirofen_host.judge import check
from zirofen_host.judge.finding_lines import inside_line
from zirofen_host.judge.inside import ALL_CAPABILITIES
from zirofen_host.profile import path_of
from zirofen_host.show import mends, page
from zirofen_host.show.lines import lines_of
from zirofen_host.show.run import Run

MANAGER = "/user.slice/user-1000.slice/user@1000.service"
PRIVILEGED = ADMIN | MODULE | RAWIO | SEARCH


class ShortTest(InsideTest):
    """A host on which Docker and podman run containers, with a user who has containers of their own."""

    def containers(self, count, first=100, engine="docker", **more):
        """So many containers of root's that are alike, with their names."""
        scopes = []
        for number in range(first, first + count):
            path = f"/system.slice/{engine}-{number:012x}.scope"
            self.container(path, number, cgroups=f"cgroup:[{4026532500 + number}]", mounts=f"mnt:[{4026533500 + number}]", **more)
            scopes.append(Scope(path_of(path), engine, f"{number:012x}", f"{engine}{number}", None))
        return tuple(scopes)

    def told(self, scopes, is_each=False):
        report = made(self.with_scopes(scopes))
        return report, list(lines_of(report, is_each))

    def with_scopes(self, scopes):
        options = self.options()
        taken = replace(self.host.snapshot(), scopes=scopes, mount_options=("rw", "nsdelegate", "memory_recursiveprot"))
        return self.value_of(check.report(taken, options, True))

    def default_host(self):
        scopes = (*self.containers(8, way="ro"), *self.containers(4, 200, "podman", way="ro"),
                  *self.containers(1, 300, bounding=PRIVILEGED))
        for name in ("docker", "containerd", "slurmd"):
            self.host.cgroup(f"/system.slice/{name}.service", marks=("trusted.delegate",))
        self.host.cgroup("/user.slice", enabled="memory")
        self.host.cgroup("/user.slice/user-1000.slice", enabled="memory")
        self.host.cgroup(MANAGER, owners=owned(1000, 1000), marks=("trusted.delegate",), enabled="memory")
        self.host.cgroup(f"{MANAGER}/user.slice", owners=owned(1000, 1000))
        own = f"{MANAGER}/user.slice/libpod-1.scope"
        self.host.cgroup(own, owners=owned(1000, 1000))
        self.host.cgroup(f"{own}/container", owners=owned(100000, 100000))
        return (*scopes, Scope(path_of(own), "podman", "1", "app", 1000))

    def test_notes_of_one_fact_are_together_in_each_form(self):
        """In the text and on the page, of this run and of a report that was read."""
        scopes, fact = self.default_host(), "the service manager moves their processes, from anywhere, on request"
        self.host.cgroup("/user.slice/user-1001.slice", enabled="memory")
        self.host.cgroup("/user.slice/user-1001.slice/user@1001.service", owners=owned(1001, 1001), marks=("trusted.delegate",))
        value = self.with_scopes(scopes)
        self.assertEqual([(each["place"], each["fact"]) for each in value["unseen"] if each["kind"] == "deputy"],
                         [("alice(1000)", fact), ("bob(1001)", fact)])
        line = f"deputy: {fact}: alice(1000) into {MANAGER}; bob(1001) into /user.slice/user-1001.slice/user@1001.service"
        for report in (made(value), made(dict(value))):
            self.assertIn(line, list(lines_of(report)))
            self.assertEqual(len(re.findall(f">{fact}: <span id=.{{,40}}><code>alice", page.page([report]))), 1)
            self.assertEqual(page.page([report]).count(fact), 1)
        # a text that doesn't begin so has nothing in common with others
        for each in value["unseen"]:
            each["text"] = f"not {each['text']}"
        lines = list(lines_of(made(dict(value))))
        self.assertEqual(len([each for each in lines if each.startswith("deputy: ")]), 2)

    def test_mends_have_containers_that_are_alike_together(self):
        scopes = (*self.containers(5, bounding=PRIVILEGED), *self.containers(2, 300, bounding=MODULE), *self.containers(3, 400, way="ro"))
        report = made(self.with_scopes(scopes))
        script = "".join(mends.parts_of(Run(report, report.status), "shell"))
        found = [each.splitlines() for each in script.split("\n\n")[1:] if "# root-inside " in each]
        self.assertEqual([sum(line.startswith("# root-inside ") for line in each) for each in found], [5, 2])
        for each, count in zip(found, (5, 2)):
            self.assertEqual(sum(f"whatever makes these {count} scopes" in line for line in each), 1, each)
        # nothing is left out
        for number in (*range(100, 105), 300, 301):
            self.assertEqual(script.count(f"# root-inside /system.slice/docker-{number:012x}.scope: not held: "), 1)

    def test_a_default_container_host_has_at_most_20_lines(self):
        report, lines = self.told(self.default_host())
        self.assertLessEqual(len(lines), 20, lines)
        text = "\n".join(lines)
        for word in ("docker:docker100", "podman:podman200", "docker:docker300", "podman:alice/app", "alice(1000)", ALL_CAPABILITIES,
                     "(12 alike, 12 processes, by cgroup namespace and root)"):
            self.assertIn(word, text)
        self.assertEqual((len(report.containers), sum(each.path.endswith(".service") for each in report.subtrees)), (13, 4))

    def test_no_container_that_root_alone_holds_lacks_its_name(self):
        """Where other places, whose paths come first, are more than a row has."""
        scopes = []
        for number in range(12):
            self.host.cgroup(f"/a{number:02}.scope", marks=("trusted.delegate",))
            path = f"/system.slice/docker-{number:012x}.scope"
            self.host.cgroup(path, marks=("trusted.delegate",))
            scopes.append(Scope(path_of(path), "docker", f"{number:012x}", f"d{number}", None))
        report, lines = self.told(tuple(scopes))
        row = next(line for line in lines if "held by root alone" in line)
        self.assertTrue(row.endswith(f"{len(report.subtrees)} cgroups: {' '.join(f'docker:d{number}' for number in range(12))} "
                                     f"and {len(report.subtrees) - 12} more"), row)

    def test_each_tells_each(self):
        report, lines = self.told(self.default_host(), True)
        told = [line for line in lines if line.startswith("root-inside")]
        self.assertEqual(len(told), 13)
        for each, line in zip(report.containers, told):
            self.assertTrue(line.startswith(inside_line(each)), line)
        self.assertEqual(sum("held by root alone" in line for line in lines), 3)

    def test_what_differs_isnt_folded(self):
        scopes = (*self.containers(2, way="ro"), *self.containers(2, 200, way="rw", bounding=SEARCH),
                  *self.containers(1, 300, bounding=PRIVILEGED), *self.containers(1, 400, bounding=ADMIN))
        _, lines = self.told(scopes)
        told = [line for line in lines if line.startswith("root-inside")]
        self.assertEqual(len(told), 4, told)
        self.assertIn("it writes its own cgroup at /sys/fs/cgroup", next(line for line in told if "docker200" in line))

    def test_all_capabilities_are_one_thing(self):
        self.containers(1, bounding=PRIVILEGED)
        each, = made(self.found()).containers
        self.assertEqual(each.why[0], ALL_CAPABILITIES)
        self.assertEqual(each.ways[:3], ("CAP_SYS_MODULE", "CAP_SYS_RAWIO", "CAP_SYS_ADMIN"))
        self.assertTrue(each.setting.startswith("without --privileged, which gives it CAP_SYS_MODULE, "), each.setting)
        self.assertFalse(any("CAP_" in why for why in each.why))

    def test_ranges_have_names(self):
        """Of a subordinate id, of nspawn's and of a service's uid that is made up as it starts."""
        for path, uid in (("/a", 100005), ("/b", 524288 + 65536), ("/c", 62264), ("/d", 3000)):
            self.host.cgroup(path, owners=owned(uid))
        lines = self.told(())[1]
        for told in ("100005 (a subordinate id of alice's)", "589824 (nspawn's range)", "62264 (a dynamic user's)", "3000  "):
            self.assertTrue(any(line.startswith(told) for line in lines), told)


if __name__ == "__main__":
    unittest.main()
