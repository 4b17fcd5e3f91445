"""Tests of what a manager makes in a cgroup that stands open: it adopts what is there, and whose that is."""
import unittest

from check_test import BY_GROUP, MANAGER, MARK, HostTest, owned

WHY = "who is there first owns what is started there"


class MadeLaterTest(HostTest):
    """Directories in which the system's manager makes what it starts."""

    def directories(self, found):
        return [(each["path"], [whom["name"] for whom in each["whom"]], each["changes"], each["why"])
                for each in found["opened"] if each["file"] == "dir"]

    def test_a_slice_that_a_group_writes(self):
        self.host.cgroup("/user.slice", owners={"dir": (0, 50), "cgroup.procs": (0, 50)}, enabled="memory", modes=BY_GROUP)
        self.host.cgroup("/user.slice/user-1000.slice", enabled="memory")
        self.host.cgroup(MANAGER, owners=owned(1000, 1000), marks=(MARK,))
        found = self.report()
        closing = f"chmod g-w {self.host.mount}/user.slice"
        self.assertEqual(self.directories(found), [("/user.slice", ["group team(50)"], [closing], WHY)])
        self.assertEqual((found["status"], [row[2:] for row in self.rows(found)]), (1, [("contained", MANAGER)]))
        self.assertIn(f"opened /user.slice dir by group team(50): carol(1002): {WHY}", self.lines(found))
        # whoever carries out what is told of cgroup.procs alone closes the directory too
        of_procs, = (each for each in found["entries"] if each["entry"] == "cgroup.procs")
        self.assertEqual(of_procs["changes"], [f"chmod 644 {self.host.mount}/user.slice/cgroup.procs", closing])

    def test_after_its_advice_alone_it_is_open_still(self):
        self.host.cgroup("/user.slice", owners={"dir": (0, 50)}, modes={"dir": 0o775}, enabled="memory")
        self.host.cgroup("/user.slice/user-1000.slice", enabled="memory")
        self.host.cgroup(MANAGER, owners=owned(1000, 1000), marks=(MARK,))
        self.assertEqual(self.report()["status"], 1)
        self.host.cgroup("/user.slice", enabled="memory")
        self.assertEqual(self.report()["status"], 0)

    def test_a_slice_that_was_adopted(self):
        self.host.cgroup("/user.slice")
        self.host.cgroup("/user.slice/user-1001.slice", owners={**owned(1000), "pids.max": 1000, "cgroup.freeze": 1000},
                         more=("pids.max", "cgroup.freeze"))
        found = self.report()
        self.assertEqual((found["status"], self.rows(found)), (1, []))
        self.assertEqual([each["file"] for each in found["opened"]], ["cgroup.freeze", "cgroup.procs", "cgroup.subtree_control", "dir",
                                                                      "pids.max"])

    def test_each_place_that_a_manager_makes_something_in(self):
        for path, marks in (("/machine.slice", ()), ("/user.slice/user-1000.slice", ()), ("/", ()), ("/docker.service", (MARK,))):
            for owner, mode, whom in ((1001, 0o755, "bob(1001)"), ((0, 50), 0o775, "group team(50)"), (0, 0o757, "everybody")):
                if marks and whom != "everybody":
                    # it was handed to them
                    continue
                with self.subTest(path, whom=whom):
                    self.setUp()
                    self.host.cgroup("/user.slice", enabled="memory")
                    self.host.cgroup(path, owners={"dir": owner}, modes={"dir": mode}, marks=marks, enabled="memory")
                    found = self.report()
                    self.assertEqual([(place, names) for place, names, _, _ in self.directories(found)], [(path, [whom])])
                    self.assertEqual(found["status"], 1)

    def test_what_was_handed_over_is_its_holders(self):
        for owners, modes in ((owned(1000), {}), (owned(0, 50), BY_GROUP)):
            with self.subTest(owners):
                self.setUp()
                self.host.cgroup("/svc.service", owners=owners, modes=modes, marks=(MARK,))
                found = self.report()
                self.assertEqual((found["status"], self.directories(found), len(found["subtrees"])), (0, [], 1))

    def test_a_mark_on_somebodys_that_a_group_writes_too(self):
        self.host.cgroup("/svc.service", owners=owned(1000, 50), modes={"dir": 0o775}, marks=(MARK,))
        found = self.report()
        self.assertEqual((found["status"], self.directories(found)),
                         (1, [("/svc.service", ["group team(50)"], [f"chmod g-w {self.host.mount}/svc.service"], WHY)]))

    def test_a_slice_below_a_users_manager_is_the_users(self):
        self.manager()
        self.host.cgroup(f"{MANAGER}/app.slice", owners=owned(1000, 1000))
        self.host.cgroup(f"{MANAGER}/app.slice/x.service", owners={**owned(1000, 1000), "cpu.max": 1000}, more=("cpu.max",))
        found = self.report()
        self.assertEqual((found["status"], found["opened"], [each["path"] for each in found["subtrees"]]), (0, [], [MANAGER]))

    def test_entries_of_a_slice_of_which_no_answer_speaks(self):
        self.host.cgroup("/system.slice", modes={"cgroup.procs": 0o666, "cgroup.subtree_control": 0o666, "cgroup.max.depth": 0o646})
        found = self.report()
        self.assertEqual((found["status"], found["subtrees"], self.opened(found)), (1, [], [
            f"/system.slice {name} by everybody" for name in ("cgroup.max.depth", "cgroup.procs", "cgroup.subtree_control")]))

    def test_who_has_a_slice_has_nothing_of_what_is_inside(self):
        self.host.cgroup("/machine.slice", owners={"dir": 1000}, modes={"dir": 0o755})
        self.host.cgroup("/machine.slice/vm", owners=owned(1001), modes={"cpu.max": 0o646}, more=("cpu.max",))
        found = self.report()
        self.assertEqual((found["status"], found["above"]), (1, []))
        self.assertEqual(self.opened(found), ["/machine.slice dir by alice(1000)", "/machine.slice/vm cpu.max by everybody"])

    def test_a_unit_without_the_mark_is_nobodys_where_others_have_it(self):
        """What its manager starts in it later is root's."""
        names = ("cgroup.threads", "cgroup.kill", "memory.oom.group")
        self.host.cgroup("/system.slice", enabled="memory")
        self.host.cgroup("/system.slice/cron.service", owners={**owned(1000), **dict.fromkeys(names, 1000), "memory.max": 1000},
                         more=names, pids=(7,))
        self.host.process(7)
        found = self.report()
        self.assertEqual([row[0] for row in self.rows(found)], ["1000"])
        self.host.cgroup("/system.slice/udevd.service", marks=(MARK,))
        found = self.report()
        place = f"{self.host.mount}/system.slice/cron.service"
        self.assertEqual((found["status"], [row[0] for row in self.rows(found)]), (1, ["-"]))
        self.assertEqual(self.opened(found), [f"/system.slice/cron.service {name} by alice(1000)" for name in (
            "cgroup.kill", "cgroup.procs", "cgroup.subtree_control", "dir", "memory.max", "memory.oom.group")])
        self.assertEqual(self.directories(found)[0][2:], ([f"chown root {place}/cgroup.threads {place}"], WHY))
        self.host.cgroup("/system.slice/cron.service", more=names, pids=(7,))
        found = self.report()
        self.assertEqual((found["status"], found["asked"], found["opened"]), (4, False, []))

    def test_a_users_manager_needs_no_mark(self):
        self.manager(())
        self.host.cgroup("/udevd.service", marks=(MARK,))
        found = self.report()
        self.assertEqual((found["status"], [row[0] for row in self.rows(found)]), (0, ["-", "1000"]))

    def test_a_slice_with_a_mark_is_asked_of(self):
        self.host.cgroup("/batch.slice", owners=owned(1000), marks=(MARK,))
        found = self.report()
        self.assertEqual((found["status"], [row[2:] for row in self.rows(found)]), (0, [("contained", "/batch.slice")]))


if __name__ == "__main__":
    unittest.main()
