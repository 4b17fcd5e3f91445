"""Tests of where threads run and of what processes hold open, as made-up hosts tell of it."""
import os
import unittest
from unittest import mock

from check_test import HostTest, owned
from zirofen_host.collect import bounded, rings, tables
from zirofen_host.collect.bounded import PROCESS_BYTES, Spent
from zirofen_host.collect.inside import BY_UNREAD
from zirofen_host.collect.model import DescriptorKind
from zirofen_host.collect.processes import Reader
from zirofen_host.collect.threads import ThreadReader, place_in
from zirofen_host.profile import path_of

WRITES = os.O_WRONLY
# what kernels tell of a ring: a new one, one before it, and either while it is busy
NEW_RING = "flags:\t02000002\nSQEs:\t0\nUserFiles:\t3\n    0: {0}\n    2: {1}\nUserBufs:\t1\n    0: 0x10/4\nPollList:\n"
OLD_RING = "flags:\t02000002\nUserFiles:\t3\n    0: {0}\n    1: <none>\n    2: {1}\nUserBufs:\t0\n"
BUSY_OLD = "flags:\t02000002\nUserFiles:\t3\nUserBufs:\t0\n"
BUSY_NEW = "flags:\t02000002\nmnt_id:\t15\n"
EMPTY_NEW = "flags:\t02000002\nUserFiles:\t64\nUserBufs:\t0\n"
NAMES = frozenset((b"memory.max", b"cgroup.procs"))


class PlacesTest(HostTest):
    """A process with threads."""

    def threads(self, pid, places, state="S", uid=1000, count=None):
        """A process whose threads are at these places, the first one's first; None stands for one that tells nothing."""
        self.host.process(pid, uid=uid, gid=uid, threads=(0,) * (len(places) - 1))
        with open(f"{self.host.proc}/{pid}/status", "a", encoding="ascii") as out:
            out.write(f"State:\t{state} (made up)\n" + (f"Threads:\t{count}\n" if count else ""))
        for number, place in enumerate(places):
            folder = f"{self.host.proc}/{pid}/task/{pid + number}"
            with open(f"{folder}/status", "a", encoding="ascii") as out:
                out.write(f"State:\t{'S' if number else state} (made up)\n")
            if place is not None:
                with open(f"{folder}/cgroup", "w", encoding="ascii") as out:
                    out.write(f"12:pids:/other\n0::{place}\n")

    def found(self, pid=7):
        return Reader(self.host.proc).look().found[pid]

    def test_threads_in_one_place(self):
        self.threads(7, ("/a", "/a", "/a"))
        found = self.found()
        self.assertEqual((found.threads, found.is_headless, found.living, found.places, found.thread), (3, False, None, (), 7))

    def test_threads_elsewhere(self):
        self.threads(7, ("/a", "/b", "/a", "/c", None))
        self.assertEqual(self.found().places, (b"/a", b"/b", b"/c"))

    def test_the_first_one_has_ended(self):
        self.threads(7, ("/a", "/b"), state="Z")
        found = self.found()
        self.assertEqual((found.is_headless, found.living, found.thread, found.places), (True, 8, 8, (b"/a", b"/b")))
        # one alone that has ended is no such process
        self.threads(20, ("/a",), state="Z")
        self.assertEqual((self.found(20).is_headless, self.found(20).places), (False, ()))

    def test_a_move_meanwhile_is_none(self):
        self.threads(7, ("/a", "/b"))
        turns = iter([path_of(place) for place in ("/a", "/b", "/b", "/b")])
        with mock.patch.object(ThreadReader, "place", lambda *_: next(turns)):
            self.assertEqual(self.found().places, ())

    def test_which_line_tells_a_place(self):
        for text, place in ((b"0::/a b\n", b"/a b"), (b"1:name=x:/y\n0::/a (deleted)\n", b"/a (deleted)"), (b"1:name=x:/y\n", None),
                            (b"", None), (b"1:a:/0::/x\n", None)):
            with self.subTest(text):
                self.assertEqual(place_in(text), place)

    def test_nobody_hides_one_behind_many(self):
        """Threads of processes whose first one has ended have a budget of their own, and what is over it is told."""
        for pid in (10, 20, 30):
            self.threads(pid, ("/a",) * 5)
        self.threads(40, ("/a", "/b"), state="Z")
        self.threads(50, ("/a", "/b", "/b", "/b", "/b"), state="Z")
        with mock.patch.object(bounded, "THREADS", bounded.Budget("threads", 6)):
            found = Reader(self.host.proc).look().found
        self.assertEqual([found[pid].is_headless for pid in (10, 40, 50)], [False, True, True])
        self.assertEqual((found[40].threads_left + found[50].threads_left, found[40].places or found[50].places), (1, (b"/a", b"/b")))

    def test_what_is_read_is_charged(self):
        self.threads(7, ("/a", "/b"))
        spent = Spent(PROCESS_BYTES, int)
        ThreadReader(self.host.proc, int, spent).look(7, {"Uid": ["1000"], "Threads": ["2"]})
        self.assertGreater(spent.by[1000], 100)


class TablesTest(HostTest):
    """Tables of descriptors that threads don't share."""

    def test_in_the_order_of_a_kernel(self):
        of = {1: 5, 2: 5, 3: 9, 4: 2, 5: 9, 6: 2, 7: 7}
        asked = []

        def order(one, other):
            asked.append((one, other))
            return 0 if of[one] == of[other] else 1 if of[one] < of[other] else 2
        self.assertEqual(sorted(tables.apart_by(order, of)), [1, 3, 4, 7])
        self.assertEqual(sorted(of[thread] for thread in tables.apart_by(order, of)), [2, 5, 7, 9])
        self.assertIsNone(tables.apart_by(lambda *_: -1, of))
        self.assertIsNone(tables.apart_by(lambda *_: 3, of))
        # a thread for each table, and yet not every pair is compared
        asked.clear()
        many = {number: number * 7919 % 4096 for number in range(4096)}
        of.update(many)
        self.assertEqual(len(tables.apart_by(order, many)), 4096)
        self.assertLess(len(asked), 4096 * 13)

    def opens_in_thread(self, pid, thread, number, path, flags):
        self.host.opens(pid, number, path, flags)
        for folder in ("fd", "fdinfo"):
            os.makedirs(f"{self.host.proc}/{pid}/task/{thread}/{folder}", exist_ok=True)
            os.rename(f"{self.host.proc}/{pid}/{folder}/{number}", f"{self.host.proc}/{pid}/task/{thread}/{folder}/{number}")

    def test_what_one_thread_holds(self):
        self.host.cgroup("/good", owners=owned(1000))
        self.host.process(7, uid=1000, gid=1000, threads=(0, 0))
        self.opens_in_thread(7, 9, 3, "/good/memory.max", WRITES)
        held, = self.host.take(only=None).held
        self.assertEqual((held.uid, held.path, held.file, held.pid, held.holding), (1000, b"/good", "memory.max", 7, DescriptorKind.OPEN))

    def test_what_root_holds_on_the_host_isnt_looked_at(self):
        self.host.cgroup("/good", owners=owned(1000))
        self.host.process(7)
        self.host.opens(7, 3, "/good/memory.max", WRITES)
        self.assertEqual(self.host.take(only=None).held, ())


class RingsTest(unittest.TestCase):
    """What is registered with a ring, by what kernels tell of one."""

    def registered(self, text, *files, has_paths=True):
        return rings.registered(text.format(*files).encode(), b"/sys/fs/cgroup", NAMES, has_paths)

    def test_paths(self):
        found = self.registered(NEW_RING, "/sys/fs/cgroup/a\\040b/memory.max", "/sys/fs/cgroup/cgroup.procs")
        self.assertEqual(found, (((b"/a b", "memory.max"), (b"/", "cgroup.procs")), 0))

    def test_files_of_other_names_are_none(self):
        for has_paths, text in ((True, NEW_RING), (False, OLD_RING)):
            self.assertEqual(self.registered(text, "data.db", "/home/x/log", has_paths=has_paths), ((), 0))

    def test_names_without_paths_on_the_mount(self):
        self.assertEqual(self.registered(OLD_RING, "memory.max", "x", has_paths=False), ((), 1))
        self.assertEqual(self.registered(NEW_RING, "/x/memory.max", "/sys/fs/cgroup2/cgroup.procs"), ((), 2))

    def test_a_ring_that_is_busy(self):
        self.assertIsNone(self.registered(BUSY_NEW))
        self.assertIsNone(self.registered(BUSY_OLD, has_paths=False))
        self.assertEqual(self.registered(EMPTY_NEW), ((), 0))

    def test_which_kernels_list_paths(self):
        told = [rings.lists_paths(release) for release in ("Linux 6.1.0-30", "6.12.1", "6.18.0", "7.3.0-rc1", "", "x.y", "6")]
        self.assertEqual(told, [False, False, True, True, False, False, False])


class RingHolderTest(HostTest):
    def ring(self, text):
        self.host.cgroup("/good", owners=owned(1000))
        self.host.process(7, uid=1000, gid=1000)
        if not os.path.lexists(f"{self.host.proc}/7/fd/3"):
            self.host.opens(7, 3, "/good/memory.max", WRITES)
        self.host.replaced(7, 3, rings.RING)
        with open(f"{self.host.proc}/7/fdinfo/3", "w", encoding="ascii") as out:
            out.write(text)
        with mock.patch.object(rings, "lists_paths", lambda _: True):
            found = self.host.take(only=None)
        return [(each.path, each.file, each.holding) for each in found.held], [str(each.why) for each in found.unheld]

    def test_a_file_of_the_mount(self):
        text = NEW_RING.format(f"{self.host.mount}/good/memory.max", "/x")
        self.assertEqual(self.ring(text), ([(b"/good", "memory.max", DescriptorKind.RING)], []))

    def test_what_isnt_looked_at(self):
        self.assertEqual(self.ring(BUSY_NEW), ([], ["an io_uring of process 7 wasn't looked at: its files aren't known"]))
        self.assertEqual(self.ring(NEW_RING.format("/mnt/memory.max", "/x"))[1], [
            "an io_uring of process 7 wasn't looked at: no path on this mount is known of 1 of its files, which are named as a cgroup's"])


class InsideHeadlessTest(HostTest):
    """Containers of root's whose first thread has ended."""

    def test_it_is_read_by_a_living_thread(self):
        self.host.cgroup("/c", pids=(7,))
        for pid, top in ((1, "/"), (7, "/c")):
            self.host.process(pid, threads=(0,))
            self.host.mounts(pid, f"25 1 8:{pid} / / rw - ext4 none rw\n30 25 0:26 {top} /sys/fs/cgroup rw - cgroup2 cgroup2 rw\n")
        os.makedirs(f"{self.host.proc}/8/ns")
        for kind in ("cgroup", "mnt", "pid", "user"):
            os.symlink(f"{kind}:[8]", f"{self.host.proc}/8/ns/{kind}")
        os.rename(f"{self.host.proc}/7/mountinfo", f"{self.host.proc}/8/mountinfo")
        for file in ("status", "task/8/status"):
            with open(f"{self.host.proc}/7/{file}", "a", encoding="ascii") as out:
                out.write("State:\tZ (zombie)\n" if file == "status" else "State:\tS (sleeping)\n")
        found, = self.host.take(only=None).inside
        self.assertEqual((found.path, found.by, [mount.top for mount in found.mounts]), (b"/c", ("cgroup namespace", "root"), [b"/c"]))

    def test_what_cant_be_read_is_told(self):
        self.host.cgroup("/c", pids=(7,))
        self.host.process(1)
        self.host.mounts(1, "25 1 8:1 / / rw - ext4 none rw\n")
        self.host.process(7, threads=(0,))
        os.rename(f"{self.host.proc}/7/task", f"{self.host.proc}/7/gone")
        with open(f"{self.host.proc}/7/status", "a", encoding="ascii") as out:
            out.write("State:\tZ (zombie)\n")
        found, = self.host.take(only=None).inside
        self.assertEqual((found.path, found.by, found.is_cut), (b"/c", (BY_UNREAD,), True))


if __name__ == "__main__":
    unittest.main()
