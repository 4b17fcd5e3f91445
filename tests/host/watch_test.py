"""Tests of a watch: what events concern, who is asked when, what differs, and where it is told. A kernel's part is played."""
import argparse
import os
import select
import signal
import socket
import struct
import tempfile
import time
import unittest
from collections import Counter
from unittest import mock

from check_test import HostTest, owned
from zirofen_host.collect.model import User
from zirofen_host.judge import check
from zirofen_host.judge.baseline import Found
from zirofen_host.judge.severity import Severity
from zirofen_host.options import EVERYBODY, WatchOptions
from zirofen_host.collect.snapshot import take
from zirofen_host.ask.questions import subtrees_by
from zirofen_host.watch import backs, checks, drain, events, findings, hooks, journal, kernel, known, lanes, loop, messages, numbers
from zirofen_host.watch.doers import Doer, doer_of
from zirofen_host.watch.kernel import ATTRIB, CREATE, DELETE, IS_FOLDER, LOST, MODIFY, Event


def record(mask, pid, handle, name):
    """An event as fanotify writes it."""
    file = struct.pack("<Ii", len(handle), 1) + handle + name + b"\0"
    info = struct.pack("<BBH", 2, 0, 4 + 8 + len(file)) + b"\0" * 8 + file
    return struct.pack("<IBBHQii", 24 + len(info), 3, 0, 24, mask, -1, pid) + info


def watched(number, mask, name=b""):
    """An event as inotify writes it."""
    padded = name + b"\0" * (-len(name) % 16) if name else b""
    return struct.pack("<iIII", number, mask, 0, len(padded)) + padded


class KernelTest(unittest.TestCase):
    def test_records_of_fanotify(self):
        """Alike ones are one, with how many there were; what was lost is told."""
        one = record(CREATE | IS_FOLDER, 7, b"handle", b"name")
        data = one + one + record(ATTRIB, 8, b"handle", b"cgroup.procs") + struct.pack("<IBBHQii", 24, 3, 0, 24, LOST, -1, 0)
        counts, is_lost = kernel.records_of(data)
        handle = struct.pack("<Ii", 6, 1) + b"handle"
        self.assertEqual((counts, is_lost), ({(handle, b"name", CREATE | IS_FOLDER, 7): 2, (handle, b"cgroup.procs", ATTRIB, 8): 1}, True))

    def test_broken_records_end(self):
        for data in (b"", b"\0" * 24, record(ATTRIB, 1, b"h", b"n")[:-1], struct.pack("<IBBHQii", 3, 3, 0, 24, 0, -1, 0)):
            with self.subTest(data):
                self.assertLessEqual(len(kernel.records_of(data)[0]), 1)

    def test_inotify_tells_of_folders(self):
        """Of real ones: owners and modes, what is made and removed, and what was removed is forgotten."""
        with tempfile.TemporaryDirectory() as room:
            source = kernel.Inotify(room)
            self.addCleanup(source.close)
            self.assertTrue(source.watch(b"/"))
            self.assertFalse(source.watch(b"/"))
            os.mkdir(f"{room}/a")
            self.assertTrue(source.watch(b"/a"))
            os.chmod(f"{room}/a", 0o700)
            os.rmdir(f"{room}/a")
            masks = {}
            for event in source.take().counts:
                masks[event.folder, event.name] = masks.get((event.folder, event.name), 0) | event.mask
            self.assertEqual(masks[b"/", b"a"], CREATE | ATTRIB | DELETE | IS_FOLDER)
            self.assertNotIn(b"/a", source.watches)
            self.assertFalse(source.watch(b"/none"))
            self.assertFalse(source.is_short)

    def test_where_no_watch_is_left(self):
        with tempfile.TemporaryDirectory() as room:
            source = kernel.Inotify(room)
            self.addCleanup(source.close)
            with mock.patch.object(kernel, "call", side_effect=OSError(28, "No space left on device")):
                self.assertFalse(source.watch(b"/"))
            self.assertTrue(source.is_short)

    def test_one_persons_part_of_the_watches(self):
        with tempfile.TemporaryDirectory() as room:
            for name in "abcd":
                os.mkdir(f"{room}/{name}")
            source = kernel.Inotify(room)
            self.addCleanup(source.close)
            source.most = 2
            self.assertEqual([source.watch(path, 1000) for path in (b"/a", b"/b", b"/c")], [True, True, False])
            self.assertEqual([source.may_watch(person) for person in (1000, 1001, 0)], [False, True, True])
            self.assertEqual((source.watch(b"/c"), source.is_short), (True, False))
            source.forget(b"/c")
            source.forget(b"/a")
            self.assertEqual([source.watch(path, 1000) for path in (b"/d", b"/a")], [True, False])
        self.assertGreater(kernel.most_watches(), 0)
        with mock.patch.object(kernel, "MOST_WATCHES", room):
            self.assertEqual(kernel.most_watches(), kernel.FEW_WATCHES)

    def test_lost_events_of_inotify(self):
        with tempfile.TemporaryDirectory() as room:
            source = kernel.Inotify(room)
            self.addCleanup(source.close)
            source.watch(b"/")
            (number,) = source.paths
            with mock.patch.object(source.drain, "take", return_value=watched(-1, LOST) + watched(number, MODIFY, b"file")):
                found = source.take()
            self.assertEqual(found, kernel.Batch({Event(b"/", b"file", MODIFY, None): 1}, True, {}))

    def test_a_mark_that_is_refused(self):
        whys = []
        with mock.patch.object(kernel, "Fanotify", side_effect=OSError(19, "No such device")):
            source = kernel.source_of("/", False, whys.append)
        self.addCleanup(source.close)
        self.assertEqual((whys, source.has_pids), (["No such device"], False))

    def test_accounts(self):
        with tempfile.TemporaryDirectory() as room:
            watch = kernel.FolderWatch(room, (b"passwd", b"group"))
            self.addCleanup(os.close, watch.fileno())
            for name in ("group", "other"):
                with open(f"{room}/{name}", "w", encoding="ascii"):
                    pass
            os.rename(f"{room}/other", f"{room}/passwd")
            self.assertEqual((sorted(watch.has_changed()), watch.has_changed()), ([b"group", b"passwd"], []))


class DrainTest(unittest.TestCase):
    def setUp(self):
        self.reader, self.writer = os.pipe2(os.O_NONBLOCK)
        self.drain = drain.Drain(self.reader)

    def test_by_whoever_takes_it(self):
        self.addCleanup(self.drain.close)
        self.assertEqual((self.drain.fileno(), self.drain.take()), (self.reader, b""))
        os.write(self.writer, b"a")
        self.assertEqual([self.drain.take(), self.drain.take()], [b"a", b""])

    def test_by_a_thread_beside(self):
        """It reads while nobody takes, keeps so much in its order, and tells that there are some."""
        self.drain.begin()
        ready = select.poll()
        ready.register(self.drain.fileno(), select.POLLIN)
        self.assertNotEqual(self.drain.fileno(), self.reader)
        with mock.patch.object(drain, "MOST", 3):
            for number in range(4):
                os.write(self.writer, b"%d" % number)
                self.wait(lambda: self.drain.size == min(number + 1, 3))
            self.assertTrue(ready.poll(10000))
            time.sleep(3 * drain.GATHERING)
            self.assertEqual(self.drain.take(), b"012")
            self.assertTrue(ready.poll(10000))
            self.assertEqual([self.drain.take(), self.drain.take()], [b"3", b""])
        self.drain.close()
        os.close(self.writer)

    def wait(self, is_so):
        until = time.monotonic() + 60
        while not is_so():
            self.assertLess(time.monotonic(), until)
            time.sleep(0.01)


class ConcernedTest(unittest.TestCase):
    def test_which_cgroup(self):
        for event, part in ((Event(b"/a", b"b", CREATE | IS_FOLDER, 1), b"/a/b"), (Event(b"/", b"b", DELETE | IS_FOLDER, 1), b"/b"),
                            (Event(b"/a", b"", ATTRIB | IS_FOLDER, 1), b"/a"), (Event(b"/a", b"cgroup.procs", ATTRIB, 1), b"/a"),
                            (Event(b"/a", b"cgroup.subtree_control", MODIFY, 1), b"/a"), (Event(b"/a", b"cgroup.procs", MODIFY, 1), None),
                            (Event(b"/a", b"memory.max", MODIFY, 1), None), (Event(b"/", b"cgroup.procs", ATTRIB, 1), b"/")):
            self.assertEqual(lanes.concerned(event), part, event)

    def test_nearest_in_common(self):
        for one, other, both in ((b"/a/b", b"/a/c", b"/a"), (b"/a", b"/a/b", b"/a"), (b"/ab", b"/a", b"/"), (b"/", b"/x", b"/")):
            self.assertEqual((lanes.common(one, other), lanes.common(other, one)), (both, both))

    def test_whose_a_folder_is(self):
        """The last on the way who isn't root, and of subordinate ids their owner."""
        uids = {b"/a": 1000, b"/a/c": 100001}
        owners = lanes.Owners(lambda path: uids.get(path, 0), lambda uid: 1000 if uid >= 100000 else uid)
        self.assertEqual([owners.of(path) for path in (b"/", b"/a", b"/a/b", b"/a/c", b"/d", b"/a/new")], [0, 1000, 1000, 1000, 0, 1000])
        self.assertEqual((owners.many([b"/a"] * lanes.MANY), owners.many([b"/a"] + [b"/d"] * lanes.MANY)), ([1000], []))


class LanesTest(unittest.TestCase):
    def test_a_burst_is_one(self):
        lane = lanes.Lane(0, 100.0)
        self.assertIsNone(lane.due())
        for number in range(4):
            lane.add(b"/a/b", 100.0 + number * 0.1)
        self.assertAlmostEqual(lane.due(), 100.5)
        for number in range(40):
            lane.add(b"/a/c", 100.4 + number * 0.1)
        self.assertAlmostEqual(lane.due(), 101.0)
        taken = lane.take()
        self.assertEqual((taken.part, lane.due()), (b"/a", None))
        lane.is_running = False
        self.assertIsNone(lane.due())

    def test_a_tenth_of_a_processor(self):
        """Whoever spent what they had waits until as much was given again, and others don't."""
        all_lanes = lanes.Lanes(0.0)
        mine, other = all_lanes.of(1000, 0.0), all_lanes.of(1001, 0.0)
        mine.spend(lanes.AT_ONCE + 2.0)
        mine.add(b"/a", 0.0)
        other.add(b"/b", 1.0)
        self.assertEqual((mine.due(), other.due()), (20.0, 1.2))
        self.assertIs(all_lanes.next(lambda lane: True), other)
        self.assertEqual((list(all_lanes.newly_waiting()), list(all_lanes.newly_waiting())), ([1000], []))
        self.assertEqual((all_lanes.shallow(0), all_lanes.shallow(1000)), ((1000,), ()))
        all_lanes.refill(30.0)
        self.assertFalse(mine.is_waiting)

    def test_who_pays_for_the_whole_host(self):
        """Whoever's checks ask for one, equal parts each, and it asks for another one by their time; nobody for that of each hour."""
        to = lanes.Lanes(0.0)
        made = argparse.Namespace(lanes=to, next_deep=0.0)
        for person in (1000, lanes.HOST):
            to.of(person, 0.0).add(b"/a", 0.0)
            loop.Loop.ask_beyond(made, to.all[person].take())
        asked = to.deep.take()
        self.assertEqual((asked.part, asked.payers, to.deep.take().payers), (b"/", {1000, lanes.HOST}, set()))
        to.spend(asked, 4.0, 0.0)
        self.assertEqual([to.all[each].left - to.all[each].at_once for each in (1000, lanes.HOST, lanes.DEEP)], [-2.0, -2.0, 0.0])
        loop.Loop.ask_beyond(made, asked)
        self.assertEqual(to.deep.take().payers, asked.payers)
        to.spend(asked._replace(payers=frozenset()), 4.0, 0.0)
        self.assertEqual(to.all[1000].left, lanes.AT_ONCE - 2.0)

    def test_who_pays_for_one_that_failed_pays_for_the_next(self):
        to = lanes.Lanes(0.0)
        made = argparse.Namespace(lanes=to, next_deep=0.0, has_surveyed=True, has_begun=True, is_there=lambda _: True,
                                  limit=lambda *_: None)
        to.of(1000, 0.0).add(b"/a", 0.0)
        loop.Loop.ask_beyond(made, to.all[1000].take())
        run = argparse.Namespace(asked=to.deep.take(), lane=to.deep)
        loop.Loop.failed(made, run, checks.Failed("it took too long"))
        self.assertEqual(to.deep.take().payers, {1000})

    def test_who_makes_something_unsettled_all_the_time(self):
        """They wait for a check of the whole host as for one of their own."""
        to = lanes.Lanes(0.0)
        made = argparse.Namespace(lanes=to, next_deep=0.0)
        to.of(1000, 0.0).add(b"/a", 0.0)
        loop.Loop.ask_beyond(made, to.all[1000].take())
        to.spend(to.deep.take(), lanes.AT_ONCE + 2.0, 0.0)
        to.all[1000].is_running = False
        to.all[1000].add(b"/a", 0.0)
        self.assertEqual((to.all[1000].due(), to.shallow(lanes.HOST)), (20.0, (1000,)))

    def test_root_has_more(self):
        """Three times what others have, and at once, too."""
        mine, other = lanes.Lane(lanes.HOST, 0.0), lanes.Lane(1000, 0.0)
        self.assertEqual((mine.left, other.left), (lanes.TIMES_OF_ROOT * lanes.AT_ONCE, lanes.AT_ONCE))
        for lane, due in ((mine, 10.0), (other, 10.0 * lanes.TIMES_OF_ROOT)):
            lane.add(b"/a", 0.0)
            lane.left = -10.0 * lanes.TIMES_OF_ROOT * lanes.SHARE
            self.assertAlmostEqual(lane.due(), due)

    def test_lanes_are_forgotten(self):
        all_lanes = lanes.Lanes(0.0)
        for person in range(1, 100):
            all_lanes.of(person, 0.0)
        all_lanes.refill(1.0)
        self.assertEqual(list(all_lanes.all), [lanes.HOST, lanes.DEEP])

    def test_who_did_it(self):
        lane, chmod, chown = lanes.Lane(0, 0.0), Doer(7, 0, "/bin/chmod"), Doer(8)
        lane.touch(Event(b"/", b"cgroup.procs", ATTRIB, 7), 2, 1.0, chmod)
        lane.touch(Event(b"/", b"cgroup.procs", ATTRIB, 8), 1, 2.0, chown)
        lane.touch(Event(b"/a", b"", ATTRIB | IS_FOLDER, 8), 1, 3.0, chown)
        asked = lane.take()
        near = lanes.Touches(asked.touched).near(b"/", "cgroup.procs")
        self.assertEqual(asked.touched[near], lanes.Touched(ATTRIB, 3, 1.0, 2.0, (chmod, chown)))
        for path, entry, told in ((b"/a", "memory.max", (b"/a", "dir")), (b"/a/b", "memory.max", (b"/a", "dir")),
                                  (b"/b", "dir", (b"/", "cgroup.procs"))):
            self.assertEqual(lanes.Touches(asked.touched).near(path, entry), told)
        lane.give_back(asked)
        self.assertEqual(lane.touched, asked.touched)
        lane.give_back(asked._replace(touched={(b"/a", "dir"): lanes.Touched(ATTRIB, 1, 4.0, 4.0, (chmod,))}))
        self.assertEqual(lane.touched[b"/a", "dir"], lanes.Touched(ATTRIB | IS_FOLDER, 2, 3.0, 4.0, (chmod, chown)))

    def test_what_waits_to_be_asked_of(self):
        """Who changed an entry is told whichever check found it, before who changed something near."""
        lane, late = lanes.Lane(0, 0.0), lanes.Lane(0, 0.0)
        lane.touch(Event(b"/a", b"", ATTRIB | IS_FOLDER, 8), 1, 3.0, Doer(8))
        late.touch(Event(b"/a", b"memory.max", ATTRIB, 7), 1, 4.0, Doer(7))
        beside = lanes.Lane(0, 0.0)
        beside.touch(Event(b"/b", b"cgroup.procs", ATTRIB, 9), 1, 4.0, Doer(9))
        asked = lane.take()
        for path, entry, waiting, told in (("/a", "memory.max 0:0", late.touched, 7), ("/a", "memory.max", {}, 8),
                                           ("/a", "cgroup.procs", late.touched, 8), ("docker:a", "memory.max", late.touched, None),
                                           ("/a", "", late.touched, 8), ("/b", "", beside.touched, 9), ("/b", "memory.max", {}, None),
                                           ("/b", "memory.max", beside.touched, None)):
            found = messages.touched_of(lanes.Touches(asked.touched), change_at(path, entry), lanes.Touches(waiting), 3.5, 0.0)
            self.assertEqual(found and found.doers[0].pid, told)

    def test_who_did_the_last_of_it(self):
        """Where an entry was changed again before a check of it began, or the first change was reported, that is what it found."""
        lane, late = lanes.Lane(0, 0.0), lanes.Lane(0, 0.0)
        lane.touch(Event(b"/a", b"memory.max", ATTRIB, 7), 1, 3.0, Doer(7))
        late.touch(Event(b"/a", b"memory.max", ATTRIB, 8), 1, 5.0, Doer(8))
        asked = lane.take()
        for entry in ("memory.max", ""):
            for began, after, told in ((4.0, 0.0, 7), (6.0, 0.0, 8), (4.0, 2.0, 7), (4.0, 3.0, 8)):
                found = messages.touched_of(lanes.Touches(asked.touched), change_at("/a", entry), lanes.Touches(late.touched), began, after)
                self.assertEqual(found.doers[0].pid, told)
        self.assertIsNone(messages.touched_of(lanes.Touches(asked.touched), change_at("/a", ""), lanes.Touches({}), 4.0, 3.0))

    def test_what_opened_something_doesnt_mend_it(self):
        """What was reported once is no cause of the opposite, which a later event is, if one was seen."""
        lane, late, found = lanes.Lane(0, 0.0), lanes.Lane(0, 0.0), findings.Findings(lambda _: None, None)
        lane.touch(Event(b"/a", b"memory.max", ATTRIB, 7), 1, 3.0, Doer(7))
        late.touch(Event(b"/a", b"memory.max", ATTRIB, 8), 1, 5.0, Doer(8))
        asked = lanes.Touches(lane.take().touched)
        for kind, waiting, told in (("new", {}, 7), ("worse", {}, 7), ("mended", {}, None), ("new", {}, 7), ("mended", late.touched, 8)):
            touched = found.touched(asked, change_at("/a", "memory.max", kind=kind), lanes.Touches(waiting), 4.0)
            self.assertEqual(touched and touched.doers[0].pid, told)

    def test_what_no_event_inside_explains(self):
        """A container that isn't held, or an option that is missing, is by nobody who changed something further inside."""
        lane = lanes.Lane(0, 0.0)
        lane.touch(Event(b"/a/b", b"memory.max", ATTRIB, 7), 1, 3.0, Doer(7))
        lane.touch(Event(b"/c", b"", CREATE | IS_FOLDER, 8), 1, 3.0, Doer(8))
        asked = lane.take()
        for path, what, told in (("/a", "subtree", 7), ("/a", "root-inside", None), ("/", "mount-options", None),
                                 ("/c/d", "root-inside", 8)):
            found = messages.touched_of(lanes.Touches(asked.touched), change_at(path, "", what), lanes.Touches({}), 4.0, 0.0)
            self.assertEqual(found and found.doers[0].pid, told)

    def test_what_was_lost_within_a_minute(self):
        """All is asked again at once, and then at the end of a minute in which something was lost."""
        asked = []
        made = argparse.Namespace(lost=0, has_lost=False, next_lost=0.0, next_minute=1e9, next_hour=1e9, is_asked_for_forms=False,
                                  limit=lambda *_: None, ask_whole=asked.append)
        for now, is_lost, number in ((1.0, True, 1), (30.0, True, 1), (60.0, False, 1), (61.5, False, 2), (200.0, False, 2)):
            if is_lost:
                loop.Loop.events_were_lost(made)
            loop.Loop.by_the_clock(made, now)
            self.assertEqual((len(asked), now), (number, now))

    def test_a_folder_that_was_made_is_known_in_a_flood(self):
        """Who did something in a folder of root's that was just made is told, however much happens in folders that nobody knows."""
        with tempfile.TemporaryDirectory() as mount:
            os.mkdir(f"{mount}/a")
            source = kernel.Fanotify.__new__(kernel.Fanotify)
            source.mount, source.folders, source.handles, source.left, source.until = mount.encode(), {}, {}, 0, 0.0
            source.know({b"/": 1})
            root, made = (kernel.HANDLE_HEAD + number.to_bytes(8, "little") for number in (1, os.stat(f"{mount}/a").st_ino))
            flood = {(kernel.HANDLE_HEAD + number.to_bytes(8, "little"), b"x", ATTRIB, 9): 1 for number in range(2**40, 2**40 + 5000)}
            batches = [kernel.Batch({source.event_of((root, b"a", CREATE | IS_FOLDER, 7)): 1}, False,
                                    {**flood, (made, b"memory.max", ATTRIB, 8): 1}), kernel.Batch({}, False, {})]
            to = lanes.Lanes(0.0)
            read = events.Events(source, "/nowhere", to, argparse.Namespace(of=lambda _: 0))
            with mock.patch.object(source, "take", side_effect=batches), mock.patch.object(source, "begin_turn"):
                self.assertEqual(read.take(1.0), (False, True))
            self.assertEqual(len(read.unknown), events.MOST_UNKNOWN)
            self.assertEqual([doer.pid for doer in to.host.touched[b"/a", "memory.max"].doers], [8])

    def test_folders_that_went_are_forgotten(self):
        """Names that are never used again leave nothing; where no more folders are known, what happens elsewhere is lost."""
        source = kernel.Fanotify.__new__(kernel.Fanotify)
        source.mount, source.folders, source.handles, source.left, source.until = b"/nowhere", {}, {}, 0, 0.0
        source.know({b"/": 1, b"/a": 2})
        handles = [kernel.HANDLE_HEAD + number.to_bytes(8, "little") for number in (1, 2, 3)]
        read = events.Events(source, "/nowhere", lanes.Lanes(0.0), argparse.Namespace(of=lambda _: 0))
        for mask, number in ((DELETE, 2), (DELETE | IS_FOLDER, 1)):
            read.happened(source.event_of((handles[0], b"a", mask, 7)), 1, 1.0)
            self.assertEqual(len(source.folders), number)
        unknown = {(handles[2], b"%d" % number, ATTRIB, 9): 1 for number in range(events.MOST_UNKNOWN + 1)}
        for most, taken in ((1, (True, False)), (2, (False, True))):
            read.unknown = []
            with mock.patch.object(kernel, "MOST_FOLDERS", most), mock.patch.object(source, "begin_turn"), mock.patch.object(
                    source, "take", side_effect=[kernel.Batch({}, False, unknown), kernel.Batch({}, False, {})]):
                self.assertEqual(read.take(1.0), taken)

    def test_what_is_enough_of_a_flood(self):
        """Of whoever's entries are many, more are only counted; root's never, nor what lies beside."""
        to = lanes.Lanes(0.0)
        read = events.Events(argparse.Namespace(), "/nowhere", to, argparse.Namespace(of=lambda path: 1000 if path == b"/a" else 0))
        for folder in (b"/a", b"/b"):
            for number in range(lanes.MOST_TOUCHED):
                read.happened(Event(folder, b"%d" % number, ATTRIB, 7), 1, 1.0)
        with mock.patch.object(read, "doer") as looked_up:
            read.happened(Event(b"/a", b"more", ATTRIB, 7), 3, 1.1)
            self.assertEqual((looked_up.call_count, to.all[1000].events), (0, lanes.MOST_TOUCHED + 3))
            self.assertAlmostEqual(to.all[1000].due(), 1.1 + lanes.QUIET)
            read.happened(Event(b"/b", b"more", ATTRIB, 7), 1, 1.1)
            self.assertEqual(looked_up.call_count, 1)
        self.assertTrue(to.all[1000].take().has_made_folders)
        read.happened(Event(b"/a", b"more", ATTRIB, None), 1, 1.2)
        self.assertEqual(list(to.all[1000].touched), [(b"/a", "more")])

    def test_what_is_asked_once_more(self):
        """Where more happens in folders that nobody knows than is kept, checks of persons who made folders before them."""
        lane, others = lanes.Lane(1000, 0.0), [lanes.Lane(person, 0.0) for person in (1001, lanes.HOST)]
        for each in (lane, *others):
            each.add(b"/a", 1.0)
        for each in (lane, others[1]):
            each.touch(Event(b"/a", b"made", CREATE | IS_FOLDER, 7), 1, 1.0, None)
        made = argparse.Namespace(running={each.person: argparse.Namespace(lane=each, asked=each.take()) for each in (lane, *others)})
        loop.Loop.ask_of_unknown(made, 2.0)
        self.assertEqual([each.part for each in (lane, *others)], [b"/a", None, None])

    def test_events_come_before_what_a_check_found(self):
        """Whatever a check found is told with what its events say, also where it is early to read them."""
        done = []
        made = argparse.Namespace(
            poll=mock.Mock(**{"poll.return_value": [(5, 1)]}), running={5: None},
            events=argparse.Namespace(next_read=1e12), next_word=1e12,
            take_events=lambda _: done.append("events"), ready=lambda _: done.append("found"),
            outside=argparse.Namespace(go_on=lambda: None),
            lanes=argparse.Namespace(refill=lambda _: None), milliseconds=lambda: 0, by_the_clock=lambda _: None,
            name_who_waits=lambda: None, start_checks=lambda _: None)
        loop.Loop.turn(made)
        self.assertEqual(done, ["events", "found"])
        made.running = {}
        loop.Loop.turn(made)
        self.assertEqual(done, ["events", "found", "found"])

    def test_who_is_left_out_is_asked_of_beside(self):
        """Where root's check reads nothing of what somebody holds, what root did there waits for their own."""
        to = lanes.Lanes(0.0)
        uids = {b"/a/b": 1000, b"/a/c": 1000, b"/d": 1000, b"/a/e": 1001}
        owners = lanes.Owners(lambda path: uids.get(path, 0), lambda uid: uid)
        paths = (b"/", b"/a", b"/a/b", b"/a/c", b"/a/c/i", b"/a/e", b"/d")
        made = argparse.Namespace(owners=owners, lanes=to, findings=argparse.Namespace(entries=argparse.Namespace(all=paths)))
        to.host.touch(Event(b"/a", b"cgroup.procs", ATTRIB, 7), 1, 1.0, Doer(7))
        to.host.add(b"/a", 1.0)
        to.host.why = "mounts changed"
        loop.Loop.ask_of_left_out(made, to.host.take(), (1000, 1002))
        self.assertEqual(to.all[1000].why, "mounts changed")
        self.assertEqual({person: lane.part for person, lane in to.all.items() if lane.part}, {1000: b"/a"})
        self.assertEqual(to.all[1000].touched[b"/a", "cgroup.procs"].doers, (Doer(7),))
        for persons in ((1001, 1000), (EVERYBODY,)):
            self.assertEqual(owners.parts_of(persons, paths, b"/"), {1000: b"/", 1001: b"/a/e"})
        self.assertEqual(owners.parts_of((), paths, b"/"), {})

    def test_who_changes_something_waits_for_their_own(self):
        """A check of all of it reads nothing of whoever changes something, or has more than is asked of."""
        to = lanes.Lanes(0.0)
        made = argparse.Namespace(lanes=to)
        for person in (1000, 1001, 1002, 1003, 1004):
            to.of(person, 0.0).add(b"/a", 1.0)
        to.all[1000].go_on(1, 1.0)
        to.all[1001].touch(Event(b"/a", b"n", CREATE | IS_FOLDER, 7), 1, 1.0, None)
        to.all[1001].take()
        to.all[1002].spend(lanes.AT_ONCE + 1)
        # something happened there once
        to.all[1003].go_on(1, 1.0)
        to.all[1003].part = None
        # and 1004 is asked of since root changed something
        self.assertEqual(loop.Loop.shallow(made, to.deep), (1000, 1001, 1002))

    def test_whoever_has_many_folders_to_watch(self):
        """What isn't watched of theirs is said, and asks nothing once more."""
        said, run = [], argparse.Namespace(lane=lanes.Lane(1000, 0.0), asked=argparse.Namespace(part=b"/a"))
        source = argparse.Namespace(has_pids=False, is_short=False, watch=lambda _, person: person == 1001,
                                    may_watch=lambda person: person != 1000)
        made = argparse.Namespace(source=source, owners=argparse.Namespace(of={b"/a": 1000, b"/b": 1001}.get), has_surveyed=True,
                                  limit=lambda what, _: said.append(what))
        for path, parts in (("/a", (None, ["watches 1000"])), ("/b", (b"/a", ["watches 1000"]))):
            loop.Loop.watch_all(made, run, argparse.Namespace(part=known.Part(path, frozenset(), frozenset({path}))))
            self.assertEqual((run.lane.part, said), parts)

    def test_what_comes_behind_all_else(self):
        """A check of all of it that no change asked for."""
        to = lanes.Lanes(0.0)
        made = argparse.Namespace(has_begun=False)
        self.assertTrue(loop.Loop.is_urgent(made, to.deep, None))
        made.has_begun = True
        self.assertEqual([loop.Loop.is_urgent(made, to.deep, each) for each in (None, print)], [False, True])
        self.assertTrue(loop.Loop.is_urgent(made, to.host, None))
        to.deep.touch(Event(b"/a", b"cgroup.procs", ATTRIB, 7), 1, 1.0, None)
        self.assertTrue(loop.Loop.is_urgent(made, to.deep, None))

    def test_what_is_urgent(self):
        """What is asked of whoever changes much comes behind all else."""
        for person, left, is_urgent in ((lanes.HOST, -5.0, True), (lanes.DEEP, 0.0, True), (1000, lanes.AT_ONCE, True),
                                        (1000, 1.0, False)):
            lane = lanes.Lane(person, 0.0)
            lane.left = left
            self.assertEqual(lane.is_urgent, is_urgent)

    def test_what_is_kept_of_a_flood(self):
        lane = lanes.Lane(1000, 0.0)
        for number in range(3 * lanes.MOST_TOUCHED):
            lane.touch(Event(b"/a", b"%d" % number, CREATE | IS_FOLDER, number), 1, 1.0, Doer(number))
        for number in range(100):
            lane.touch(Event(b"/a", b"0", CREATE | IS_FOLDER, number), 1, 1.0, Doer(number))
        self.assertEqual((len(lane.touched), len(lane.touched[b"/a/0", "dir"].doers)), (lanes.MOST_TOUCHED, lanes.MOST_DOERS))


def change_at(path, entry, what="entry", kind="new"):
    return argparse.Namespace(path=path, entry=entry, kind=kind, difference=argparse.Namespace(what=what))


def item(path, severity=Severity.ESCAPES, lets_in=(), is_accepted=False, line=""):
    return known.Item(Found(severity, line or f"{path}: it", frozenset(lets_in), is_accepted=is_accepted), path)


WHOLE = known.Part("/", frozenset(), frozenset({"/", "/a", "/a/b", "/c"}))


class KnownTest(unittest.TestCase):
    def kinds(self, then, now, part=WHOLE):
        found = known.compared(then, now, part)
        return [(each.kind, each.path) for each in found.changes], found.known, found.needs_whole

    def test_each_once(self):
        one = {("entry", "/a", "dir"): item("/a")}
        kinds, kept, _ = self.kinds({}, one)
        self.assertEqual(kinds, [("new", "/a")])
        self.assertEqual(self.kinds(kept, one)[0], [])
        self.assertEqual(self.kinds(kept, {})[0], [("mended", "/a")])
        self.assertEqual(self.kinds(kept, {}, WHOLE._replace(there=frozenset({"/"})))[0], [("gone", "/a")])
        more = {("entry", "/a", "dir"): item("/a", lets_in=[("subtree", "/a/b")])}
        self.assertEqual(self.kinds(kept, more)[0], [("worse", "/a")])
        self.assertEqual(self.kinds(more, one)[0], [])
        less = {("entry", "/a", "dir"): item("/a", Severity.UNSETTLED)}
        self.assertEqual((self.kinds(one, less)[0], self.kinds(less, one)[0]), ([("mended", "/a")], [("worse", "/a")]))

    def test_what_is_accepted(self):
        key = "entry", "/a", "dir"
        self.assertEqual(self.kinds({}, {key: item("/a", is_accepted=True)})[0], [])
        self.assertEqual(self.kinds({key: item("/a")}, {key: item("/a", is_accepted=True)})[0], [])
        self.assertEqual(self.kinds({key: item("/a", is_accepted=True)}, {key: item("/a")})[0], [("new", "/a")])

    def test_a_part_says_nothing_of_what_is_beside_it(self):
        part = known.Part("/a", frozenset(), frozenset({"/", "/a"}))
        then = {("entry", "/c", "dir"): item("/c"), ("opened", "/", "cgroup.kill"): item("/")}
        self.assertEqual(self.kinds(then, {}, part), ([], then, False))

    def test_what_stands_above_a_part(self):
        """More of it is told, less of it takes the whole host."""
        part = known.Part("/a", frozenset(), frozenset({"/", "/a"}))
        key, of_a, of_c = ("entry", "/", "cgroup.procs"), ("subtree", "/a"), ("subtree", "/c")
        then = {key: item("/", lets_in=[of_c])}
        kinds, kept, _ = self.kinds(then, {key: item("/", lets_in=[of_a])}, part)
        self.assertEqual((kinds, kept[key].found.lets_in), ([("worse", "/")], {of_a, of_c}))
        self.assertEqual(self.kinds(kept, {}, part), ([], kept, True))

    def test_what_is_unsettled_takes_the_whole_host(self):
        part = known.Part("/a", frozenset(), frozenset({"/", "/a"}))
        now = {("entry", "/a", "dir"): item("/a", Severity.UNSETTLED)}
        self.assertEqual(self.kinds({}, now, part), ([], {}, True))
        self.assertEqual(self.kinds({}, now)[0], [("new", "/a")])
        # what the helper itself has seen is so, whatever is beside it
        now = {("mounted-over", "/a", "memory.max"): item("/a", Severity.UNSETTLED)}
        self.assertEqual(self.kinds({}, now, part), ([("new", "/a")], now, False))

    def test_what_was_left_out(self):
        """Inside of whoever has too much nothing was read, and nothing is told."""
        part = known.Part("/", frozenset({"/a"}), frozenset({"/", "/a", "/c"}))
        key = "entry", "/", "cgroup.procs"
        then = {("entry", "/a/b", "dir"): item("/a/b"), key: item("/", lets_in=[("subtree", "/a/b")])}
        self.assertEqual(self.kinds(then, {key: item("/")}, part), ([], then, False))

    def test_a_check_that_took_long_knows_less_than_one_behind_it(self):
        """Of what was asked meanwhile nothing is told by it."""
        part = WHOLE._replace(since=(known.Asked("/a", frozenset({"/a/b"})),))
        then = {("entry", "/a", "dir"): item("/a"), ("entry", "/a/b", "dir"): item("/a/b")}
        self.assertEqual(self.kinds(then, {("opened", "/a", "x"): item("/a")}, part)[0], [("mended", "/a/b")])

    def test_what_nothing_more_can_settle(self):
        """A look at all of the host leaves nothing to another one, also where somebody's was asked of meanwhile."""
        now = {("subtree", "/c", ""): item("/c", Severity.UNSETTLED)}
        for part, found in ((WHOLE, ([("new", "/c")], False)), (WHOLE._replace(without=frozenset({"/a"})), ([], True)),
                            (WHOLE._replace(since=(known.Asked("/a", frozenset()),)), ([("new", "/c")], False))):
            with self.subTest(part):
                kinds, _, needs_whole = self.kinds({}, now, part)
                self.assertEqual((kinds, needs_whole), found)

    def test_what_concerns_a_part(self):
        for asked, concerns in ((("/a", ()), True), (("/a/b/c", ()), True), (("/", ()), True), (("/", ("/a",)), False), (("/d", ()), False),
                                (("/", ("/a/b/c",)), True)):
            with self.subTest(asked):
                self.assertEqual(known.Asked(asked[0], frozenset(asked[1])).concerns("/a/b"), concerns)

    def test_rows_of_subtrees_are_told_by_what_they_rest_on(self):
        now = {("entry", "/", "cgroup.procs"): item("/", lets_in=[("subtree", "/a")]), ("subtree", "/a", ""): item("/a"),
               ("subtree", "/c", ""): item("/c", Severity.CONTAINED)}
        self.assertEqual(self.kinds({}, now)[0], [("new", "/"), ("new", "/c")])


class ReportsTest(HostTest):
    """Of checks of a made-up host, by a program that plays its part."""

    def looked(self, part=b"/", shallow=()):
        options = WatchOptions(mount=self.host.mount, proc=self.host.proc, accounts=self.host.etc, program=self.program, plain_folder=True)
        return checks.look(options, part, shallow, None, False)

    def setUp(self):
        super().setUp()
        self.host.cgroup("/a", owners=owned(1000))
        self.host.cgroup("/a/x")
        self.host.cgroup("/b", owners=owned(1001))

    def test_a_part_is_as_the_whole(self):
        """What a check of a part tells of it is what one of the whole host tells."""
        self.host.cgroup("/", owners={"cgroup.procs": (0, 0)}, modes={"cgroup.procs": 0o666}, enabled="memory")
        whole, part = self.looked(), self.looked(b"/a")
        inside = {key: each for key, each in whole.items.items() if each.path.startswith("/a")}
        self.assertEqual({key: each for key, each in part.items.items() if each.path.startswith("/a")}, inside)
        self.assertTrue(inside)
        found = known.compared(whole.items, part.items, part.part)
        self.assertEqual((found.changes, found.needs_whole), ((), False))

    def test_inside_of_whoever_has_too_much_nothing_is_read(self):
        found = self.looked(shallow=(1000,))
        self.assertEqual((found.part.without, found.part.there), ({"/a"}, {"/", "/a", "/b"}))
        self.assertEqual(found.metrics, "")
        self.assertIn("zirofen_findings", self.looked().metrics)

    def test_whats_back(self):
        """An entry that stands as it stood, and was changed; a cgroup that came, was changed and went."""
        before = backs.Entries()
        before.take(self.looked())
        lane = lanes.Lane(0, 0.0)
        for event in (Event(b"/a", b"cgroup.procs", ATTRIB, 7), Event(b"/", b"n", CREATE | IS_FOLDER, 7),
                      Event(b"/n", b"cgroup.procs", ATTRIB, 7), Event(b"/", b"n", DELETE | IS_FOLDER, 7),
                      Event(b"/a", b"memory.stat", ATTRIB, 7)):
            lane.touch(event, 1, 5.0, Doer(7))
        lane.touch(Event(b"/a", b"cgroup.procs", ATTRIB, 7), 1, 5.3, Doer(7))
        found = list(backs.backs(before, self.looked(), lane.take(), frozenset()))
        self.assertEqual([each.line for each in found], ["/a cgroup.procs: changed and back within 0.3 s; not asked",
                                                         "/n: made, changed and gone within 0.0 s; not asked"])
        self.assertEqual(found[0].doers, (Doer(7),))

    def test_snapshots_of_what_is_shallow_settle_nothing(self):
        options = WatchOptions(mount=self.host.mount, proc=self.host.proc, accounts=self.host.etc, program=self.program, plain_folder=True,
                               shallow=(1000,))
        report = check.report(take(options, subtrees_by(options)), options, False)
        self.assertEqual({each.path for each in report.subtrees}, {"/a", "/b"})


class ToldTest(unittest.TestCase):
    one = messages.Message("new", "/a: it\x1b[2J", 0.25, ("    change: x",), (Doer(7, 1000, "/bin/chmod", "a.service"), Doer(8)), "entry",
                           "/a", "dir", 1, True)

    def test_lines(self):
        self.assertEqual(list(messages.lines_of(self.one)), [
            "1970-01-01T00:00:00.250Z new: /a: it\x1b[2J", "    by pid 7 (uid 1000, /bin/chmod, a.service)",
            "    by pid 8, which has ended", "    change: x"])

    def test_the_journal(self):
        """A field has one line, whatever is in it."""
        for line in ("it", "it\nPRIORITY=0", "\x1b[2J", "é" * 9000):
            data = journal.datagram(journal.entry_of(self.one._replace(line=line)))
            rows = data.decode("ascii").splitlines()
            self.assertTrue(all(row.split("=")[0].replace("_", "").isalpha() and row.isprintable() for row in rows))
            self.assertEqual(sum(row.startswith("PRIORITY=") for row in rows), 1)
            self.assertIn("ZIROFEN_DOER_PID=7", rows)

    def test_datagrams(self):
        with tempfile.TemporaryDirectory() as room, socket.socket(socket.AF_UNIX, socket.SOCK_DGRAM) as manager:
            manager.bind(f"{room}/notify")
            with mock.patch.dict(os.environ, NOTIFY_SOCKET=f"{room}/notify", WATCHDOG_USEC="4000000"):
                found = journal.Manager()
                self.assertNotIn("NOTIFY_SOCKET", os.environ)
            found.tell("READY=1", "STATUS=it")
            self.assertEqual((manager.recv(99), found.within), (b"READY=1\nSTATUS=it", 2.0))
        self.assertFalse(journal.Datagrams(f"{room}/none").send(b"x"))
        with mock.patch.dict(os.environ, clear=True):
            self.assertIsNone(journal.Manager().within)

    def test_a_program_is_told_by_its_environment(self):
        with tempfile.TemporaryDirectory() as room:
            with open(f"{room}/it", "w", encoding="ascii") as script:
                script.write(f"#!/bin/sh\nenv | grep ^ZIROFEN_ > {room}/part\nmv {room}/part {room}/out\n")
            os.chmod(f"{room}/it", 0o755)
            found = hooks.Hooks(f"{room}/it")
            found.add(self.one._replace(line="$(id); `id`"))
            found.go_on()
            until = time.monotonic() + 60
            while not os.path.exists(f"{room}/out") and time.monotonic() < until:
                time.sleep(0.05)
            with open(f"{room}/out", encoding="ascii") as said:
                lines = said.read().splitlines()
        self.assertIn("ZIROFEN_LINE=$(id); `id`", lines)
        self.assertIn("ZIROFEN_DOER_UNIT=a.service", lines)

    def test_programs_that_cant_be_started_or_are_many(self):
        found = hooks.Hooks("/none")
        for _ in range(hooks.WAITING + 5):
            found.add(self.one)
        found.go_on()
        self.assertEqual((found.left_out, found.waiting, found.failed), (5, [], "No such file or directory"))

    def test_how_much_is_told_of_what_a_holder_made(self):
        def change(person):
            return mock.Mock(difference=mock.Mock(within=person))
        folding = messages.Folding()
        made = [change(1000) for _ in range(100)]
        kept, more = folding.kept([*made, change(messages.Absent.ABSENT)])
        self.assertEqual((len(kept), more), (17, {1000: 84}))
        for _ in range(100):
            kept, more = folding.kept(made)
        self.assertEqual((kept, more), ([], {1000: 100}))
        folding.begin_hour()
        self.assertEqual(len(folding.kept(made)[0]), 16)

    def test_metrics(self):
        found = "".join(numbers.parts_of("whole 1\n", numbers.Numbers(Counter({"new": 5}), 2, 3.0, 4.0, 1.0, True, 0, 0)))
        self.assertTrue(found.startswith("whole 1\n"))
        for line in ('zirofen_watch_told{kind="new"} 5', "zirofen_watch_last_event_timestamp_seconds 3", "zirofen_watch_names_processes 1"):
            self.assertIn(f"{line}\n", found)


class DoersTest(HostTest):
    def test_who(self):
        self.host.process(7, uid=1000)
        os.symlink("/usr/bin/it", f"{self.host.proc}/7/exe")
        for text, unit in (("0::/system.slice/a.service\n", "a.service"), ("0::/x\n", "cgroup /x"), ("1:cpu:/\n", ""),
                           ("0::/machine.slice/libpod-0123456789abcdef.scope/container\n", "podman:0123456789ab")):
            with open(f"{self.host.proc}/7/cgroup", "w", encoding="ascii") as out:
                out.write(text)
            self.assertEqual(doer_of(self.host.proc, 7), Doer(7, 1000, "/usr/bin/it", unit))
        self.assertEqual(doer_of(self.host.proc, 8), Doer(8))


class ChildTest(unittest.TestCase):
    def test_what_it_makes(self):
        for make, made in ((lambda: {"a": User(1, (2,))}, {"a": User(1, (2,))}),
                           (lambda: 1 // 0, checks.Failed(repr(ZeroDivisionError("integer division or modulo by zero")))),
                           (lambda: os._exit(5), checks.Failed("a check ended with 5")),
                           (lambda: time.sleep(60), checks.Failed("it took longer than 1 seconds, and this is no answer"))):
            child = checks.Child(make, 1)
            self.assertEqual(child.made(), made)

    def test_one_that_has_just_begun_can_be_ended(self):
        """What the watch does at a signal isn't done by a check that has none of its own yet."""
        self.addCleanup(signal.signal, signal.SIGTERM, signal.signal(signal.SIGTERM, lambda *_: None))
        with mock.patch.object(checks.os, "nice", lambda _: time.sleep(0.5)):
            child = checks.Child(lambda: time.sleep(30), 60)
        began = time.monotonic()
        child.ask_to_end()
        self.assertEqual(child.made(), checks.Failed(f"a check ended with {-signal.SIGTERM}"))
        self.assertLess(time.monotonic() - began, 25)

    def test_one_that_is_not_urgent_is_nicer(self):
        mine = os.getpriority(os.PRIO_PROCESS, 0)
        for is_urgent, nicer in ((True, mine), (False, min(mine + checks.LATER, 19))):
            self.assertEqual(checks.Child(lambda: os.getpriority(os.PRIO_PROCESS, 0), 60, is_urgent).made(), nicer)


if __name__ == "__main__":
    unittest.main()
