"""Tests of the folder in which results are kept: what is taken from it, and what counts for nothing."""
import os
import pwd
import subprocess
import sys
import tempfile
import time
import unittest
from unittest import mock

import kept
from checkout import TOP, read, write

TOLD = {"seconds": 3}


class StoreTest(unittest.TestCase):
    def setUp(self):
        room = tempfile.TemporaryDirectory()
        self.addCleanup(room.cleanup)
        self.room, self.said = room.name, []
        environment = {it: value for it, value in os.environ.items() if not it.startswith("GATE_")}
        patched = mock.patch.dict(os.environ, {**environment, "GATE_KEPT": f"{self.room}/kept"}, clear=True)
        patched.start()
        self.addCleanup(patched.stop)

    def store(self):
        return kept.Store(self.said.append)

    def kept_one(self):
        store = self.store()
        for name in ("one", "folder/two"):
            write(f"{self.room}/out/{name}", f"text of {name}")
        os.chmod(f"{self.room}/out/one", 0o755)
        store.keep("made", "low", "sum", TOLD, (f"{self.room}/out", ["one", "folder"]))
        return store, store.path("made", "low", "sum")


class PlaceTest(StoreTest):
    def test_the_folder(self):
        home = pwd.getpwuid(os.geteuid()).pw_dir
        for environment, at in (({"GATE_KEPT": "/named", "XDG_CACHE_HOME": "/cache"}, "/named"), ({"XDG_CACHE_HOME": "/cache"}, "/cache/zirofen-gate"),
                                ({"XDG_CACHE_HOME": "cache", "HOME": "/other"}, f"{home}/.cache/zirofen-gate"), ({}, f"{home}/.cache/zirofen-gate")):
            with self.subTest(at), mock.patch.dict(os.environ, environment, clear=True):
                self.assertEqual(kept.folder(), at)

    def test_it_is_made_for_its_owner_alone(self):
        self.assertEqual(os.stat(self.store().at).st_mode & 0o777, 0o700)
        self.assertEqual(self.said, [])

    def test_one_that_others_can_write_to_is_not_used_and_that_is_said_once(self):
        self.kept_one()
        for mode in (0o770, 0o707):
            os.environ.pop("GATE_NOT_KEPT", None)
            self.said.clear()
            os.chmod(f"{self.room}/kept", mode)
            self.assertIsNone(self.store().at)
            self.assertIsNone(self.store().take("made", "low", "sum"))
            self.assertEqual(len(self.said), 1)
            self.assertIn("others can write to it", self.said[0])

    @unittest.skipIf(os.geteuid(), "only root gives folders away")
    def test_one_of_another_user_is_not_used(self):
        store, path = self.kept_one()
        os.chown(path, 65534, -1)
        self.assertIsNone(store.take("made", "low", "sum"))
        os.chown(path, 0, -1)
        self.assertEqual(store.take("made", "low", "sum"), TOLD)
        os.chown(store.at, 65534, -1)
        self.assertIsNone(self.store().at)

    def test_a_link_a_file_and_a_place_that_can_not_be_made_are_not_used(self):
        os.mkdir(f"{self.room}/elsewhere")
        os.symlink(f"{self.room}/elsewhere", f"{self.room}/kept")
        self.assertIsNone(self.store().at)
        write(f"{self.room}/file", "")
        for at in ("file", "file/below"):
            with mock.patch.dict(os.environ, {"GATE_KEPT": f"{self.room}/{at}"}):
                store = self.store()
                store.keep("made", "low", "sum", TOLD)
                self.assertIsNone(store.at)

    def test_nothing_is_taken_or_kept_anew(self):
        self.kept_one()
        with mock.patch.dict(os.environ, {"GATE_ANEW": "1"}):
            store = self.store()
            store.keep("made", "high", "sum", TOLD)
            self.assertIsNone(store.take("made", "low", "sum"))
        self.assertEqual(len(os.listdir(f"{self.room}/kept")), 1)


class EntryTest(StoreTest):
    def test_what_is_kept_is_taken_whole(self):
        store, _ = self.kept_one()
        self.assertEqual(store.take("made", "low", "sum", f"{self.room}/to"), TOLD)
        self.assertEqual((read(f"{self.room}/to/one"), read(f"{self.room}/to/folder/two")), ("text of one", "text of folder/two"))
        self.assertTrue(os.access(f"{self.room}/to/one", os.X_OK))

    def test_another_name_kind_or_sum_has_nothing(self):
        store, path = self.kept_one()
        for other in (("made", "low", "other"), ("made", "high", "sum"), ("proof", "low", "sum")):
            self.assertIsNone(store.take(*other))
            # also where the file bears that name
            os.link(path, store.path(*other))
            self.assertIsNone(store.take(*other))

    def test_each_byte_that_is_damaged_or_cut_off_makes_it_nothing(self):
        store, path = self.kept_one()
        with open(path, "rb") as it:
            whole = it.read()
        for at in range(len(whole)):
            for text in (whole[:at], whole[:at] + bytes([whole[at] ^ 1]) + whole[at + 1:]):
                with open(path, "wb") as out:
                    out.write(text)
                self.assertIsNone(store.take("made", "low", "sum", f"{self.room}/to"), at)
        self.assertFalse(os.path.exists(f"{self.room}/to"))

    def test_one_that_others_can_write_to_or_that_is_no_file(self):
        store, path = self.kept_one()
        os.chmod(path, 0o620)
        self.assertIsNone(store.take("made", "low", "sum"))
        os.chmod(path, 0o600)
        os.rename(path, f"{self.room}/moved")
        os.symlink(f"{self.room}/moved", path)
        self.assertIsNone(store.take("made", "low", "sum"))

    def test_what_a_killed_run_has_begun_is_no_entry_and_goes(self):
        store = self.store()
        killed = subprocess.Popen([sys.executable, "-c", f"""
import sys, os, signal
sys.path.insert(0, {TOP + "/gate"!r})
import kept
os.rename = lambda *_: os.kill(os.getpid(), signal.SIGKILL)
kept.Store().keep("made", "low", "sum", {TOLD!r})
"""])
        self.assertEqual(killed.wait(), -9)
        self.assertEqual([it.startswith(kept.BEGUN) for it in os.listdir(store.at)], [True])
        self.assertIsNone(store.take("made", "low", "sum"))
        write(f"{store.at}/{kept.BEGUN}{os.getpid()}-mine", "")
        store.shrink()
        self.assertEqual(os.listdir(store.at), [f"{kept.BEGUN}{os.getpid()}-mine"])

    def test_two_runs_at_once(self):
        words = [sys.executable, "-c", f"""
import sys
sys.path.insert(0, {TOP + "/gate"!r})
import kept
store = kept.Store()
for number in range(200):
    store.keep("made", "low", str(number % 5), {TOLD!r}, ({TOP!r}, ["gate/kept.py"]))
    told = store.take("made", "low", str(number % 5), sys.argv[1])
    assert told == {TOLD!r}, told
    assert open(sys.argv[1] + "/gate/kept.py").read() == open({TOP + "/gate/kept.py"!r}).read()
    store.shrink()
"""]
        runs = [subprocess.Popen([*words, f"{self.room}/to{number}"]) for number in range(2)]
        self.assertEqual([it.wait() for it in runs], [0, 0])
        self.assertEqual(len(os.listdir(f"{self.room}/kept")), 5)

    def test_those_used_longest_ago_go_first(self):
        store = self.store()
        write(f"{self.room}/out/large", "large" * 40000)
        for number in range(4):
            store.keep("made", f"crate{number}", "sum", TOLD, (f"{self.room}/out", ["large"]))
            os.utime(store.path("made", f"crate{number}", "sum"), (1000 + number, 1000 + number))
        store.take("made", "crate0", "sum")
        size = 512 * os.stat(store.path("made", "crate0", "sum")).st_blocks
        store.shrink(2 * size)
        self.assertEqual([os.path.exists(store.path("made", f"crate{it}", "sum")) for it in range(4)], [True, False, False, True])
        self.assertLess(time.time() - os.stat(store.path("made", "crate0", "sum")).st_mtime, 60)

    def test_a_full_disk_keeps_nothing_and_fails_nothing(self):
        store = self.store()
        with mock.patch.object(os, "rename", side_effect=OSError(28, "No space left on device")):
            store.keep("made", "low", "sum", TOLD)
        self.assertEqual(os.listdir(store.at), [])


class SumTest(StoreTest):
    def test_each_byte_name_mode_and_link_is_in_the_sum(self):
        top = f"{self.room}/top"
        write(f"{top}/src/one", "1")
        write(f"{top}/src/deep/two", "2")
        write(f"{top}/out/three", "3")
        found = [kept.sums_of_files(top, ["src", "none"])]
        changes = (lambda: write(f"{top}/src/deep/two", "3"), lambda: os.rename(f"{top}/src/one", f"{top}/src/other"),
                   lambda: os.chmod(f"{top}/src/other", 0o755), lambda: os.symlink("other", f"{top}/src/link"),
                   lambda: (os.remove(f"{top}/src/link"), os.symlink("elsewhere", f"{top}/src/link")))
        for change in changes:
            change()
            found.append(kept.sums_of_files(top, ["src", "none"]))
        self.assertEqual(len({str(it) for it in found}), 1 + len(changes))
        self.assertEqual(kept.sums_of_files(top, ["."], ("out", "deep")).keys(), {"./src/link", "./src/other"})


if __name__ == "__main__":
    unittest.main()
