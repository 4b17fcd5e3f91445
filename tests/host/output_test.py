"""Tests of what is written where: into whose folders, through which links, and what is left when a signal ends a helper."""
import contextlib
import os
import shutil
import signal
import stat
import subprocess
import sys
import tempfile
import threading
import time
import unittest
from unittest import mock

from check_test import HostTest, owned
from made_up import COMMAND
from zirofen_host import ending, output
from zirofen_host.fault import Fault

ALICE = 1000
# what hangs is ended; a run may wait long for a processor
SECONDS = 7200
SECRET = "root's own\n"
# asks of a pair, and doesn't come back from it
WAITING = """#!/bin/sh
case "$*" in
    *--help) exec {program} "$@";;
    --version) echo 'zirofen 1.0'; exit;;
esac
echo $$ >>'{told}'
exec sleep 600
"""


def read(file):
    with open(file, encoding="utf-8") as text:
        return text.read()


def is_running(pid):
    """Whether a process is there, and not only still to be waited for by whoever has it now."""
    try:
        return read(f"/proc/{pid}/stat").rpartition(")")[2].split()[0] != "Z"
    except (FileNotFoundError, ProcessLookupError):
        return False


def write(file, text=SECRET):
    with open(file, "w", encoding="utf-8") as out:
        out.write(text)


def mode_of(file):
    return stat.S_IMODE(os.lstat(file).st_mode)


def take_signals() -> None:
    """Takes signals as a terminal's programs do: who starts the tests may ignore some, and nohup does."""
    for number in ending.SIGNALS:
        signal.signal(number, signal.default_int_handler if number == signal.SIGINT else signal.SIG_DFL)


class OutputTest(unittest.TestCase):
    def setUp(self):
        room = tempfile.TemporaryDirectory()
        self.addCleanup(room.cleanup)
        os.chmod(room.name, 0o755)
        self.room, self.file, self.secret = room.name, f"{room.name}/page.html", f"{room.name}/secret"
        write(self.secret)
        os.chmod(self.secret, 0o600)

    def write(self, file, text="the page\n"):
        output.write(file, [text], "the page")

    def folder(self, name, uid=0, mode=0o755):
        os.mkdir(f"{self.room}/{name}")
        os.chown(f"{self.room}/{name}", uid, uid)
        os.chmod(f"{self.room}/{name}", mode)
        return f"{self.room}/{name}"

    def assert_refused(self, file, told):
        before = os.listdir(os.path.dirname(file))
        with self.assertRaisesRegex(Fault, f"^can't write the page .*{told}"):
            self.write(file)
        self.assertEqual(os.listdir(os.path.dirname(file)), before)

    def assert_kept(self):
        """What is root's own is as it was."""
        self.assertEqual((read(self.secret), mode_of(self.secret)), (SECRET, 0o600))


class FileTest(OutputTest):
    def test_a_new_file_and_one_that_is_there(self):
        with mock.patch.object(ending, "undone", wraps=ending.undone) as undone:
            self.write(self.file, "first\n")
            os.chmod(self.file, 0o640)
            self.write(self.file)
        self.assertEqual((read(self.file), mode_of(self.file), undone.call_count), ("the page\n", 0o640, 2))
        self.assertEqual(sorted(os.listdir(self.room)), ["page.html", "secret"])

    def test_its_mode_is_as_whoever_writes_one_leaves_it(self):
        for mask, mode in ((0o022, 0o644), (0o077, 0o600), (0, 0o666)):
            before = os.umask(mask)
            try:
                self.write(f"{self.room}/{mask}")
            finally:
                os.umask(before)
            self.assertEqual(mode_of(f"{self.room}/{mask}"), mode)

    def test_what_fails_leaves_what_was_there(self):
        write(self.file, "first\n")

        def parts():
            yield "half of it"
            raise OSError(28, "No space left on device")
        with self.assertRaisesRegex(Fault, "No space left on device"):
            output.write(self.file, parts(), "the page")
        self.assertEqual((read(self.file), sorted(os.listdir(self.room))), ("first\n", ["page.html", "secret"]))

    def test_no_folder_and_no_name(self):
        for file, told in ((f"{self.room}/none/file", "No such file"), (f"{self.secret}/file", "Not a directory"),
                           (self.room, "Is a directory"), (f"{self.room}/", "Is a directory"), (f"{self.room}/..", "Is a directory")):
            with self.subTest(file), self.assertRaisesRegex(Fault, told):
                self.write(file)

    def test_a_name_in_the_folder_where_it_runs_and_links_of_roots(self):
        self.folder("one")
        os.symlink("one", f"{self.room}/two")
        os.symlink(f"{self.room}/two/../two", f"{self.room}/three")
        before = os.getcwd()
        os.chdir(self.room)
        self.addCleanup(os.chdir, before)
        self.write("page.html")
        self.write("three/./page.html", "another\n")
        self.assertEqual((read(self.file), read(f"{self.room}/one/page.html")), ("the page\n", "another\n"))


class SpecialTest(OutputTest):
    def test_a_pipe_is_written_as_it_is(self):
        os.mkfifo(self.file)
        found = []
        reader = threading.Thread(target=lambda: found.append(read(self.file)))
        reader.start()
        self.write(self.file)
        reader.join()
        self.assertEqual((found, stat.S_ISFIFO(os.stat(self.file).st_mode)), (["the page\n"], True))

    def test_a_terminal_and_devices_that_take_all(self):
        above, below = os.openpty()
        with open(above, "rb", buffering=0) as terminal:
            self.write(os.ttyname(below))
            self.assertEqual(terminal.read(99), b"the page\r\n")
        os.close(below)
        self.write("/dev/null")
        self.assertTrue(stat.S_ISCHR(os.stat("/dev/null").st_mode))
        self.assert_refused_device("/dev/full", "No space left on device")

    def assert_refused_device(self, file, told):
        with self.assertRaisesRegex(Fault, f"^can't write the page {file}: .*{told}"):
            self.write(file)

    @unittest.skipUnless(os.geteuid() == 0, "takes root")
    def test_no_device_that_keeps_what_is_written(self):
        for name, kind, number, told in (("block", stat.S_IFBLK, os.makedev(7, 250), "it is a block device"),
                                         ("memory", stat.S_IFCHR, os.makedev(1, 8), "it is a device, and no terminal")):
            try:
                os.mknod(f"{self.room}/{name}", 0o600 | kind, number)
            except PermissionError:
                self.skipTest("no device can be made")
            self.assert_refused(f"{self.room}/{name}", told)

    def test_by_the_number_of_what_is_open(self):
        with open(self.file, "wb") as out:
            for file in (f"/dev/fd/{out.fileno()}", f"/proc/self/fd/{out.fileno()}"):
                self.write(file)
        self.assertEqual(read(self.file), "the page\n" * 2)
        self.assert_refused_device("/dev/fd/999", "Bad file descriptor")


@unittest.skipUnless(os.geteuid() == 0, "takes root")
class OthersTest(OutputTest):
    """Where somebody else owns or writes what is on the way."""

    def test_a_folder_of_somebody_elses(self):
        hers = self.folder("hers", ALICE)
        self.assert_refused(f"{hers}/page.html", f"somebody else owns or writes the folder {hers}")
        os.mkdir(f"{hers}/roots")
        self.assert_refused(f"{hers}/roots/page.html", f"the folder {hers}, and root writes into none of theirs")
        for mode in (0o775, 0o777, 0o757):
            written = self.folder(f"written{mode}", 0, mode)
            self.assert_refused(f"{written}/page.html", "somebody else owns or writes")
            os.chmod(written, mode | stat.S_ISVTX)
            self.write(f"{written}/page.html")

    def test_a_link_on_the_way_of_somebody_elses(self):
        everybodys = self.folder("everybodys", 0, 0o1777)
        os.symlink(self.room, f"{everybodys}/link")
        self.write(f"{everybodys}/link/page.html")
        os.chown(f"{everybodys}/link", ALICE, ALICE, follow_symlinks=False)
        self.assert_refused(f"{everybodys}/link/page.html", "is a link of somebody else's")
        os.symlink("loop", f"{self.room}/loop")
        with self.assertRaisesRegex(Fault, "one of too many"):
            self.write(f"{self.room}/loop/page.html")

    def test_somebody_elses_in_everybodys_folder(self):
        """What stands at the name itself: a link and a file are put out of the way, and a pipe isn't waited for."""
        everybodys = self.folder("everybodys", 0, 0o1777)
        file = f"{everybodys}/page.html"
        for make in (lambda: os.symlink(self.secret, file), lambda: write(file, "hers\n")):
            make()
            os.chown(file, ALICE, ALICE, follow_symlinks=False)
            self.write(file)
            status = os.lstat(file)
            self.assertEqual((read(file), status.st_uid, stat.S_ISREG(status.st_mode)), ("the page\n", 0, True))
            os.remove(file)
        os.mkfifo(file)
        os.chown(file, ALICE, ALICE)
        self.assert_refused(file, "it is a pipe of somebody else's")
        self.assert_kept()

    def test_a_link_in_the_place_of_what_is_being_written(self):
        """Who owns the folder puts a link where the new file is made, before it is made, and before it gets its name."""
        for hooked in ("open", "rename"):
            with self.subTest(hooked), mock.patch.object(output.os, "urandom", lambda count: b"\0" * count):
                new, original = f"{self.room}/.zirofen-{'00' * 8}", getattr(os, hooked)

                def acts(path, *more, **how):
                    if how.get("dir_fd") or how.get("src_dir_fd"):
                        with contextlib.suppress(FileNotFoundError):
                            os.remove(new)
                        os.symlink(self.secret, new)
                    return original(path, *more, **how)
                with mock.patch.object(output.os, hooked, acts), contextlib.suppress(Fault):
                    self.write(self.file)
                self.assert_kept()
                self.assertFalse(os.path.lexists(new))
                with contextlib.suppress(FileNotFoundError):
                    os.remove(self.file)

    def test_a_folder_that_is_changed_for_another_meanwhile(self):
        one, other = self.folder("one"), self.folder("other")
        rename = os.rename

        def acts(*words, **how):
            rename(one, f"{self.room}/gone")
            os.symlink(other, one)
            return rename(*words, **how)
        with mock.patch.object(output.os, "rename", acts):
            self.write(f"{one}/page.html")
        self.assertEqual((os.listdir(f"{self.room}/gone"), os.listdir(other)), (["page.html"], []))

    def test_what_another_puts_in_the_place_of_a_pipe_meanwhile(self):
        os.mkfifo(self.file)
        original = os.open

        def acts(path, *more, **how):
            if path == "page.html":
                os.remove(self.file)
                os.symlink(self.secret, self.file)
            return original(path, *more, **how)
        with mock.patch.object(output.os, "open", acts), self.assertRaises(Fault):
            self.write(self.file)
        self.assert_kept()

    def test_a_temporary_folder_in_somebody_elses(self):
        hers = self.folder("hers", ALICE)
        with mock.patch.dict(os.environ, TMPDIR=hers), self.assertRaisesRegex(Fault, "^can't make a temporary folder in .*/hers: "):
            with output.temporary_folder():
                pass
        self.assertEqual(os.listdir(hers), [])


@unittest.skipUnless(os.geteuid() == 0, "only root gives files away")
class HelperTest(HostTest):
    """The helpers, as they are called."""

    def setUp(self):
        super().setUp()
        self.host.cgroup("/a", owners=owned(ALICE))
        self.host.cgroup("/b", owners=owned(1001))
        self.temporary = f"{self.host.folder}/temporary"
        os.mkdir(self.temporary)

    def words(self, *words, program=None):
        return [sys.executable, "-I", COMMAND, "check", "--plain-folder", "--mount", self.host.mount, "--proc", self.host.proc,
                "--accounts", self.host.etc, "--zirofen", program or self.program, *words]

    def check(self, *words):
        environment = {**os.environ, "TMPDIR": self.temporary}
        ended = subprocess.run(self.words(*words), capture_output=True, text=True, env=environment, timeout=SECONDS)
        self.assertEqual(os.listdir(self.temporary), [])
        return ended

    def test_who_owns_the_folder_of_a_page_is_told_of(self):
        hers = f"{self.host.folder}/hers"
        os.mkdir(hers)
        os.chown(hers, ALICE, ALICE)
        for words in (("--html", f"{hers}/page.html"), ("--keep", f"{hers}/tree.toml"), ("--baseline-update", f"{hers}/baseline.json")):
            ended = self.check(*words)
            self.assertEqual((ended.returncode, os.listdir(hers)), (3, []))
            self.assertEqual((ended.stdout + ended.stderr).count("root writes into none of theirs"), 1)
            self.assertEqual([line.split()[2:] for line in ended.stdout.splitlines()[1:3]],
                             [["contained", "[limited]", "/a"], ["contained", "[limited]", "/b"]])

    def test_what_somebody_puts_where_something_is_kept(self):
        """The answers of the others are the same, whatever stands at FILE and at FILE.new."""
        everybodys, secret = f"{self.host.folder}/everybodys", f"{self.host.folder}/secret"
        os.mkdir(everybodys)
        os.chmod(everybodys, 0o1777)
        write(secret)
        kept, baseline = f"{everybodys}/tree.toml", f"{everybodys}/baseline.json"
        for make in (os.mkfifo, lambda file: os.symlink(secret, file), lambda file: write(file, "hers\n")):
            for file in (kept, f"{baseline}.new"):
                make(file)
                os.chown(file, ALICE, ALICE, follow_symlinks=False)
            is_pipe = stat.S_ISFIFO(os.lstat(kept).st_mode)
            ended = self.check("--baseline-update", baseline, *(() if is_pipe else ("--keep", kept)))
            self.assertEqual((ended.returncode, ended.stderr), (0, ""))
            self.assertEqual([line.split()[2:] for line in ended.stdout.splitlines()[1:3]],
                             [["contained", "[limited]", "/a"], ["contained", "[limited]", "/b"]])
            self.assertEqual((os.lstat(baseline).st_uid, read(secret)), (0, SECRET))
            if is_pipe:
                self.assertIn("it is a pipe of somebody else's", self.check("--keep", kept).stdout)
            else:
                self.assertEqual((os.lstat(kept).st_uid, read(kept)[:12]), (0, "format = 4\n#"))
            for file in (kept, baseline, f"{baseline}.new"):
                os.remove(file)

    def test_a_baseline_that_somebody_could_have_put_there(self):
        """Nobody accepts what is found but whom root takes a baseline from, and nobody keeps a check waiting."""
        everybodys, roots, theirs = (f"{self.host.folder}/{name}" for name in ("everybodys", "roots", "theirs"))
        for folder, mode in ((everybodys, 0o1777), (roots, 0o755), (theirs, 0o755)):
            os.mkdir(folder)
            os.chmod(folder, mode)
        kept = f"{roots}/kept.json"
        self.assertEqual(self.check("--baseline-update", kept).returncode, 0)
        os.chown(theirs, ALICE, ALICE)
        made = (lambda file: shutil.copy(kept, file), os.mkfifo, lambda file: os.symlink(kept, file))
        for file in (f"{everybodys}/base.json", f"{theirs}/base.json"):
            for make in made:
                make(file)
                os.chown(file, ALICE, ALICE, follow_symlinks=False)
                ended = self.check("--baseline", file)
                self.assertEqual((ended.returncode, ended.stdout), (3, ""))
                self.assertRegex(ended.stderr, f"^zirofen-host check: can't read the baseline {file}: .*somebody else")
                os.remove(file)
        for owner, mode, status in ((0, 0o664, 0), (0, 0o666, 3), (50, 0o644, 0), (50, 0o664, 3)):
            os.chown(kept, 0, owner)
            os.chmod(kept, mode)
            self.assertEqual(self.check("--baseline", kept).returncode, status)

    def test_a_baseline_of_roots_by_its_links(self):
        kept = f"{self.host.folder}/kept.json"
        self.assertEqual(self.check("--baseline-update", kept).returncode, 0)
        os.symlink("kept.json", f"{self.host.folder}/to-it")
        os.symlink("to-it", f"{self.host.folder}/to-that")
        os.symlink("itself", f"{self.host.folder}/itself")
        self.assertEqual(self.check("--baseline", f"{self.host.folder}/to-that").returncode, 0)
        with open(kept, "rb") as given:
            ended = subprocess.run(self.words("--baseline", "/dev/stdin"), stdin=given, capture_output=True, text=True, timeout=SECONDS)
        self.assertEqual((ended.returncode, ended.stderr), (0, ""))
        for odd in ("itself", "temporary", "temporary/"):
            ended = self.check("--baseline", f"{self.host.folder}/{odd}")
            self.assertEqual((ended.returncode, ended.stdout, ended.stderr.count("\n")), (3, "", 1))

    def test_what_is_kept_into_a_pipe_is_asked_of_too(self):
        ended = self.check("--keep", "/dev/stderr")
        self.assertEqual((ended.returncode, ended.stderr[:12]), (0, "format = 4\n#"))
        self.assertEqual(self.check("--keep", "/dev/null").returncode, 0)

    def test_a_bound_on_the_size_of_files(self):
        ended = subprocess.run(["bash", "-c", 'ulimit -f 0; exec "$@"', "bash", *self.words()], capture_output=True, text=True,
                               env={**os.environ, "TMPDIR": self.temporary})
        self.assertEqual((ended.returncode, ended.stdout, ended.stderr.count("\n")), (3, "", 1))
        self.assertIn("File too large", ended.stderr)
        self.assertEqual(os.listdir(self.temporary), [])

    def test_nothing_is_left_when_a_signal_ends_it(self):
        for number in ending.SIGNALS:
            with self.subTest(number):
                program, told = (f"{self.host.folder}/{name}{number}" for name in ("waiting", "told"))
                write(program, WAITING.format(program=self.program, told=told))
                os.chmod(program, 0o755)
                started = subprocess.Popen(self.words(program=program), env={**os.environ, "TMPDIR": self.temporary}, text=True,
                                           stdout=subprocess.PIPE, stderr=subprocess.PIPE,
                                           preexec_fn=take_signals)
                self.wait_for(lambda: os.path.exists(told) and read(told).endswith("\n"))
                self.assertEqual(len(os.listdir(self.temporary)), 1)
                started.send_signal(number)
                said, line = started.communicate(timeout=SECONDS)
                self.assertEqual((started.returncode, said, os.listdir(self.temporary)), (-number, "", []))
                self.assertEqual(line, f"zirofen-host check: ended by {number.name}, and this is no answer\n")
                self.wait_for(lambda: not any(map(is_running, read(told).split())))

    def test_a_program_that_is_just_started_is_not_left(self):
        code = ("import os, signal, subprocess, sys; sys.path.insert(0, sys.argv[1]);"
                "from zirofen_host import ending;"
                "real = subprocess.Popen.__init__;"
                "signalled = lambda it, *words, **named: (real(it, *words, **named), print(it.pid, flush=True),"
                " os.kill(os.getpid(), signal.SIGTERM)) and None;"
                "subprocess.Popen.__init__ = signalled;"
                "ending.take_signals('it'); ending.run(['sleep', '600'])")
        ended = subprocess.run([sys.executable, "-c", code, os.path.dirname(COMMAND)], capture_output=True, text=True)
        self.assertEqual((ended.returncode, ended.stderr), (-signal.SIGTERM, "it: ended by SIGTERM, and this is no answer\n"))
        self.wait_for(lambda: not is_running(ended.stdout.strip()))

    def test_what_is_ignored_stays_so(self):
        code = ("import os, signal, sys; signal.signal(signal.SIGHUP, signal.SIG_IGN); sys.path.insert(0, sys.argv[1]);"
                "from zirofen_host import ending; ending.take_signals('it'); os.kill(os.getpid(), signal.SIGHUP); print('on')")
        ended = subprocess.run([sys.executable, "-c", code, os.path.dirname(COMMAND)], capture_output=True, text=True)
        self.assertEqual((ended.stdout, ended.stderr), ("on\n", ""))

    def wait_for(self, holds):
        until = time.monotonic() + SECONDS
        while not holds():
            self.assertLess(time.monotonic(), until, "waited in vain")
            time.sleep(0.02)


class ProgramTest(unittest.TestCase):
    def test_a_program_is_told_of_a_file_that_gets_too_large(self):
        with tempfile.TemporaryDirectory() as room:
            ended = ending.run(["sh", "-c", 'ulimit -f 0; echo x >"$0/file" || echo told', room])
        self.assertEqual((ended.returncode, ended.stdout), (0, "told\n"))


class IsolatedTest(unittest.TestCase):
    """Python takes nothing from whoever calls the helpers."""

    def test_what_the_environment_and_the_folder_bring(self):
        with tempfile.TemporaryDirectory() as room:
            for name in ("argparse", "json", "sitecustomize", "usercustomize", "zirofen_host"):
                write(f"{room}/{name}.py", "import os\nprint('taken from the folder')\nos._exit(0)\n")
            for words in ([COMMAND, "--help"], [COMMAND, "none"]):
                ended = subprocess.run(words, cwd=room, capture_output=True, text=True,
                                       env={**os.environ, "PYTHONPATH": room, "PYTHONSTARTUP": f"{room}/json.py", "HOME": room})
                self.assertEqual((ended.returncode, "taken from" in ended.stdout), (0 if "--help" in words else 3, False))
                self.assertRegex(ended.stdout + ended.stderr, "zirofen-host COMMAND|there is no command none")

    def test_without_its_package_it_is_a_fault(self):
        with tempfile.TemporaryDirectory() as room:
            write(f"{room}/zirofen-host", read(COMMAND))
            os.chmod(f"{room}/zirofen-host", 0o755)
            ended = subprocess.run([f"{room}/zirofen-host", "check"], capture_output=True, text=True)
        self.assertEqual((ended.returncode, ended.stdout, ended.stderr.count("\n")), (3, "", 1))


if __name__ == "__main__":
    unittest.main()
