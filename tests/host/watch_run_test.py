"""Tests of a watch as it is started: on a hierarchy of plain files, of which inotify tells."""
import json
import os
import queue
import signal
import socket
import subprocess
import sys
import threading
import time
import unittest

from called import PROGRAM
from check_test import HostTest, owned
from made_up import COMMAND

# seconds that something may take on a machine with much to do
LONG = 600


@unittest.skipUnless(os.geteuid() == 0, "owners of plain files are set by root alone")
class RunTest(HostTest):
    def setUp(self):
        super().setUp()
        self.host.cgroup("/a", owners=owned(1000))
        self.host.cgroup("/b", owners=owned(1001))

    def start(self, *words, **environment):
        """A watch that runs, once it watches all of it."""
        told = [sys.executable, COMMAND, "watch", "--plain-folder", "--mount", self.host.mount, "--proc", self.host.proc, "--accounts",
                self.host.etc, "--zirofen", PROGRAM, *words]
        self.process = subprocess.Popen(told, stdout=subprocess.PIPE, stderr=subprocess.STDOUT, text=True,
                                        env={**os.environ, **environment})
        self.addCleanup(self.process.stdout.close)
        self.addCleanup(self.process.wait)
        self.addCleanup(self.process.kill)
        self.lines = queue.Queue()
        threading.Thread(target=lambda: [self.lines.put(line.rstrip("\n")) for line in self.process.stdout], daemon=True).start()
        return self.said("cgroups were asked of")

    def said(self, word):
        """The lines up to one that has a word."""
        found, until = [], time.monotonic() + LONG
        while not found or word not in found[-1]:
            try:
                found.append(self.lines.get(timeout=max(until - time.monotonic(), 0.1)))
            except queue.Empty:
                self.fail(f"{word!r} wasn't said: {found}")
        return [line.partition("Z ")[2] if line[:2] == "20" else line for line in found]

    def end(self):
        self.process.send_signal(signal.SIGTERM)
        self.assertEqual(self.process.wait(LONG), 0)

    def test_what_is_told(self):
        """What opens, what is mended, what comes and goes; nothing twice."""
        first = self.start()
        self.assertEqual([line for line in first if line.startswith(("new", "worse"))], [])
        self.assertIn(f"watch: {self.host.mount} is watched, without who does it", first)
        os.chmod(f"{self.host.mount}/a/memory.max", 0o666)
        line = self.said("/a memory.max")[-1]
        self.assertTrue(line.startswith("new: /a memory.max (0:0 666): escapes"), line)
        os.chmod(f"{self.host.mount}/a/memory.max", 0o644)
        self.assertTrue(self.said("/a memory.max")[-1].startswith("mended: /a memory.max (0:0 666)"))
        self.host.cgroup("/c", owners=owned(1002))
        self.assertEqual(self.said("/c: ")[-1], "new: /c: contained, by 1002 who holds it")
        for file in os.listdir(f"{self.host.mount}/c"):
            os.remove(f"{self.host.mount}/c/{file}")
        os.rmdir(f"{self.host.mount}/c")
        self.assertIn("gone: /c: contained, by 1002 who holds it", self.said("gone: /c"))
        self.end()

    def test_whoever_changes_something_at_first(self):
        """The first check of all of it reads nothing of theirs, and their own has what stands there; the numbers are those of all of it."""
        self.host.cgroup("/a/x", owners=owned(1002))
        is_ended = threading.Event()

        def change():
            while not is_ended.wait(0.02):
                os.chmod(f"{self.host.mount}/a/cgroup.procs", 0o600)
                os.chmod(f"{self.host.mount}/a/cgroup.procs", 0o644)

        changing = threading.Thread(target=change)
        changing.start()
        self.addCleanup(changing.join)
        self.addCleanup(is_ended.set)
        first = self.start("--format", f"metrics={self.host.folder}/watch.prom")
        self.assertIn("watch: 3 cgroups were asked of", first[-1])
        line = "new: /a/x: contained, by 1002 who holds it"
        self.assertIn(line, first if line in first else self.said(line))
        self.waited_for(f"{self.host.folder}/watch.prom")
        with open(f"{self.host.folder}/watch.prom", encoding="ascii") as text:
            self.assertIn("zirofen_subtrees_asked 3\n", text.read())
        self.end()

    def test_a_baseline_and_acceptances(self):
        """What stands in the baseline isn't new, and what is accepted isn't told."""
        os.chmod(f"{self.host.mount}/a/memory.max", 0o666)
        file = f"{self.host.folder}/baseline.json"
        with open(file, "w", encoding="ascii") as out:
            subprocess.run([sys.executable, COMMAND, "check", "--plain-folder", "--mount", self.host.mount, "--proc", self.host.proc,
                            "--accounts", self.host.etc, "--zirofen", PROGRAM, "--json"], stdout=out)
        accept = f"{self.host.folder}/accept.toml"
        with open(accept, "w", encoding="ascii") as out:
            out.write('[[accept]]\nwhat = "escapes/limit-file"\npath = "/b"\nentry = "memory.max"\nwhom = "everybody"\nreason = "it"\n'
                      "until = 2999-01-01\n")
        first = self.start("--baseline", file, "--accept", accept)
        self.assertEqual([line for line in first if line.startswith(("new", "worse", "gone", "mended"))], [])
        os.chmod(f"{self.host.mount}/b/memory.max", 0o666)
        time.sleep(2)
        os.chmod(f"{self.host.mount}/a/memory.max", 0o644)
        lines = self.said("/a memory.max")
        self.assertTrue(lines[-1].startswith("mended: /a memory.max"))
        self.assertEqual([line for line in lines if line.startswith("new: /b memory.max")], [])
        self.end()

    def test_forms_metrics_and_the_manager(self):
        place, folder = f"{self.host.folder}/notify", self.host.folder
        with socket.socket(socket.AF_UNIX, socket.SOCK_DGRAM) as manager:
            manager.bind(place)
            manager.settimeout(LONG)
            self.start("--format", f"json={folder}/report.json", "--format", f"metrics={folder}/watch.prom", NOTIFY_SOCKET=place,
                       WATCHDOG_USEC="60000000")
            self.assertEqual(manager.recv(99), b"READY=1\nSTATUS=watching")
            self.assertEqual(manager.recv(99), b"WATCHDOG=1")
            self.process.send_signal(signal.SIGUSR1)
            self.waited_for(f"{folder}/report.json")
            with open(f"{folder}/report.json", encoding="ascii") as text:
                self.assertEqual([each["path"] for each in json.load(text)["subtrees"]], ["/a", "/b"])
            os.remove(f"{folder}/report.json")
            self.waited_for(f"{folder}/watch.prom")
            with open(f"{folder}/watch.prom", encoding="ascii") as text:
                found = text.read()
            self.assertIn("zirofen_subtrees_asked 2\n", found)
            self.assertIn("zirofen_watch_names_processes 0\n", found)
            self.end()
            self.assertTrue(os.path.exists(f"{folder}/report.json"))
            words = [b""]
            while words[-1] != b"STOPPING=1":
                words.append(manager.recv(99))

    def waited_for(self, file):
        until = time.monotonic() + LONG
        while not os.path.exists(file):
            self.assertLess(time.monotonic(), until)
            time.sleep(0.05)

    def test_a_program_that_is_started(self):
        script, out = f"{self.host.folder}/it", f"{self.host.folder}/out"
        with open(script, "w", encoding="ascii") as text:
            text.write(f"#!/bin/sh\nenv > {out}.part\nmv {out}.part {out}\n")
        os.chmod(script, 0o755)
        self.start("--exec", script)
        os.chmod(f"{self.host.mount}/a/memory.max", 0o666)
        self.waited_for(out)
        with open(out, encoding="ascii") as text:
            lines = text.read().splitlines()
        self.assertLessEqual({"ZIROFEN_KIND=new", "ZIROFEN_CGROUP=/a", "ZIROFEN_ENTRY=memory.max", "ZIROFEN_STATUS=1"}, set(lines))
        self.end()

    def test_accounts_that_change(self):
        """Somebody gets into a group that has an entry."""
        os.chown(f"{self.host.mount}/a/memory.max", 0, 60)
        os.chmod(f"{self.host.mount}/a/memory.max", 0o664)
        self.start()
        self.host.accounts(group="team:x:60:bob\n")
        self.assertTrue(self.said("/a memory.max")[-1].startswith(("new: /a memory.max", "worse: /a memory.max")))
        self.end()


if __name__ == "__main__":
    unittest.main()
