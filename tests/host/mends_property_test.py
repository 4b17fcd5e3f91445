"""A property of mends: whatever users wrote before a check, its script leaves each limit at what root's settings say, and each entry with
whom they say."""
import os
import subprocess
import tempfile
import unittest
from unittest import mock

from check_test import GROUP, PASSWD, HostTest
from made_up import MEMORY, MadeUp
from made_up_units import LIMITS, Host, Script
from zirofen_host.judge import check, settings
from zirofen_host.judge.notes import Restart
from zirofen_host.show import mends as written
from zirofen_host.show.run import Run

HOSTS = int(os.environ.get("HOSTS", "300"))


class Counts:
    """Of the openings that root's settings decide: how many there were, and how many are mended."""
    decided = mended = 0


class MendsPropertyTest(HostTest):
    def check(self, host, folder):
        """A check of a host as it is now, with its script."""
        self.host = MadeUp(folder)
        self.host.accounts(passwd=PASSWD, group=GROUP)
        host.write(self.host)
        told = host.settings()
        with mock.patch.object(settings, "read", lambda *_: told):
            report = check.report(self.host.snapshot(), self.options(), True, told)
        self.assertIn(report.status, (0, 1, 2))
        return report, "".join(written.parts_of(Run(report, report.status), "shell"))

    def carry_out(self, host):
        with tempfile.TemporaryDirectory(dir=MEMORY) as folder:
            report, script = self.check(host, folder)
            Script(host, self.host.mount).run(script)
        return report, script

    def there(self, host):
        """What a shell left: of each entry the owner, the mode and, of a limit, the value."""
        for place in host.places.values():
            for entry in place.owners:
                file = f"{self.host.mount}{place.path.rstrip('/')}" + ("" if entry == "dir" else f"/{entry}")
                found = os.stat(file)
                yield place.path, entry, found.st_uid, found.st_mode & 0o777, self.text(file) if entry in place.values else None

    def text(self, file):
        with open(file, encoding="ascii") as text:
            return text.read().strip()

    @unittest.skipIf(os.geteuid(), "a script of mends is root's")
    def test_a_shell_does_what_is_played_here(self):
        for seed in range(12):
            host = Host(seed)
            with tempfile.TemporaryDirectory(dir=MEMORY) as folder:
                _, script = self.check(host, folder)
                if "echo +" in script:
                    # plain files don't come with a controller
                    continue
                subprocess.run(["sh", "-eu"], input=script, text=True, check=True)
                Script(host, self.host.mount).run(script)
                played = [(place.path, entry, place.owners[entry][0], place.modes[entry], place.values.get(entry))
                          for place in host.places.values() for entry in place.owners]
                self.assertEqual(list(self.there(host)), played, script)

    def is_decided(self, place, file):
        """Whether root's settings say what a limit has: a setting does, or it is a share of which somebody took more."""
        return file in place.said or file == "pids.max"

    def restarts(self, report):
        return {(told.note.place, limit.file) for told in report.unseen if isinstance(told.note, Restart) for limit in told.note.limits}

    def try_host(self, seed):
        host = Host(seed)
        first, script = self.carry_out(host)
        found = {(each.path, each.entry) for each in first.entries} | {(each.path, each.file) for each in first.opened}
        for path, entry in sorted(found):
            self.count(host.places[path], entry, script)
            if entry == "cgroup.subtree_control":
                self.assertEqual(list(self.lacking_below(host, path)), [], f"seed {seed}\n{script}")
        # nothing of what was told is gone but what is mended
        second, again = self.carry_out(host)
        for path, file in self.restarts(first) - self.restarts(second):
            place = host.places[path]
            self.assertEqual(place.values[file], place.should_have(file), f"seed {seed}: {path} {file}")
        # a second script carries nothing on that the first took back
        host.restart()
        self.assertEqual(list(host.wrong()), [], f"seed {seed}\n{script}\n{again}")

    def lacking_below(self, host, path):
        """Limits of units that settings set, and that somebody took away with a controller."""
        for place in host.places.values():
            if place.path != "/" and os.path.dirname(place.path) == path:
                yield from (f"{place.path} {file}" for file in place.said if place.values.get(file) != place.should_have(file))

    def count(self, place, entry, script):
        is_value_right = entry not in LIMITS or not self.is_decided(place, entry) or place.values[entry] == place.should_have(entry)
        is_mended = place.is_right(entry) and is_value_right
        Counts.decided += 1
        Counts.mended += is_mended
        if not is_mended:
            self.assertTrue([line for line in script.splitlines() if line.startswith("#") and place.path in line and entry in line],
                            f"{place.path} {entry}\n{script}")

    def test_what_root_says_stands_behind_it(self):
        for seed in range(HOSTS):
            self.try_host(seed)
        self.assertGreater(Counts.decided, 2 * HOSTS)
        self.assertGreaterEqual(Counts.mended, 0.9 * Counts.decided)
        print(f"{HOSTS} hosts: {Counts.mended} of {Counts.decided} openings mended")


if __name__ == "__main__":
    unittest.main()
