"""Tests of which package has a kernel, and where it has it; apt is played."""
import os
import sys
import tempfile
import unittest
import unittest.mock

TOP = os.path.dirname(os.path.dirname(os.path.abspath(__file__)))
sys.path[:0] = [TOP, os.path.join(TOP, "..", "model")]
from trial import packages

LISTED = ("linux-image-6.1.0-9-cloud-amd64", "linux-image-6.1.0-10-cloud-amd64", "linux-image-6.12.117+deb12-cloud-amd64",
          "linux-image-7.3.4+deb13-cloud-amd64", "linux-image-7.2.12+deb13-cloud-amd64", "linux-image-7.4.1+deb13-cloud-amd64-dbg",
          "linux-image-7.4.1+deb13-amd64", "linux-image-cloud-amd64")
# what each package has
IMAGES = {"linux-image-6.1.0-10-cloud-amd64": "boot/vmlinuz-6.1.0-10-cloud-amd64",
          "linux-image-7.3.4+deb13-cloud-amd64": "usr/share/doc/empty",
          "linux-binary-7.3.4+deb13-cloud-amd64": "usr/lib/modules/7.3.4+deb13-cloud-amd64/vmlinuz",
          "linux-image-6.12.117+deb12-cloud-amd64": "usr/share/doc/empty"}


class PackagesTest(unittest.TestCase):
    def setUp(self):
        room = tempfile.TemporaryDirectory()
        self.addCleanup(room.cleanup)
        self.room, self.asked = room.name, []

    def apt(self, *words, **how):
        """What apt does: the names that it lists, and a package that is there already unpacked."""
        self.asked.append(words)
        if "pkgnames" in words:
            return unittest.mock.Mock(stdout="\n".join(LISTED))
        if "download" in words and words[-1] in IMAGES:
            place = os.path.join(how["cwd"], IMAGES[words[-1]])
            os.makedirs(os.path.dirname(place))
            with open(place, "w"):
                pass
        return unittest.mock.Mock(returncode=0, stderr="" if words[-1] in IMAGES else "E: no such package")

    def kernel(self, version):
        with unittest.mock.patch.object(packages, "ran", self.apt):
            found, package = packages.kernel_of(version, self.room)
        return os.path.relpath(found, self.room), package

    def test_the_newest_of_a_version_and_of_all(self):
        for version, package in (("6.1", LISTED[1]), ("6.12", LISTED[2]), ("7", LISTED[3]), (packages.NEWEST, LISTED[3])):
            self.assertEqual(packages.package_of(version, LISTED), package)
        for version in ("7.4", "5", "6.1.0-1"):
            with self.assertRaises(packages.Missing):
                packages.package_of(version, LISTED)

    def test_where_a_package_has_it(self):
        self.assertEqual(self.kernel("6.1"), (f"{LISTED[1]}/{IMAGES[LISTED[1]]}", LISTED[1]))
        self.assertEqual(self.kernel("newest"), (f"{LISTED[3]}/{IMAGES['linux-binary-7.3.4+deb13-cloud-amd64']}", LISTED[3]))
        before = len(self.asked)
        self.kernel("newest")
        # what is kept is not fetched again, and what is listed not asked for again on the same day
        self.assertEqual([words[-1] for words in self.asked[before:]], ["linux-image-"])

    def test_one_without_a_kernel_is_missing(self):
        with self.assertRaises(packages.Missing) as raised:
            self.kernel("6.12")
        self.assertIn("isn't fetched: E: no such package", str(raised.exception))

    def test_the_lists_are_its_own(self):
        self.kernel("6.1")
        for words in self.asked:
            self.assertIn(f"Dir::Etc::SourceList={os.path.abspath(packages.SOURCES)}", words)
            self.assertIn("Dir::Etc::SourceParts=/dev/null", words)
        with open(packages.SOURCES, encoding="utf-8") as text:
            suites = [line.split()[3] for line in text if line.startswith("deb ")]
        self.assertEqual(suites, ["bookworm", "bookworm-security", "trixie-backports"])


if __name__ == "__main__":
    unittest.main()
