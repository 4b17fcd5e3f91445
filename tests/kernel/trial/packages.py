"""Debian's packages of kernels, by a list of sources of this trial's own: what the machine has of apt is neither asked nor changed."""
import glob
import os
import re
import subprocess
import time

SOURCES = os.path.join(os.path.dirname(os.path.abspath(__file__)), "..", "sources.list")
NEWEST = "newest"
# what is listed is asked for anew after a day
LISTED = 24 * 3600
# what of a kernel's sources is kept
OF_SOURCES = ("Documentation/admin-guide/cgroup-v2.rst", "tools/testing/selftests/cgroup/*", "tools/testing/selftests/*.h")
# where a package has the kernel; since 7.2 the image is empty, and a package beside it has it
PLACES = ("boot/vmlinuz-*", "usr/lib/modules/*/vmlinuz")


class Missing(Exception):
    """Something that a run stands on isn't there; its text says what."""


def ran(*words, **how):
    return subprocess.run(words, capture_output=True, text=True, **how)


class Packages:
    """What the sources list; lists and packages are kept below a folder."""

    def __init__(self, kept):
        self.kept, self.lists = kept, os.path.join(kept, "lists")
        set_to = {"Dir::Etc::SourceList": os.path.abspath(SOURCES), "Dir::Etc::SourceParts": "/dev/null", "Dir::State": self.lists,
                  "Dir::State::Lists": self.lists, "Dir::State::status": "/dev/null", "Dir::Cache": os.path.join(kept, "cache")}
        self.options = [word for name, value in set_to.items() for word in ("-o", f"{name}={value}")]

    def update(self):
        """Asks for what is listed, where that is too old; what is kept is good enough where nobody answers."""
        for folder in (f"{self.lists}/partial", f"{self.kept}/cache/archives/partial"):
            os.makedirs(folder, exist_ok=True)
        stamp = os.path.join(self.kept, "listed")
        if os.path.exists(stamp) and time.time() - os.stat(stamp).st_mtime < LISTED:
            return
        if ran("apt-get", *self.options, "update", "-o", "APT::Update::Error-Mode=any").returncode == 0:
            with open(stamp, "w"):
                pass

    def names(self, prefix):
        return ran("apt-cache", *self.options, "pkgnames", prefix).stdout.split()

    def fetch(self, package, folder):
        """Unpacks a package in a folder; what apt says."""
        said = ran("apt-get", *self.options, "download", package, cwd=folder).stderr
        for name in glob.glob(os.path.join(folder, "*.deb")):
            ran("dpkg-deb", "-x", name, folder)
            os.remove(name)
        return said


def package_of(version, names):
    """The newest packaged kernel of a version, as 6.1, or of all."""
    number = r"\d" if version == NEWEST else rf"{re.escape(version)}[.+-]"
    named = [name for name in names if re.fullmatch(rf"linux-image-{number}.*cloud-amd64", name)]
    if not named:
        raise Missing(f"no kernel {version}: apt knows no linux-image-{version}*-cloud-amd64")
    return max(named, key=lambda name: [int(number) for number in re.findall(r"\d+", name)])


def kernel_in(folder):
    return next((found for place in PLACES for found in sorted(glob.glob(os.path.join(folder, place)))), None)


def kernel_of(version, kept):
    """The kernel's file and the name of its package, fetched where the folder doesn't keep it."""
    packages = Packages(kept)
    packages.update()
    package = package_of(version, packages.names("linux-image-"))
    folder = os.path.join(kept, package)
    os.makedirs(folder, exist_ok=True)
    said = ""
    for name in (package, package.replace("linux-image-", "linux-binary-")):
        if kernel_in(folder) is None:
            said = packages.fetch(name, folder)
    found = kernel_in(folder)
    if found is None:
        raise Missing(f"no kernel {version}: {package} isn't fetched: {said.strip()[-200:]}")
    return found, package


def sources_of(version, kept):
    """A folder with what is kept of a version's sources, fetched where it hasn't all."""
    package = f"linux-source-{version}"
    folder = os.path.join(kept, package)
    if all(glob.glob(os.path.join(folder, name)) for name in OF_SOURCES):
        return folder
    os.makedirs(folder, exist_ok=True)
    packages = Packages(kept)
    packages.update()
    said = packages.fetch(package, folder)
    archives = glob.glob(f"{folder}/usr/src/linux-source-*.tar.xz")
    if not archives:
        raise Missing(f"{package} isn't fetched: {said.strip()[-200:]}")
    unpacked = ran("tar", "-xJf", archives[0], "-C", folder, "--strip-components=1", "--wildcards", *(f"*/{name}" for name in OF_SOURCES))
    os.remove(archives[0])
    if unpacked.returncode:
        raise Missing(f"{package} isn't unpacked: {unpacked.stderr.strip()[-200:]}")
    return folder
