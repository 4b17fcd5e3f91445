"""The library for C in a folder of this checkout: below it a folder for each kind of processor, with libzirofen.so.0 and libzirofen.a,
and a MANIFEST: its version, the toolchain that proved and built it, the sum of the sources that decide its bytes, and that of each file."""
import contextlib, os, shutil, subprocess, sys, tempfile

sys.dont_write_bytecode = True
sys.path.insert(0, os.path.dirname(os.path.realpath(__file__)))
import linked_library, program
from linked_library import MACHINES, TOP

# by the word of a MANIFEST
FILES = {"shared": linked_library.SHARED, "static": linked_library.ARCHIVE}
# beside the crates
LINKING = ("include/zirofen.h", "runtime/library.c", "runtime/library.map", "runtime/include/stddef.h", "tools/linked.py",
           "tools/linked_library.py")
ARCHIVES = f"{TOP}/crates/c_library/out"


def sum_of_sources():
    """Returns the sum of what decides the library's bytes, or nothing where that can't be read."""
    return program.sum_of_crates("c_library", linked_library.version, LINKING)


def archive_of(machine, folder=ARCHIVES):
    """Returns where gate/objects leaves the archive of the proved crates for a kind of processor."""
    return f"{folder}/c_library-{machine}.a"


class Library:
    """The library in a folder."""

    def __init__(self, folder):
        self.folder = folder if os.path.isabs(folder) else f"{TOP}/{folder}"
        self.manifest = f"{self.folder}/MANIFEST"

    def file(self, machine, kind):
        return f"{self.folder}/{machine}/{FILES[kind]}"

    def text(self):
        with contextlib.suppress(OSError), open(self.manifest, encoding="utf-8", errors="replace") as it:
            return it.read()
        return ""

    def says(self, key):
        return dict(line.partition(" ")[::2] for line in self.text().splitlines()).get(key, "")

    def written(self, kit, sources):
        """Returns the lines of a MANIFEST for the files that are there."""
        lines = {"version": linked_library.version(), "kit": kit, "sources": sources}
        lines |= {program.key_of(kind, it): program.sum_of(self.file(it, kind)) for it in MACHINES for kind in FILES}
        return "".join(f"{key} {value}\n" for key, value in lines.items())

    def fill(self, archives=ARCHIVES):
        """Links it anew of the archives for all kinds of processors, which are of these sources."""
        with tempfile.TemporaryDirectory() as room:
            made = Library(room)
            made.link(archives)
            with open(made.manifest, "w", encoding="utf-8") as out:
                out.write(made.written(program.toolchain(), sum_of_sources()))
            os.chmod(room, 0o755)
            shutil.rmtree(self.folder, ignore_errors=True)
            shutil.copytree(room, self.folder)

    def link(self, archives):
        for it in MACHINES:
            os.makedirs(f"{self.folder}/{it}")
            linked_library.link(it, archive_of(it, archives), f"{self.folder}/{it}")

    def changed(self):
        """Returns why it isn't the one of its MANIFEST, or nothing."""
        if not os.path.isfile(self.manifest):
            return "it isn't there"
        try:
            same = self.text() == self.written(self.says("kit"), self.says("sources"))
        except OSError:
            return "not all of it is there"
        return "" if same else "it isn't what its MANIFEST says"

    def differs(self):
        """Returns why it isn't of these sources, or nothing. Of toolchains that were tried, which give the same bytes, any may be here."""
        made_by = self.says("kit")
        if not self.changed() and self.says("sources") != sum_of_sources():
            return f"it is of other sources, with the sum {self.says('sources')} and not {sum_of_sources()}"
        if self.says("version") not in ("", program.version()[0]):
            return f"it is of version {self.says('version')}, and the program of {program.version()[0]}"
        if made_by and made_by != program.toolchain() and made_by.split(" ")[0] not in program.TRIED:
            return f"it was made by {made_by}, and this toolchain is {program.toolchain()}"
        return self.changed()

    def differs_from(self, archives):
        """Returns why what gate/objects built in a folder doesn't give it, or nothing."""
        with tempfile.TemporaryDirectory() as room:
            made = Library(room)
            try:
                made.link(archives)
            except (OSError, subprocess.CalledProcessError) as error:
                return f"what these sources give can't be linked: {error}"
            for it in MACHINES:
                for kind in FILES:
                    if program.sum_of(made.file(it, kind)) != program.sum_of(self.file(it, kind)):
                        return f"{it}/{FILES[kind]} isn't what these sources give"
        return ""


RELEASED, BUILT = Library("release/library"), Library("crates/c_library/out/library")
