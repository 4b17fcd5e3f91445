"""Of which crates and edits it is known how they come out, by the sums of all that decided it.

A crate's sum is of its src/, specs/, proofs/ and c/, of what crates.txt says of it, of HANDLES, of the sums of the crates that it
uses, of the toolchain, of the options that the environment has for that, and of the scripts by which it was proved. A check reads
nothing else: the toolchain gives it the crate's files, the libraries below, which are made of what is in their sums, and its own.
An edit's sum is of its crate's, and of the edit and the scripts that try it.
"""
import os, re, shutil, threading, time

import crates, kept, kit

HERE = os.path.dirname(os.path.abspath(__file__))
PARTS = ("src", "specs", "proofs", "c")
PROVING = ("proofs", "proved.py", "kept.py", "kit.py", "crates.py")
TRYING = ("edits", "edited.py")
# of the environment: the toolchain's options, but for how many processors it takes
OPTIONS = ("RT_", "RATTLE_")
NOT_READ = ("RT_JOBS",)
# kinds of entries: that a crate is proved, that its tests are, what the proof made, and that an edit is refused
PROOF, TESTS, MADE, EDIT = "proof", "tests", "made", "edit"
TEST = re.compile(rb"#\s*\[[^]]*\btest\b")
LIBRARY = ["rlib"]


def scripts(names):
    return kept.sums_of_files(HERE, names)


class Sums:
    """The sum of each crate of a repository."""

    def __init__(self, top):
        self.top, self.uses, self.of_crates, self.static = top, crates.read(top), {}, crates.static_libraries(top)
        options = sorted(it for it in os.environ.items() if it[0].startswith(OPTIONS) and it[0] not in NOT_READ)
        self.common = kept.sum_of(kit.stamp(), options, scripts(PROVING), kept.sums_of_files(top, ["HANDLES"]))
        self.files = {name: self.read(name) for name in self.uses}
        for name in self.uses:
            self.of(name)

    def read(self, name):
        return kept.sums_of_files(f"{self.top}/crates/{name}", PARTS)

    def of(self, name):
        if name not in self.of_crates:
            below = [self.of(it) for it in self.uses[name] if it in self.uses]
            self.of_crates[name] = kept.sum_of(self.common, name, name in self.static, self.uses[name], self.files[name], below)
        return self.of_crates[name]

    def below(self, name):
        return sorted(crates.below(self.uses, name) - {name})

    def still_hold(self, name):
        """Whether the files of a crate and of those below it are as they were."""
        return all(self.read(it) == self.files[it] for it in [name, *self.below(name)])


class Edits:
    """What is known of the edits of a repository's crates."""

    def __init__(self, store, top, sums):
        self.store, self.top, self.sums, self.scripts = store, top, sums, scripts(TRYING)

    def files_of(self, crate):
        at = f"{self.top}/crates/{crate}/must-fail"
        return sorted(it for it in os.listdir(at) if not it.endswith(".md")) if os.path.isdir(at) else []

    def sum(self, crate, file):
        text = kept.sums_of_files(self.top, [f"crates/{crate}/must-fail/{file}"])
        return kept.sum_of(self.sums.of(crate), self.scripts, file, text)

    def known(self, crate, file):
        """Returns the goal that refuses an edit, or None where that isn't known."""
        told = self.store.take(EDIT, f"{crate}.{file}", self.sum(crate, file))
        return told and told["goal"]

    def all_known(self, crate):
        return all(self.known(crate, it) for it in self.files_of(crate))

    def keep(self, crate, file, goal):
        self.store.keep(EDIT, f"{crate}.{file}", self.sum(crate, file), {"goal": goal})


class Proofs:
    """What is known of the proofs of a repository's crates, for a run over them. Edits are tried over what a proof leaves: `edits`
    names the repository that has them, and a crate of which not all are known is proved again."""

    def __init__(self, top, store, edits=None):
        self.store, self.sums = store, Sums(top)
        tried = edits and Edits(store, edits, self.sums)
        every = [*self.sums.uses]
        self.ahead = {it for it in every if not self.told(PROOF, it) or tried and not tried.all_known(it)}
        # the libraries over which something is proved in this run
        proved = self.ahead | {it for it in every if self.has_tests(it) and not self.told(TESTS, it)}
        self.needed = {below for it in proved for below in self.sums.below(it)}
        # the sum of each library that stands in this run
        self.libraries = {}
        self.threads, self.lock = [], threading.Lock()

    def told(self, kind, name):
        """Returns what is kept of a proof, or None. What a run starts has to be there whole, and a library where it is needed."""
        told, made = self.store.take(kind, name, self.sums.of(name)), self.label(name, kind == TESTS)
        if told and told["files"] != LIBRARY and not self.store.take(MADE, made, self.sums.of(name)):
            return None
        return told

    def has_tests(self, name):
        top = f"{self.sums.top}/crates/{name}"
        return any(TEST.search(read(f"{top}/{it}")) for it in self.sums.files[name] if it.endswith(".rt"))

    def taken(self, name, tests, out):
        """Returns what is kept of a crate, or of its tests, that need no proof in this run, or None. What the proof made then stands in
        its out/, if it is needed."""
        told = None if name in self.ahead and not tests else self.told(TESTS if tests else PROOF, name)
        if not told:
            return None
        if told["files"] != LIBRARY:
            return told if self.store.take(MADE, self.label(name, tests), self.sums.of(name), out) else None
        if name not in self.needed:
            self.store.touch(MADE, name, self.sums.of(name))
            return told
        if self.brings(name, told, out):
            return told
        shutil.rmtree(f"{out}/rlib", ignore_errors=True)
        return None

    def label(self, name, tests):
        return f"{name}_tests" if tests else name

    def brings(self, name, told, out):
        """Puts a kept library in its place, if it was made over the libraries that stand in this run, and returns whether it could.
        One that is proved again from the same sources may have other bytes, and each fits only what it was made with."""
        if any(self.libraries.get(it) != made for it, made in told["below"].items()):
            return False
        if not self.store.take(MADE, name, self.sums.of(name), out):
            return False
        self.libraries[name] = library_sum(out)
        return self.libraries[name] == told["library"]

    def keep(self, name, tests, out, files, seconds):
        """Keeps that a crate, or its tests, were proved just now, beside what goes on."""
        told = {"files": files, "seconds": round(seconds, 1), "day": time.strftime("%Y-%m-%d")}
        if files == LIBRARY:
            self.libraries[name] = library_sum(out)
            told |= {"library": self.libraries[name], "below": {it: self.libraries[it] for it in self.sums.below(name)}}
        if files is None or self.store.at is None or not self.sums.still_hold(name):
            return
        thread = threading.Thread(target=self.keep_one, args=(name, tests, out, told))
        self.threads.append(thread)
        thread.start()

    def keep_one(self, name, tests, out, told):
        with self.lock:
            self.store.keep(MADE, self.label(name, tests), self.sums.of(name), {"of": name}, (out, told["files"]))
            self.store.keep(TESTS if tests else PROOF, name, self.sums.of(name), told)

    def end(self):
        for it in self.threads:
            it.join()
        self.store.shrink()


def library_sum(out):
    return kept.sum_of(kept.sums_of_files(out, LIBRARY))


def read(path):
    with open(path, "rb") as it:
        return it.read()
