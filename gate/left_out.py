"""Each refusal and each guard of crates/machine, as it is left out of the definitions, and the proofs that have to be refused then.

A refusal is left out where its test is one that always passes, and a guard where its test is one that none fails.
"""
import collections, hashlib, json, re

import crates
import planted
from edited import text_of

CRATE = "machine"
FILE = "specs/Machines.antt"
RECORD = "gate/refusals.txt"
ERROR = re.compile(r"^\./proofs/\S+\.antt:\d+:\d+: error: (.*)$", re.M)
LEMMA = re.compile(r"`([\w-]+)`: ")
# an error that comes of another one
FOLLOWS = re.compile(r"\d+ declarations? that depends? on ")
HEAD = re.compile(r"machine: sources (\w+) by (.+)")
TOLD = re.compile(r"(\w+): refused by (.+)")

# what is left out, the text of the definition, the text in its place, and the lemmas of which one at least is refused and no other
LeftOut = collections.namedtuple("LeftOut", "name old new lemmas")

REFUSALS = (
    LeftOut("move", "Some from ↦ entry_is machine (common from to) Procs (writes user) ]", "Some from ↦ true ]", {"edge-move"}),
    LeftOut("mkdir_where_something_is", "not (has machine path) && has_room_above", "not (has machine path && false) && has_room_above",
            {"mkdir-other", "room"}),
    LeftOut("mkdir_without_room", "has_room_above machine path (length path)\n", "has_room_above machine path 0\n", {"room"}),
    LeftOut("mkdir_without_room_for_descendants", "leaves_room (value_of machine (take len path) 0) (1 + descendants machine (take len path))",
            "leaves_room (value_of machine (take len path) 0) 0", {"room-asked"}),
    LeftOut("mkdir_without_room_for_levels", "leaves_room (value_of machine (take len path) 1) (length path - len)",
            "leaves_room (value_of machine (take len path) 1) 0", {"room-asked"}),
    LeftOut("rmdir", "entry_is machine (parent path) Dir (writes user) &&", "entry_is machine (parent path) Dir (λ entry. true) &&",
            {"rmdir-other"}),
    LeftOut("rmdir_of_what_has_a_child", "not (list_any (is_child path) machine.paths)", "not (list_any (λ child. false) machine.paths)",
            {"rmdir-above"}),
    LeftOut("write", "(Write path limit values) = entry_is machine path (Limit limit) (writes user)",
            "(Write path limit values) = entry_is machine path (Limit limit) (λ entry. true)", {"untouched-write"}),
    LeftOut("chmod", "entry_is machine path file (owns user)", "entry_is machine path file (λ entry. true)", {"untouched-chmod"}),
    LeftOut("enable", "entry_is machine path Control (writes user)", "entry_is machine path Control (λ entry. true)", {"untouched-enable"}),
    LeftOut("fork", "is_none (machine.cgroup child)", "elim (machine.cgroup child) [ None ↦ true | Some place ↦ true ]", {"edge-fork"}),
)
GUARDS = (
    LeftOut("guard_above", "Procs (reaches user) ≡ false", "Procs (λ entry. false) ≡ false", {"untouched-chmod", "never_passes", "closed-same"}),
    LeftOut("guard_limits", "(Limit limit) (reaches user) ≡ false", "(Limit limit) (λ entry. false) ≡ false",
            {"untouched-write", "untouched-chmod", "closed-same"}),
    LeftOut("guard_control", "Control (reaches user) ≡ false", "Control (λ entry. false) ≡ false",
            {"untouched-enable", "untouched-chmod", "closed-same"}),
    LeftOut("guard_dir", "Dir (reaches user) ≡ false", "Dir (λ entry. false) ≡ false", {"rmdir-other", "untouched-chmod", "closed-same"}),
    LeftOut("guard_fits", "  pub fits : Fits machine subtree\n", "  pub fits : Machine\n", {"kept-start", "again-all"}),
)
ALL = REFUSALS + GUARDS


def sum_of_sources(top):
    """Returns the sum of all that decides the crate's own proofs, and of the names of what it uses."""
    folder = f"{top}/crates/{CRATE}"
    files = [(path, text_of(f"{folder}/{path}")) for part in planted.SOURCES for path in planted.files_of(folder, part)]
    return hashlib.sha256(json.dumps([sorted(crates.read(top)[CRATE]), files]).encode()).hexdigest()


def without(text, it):
    """Returns the definitions with one thing left out of them."""
    if text.count(it.old) != 1:
        raise ValueError(f"{it.name}: `{it.old.strip()}` stands in {FILE} {text.count(it.old)} times")
    return text.replace(it.old, it.new)


def refused_in(said):
    """Returns the names of the lemmas that a check refused for themselves; an error of another kind counts by its words."""
    errors = [it for it in ERROR.findall(said) if not FOLLOWS.match(it)]
    return sorted({found[1] if (found := LEMMA.match(it)) else it for it in errors})


def fault_of(it, refused):
    """Returns what is wrong with the answer to one thing left out, or None."""
    if not refused:
        return f"{it.name}: what is left out is refused by no proof of its own"
    others = sorted({*refused} - it.lemmas)
    return f"{it.name}: refused by {', '.join(others)}, which isn't of it" if others else None


def written(total, version, told):
    """Returns the record of a run: of which sources, by which toolchain, and which proofs were refused."""
    lines = [f"{CRATE}: sources {total} by {version}", *(f"{name}: refused by {', '.join(lemmas)}" for name, lemmas in told.items())]
    return "\n".join(lines) + "\n"


def read(text):
    """Returns the sum of the sources of a record, and what was refused by the name of what was left out."""
    head, *rest = text.splitlines()
    return HEAD.fullmatch(head)[1], {found[1]: found[2].split(", ") for found in map(TOLD.fullmatch, rest)}
