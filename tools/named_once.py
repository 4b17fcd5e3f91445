"""Names of definitions that stand twice in the crates' specs, held against tools/names_twice.txt.

A line there is 'NAME CRATE CRATE ..: WHY', where a crate stands as often as it has such a definition. One idea has one name: a
line is for two ideas of one name that nobody sees together, and goes once one of them has another.
"""
import re

from believed import World, definitions_of

LISTED = "tools/names_twice.txt"


def names_twice(top):
    """Returns how many names definitions have, and those of several with the crates in which these stand."""
    found = {}
    for it in definitions_of(World(top)):
        found.setdefault(it.name, []).append(it.file.split("/")[1])
    return len(found), {name: crates for name, crates in found.items() if len(crates) > 1}


def faults_of(listed, top="."):
    """Returns how many names were looked at, and what is wrong, in words."""
    count, twice = names_twice(top)
    known = {name: crates.split() for name, crates in re.findall(r"^(\S+) ([\w ]+): \S", listed, re.M)}
    faults = [f"the definition {name} stands in {', '.join(twice[name])}" for name in twice if twice[name] != known.get(name)]
    faults += [f"the definition {name} stands once, and {LISTED} says otherwise" for name in known if name not in twice]
    return count, faults
