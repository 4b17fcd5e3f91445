#!/usr/bin/env python3
"""What crates.txt says: the crates of a repository, and what each uses.

  gate/crates.py                    at the top of a repository: writes the names of the crates
  gate/crates.py --without NAME ..  writes crates.txt without these crates
"""
import re, sys

# a crate's name, that it is a static library, which is for other languages, and the libraries that it uses
ROW = re.compile(r"(\w+)( +staticlib)?\s*:\s*([\w ]*)")


def row_of(line):
    """Returns what a line of the file says of a crate, or None where it says nothing."""
    said = line.partition("#")[0].strip()
    row = ROW.fullmatch(said)
    if said and not row:
        raise ValueError(f"crates.txt has a line that is not 'NAME [staticlib]: LIBRARY ..': {said}")
    return row


def rows(top):
    """Yields each line of the file, the name of the crate that it tells of or None, and what that uses."""
    with open(f"{top}/crates.txt", encoding="utf-8") as file:
        for line in file:
            row = row_of(line)
            yield line, row and row[1], row[3].split() if row else []


def read(top):
    """Returns what each crate uses, by name, in the order of the file."""
    return {name: uses for _, name, uses in rows(top) if name}


def static_libraries(top):
    """Returns the names of the crates that are static libraries: no crate can use one."""
    return {name for line, name, _ in rows(top) if name and row_of(line)[2]}


def below(crates, name):
    """Returns the crates of the repository that one stands on, and itself."""
    return {*in_order(crates, name)}


def in_order(crates, name):
    """Returns a crate and those of the repository that it stands on, each behind one that uses it, the nearest first."""
    found = [name] if name in crates else []
    for it in found:
        found += [used for used in crates[it] if used in crates and used not in found]
    return found


if __name__ == "__main__":
    if sys.argv[1:2] == ["--without"]:
        sys.stdout.writelines(line for line, name, _ in rows(".") if name not in sys.argv[2:])
    elif sys.argv[1:]:
        sys.exit(__doc__)
    else:
        print(*read("."), sep="\n")
