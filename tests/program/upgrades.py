#!/usr/bin/env python3
"""Writes trees anew by `zirofen upgrade`, and holds what was written against the tree, by other readers and by all commands.

Usage: tests/program/upgrades.py [PROGRAM]. Without PROGRAM it is ./zirofen. The trees are those of examples/ and those at the edges of
tests/program/upgrade_rows.py. Of each text that has a tree: Python's own reader of TOML reads what was written, which has every key
and nothing else, the cgroups and processes in their order, in the format of the text, or in format 2 where that is 1; host/ reads
the same tree from both; written anew it is the same bytes, also with the number of format 4 in place of 2; and every command says
the same of it in format 4, byte by byte: those at the head of an example, those that other tables here have for it, and in every
tree what some users are told of some cgroups and processes. What is written of a large tree is a large text, which is read again, and
no more with anything in front of it. Of some trees every byte is as tests/program/upgrade_bytes.py spells it. Of each text with a fault the
program says that fault and writes nothing. The last line is
'N passed, M failed'.
"""
import collections
import concurrent.futures
import glob
import os
import subprocess
import sys
import tempfile

sys.dont_write_bytecode = True
import examples  # noqa: E402
from case import TOP  # noqa: E402

sys.path.insert(0, f"{TOP}/host")
from device_rows import named as operation_files  # noqa: E402
from upgrade_bytes import WRITTEN  # noqa: E402
from upgrade_rows import (BEFORE_LARGE, LARGE_BEGINNING, LARGE_MOVE, OPS, Asked, asked_of, asked_of_all, edge_trees,  # noqa: E402
                          large_text)
from zirofen_host.files import CONTROL_FILES, CONTROLLERS, TEXT_FILES, NUMBER_FILES  # noqa: E402
from zirofen_host.profile import TEXT_FORMATS, path_of  # noqa: E402
from zirofen_host.collect.tree import read_tree  # noqa: E402

try:
    import tomllib
except ImportError:
    tomllib = None


# a text, its name, what is asked of it beside what is asked of every tree, and the line of its fault
Case = collections.namedtuple("Case", "name text asked fault", defaults=((), None))
# of what is wrong with one tree, and of the words of a command
MOST_FAULTS, MOST_SHOWN = 4, 300


def run(program, words, text=b""):
    """How a command ends on a text that is standard input. What is written has decimal modes, which help speaks of: those lines
    aren't taken."""
    ended = subprocess.run([program, *words], cwd=TOP, input=text, capture_output=True)
    said = [line for line in ended.stderr.splitlines(keepends=True) if not line.startswith(b"  mode ")]
    return ended.returncode, ended.stdout, b"".join(said)


def is_entry(entry, *more):
    return set(entry) == {"uid", "gid", "mode", *more} and all(type(entry[key]) is int for key in ("uid", "gid", "mode"))


def is_limit(file):
    return is_entry(file, "value") and (file["value"] == "max" or type(file["value"]) is int)


def is_text(file):
    """A limit file whose value is a text may have none; else it is a line, or an array of several."""
    if "value" not in file:
        return is_entry(file)
    value = file["value"]
    is_lines = type(value) is list and len(value) > 1 and all(type(line) is str for line in value)
    return is_entry(file, "value") and (type(value) is str or is_lines)


def is_row(row, tree):
    """Whether a cgroup's table has every key: its directory, and exactly the files that stand."""
    limits = tree.limit_files(path_of(row["path"]))
    files = row["files"]
    return (set(row) == {"path", "enabled", "dir", "files"} and is_entry(row["dir"]) and set(files) == {*CONTROL_FILES, *limits}
            and all(is_entry(files[name]) for name in CONTROL_FILES)
            and all((is_text if name in TEXT_FILES else is_limit)(files[name]) for name in limits))


def is_in_order(names):
    return names == [name for name in CONTROLLERS if name in names]


def is_whole(document, tree, number):
    """Whether a document has every key, in the orders that a tree is written in, and is of the format of this number."""
    rows, processes = document["cgroup"], document["process"]
    paths, pids = [row["path"].split("/") for row in rows], [each["pid"] for each in processes]
    return (set(document) == {"format", "controllers", "cgroup", "process"} and document["format"] == number
            and all(is_in_order(names) for names in [document["controllers"], *(row["enabled"] for row in rows)])
            and all(is_row(row, tree) for row in rows) and paths == sorted(paths)
            and all(set(each) == {"pid", "uid", "at"} for each in processes) and pids == sorted(pids))


def meaning(tree):
    """All that a tree says, with what its text leaves out."""
    rows, defaults = {}, {name: limit.usual for name, limit in NUMBER_FILES.items()}
    for path, row in tree.rows.items():
        entries = {name: row.entry(name) for name in ("dir", *CONTROL_FILES, *tree.limit_files(path))}
        values = {name: row.values.get(name, defaults.get(name)) for name in tree.limit_files(path)}
        rows[path] = entries, values, {*row.enabled}
    return {*tree.controllers}, rows, sorted(tree.processes)


def example_case(file, files):
    """An example with the commands at its head, which name it, and those of other tables."""
    name = os.path.relpath(file, TOP)
    with open(file, encoding="ascii") as opened:
        text = opened.read()
    commands = examples.commands_of(examples.head_of(text), examples.HEAD_INDENT, "./zirofen")
    fault = next((line for _, lines in commands for line in lines if line.startswith("fault: tree ")), None)
    asked = [Asked([word for word in words if word not in ("--tree", name)], "") for words, _ in commands]
    return Case(name, text.encode("ascii"), [*asked, *asked_of(os.path.basename(file)[:-len(".toml")], files)], fault)


def answers(program, case, text, tree, file):
    """The words of every command but `upgrade`, each with what it says of a text. The file is for operations."""
    for words, operations in [*case.asked, *(asked_of_all(tree) if tree else ())]:
        if words[0] != "upgrade":
            with open(file, "w", encoding="ascii") as opened:
                opened.write(operations)
            yield words, run(program, [file if word == OPS else word for word in words], text)


def faults_of_document(case, written):
    """What is wrong with what was written, to other readers, and the tree that they read."""
    if not tomllib:
        return [], None
    told, tree, found = read_tree(case.text.decode("ascii")), read_tree(written.decode("ascii")), []
    if not is_whole(tomllib.loads(written.decode("ascii")), tree, told.format.number):
        found.append("a key is missing or too much, or out of order, or the format is another")
    if meaning(told) != meaning(tree):
        found.append("host/ reads another tree")
    return found, tree


def in_format_4(written):
    """What was written of a tree, with the number of format 4."""
    return written.replace(b"\nformat = 2\n", b"\nformat = 4\n", 1)


def faults_of(program, case):
    """What is wrong with the upgrade of a text, and how many commands were asked of it."""
    status, written, said = run(program, ["upgrade"], case.text)
    if case.fault is not None:
        is_right = (status, written, said.decode().partition("\n")[0]) == (3, b"", case.fault)
        return ([] if is_right else ["another fault"]), 0
    if (status, said) != (0, b""):
        return [f"status {status}"], 0
    found, tree = faults_of_document(case, written)
    if any(run(program, ["upgrade"], text) != (0, text, b"") for text in {written, in_format_4(written)}):
        found.append("written anew it isn't the same bytes")
    with tempfile.NamedTemporaryFile() as file:
        of_it, of_written = ([*answers(program, case, text, tree, file.name)] for text in (case.text, in_format_4(written)))
    found += [f"another answer to {' '.join(words)[:MOST_SHOWN]}"
              for (words, answer), (_, other) in zip(of_it, of_written) if answer != other]
    return found, len(of_it)


def faults_of_bytes(program, text, written):
    """What is wrong with the bytes that are written of a tree."""
    return ([] if run(program, ["upgrade"], text.encode("ascii")) == (0, written.encode("ascii"), b"") else ["it is spelled otherwise"]), 1


def faults_of_large(program):
    """What is wrong with the upgrade of a large tree, and how many commands were asked of what was written."""
    status, written, said = run(program, ["upgrade"], large_text().encode("ascii"))
    if (status, said) != (0, b""):
        return [f"status {status}"], 0
    found = []
    if len(written) <= TEXT_FORMATS[2].longest or not written.startswith(LARGE_BEGINNING.encode("ascii")):
        found.append("it begins otherwise, or isn't large")
    if run(program, ["upgrade"], written) != (0, written, b""):
        found.append("written anew it isn't the same bytes")
    if run(program, LARGE_MOVE, written) != (0, b"granted\n", b""):
        found.append(f"another answer to {' '.join(LARGE_MOVE)}")
    found += [f"it is read behind {before!r}" for before in BEFORE_LARGE if not is_too_long(program, before.encode() + written)]
    return found, 1


def is_too_long(program, text):
    status, written, said = run(program, ["upgrade"], text)
    return (status, written, said.partition(b"\n")[0]) == (3, b"", b"fault: tree too-long")


def main():
    program = os.path.abspath(sys.argv[1]) if sys.argv[1:] else f"{TOP}/zirofen"
    if tomllib is None:
        print("upgrades: no reader of TOML beside the program's, which takes Python 3.11")
    with tempfile.TemporaryDirectory() as folder, concurrent.futures.ThreadPoolExecutor(os.cpu_count()) as pool:
        files = operation_files(TOP, folder)
        cases = [example_case(file, files) for file in sorted(glob.glob(f"{TOP}/examples/*.toml"))]
        cases += [Case(name, text.encode("ascii")) for name, text in edge_trees()]
        # the longest first
        tried = {"a large tree": pool.submit(faults_of_large, program)}
        tried |= {case.name: pool.submit(faults_of, program, case) for case in cases}
        tried |= {name: pool.submit(faults_of_bytes, program, *texts) for name, texts in WRITTEN.items()}
        passed, failed, commands = 0, 0, 0
        for name, (found, asked) in ((name, each.result()) for name, each in tried.items()):
            for fault in found[:MOST_FAULTS]:
                print(f"upgrades: FAILED: {name}: {fault}")
            passed, failed, commands = passed + (not found), failed + bool(found), commands + asked
    print(f"upgrades: {commands} commands, each of a tree and of what was written of it")
    print(f"{passed} passed, {failed} failed")
    return 1 if failed else 0


if __name__ == "__main__":
    sys.exit(main())
