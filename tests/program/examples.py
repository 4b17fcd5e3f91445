#!/usr/bin/env python3
"""Runs what the trees of examples/ say at their heads, the examples of the program's help, and those of pages. The last line
is 'N passed, M failed'.

A head is the comment that a tree begins with. In it a line '#     ./zirofen ..' is a command, which may go on behind a
backslash, and the indented lines below it are all that it writes. Commands that the program doesn't list in its --help
are counted apart. Each tree has a command, and so has the help of each command. In a page a command without a shell's `<` and `|` is run.
"""
import glob
import itertools
import json
import os
import shlex
import subprocess
import sys

sys.dont_write_bytecode = True
from case import TOP

HEAD_INDENT = "#     "
HELP_INDENT = "  "
PAGES, PAGE_INDENT = ("README.md", "docs/FORMATS.md", "docs/PROGRAMS.md", "docs/QUESTIONS.md"), "    "
SAMPLE = "examples/user-manager.toml"
STATUS = {"granted": 0, "contained": 0, "kept": 0, "ok": 0, "refused": 1, "escapes": 1, "broken": 1, "pair": 1,
          "unsettled": 2, "fails": 1, "fault:": 3}


def head_of(text):
    """The lines of the comment that a text begins with, those joined that a backslash cuts."""
    lines = []
    for line in text.splitlines():
        if not line.startswith("#"):
            break
        if lines and lines[-1].endswith("\\"):
            lines[-1] = lines[-1][:-1] + line[1:].lstrip()
        else:
            lines.append(line)
    return lines


def commands_of(lines, indent, program):
    """Each command among the lines, as its words and the lines that it writes."""
    commands = []
    for line in lines:
        words = line[len(indent):]
        if line.startswith(f"{indent}{program} "):
            commands.append((shlex.split(words)[1:], []))
        elif line.startswith(indent) and commands:
            commands[-1][1].append(words)
    return commands


def status_of(words, lines):
    """A replay without a subtree ends with 0 whatever it says; else the answer's word tells, which stands below a pair's, and of what
    is replayed or explained last."""
    if words[0] == "replay" and "--subtree" not in words and not lines[-1].startswith("fault:"):
        return 0
    answer = lines[-1] if words[0] in ("replay", "explain") else lines[1] if lines[0].startswith("pair ") else lines[0]
    return STATUS[json.loads(answer)["answer"] if answer.startswith("{") else answer.split(" ")[0]]


def is_right(words, lines):
    ended = subprocess.run([f"{TOP}/zirofen", *words], cwd=TOP, stdin=subprocess.DEVNULL, capture_output=True, text=True)
    faults = [line for line in lines if line.startswith("fault:")]
    wanted = [line for line in lines if line not in faults]
    # below the line of a fault, and beside an answer, stands help, which isn't exact
    said = [line for line in ended.stderr.splitlines() if not line.startswith("  ")]
    written = (ended.stdout.splitlines(), said, ended.returncode)
    if written == (wanted, faults, status_of(words, lines)):
        return True
    print(f"examples: FAILED: zirofen {shlex.join(words)} ended with status {ended.returncode}; it wrote:")
    print(ended.stdout + ended.stderr, end="")
    return False


def help_lines(*words):
    said = subprocess.run([f"{TOP}/zirofen", *words, "--help"], capture_output=True, text=True, check=True).stdout
    return said.splitlines()


def page_commands(path):
    """The commands of a page's blocks that no shell is needed for."""
    with open(f"{TOP}/{path}", encoding="ascii") as text:
        lines = text.read().splitlines()
    blocks = itertools.groupby(lines, lambda line: line.startswith(PAGE_INDENT))
    commands = [it for is_code, block in blocks if is_code for it in commands_of(list(block), PAGE_INDENT, "./zirofen")]
    return [(words, told) for words, told in commands if not {"<", "|"} & set(words)]


def is_sample_the_example():
    """Whether the text that docs/FORMATS.md begins with is the example that the command below it asks of."""
    with open(f"{TOP}/docs/FORMATS.md", encoding="ascii") as page, open(f"{TOP}/{SAMPLE}", encoding="ascii") as tree:
        if tree.read().partition("\n\n")[2] == page.read().split("```\n")[1]:
            return True
    print(f"examples: FAILED: docs/FORMATS.md begins with another text than {SAMPLE}")
    return False


def known_commands():
    """The commands that the program lists."""
    lines = help_lines()
    listed = lines[lines.index("Commands:") + 1:lines.index("Options:") - 1]
    return [line.split()[0] for line in listed if line.split()[0] != "help"]


def lacking(words, known):
    """What a command has that the program hasn't, or nothing."""
    if words[0] not in known:
        return words[0]
    return next((word for word in words[1:] if word == "--format" and not any(word in line for line in help_lines(words[0]))), "")


def all_examples(known):
    """Each place that has examples, with its commands."""
    for file in sorted(glob.glob(f"{TOP}/examples/*.toml")):
        with open(file, encoding="ascii") as text:
            yield os.path.basename(file), commands_of(head_of(text.read()), HEAD_INDENT, "./zirofen")
    for path in PAGES:
        yield path, page_commands(path)
    for command in known:
        yield f"zirofen {command} --help", commands_of(help_lines(command), HELP_INDENT, "zirofen")


def main():
    known, waiting = known_commands(), []
    passed, failed = (1, 0) if is_sample_the_example() else (0, 1)
    for place, commands in all_examples(known):
        if not commands:
            print(f"examples: FAILED: {place} has no command")
            failed += 1
        for words, lines in commands:
            if lacking(words, known):
                waiting.append(lacking(words, known))
            elif is_right(words, lines):
                passed += 1
            else:
                failed += 1
    if waiting:
        print(f"examples: {len(waiting)} commands wait for a program that has {', '.join(sorted(set(waiting)))}")
    print(f"{passed} passed, {failed} failed")
    return 1 if failed else 0


if __name__ == "__main__":
    sys.exit(main())
