#!/usr/bin/env python3
"""Runs the program on words of its command line: numbers in their spellings, what asks for help, arguments that
aren't UTF-8, its own name, `-`.

Usage: tests/program/words.py [PROGRAM]. Without PROGRAM it is ./zirofen. The last line is 'N passed, M failed'.
"""
import os
import subprocess
import sys
import tempfile
from dataclasses import dataclass, field

sys.dont_write_bytecode = True
from case import DELEGATION, Ended, run
from json_rows import FORMAT, has_format
from of_one import OF_ONE

CHECK = ["check", "--uid", "1000", "--subtree", "/c0"]
REPLAY = ["replay", "--uid", "1000", "--ops"]
# each word as it is where a number is asked: of a uid and a gid, and of a pid
NUMBERS = [("1000", "11"), ("0001000", "0011"), ("4294967295", "4294967295"), ("0" * 300 + "7", "0" * 300 + "11")]
NO_NUMBERS = ["", " ", "+0", "+5", "+1000", "+01000", "-00", "x", "4294967296", "+4294967296", "18446744073709551616", "-0", "-1", "--1", "++1", "+", "1.0", "1e3", "0x10", "0b1",
              "0o7", "1_000", " 1", "1 ", "1\n", "1,000", "\u0661", "\uff11", "1\u00a0"]
LISTED = ["1000:5", "1000:5,6", "1000:005,0", "1000:" + ",".join(["5"] * 32)]
NOT_LISTED = ["1000:", "1000:,", "1000:5,", "1000:,5", ":5", ":", "1000:5:6", "1000: 5", "1000:+5", "+1000:5", "1000:-0", "1000:4294967296",
              "1000:5,4294967296", "1000;5", "1000:5;6", "1000:x", "x:5"]
# what says how an answer is written, and what doesn't
FORMATS = [[f"{FORMAT}=json"], [f"{FORMAT}=lines"], [FORMAT, "json"], [FORMAT, "lines"]]
NO_FORMATS = [[FORMAT], [FORMAT, ""], [f"{FORMAT}="], [FORMAT, "-"], [FORMAT, "--"], *([FORMAT, word] for word in (
    "JSON", "Json", "json ", " json", "js", "jsonl", "lines ", "line", "text", "toml", "0", "json,lines", "json\n", "\uff4ason")),
    [f"{FORMAT}==json"], [f"{FORMAT}=-json"], [FORMAT, "json", FORMAT, "json"], [FORMAT, "json", FORMAT, "lines"], [f"{FORMAT}=json", f"{FORMAT}=json"],
    ["--form", "json"], ["--f=json"], ["--formats", "json"], ["--Format", "json"], ["-f", "json"], ["-format", "json"], ["--json"], ["json"]]
# what asks for help or the version, and what seems to
SHOWN = ["help", "help check", "help help", "--help", "-h", "check --help", "audit -h", "--version", "-V"]
NOT_SHOWN = ["", "help nonsense", "help check nonsense", "help --help", "help help nonsense", "nonsense", "check nonsense", "check -V"]
NOT_UTF_8 = [b"\xff", b"1000\xff", b"\xc0\x80", b"\xed\xa0\x80", b"/c0\xe2\x82"]


def call(program, words, given, name=None, folder=None):
    ended = subprocess.run([program if name is None else name, *words], executable=program, input=given, capture_output=True, cwd=folder)
    return Ended(ended.returncode, ended.stdout, ended.stderr)


@dataclass(frozen=True)
class Spelled:
    """Words of a command line, and whether they are usage."""
    words: list
    is_usage: bool

    def failure(self, program):
        ended = call(program, self.words, read(DELEGATION))
        usage = ended.status == 3 and ended.fault == "fault: usage"
        other = ended.status < 3 or ended.fault in ("fault: pid", "fault: no-pair", "fault: line 1 bad-word", "fault: line 1 cut")
        return "" if (usage if self.is_usage else other) else f"status {ended.status}; it wrote: {ended.fault}"


@dataclass(frozen=True)
class Answered:
    """A command that ends with 0, by the name that the program is called, and in a folder with files of its own."""
    words: list
    given: bytes
    output: bytes
    name: str = None
    files: dict = field(default_factory=dict)

    def failure(self, program):
        with tempfile.TemporaryDirectory() as folder:
            for name, text in self.files.items():
                with open(f"{folder}/{name}", "wb") as out:
                    out.write(text)
            ended = call(program, self.words, self.given, self.name, folder)
        right = (ended.status, ended.output, ended.fault) == (0, self.output, "")
        return "" if right else f"called as {self.name!r}, status {ended.status}; it wrote: {ended.output!r} {ended.fault}"


def read(path):
    with open(path, "rb") as file:
        return file.read()


def rows():
    """Each command line with whether it is usage: the words of numbers behind a blank, and behind an equals sign."""
    for words, is_usage in spelled():
        yield words, is_usage
        joined = with_equals(words)
        if joined != words:
            yield joined, is_usage


def with_equals(words):
    """The words of a call in which each number stands behind an equals sign."""
    found, rest = [], iter(words)
    for word in rest:
        found.append(b"=".join((os.fsencode(word), os.fsencode(next(rest)))) if word in ("--uid", "--gid", "--pid") else word)
    return found


def everybody(command):
    """What a command that may be asked of everybody takes, and what it doesn't."""
    asks = [command, "--everybody"]
    yield [*asks, "--subtree", "/c0", "--subtree", "/c1"], False
    yield [command, "--subtree", "/c0", "--everybody"], False
    yield from (([*asks, "--subtree", "/c0", *words], wrong) for wrong, all_words in (
        (False, (["--but", "5"], ["--but=5", "--but", "0"], ["--group", "5="], ["--group=5=6,7", "--group", "5=8"])),
        (True, (["--but"], ["--but", "x"], ["--but", "-1"], ["--group"], ["--group", "5"], ["--group", "=5"], ["--group", "5=6,"])))
        for words in all_words)
    yield from (([command, "--uid", "1000", "--subtree", "/c0", *words], True) for words in (["--but", "5"], ["--group", "5="]))
    lines = [*asks, "--subtrees"]
    yield [*lines, "-", "--tree", DELEGATION], False
    yield [*lines, os.devnull], False
    yield from ((words, True) for words in (
        lines, [*lines, "-"], [*lines, "-", "--tree", "-"], [command, "--subtrees", os.devnull], [*lines, "--all"],
        *([*lines, os.devnull, *more] for more in (
            ["--subtree", "/c0"], ["--uid", "1000"], ["--all"], ["--settle"], ["--pairs", os.devnull], ["--subtrees", os.devnull])),
        [command, "--uid", "1000", "--subtree", "/c0", "--subtrees", os.devnull], [command, "--pairs", os.devnull, "--subtrees", os.devnull]))
    yield from ((words, True) for words in (
        asks, [command, "--everybody=true", "--subtree", "/c0"], [command, "--everybody=", "--subtree", "/c0"], [*asks, "/c0"],
        *([*asks, "--subtree", "/c0", *more] for more in (
            ["--uid", "1000"], ["--gid", "5"], ["--all"], ["--settle"], ["--everybody"], ["--pairs", os.devnull])),
        [*asks, "--uid", "1000"], [*asks, "--pairs", os.devnull], [*asks, "--subtree"], [*asks, "--subtree", "--all"]))


def spelled():
    """Each command line with whether it is usage."""
    for number, pid in NUMBERS:
        yield ["may", "--uid", number, "--pid", "11", "--to", "/c0"], False
        yield ["may", "--uid", "1000", "--gid", number, "--pid", pid, "--to", "/c0"], False
        for command in (*OF_ONE, "advise"):
            yield [command, "--uid", number, "--gid", number, "--subtree", "/c0"], False
        yield ["replay", "--uid", number, "--ops", os.devnull], False
        yield ["audit", "--uid", number, "--subtree", "/c0"], False
        yield ["explain", "--uid", number, "--subtree", "/c0"], False
    for word in NO_NUMBERS:
        yield ["may", "--uid", word, "--pid", "11", "--to", "/c0"], True
        yield ["may", "--uid", "1000", "--gid", word, "--pid", "11", "--to", "/c0"], True
        yield ["may", "--uid", "1000", "--pid", word, "--to", "/c0"], True
        for command in (*OF_ONE, "advise"):
            yield [command, "--uid", word, "--subtree", "/c0"], True
            yield [command, "--uid", "1000", "--gid", word, "--subtree", "/c0"], True
        yield ["replay", "--uid", word, "--ops", os.devnull], True
        yield ["replay", "--uid", "1000", "--gid", word, "--ops", os.devnull], True
        yield ["audit", "--uid", word, "--subtree", "/c0"], True
        yield ["explain", "--uid", word, "--subtree", "/c0"], True
    for word in LISTED:
        yield ["audit", "--uid", word, "--subtree", "/c0"], False
        yield ["explain", "--uid", word, "--subtree", "/c0"], False
        yield ["advise", "--uid", word, "--uid", "1001", "--subtree", "/c0", "--subtree", "/c1"], False
        yield ["advise", "--uid", word, "--gid", "5", "--subtree", "/c0"], True
    yield ["advise", "--uid", "1000", "--uid", "1001", "--gid", "5", "--subtree", "/c0"], True
    yield ["advise", "--uid", "1000", "--gid", "5", "--subtree", "/c0", "--subtree", "/c1"], False
    pairs = ["advise", "--pairs", os.devnull]
    for command in "advise", "audit", "explain":
        yield [command, *pairs[1:]], False
    yield ["advise", "--tree", DELEGATION, "--pairs", "-"], False
    yield ["audit", "--settle", "--uid", "1000", "--uid", "1001", "--subtree", "/c0"], False
    yield ["audit", "--all", "--settle", "--uid", "1000", "--subtree", "/c0"], False
    yield ["audit", "--settle=true", "--uid", "1000", "--subtree", "/c0"], True
    for command in "audit", "advise", "explain":
        yield from everybody(command)
    yield ["may", "--everybody"], True
    yield ["advise", "--settle", "--uid", "1000", "--uid", "1001", "--subtree", "/c0"], False
    yield ["advise", "--settle=true", "--uid", "1000", "--subtree", "/c0"], True
    yield from ((words, True) for words in (
        ["advise"], ["advise", "--uid", "1000"], ["advise", "--subtree", "/c0"], ["advise", "--gid", "5", "--subtree", "/c0"],
        ["advise", "--pairs", "-"], ["advise", "--tree", "-", "--pairs", "-"], [*pairs, "--uid", "1000"], [*pairs, "--gid", "5"],
        [*pairs, "--subtree", "/c0"], [*pairs, "--settle"], [*pairs, *pairs[1:]], [*pairs, "--uid", "1000", "--subtree", "/c0"],
        ["audit", *pairs[1:], "--uid", "1000"], ["explain", *pairs[1:], "--subtree", "/c0"], ["audit", *pairs[1:], "--settle"],
        ["may", *pairs[1:]]))
    for word in NOT_LISTED:
        yield ["audit", "--uid", word, "--subtree", "/c0"], True
        yield ["advise", "--uid", word, "--subtree", "/c0"], True
        yield ["check", "--uid", word, "--subtree", "/c0"], True
    yield from ((line.split(), False) for line in SHOWN)
    yield from ((line.split(), True) for line in NOT_SHOWN)
    for word in NOT_UTF_8:
        yield from (([word], True), (["may", word], True), (["may", "--uid", word, "--pid", "11", "--to", "/c0"], True),
                    (["may", "--uid", "1000", "--pid", "11", "--to", "/c0", b"--" + word], True),
                    (["may", "--uid", "1000", "--pid", "11", "--to", "/c0", word], True),
                    (["check", "--uid", "1000", "--subtree", "/c0", "--tree", word], True),
                    (["replay", "--uid", "1000", "--ops", word], True))


def names():
    """The name that the program is called by changes nothing."""
    for name in ("zirofen", "", "x y", "--help", "check", "/" * 3000):
        yield Answered(CHECK, read(DELEGATION), b"contained\n", name)


def dashes():
    """`-` is standard input, and `./-` a file of that name."""
    tree, ops, pairs = read(DELEGATION), b"move 11 /c0/c01\n", b"pair 1000 /c0\nescapes\npair 1000:7,8 /c1\n"
    files = {"tree": tree, "-": tree, "ops": ops, "pairs": pairs, "subtrees": b"/c0\n/c1\n"}
    advise, named = ["advise", "--pairs"], ["audit", "--everybody", "--subtrees"]
    for words, given, output in ((CHECK, tree, b"contained\n"), ([*CHECK, "--tree", "-"], tree, b"contained\n"),
                                 ([*CHECK, "--tree=-"], tree, b"contained\n"), ([*CHECK, "--tree", "./-"], b"", b"contained\n"),
                                 (["audit", *CHECK[1:], "--tree", "-"], tree, b"contained\n"),
                                 ([*REPLAY, "-", "--tree", "tree"], ops, b"ok\n"),
                                 ([*REPLAY, "-", "--tree", "./-"], ops, b"ok\n"),
                                 ([*REPLAY, "ops", "--tree", "-"], tree, b"ok\n"), ([*REPLAY, "-", "--tree", "tree"], b"", b""),
                                 ([*advise, "-", "--tree", "tree"], pairs, b"contained\n"),
                                 ([*advise, "pairs"], tree, b"contained\n"), ([*advise, "pairs", "--tree", "-"], tree, b"contained\n"),
                                 ([*advise, "-", "--tree=./-"], b"contained\n", b"contained\n"),
                                 ([*named, "-", "--tree", "tree"], b"/c1\n", b"contained\n"),
                                 ([*named, "subtrees"], tree, b"contained\n"), ([*named, "subtrees", "--tree", "-"], tree, b"contained\n"),
                                 ([*named, "-", "--tree=./-"], b"/c0\n", b"contained\n")):
        yield Answered(words, given, output, files=files)


def of_formats():
    """The option in front of each command's words and behind them, and `upgrade`, which has none."""
    asks = [["may", *CHECK[1:3], "--pid", "11", "--to", "/c0"], [*REPLAY, os.devnull], *([command, *CHECK[1:]] for command in (
        *OF_ONE, "audit", "advise", "explain")), *([command, *words] for command in ("audit", "advise", "explain") for words in (
            ["--everybody", "--subtree", "/c0"], ["--pairs", os.devnull], ["--everybody", "--subtrees", os.devnull]))]
    for words in asks:
        for is_usage, formats in ((False, FORMATS), (True, NO_FORMATS)):
            yield from ((found, is_usage) for some in formats for found in ([words[0], *some, *words[1:]], [*words, *some]))
        yield from (([*words, FORMAT, word], True) for word in NOT_UTF_8)
    for some in FORMATS:
        yield ["upgrade", *some], True
        yield [*some, *CHECK], True


def cases(program):
    yield from (Spelled(*row) for row in rows())
    if has_format(program):
        yield from (Spelled(*row) for row in of_formats())
    yield from names()
    yield from dashes()


if __name__ == "__main__":
    sys.exit(run(cases, "words"))
