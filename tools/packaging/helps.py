"""What --help says, in its parts: of the program, which writes it as clap does, and of the helpers, by argparse."""
import re
from collections import namedtuple

ENTRY = re.compile(r"(?:  |      )(?=[^ ])(.*)")
# usage and description in words, and named lists of entries: pairs of a tag and what is said of it
Help = namedtuple("Help", "usage paragraphs lists status")


def joined(lines):
    return " ".join(" ".join(lines).split())


def entries(lines):
    """The entries of a list; what is said of one may go on below it."""
    found = []
    for line in lines:
        row = ENTRY.fullmatch(line)
        if row:
            tag, _, told = row[1].partition("  ")
            found.append((tag, told.strip()))
        elif found and line.strip():
            tag, told = found[-1]
            found[-1] = (tag, f"{told} {line.strip()}".strip())
    return found


def blocks(said):
    return [block.split("\n") for block in re.split(r"\n\n+", said.strip("\n"))]


def parsed(said):
    """A help in its parts. An example stands in none of them."""
    usage, paragraphs, lists, status = "", [], {}, ""
    for block in blocks(said):
        head = block[0].lower().rstrip(":")
        if block[0].lower().startswith("usage: "):
            usage = joined(block)[len("usage: "):]
        elif head in ("options", "commands", "positional arguments"):
            lists[head] = entries(block[1:])
        elif block[0].startswith("Status"):
            status, rest = block[0].partition(" ")[2], block[1:]
            paragraphs += [joined(rest)] if rest else []
        elif head not in ("example", "examples"):
            paragraphs.append(joined(block))
    if not status:
        told_so = re.search(r"^Status: (.*)", said, re.M)
        status = told_so[1] if told_so else ""
    if not status:
        told = [re.search(r"The status is .*", it) for it in paragraphs]
        status = next((it[0] for it in told if it), "")
    return Help(usage, paragraphs, lists, status)
