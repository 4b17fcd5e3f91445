"""Instructions of a run of the program, as callgrind counts them, whatever else the machine does."""
import re
import subprocess

CALLGRIND = ["valgrind", "--tool=callgrind", "--callgrind-out-file=/dev/null"]


def instructions(words, file="/dev/null"):
    """How many instructions a command takes that reads a file, and what it writes."""
    with open(file, "rb") as text:
        said = subprocess.run([*CALLGRIND, *words], stdin=text, capture_output=True)
    return int(re.search(rb"Collected : (\d+)", said.stderr)[1]), said.stdout.decode()
