"""From a running host to a tree text, and back to an answer.

A helper beside the program, and no part of what is proved: what it reads and writes was tested alone. The answers are the
program's own, on the text that it is given.
"""
import sys

OLDEST = (3, 9)

if sys.version_info < OLDEST:
    # an import that fails ends with 1, which is another answer's status
    sys.stderr.write("the helpers in host/ take Python {}.{} or newer\n".format(*OLDEST))
    sys.exit(3)
