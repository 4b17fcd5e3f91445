"""Why there is no answer."""
from __future__ import annotations

import re
from typing import List, Optional, Tuple

# where a fault of a tree or of lines stands
PLACE = re.compile(r"(top|cgroup \d+|process \d+)$")


class Fault(Exception):
    """The words, the tree or the other text have a fault, or memory was refused.

    >>> fault = Fault(["fault: tree no-parent cgroup 2", "  path: '/c0/c01' has no parent"])
    >>> fault.words, fault.place, fault.help
    (('tree', 'no-parent'), 'cgroup 2', ("path: '/c0/c01' has no parent",))
    >>> Fault(["fault: line 3 bad-word"]).place
    'line 3'
    """
    words: Tuple[str, ...]
    place: Optional[str]
    help: Tuple[str, ...]

    def __init__(self, lines: List[str]) -> None:
        said = next((it for it in lines if not it.startswith(" ")), "fault: unknown").partition("fault: ")[2]
        super().__init__(said, *(it.strip() for it in lines if it.startswith(" ")))
        numbered = re.match(r"line (\d+) (.*)", said)
        found = PLACE.search(said)
        if numbered:
            self.words, self.place = ("line", *numbered[2].split(" ")), f"line {numbered[1]}"
        elif found:
            self.words, self.place = tuple(said[:found.start()].split()), found[1]
        else:
            self.words, self.place = tuple(said.split(" ")), None
        self.help = tuple(it[2:] for it in lines if it.startswith(" "))

    def __str__(self) -> str:
        return "\n  ".join([self.args[0], *self.help])
