"""From why nothing is asked of a subtree, by what a text and the program take, to a sentence."""
from dataclasses import dataclass

from zirofen_host.collect.reasons import Reason


class TooLargeForText(Reason):
    """A subtree goes into no tree text."""


@dataclass(frozen=True)
class TooManyCgroups(TooLargeForText):
    """It has too many cgroups."""
    count: int
    most: int

    def __str__(self) -> str:
        return f"{self.count} cgroups, and a tree text has {self.most} at most"


@dataclass(frozen=True)
class TooLong(TooLargeForText):
    """It has too many bytes."""

    def __str__(self) -> str:
        return "what it needs goes into no tree text: its paths and limits are too long"


@dataclass(frozen=True)
class TextRefused(Reason):
    """The program takes its text as no tree, and says so in a line."""
    line: str

    def __str__(self) -> str:
        return self.line
