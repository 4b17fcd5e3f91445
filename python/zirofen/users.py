"""Users, by numbers."""
from __future__ import annotations

import operator
from dataclasses import dataclass
from typing import Tuple, Union


@dataclass(frozen=True)
class User:
    """A user and their groups, the primary one first.

    >>> User(1000, (1000, 50)).word
    '1000:1000,50'
    """
    uid: int
    gids: Tuple[int, ...] = ()

    @property
    def word(self) -> str:
        """As the command line names them."""
        return f"{number(self.uid)}:{','.join(map(number, self.gids))}" if self.gids else number(self.uid)


# a uid alone is a user in no group
Asked = Union[int, User]


def number(value: int) -> str:
    """The decimal digits of what is an integer: no text that looks like one, and no truth value.

    >>> number("1000")
    Traceback (most recent call last):
    TypeError: '1000' is no number
    """
    if isinstance(value, bool) or not hasattr(value, "__index__"):
        raise TypeError(f"{value!r} is no number")
    return str(operator.index(value))


def user_of(asked: Asked) -> User:
    return asked if isinstance(asked, User) else User(asked)


def read_user(word: str) -> User:
    """The user that a line of a report names."""
    uid, _, gids = word.partition(":")
    return User(int(uid), tuple(map(int, gids.split(","))) if gids else ())
