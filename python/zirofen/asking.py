"""The questions."""
from __future__ import annotations

from typing import Iterable, List, Optional, Tuple, Union

from zirofen.answers import Advice, Answer, Audit, Explained, Replayed, read_advice, read_answer, read_audit, read_explained
from zirofen.asked import OTHER
from zirofen.asked import asked as who
from zirofen.faults import Fault
from zirofen.trees import Tree
from zirofen.users import Asked, number, user_of

# a tree, or its text
Text = Union[Tree, str, bytes]


def run(words: List[str], tree: Text = b"", other: Union[str, bytes] = b"") -> Tuple[int, str]:
    """What the program says to the words of a command line, and its status, which isn't 3: a fault is raised.

    >>> import zirofen
    >>> zirofen.run(["upgrade"], "format = 1")  # doctest: +ELLIPSIS
    Traceback (most recent call last):
    zirofen.faults.Fault: tree shape top
      the top table: controllers is missing...
    """
    if any("\n" in it or "\0" in it for it in words):
        raise ValueError("no word has a newline or a zero")
    given = tree.text if isinstance(tree, Tree) else tree
    status, report = who().run(words, _bytes_of(given), _bytes_of(other))
    if status == 3:
        raise Fault(report.decode("utf-8", "replace").splitlines())
    return status, report.decode()


def check(tree: Text, user: Asked, subtree: str) -> Answer:
    """Whether a subtree is shown to be contained against a user."""
    return read_answer(_lines(["check", *_words_of_one(user), f"--subtree={subtree}"], tree))


def settle(tree: Text, user: Asked, subtree: str) -> Answer:
    """As `check`, and looks further where that leaves it unsettled."""
    return read_answer(_lines(["settle", *_words_of_one(user), f"--subtree={subtree}"], tree))


def may(tree: Text, user: Asked, pid: int, to: str) -> Tuple[bool, str]:
    """Whether a user may move a process to a cgroup, and the line that says so."""
    status, said = run(["may", *_words_of_one(user), "--pid", number(pid), f"--to={to}"], tree)
    return status == 0, said.rstrip("\n")


def audit(tree: Text, users: Iterable[Asked], subtrees: Iterable[str], *, every: bool = True, settle: bool = False) -> Audit:
    """Every user with every subtree, of which all that aren't shown to be contained are listed, or with every=False the first alone."""
    words = ["audit", *_words_of_all(users, subtrees), *["--all"] * every, *["--settle"] * settle]
    return read_audit(_lines(words, tree))


def advise(tree: Text, users: Iterable[Asked], subtrees: Iterable[str], *, settle: bool = False) -> Advice:
    """What to change so that every subtree is contained against every user."""
    return read_advice(_lines(["advise", *_words_of_all(users, subtrees), *["--settle"] * settle], tree))


def explain(tree: Text, users: Iterable[Asked], subtrees: Iterable[str]) -> Tuple[Explained, ...]:
    """Of every user and subtree what each guard asks, and by what it holds or fails."""
    return read_explained(_lines(["explain", *_words_of_all(users, subtrees)], tree))


def replay(tree: Text, user: Asked, operations: Iterable[str], subtree: Optional[str] = None) -> Replayed:
    """Whether each operation is carried out, and where a subtree is named whether they keep it.

    >>> import zirofen
    >>> tree = zirofen.Tree(["memory"], [zirofen.Cgroup("/", dir=zirofen.Entry(uid=7))])
    >>> zirofen.replay(tree, 7, ["mkdir /a", "mkdir /a"])
    Replayed(outcomes=('ok', 'refused exists /a'), verdict=None)
    """
    named = [] if subtree is None else [f"--subtree={subtree}"]
    lines = _lines(["replay", *_words_of_one(user), *named, "--ops", OTHER], tree, "".join(f"{it}\n" for it in operations))
    return Replayed(tuple(lines)) if subtree is None else Replayed(tuple(lines[:-1]), lines[-1])


def upgrade(tree: Text) -> str:
    """The tree's text, with every key."""
    return run(["upgrade"], tree)[1]


def _lines(words: List[str], tree: Text, other: str = "") -> List[str]:
    return run(words, tree, other)[1].splitlines()


def _words_of_one(asked: Asked) -> List[str]:
    user = user_of(asked)
    return ["--uid", number(user.uid), *(word for gid in user.gids for word in ("--gid", number(gid)))]


def _words_of_all(users: Iterable[Asked], subtrees: Iterable[str]) -> List[str]:
    if isinstance(subtrees, (str, bytes)):
        raise TypeError("subtrees are a list of paths")
    return [*(word for it in users for word in ("--uid", user_of(it).word)), *(f"--subtree={it}" for it in subtrees)]


def _bytes_of(text: Union[str, bytes]) -> bytes:
    return text.encode() if isinstance(text, str) else bytes(text)
