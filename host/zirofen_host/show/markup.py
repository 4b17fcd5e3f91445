"""From texts of a report to markup of a page, into which they go by `text` or `code` alone: names are hostile."""
import functools
import os
from html import escape
from string import Template
from typing import Iterable, List, Sequence, Tuple, Union

TEMPLATES = os.path.join(os.path.dirname(os.path.realpath(__file__)), "templates")
SHOWN = 12


def text(value: str) -> str:
    return escape(value, quote=True)


def code(value: str) -> str:
    return f"<code>{text(value)}</code>"


@functools.lru_cache(maxsize=None)
def read(name: str) -> str:
    """A template, or what of it stands in a file of its own."""
    with open(os.path.join(TEMPLATES, name), encoding="utf-8") as opened:
        return opened.read()


def filled(name: str, **values: Union[str, int]) -> str:
    """A template with markup in its places."""
    return Template(read(name)).substitute(values).rstrip("\n")


def sentence(parts: Iterable[Union[str, Tuple[str, str]]]) -> str:
    """A list of plain texts, and of pairs of a type and a text, as markup."""
    return "".join(code(each[1]) if isinstance(each, tuple) else text(each) for each in parts)


def capital(sentence: str) -> str:
    """A sentence's beginning; a user's name stays as it is."""
    return sentence[0].upper() + sentence[1:] if sentence.startswith(("anybody", "everybody", "a member", "members")) else sentence


def items(markup: Iterable[str]) -> str:
    return "\n".join(f"<li>{each}</li>" for each in markup)


def places(paths: Sequence[str]) -> str:
    """The first of some paths, and how many more there are."""
    more = f" and {len(paths) - SHOWN} more, which the tree marks" if len(paths) > SHOWN else ""
    return ", ".join(map(code, paths[:SHOWN])) + more


def paragraph(markup: str) -> str:
    return f"<p>{markup}</p>" if markup else ""


def fold(summary: str, inside: str, kind: str = "rest") -> str:
    """What is behind a fold."""
    return f'<details class="{kind}"><summary>{summary}</summary>{inside}</details>'


def commands(lines: List[str]) -> str:
    """Commands to copy: a click takes all of them."""
    return f'<pre tabindex="0">{text(chr(10).join(lines))}</pre>' if lines else ""


def css(kind: str) -> str:
    """The class of a kind."""
    return kind.replace(" ", "-")
