"""From the name of a container on the command line to its path."""
from dataclasses import replace
from typing import Iterable, Mapping, Optional, TypeVar

from zirofen_host.collect import containers, walk
from zirofen_host.collect.accounts import accounts_here, charged_user_of
from zirofen_host.collect.model import Cgroup, Scope, Snapshot
from zirofen_host.fault import Fault
from zirofen_host.options import Options
from zirofen_host.profile import CgroupPath, path_of, shown, text_of

Some = TypeVar("Some", bound=Options)


def is_word(text: str) -> bool:
    """Whether a place is named by a container's word, behind which a path in there may stand."""
    return not text.startswith("/") and ":" in text


def place_in(text: str, found: Snapshot, options: Options) -> str:
    """The path of a place in what was found."""
    return place_among(text, found.scopes or containers.scopes(found.cgroups), options) if is_word(text) else text


def with_only(options: Some) -> Some:
    """Options whose part of the host is named by its path."""
    text = None if options.only is None else text_of(options.only)
    if text is None or not is_word(text) or options.tree:
        return options
    cgroups: Mapping[CgroupPath, Cgroup] = walk.walk_over(options.mount, None, None, charged_user_of(options.accounts)).found
    return replace(options, only=path_of(place_among(text, containers.scopes(cgroups), options)))


def place_among(text: str, scopes: Iterable[Scope], options: Options) -> str:
    """The path of a place in one of some containers; a word that two have names none."""
    names = accounts_here(options.accounts, ()).names
    found = [(text_of(each.path), inside) for each in scopes
             for inside in [inside_of(text, containers.word_of(each, None if each.holder is None else names.get(each.holder)))]
             if each.name is not None and inside is not None]
    if len(found) != 1:
        several = f"{len(found)} containers have that name: {' '.join(path for path, _ in found[:8])}"
        reason = several if found else "no container has that name"
        raise Fault(f"{shown(text)}: {reason}")
    return "".join(found[0])


def inside_of(text: str, word: str) -> Optional[str]:
    """What of a place is inside of a container, where its word begins it."""
    if text == word:
        return ""
    return text[len(word) + 1:] if text.startswith(f"{word}:/") else None
