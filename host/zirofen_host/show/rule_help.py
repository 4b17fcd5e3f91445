"""From the page of all findings to what it says of each kind: what it means, its cause and how it is mended."""
import re
from functools import lru_cache
from typing import Dict, Mapping, NamedTuple, Optional

from zirofen_host.show import markup

# tools/findings copies it from docs/HOSTS.md
FILE = "findings.md"
HEAD = "### "
_ID = re.compile(r"`([^`]+)`")
_LINK = re.compile(r"\[([^\]]*)\]\(([^)]*)\)")
_NO_ANCHOR = re.compile(r"[^\w\- ]")


class Section(NamedTuple):
    """What is said of a kind, and where it stands in its page."""
    anchor: str
    markdown: str

    def linked(self, page: Optional[str]) -> str:
        """The text with links into the page that it is of, where that is known, and else without."""
        def link(found: "re.Match[str]") -> str:
            is_inner = found[2].startswith("#")
            return found[0] if "://" in found[2] else f"[{found[1]}]({page}{found[2]})" if page and is_inner else found[1]
        return _LINK.sub(link, self.markdown)


@lru_cache(maxsize=None)
def sections() -> Mapping[str, Section]:
    """What is said of each kind, by its id."""
    parts = f"\n{markup.read(FILE)}".split(f"\n{HEAD}")[1:]
    found: Dict[str, Section] = {}
    for part in parts:
        head, _, body = part.partition("\n")
        section = Section(_NO_ANCHOR.sub("", head.lower()).replace(" ", "-"), body.strip())
        found.update((each, section) for each in _ID.findall(head))
    return found
