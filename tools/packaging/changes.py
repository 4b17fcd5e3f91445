"""CHANGELOG.md as Debian writes such a file."""
import datetime
import re
import textwrap

HEAD = re.compile(r"## (\S+), (\d+-\d+-\d+)")


def debian(text, maintainer, name, revision):
    """An entry of a package for each version, the newest first, as the text has them; each was packaged with this revision. What
    isn't released yet has none."""
    out = []
    for part in re.split(r"^(?=## )", text, flags=re.M)[1:]:
        head = HEAD.match(part)
        if head is None:
            continue
        version, day = head.groups()
        moment = datetime.datetime.fromisoformat(f"{day} 12:00:00+00:00")
        items = re.findall(r"^- (.*(?:\n  .*)*)", part, re.M)
        told = [textwrap.fill(" ".join(it.split()), 78, initial_indent="  * ", subsequent_indent="    ") for it in items]
        out.append("\n".join([f"{name} ({version}-{revision}) unstable; urgency=medium", "", *told, "",
                              f" -- {maintainer}  {moment:%a, %d %b %Y %H:%M:%S +0000}", ""]))
    return "\n".join(out)
