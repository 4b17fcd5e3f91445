"""A second model of Zirofen: the bytes in which a tree is written. Written from docs/FORMATS.md, "What is written of a tree", alone, and
from no code of crates/; keep it so.
"""


def lines_of(document):
    """The lines of a tree's document."""
    lines = values_of({key: document[key] for key in document if key not in ("cgroup", "process") or not document[key]})
    for row in document["cgroup"]:
        lines += ["", "[[cgroup]]", *values_of({key: row[key] for key in row if key not in ("dir", "files")})]
        lines += ["", "[cgroup.dir]", *values_of(row["dir"])]
        for name in sorted(row["files"]):
            lines += ["", f"[cgroup.files.{spelled(name)}]", *values_of(row["files"][name])]
    for row in document["process"]:
        lines += ["", "[[process]]", *values_of(row)]
    return lines


def values_of(table):
    return [f"{key} = {spelled(table[key])}" for key in sorted(table)]


def spelled(value):
    if isinstance(value, list):
        return "[" + ", ".join(map(spelled, value)) + "]"
    return quoted(value) if isinstance(value, str) else str(value)


def quoted(text):
    """A text in the first way that can hold it as it is."""
    if '"' not in text and "\\" not in text:
        return f'"{text}"'
    if "'" not in text:
        return f"'{text}'"
    if "\\" not in text and '"""' not in text:
        return f'"""{text}"""'
    if "'''" not in text:
        return f"'''{text}'''"
    return '"' + text.replace("\\", "\\\\").replace('"', '\\"') + '"'
