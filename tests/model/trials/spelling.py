"""From a document to one of the many TOML texts that spell it."""
import json


def text(rng, value):
    """A text in single quotes, where it can stand so, or in double ones."""
    plain = "'" not in value and all(" " <= letter <= "~" for letter in value)
    if plain and rng.random() < 0.6:
        return f"'{value}'"
    return json.dumps(value).replace("\x7f", "\\u007f")


def number(rng, value):
    style = rng.random()
    if value >= 0 and style < 0.3:
        return f"0o{value:o}"
    if value >= 0 and style < 0.36:
        return f"0x{value:X}"
    if value >= 1000 and style < 0.45:
        return f"{value:_}"
    return f"+{value}" if value >= 0 and style < 0.5 else str(value)


def key(rng, name):
    return name if name.isidentifier() and name.isascii() and rng.random() < 0.9 else text(rng, name)


def inline(rng, value):
    """A value on one line; a document's part that has a text of its own is `Raw`."""
    if isinstance(value, Raw):
        return str(value)
    if isinstance(value, str):
        return text(rng, value)
    if isinstance(value, bool):
        return str(value).lower()
    if isinstance(value, int):
        return number(rng, value)
    if isinstance(value, list):
        gap = rng.choice(["", " ", "\n  "])
        return "[" + gap + ("," + gap).join(inline(rng, each) for each in value) + ("," if value and gap else "") + "]"
    return "{ " + ", ".join(f"{key(rng, name)} = {inline(rng, part)}" for name, part in value.items()) + " }"


class Raw(str):
    """A value as it is spelled."""


def table_lines(rng, name, table):
    """An element of an array of tables, with its tables inline or by headers of their own."""
    later = [part for part in ("dir", "files") if isinstance(table.get(part), dict) and rng.random() < 0.5]
    lines = [f"[[{name}]]"]
    for part, value in table.items():
        if part not in later:
            lines.append(f"{key(rng, part)} = {inline(rng, value)}")
    for part in later:
        lines.append(f"[{name}.{part}]")
        lines += [f"{key(rng, inner)} = {inline(rng, value)}" for inner, value in table[part].items()]
    return lines


def document(rng, parts):
    """The bytes of a text whose document has these parts, in some order of its keys."""
    lines, tables = [], []
    for name, value in parts.items():
        rows = isinstance(value, list) and value and all(isinstance(row, dict) for row in value)
        if rows and rng.random() < 0.85:
            tables.append((name, value))
        else:
            lines.append(f"{key(rng, name)} = {inline(rng, value)}")
    for name, rows in tables:
        for row in rows:
            lines += ["", *table_lines(rng, name, row)]
    if rng.random() < 0.3:
        lines.insert(0, "# a tree")
    newline = "\r\n" if rng.random() < 0.08 else "\n"
    mark = "\ufeff" if rng.random() < 0.05 else ""
    return (mark + newline.join(lines) + newline).encode("utf-8")
