"""From a tree text to the tree in it, and from a tree to its text."""
import json
import sys
from typing import Callable, Iterable, List, Mapping, Sequence, Tuple, Type, TypeVar

from zirofen_host.collect.model import Entry, Placed, Row, Tree, Value
from zirofen_host.fault import Fault
from zirofen_host.files import CONTROL_FILES, TEXT_FILES, NUMBER_FILES
from zirofen_host.profile import (DIRECTORY_MODE, FILE_MODE, TEXT_FORMATS, CgroupPath, TextFormat, is_root, parent_of, path_of, text_of,
                                  tree_order)

Table = Mapping[str, object]
Kind = TypeVar("Kind")


def literal(text: str) -> str:
    """A TOML text in single quotes, in which a backslash is a backslash."""
    if "'" not in text:
        return f"'{text}'"
    return '"' + text.replace("\\", "\\\\").replace('"', '\\"') + '"'


def entry_parts(entry: Entry, usual_mode: int) -> List[str]:
    parts = [f"uid = {entry.uid}"] if entry.uid else []
    parts += [f"gid = {entry.gid}"] if entry.gid else []
    return parts + ([f"mode = 0o{entry.mode:03o}"] if entry.mode != usual_mode else [])


def file_line(row: Row, file: str) -> List[str]:
    """The line of a file, or nothing where all of it is default."""
    parts = entry_parts(row.entry(file), FILE_MODE)
    if file in row.values and row.values[file] != NUMBER_FILES[file].usual:
        value = row.values[file]
        parts.append('value = "max"' if value == "max" else f"value = {value}")
    return [f'"{file}" = {{ {", ".join(parts)} }}'] if parts else []


def text_line(row: Row, file: str) -> str:
    """The line of a limit file whose value is a text, without one where it isn't known."""
    parts = entry_parts(row.entry(file), FILE_MODE)
    if file in row.values:
        # what is printable ASCII is in JSON as in TOML
        lines = [json.dumps(line) for line in str(row.values[file]).split("\n")]
        parts.append(f"value = {lines[0] if len(lines) == 1 else '[' + ', '.join(lines) + ']'}")
    return f'"{file}" = {{ {", ".join(parts)} }}' if parts else f'"{file}" = {{}}'


def row_lines(row: Row, text_format: TextFormat) -> List[str]:
    lines = ["", "[[cgroup]]", f"path = {literal(text_of(row.path))}"]
    enabled = names(row.enabled, text_format)
    if enabled:
        lines.append(f"enabled = [{enabled}]")
    parts = entry_parts(row.directory, DIRECTORY_MODE)
    if parts:
        lines.append(f"dir = {{ {', '.join(parts)} }}")
    files = [line for file in (*CONTROL_FILES, *NUMBER_FILES) for line in file_line(row, file)]
    files += [text_line(row, file) for file in row.text_files]
    return lines + (["[cgroup.files]"] + files if files else [])


def names(controllers: Iterable[str], text_format: TextFormat) -> str:
    """Controllers as a format lists them."""
    return ", ".join(f'"{name}"' for name in text_format.controllers if name in controllers)


def row_text(row: Row, text_format: TextFormat) -> str:
    return "\n".join(row_lines(row, text_format)) + "\n"


def process_text(process: Placed) -> str:
    pid, uid, path = process
    return f"\n[[process]]\npid = {pid}\nuid = {uid}\nat = {literal(text_of(path))}\n"


def in_order(paths: Iterable[CgroupPath]) -> List[CgroupPath]:
    """Paths so that what is inside of one comes right behind it."""
    return sorted(paths, key=tree_order)


def head_text(tree: Tree, head: Iterable[str]) -> str:
    """What stands before the cgroups. Of a format that takes more bytes than the others the first line tells it."""
    format_line, comments = f"format = {tree.format.number}", [f"# {line}" for line in head]
    first = [*comments, "", format_line] if tree.format.number == 2 else [format_line, *comments, ""]
    return "\n".join([*first, f"controllers = [{names(tree.controllers, tree.format)}]", ""])


def tree_text(tree: Tree, head: Iterable[str]) -> str:
    """The text of a tree, with comment lines at its head."""
    return "".join([head_text(tree, head), *(row_text(tree.rows[path], tree.format) for path in in_order(tree.rows)),
                    *map(process_text, sorted(tree.processes))])


def typed(kind: Type[Kind], value: object) -> Kind:
    """A value that is of a type; another is a TypeError."""
    if not isinstance(value, kind):
        raise TypeError
    return value


def table_in(value: object) -> Table:
    return typed(dict, value)


def parts_in(value: object) -> Sequence[object]:
    return typed(list, value)


def tables_in(value: object) -> Sequence[Table]:
    return list(map(table_in, parts_in(value)))


def number_in(value: object) -> int:
    return typed(int, value)


def text_in(value: object) -> str:
    return typed(str, value)


def texts_in(value: object) -> Tuple[str, ...]:
    return tuple(map(text_in, parts_in(value)))


def value_in(value: object) -> Value:
    return value if isinstance(value, str) else number_in(value)


def text_value(value: object) -> str:
    """The text of a value: of a number its digits, and of several lines these with a newline between two."""
    return "\n".join(texts_in(value)) if isinstance(value, list) else str(value_in(value))


def read_entry(table: Table, usual_mode: int) -> Entry:
    return Entry(number_in(table.get("uid", 0)), number_in(table.get("gid", 0)), number_in(table.get("mode", usual_mode)))


def read_row(table: Table) -> Row:
    files = {name: table_in(entry) for name, entry in table_in(table.get("files", {})).items()}
    return Row(path=path_of(text_in(table["path"])),
               directory=read_entry(table_in(table.get("dir", {})), DIRECTORY_MODE),
               files={name: read_entry(entry, FILE_MODE) for name, entry in files.items()},
               values={name: (text_value if name in TEXT_FILES else value_in)(entry["value"])
                       for name, entry in files.items() if "value" in entry},
               enabled=texts_in(table.get("enabled", [])))


def toml_reader(what: str = "a tree text") -> Callable[[str], Table]:
    """What reads TOML here; `what` is read stands in the line of a fault."""
    if sys.version_info >= (3, 11):
        from tomllib import loads
    else:
        try:
            from tomli import loads
        except ImportError:
            raise Fault(f"reading {what} takes Python 3.11 or newer, or the package tomli") from None
    reader: Callable[[str], Table] = loads
    return reader


def read_tree(text: str) -> Tree:
    """The tree of a text that the program takes, so that nothing is looked at twice here."""
    reader = toml_reader()
    try:
        document = reader(text)
        rows = {row.path: row for row in map(read_row, tables_in(document.get("cgroup", [])))}
        processes = [Placed(number_in(each["pid"]), number_in(each["uid"]), path_of(text_in(each["at"])))
                     for each in tables_in(document.get("process", []))]
        text_format = TEXT_FORMATS.get(number_in(document["format"]), TEXT_FORMATS[2])
        tree = Tree(texts_in(document["controllers"]), rows, processes, text_format)
    except (AttributeError, KeyError, TypeError, ValueError, RecursionError):
        raise Fault("this is no tree text that this helper reads, which is TOML 1.0") from None
    if not any(map(is_root, rows)) or any(not is_root(path) and parent_of(path) not in rows for path in rows):
        raise Fault("this is no tree text: a cgroup has none above it")
    return tree
