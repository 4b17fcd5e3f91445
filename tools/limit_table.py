"""The one table of limit files, which is in docs/MODEL.md, as rows: what holds other tables against it reads it by this."""
import collections, os, re

MODEL = "docs/MODEL.md"
TOP = os.path.dirname(os.path.dirname(os.path.abspath(__file__)))
# a limit file: its name; the controller that brings it, or None; the numbers that it takes, which are None where its value is a text, and
# whether it takes max; whether the lines of a text begin with a device; its value where none is given, which is None where it isn't known;
# the two that a try sets it to; the first format that names it; and whether it stands at the root
File = collections.namedtuple("File", "name controller least greatest takes_max has_devices default loose other since at_root")

# how the page says what a value is, and which files of no controller stand at the root
NUMBER = re.compile(r"number(?: from (\d+) to (\d+))?$")
TEXTS = {"text": False, "text of devices": True}
AT_ROOT = {"none, at every cgroup": True, "none, but at the root": False}
NOT_KNOWN = "not known"
GREATEST = 2 ** 63 - 1


def table_below(text, header):
    """Returns the cells of each row of the table that has such a first cell."""
    rows, lines = [], iter(text.split("\n"))
    for line in lines:
        if line.startswith(f"| {header} |"):
            next(lines)
            break
    for line in lines:
        if not line.startswith("|"):
            break
        rows.append([it.strip() for it in line.strip("|").split("|")])
    return rows


def names_in(cell):
    """Returns the files that a first cell names, each alone or for each SIZE in turn."""
    names, _, sizes = cell.partition(", where SIZE is ")
    names = re.findall("`([^`]+)`", names)
    return [name.replace("SIZE", size) for size in re.findall("`([^`]+)`", sizes) or ["SIZE"] for name in names]


def files_of(cells):
    """Returns the files of a row of the page's table; a cell that says nothing known is a ValueError."""
    names, controller, value, default, loose, other, since = [it.strip("`") if "," not in it else it for it in cells]
    number = NUMBER.match(value)
    if not (number or value in TEXTS) or not (controller in AT_ROOT or re.fullmatch("`[a-z]+`", cells[1])) or default == NOT_KNOWN and number:
        raise ValueError(f"no such row: {cells}")
    least, greatest = (int(number[1] or 0), int(number[2] or GREATEST)) if number else (None, None)
    known = None if default == NOT_KNOWN else default if default == "max" else int(default)
    brought = None if controller in AT_ROOT else controller
    return [File(name, brought, least, greatest, bool(number and not number[1]), TEXTS.get(value, False), known, loose, other, int(since),
                 AT_ROOT.get(controller, False)) for name in names_in(cells[0])]


def rows_of_docs(text=None):
    """Returns the limit files of the table of docs/MODEL.md, in their order."""
    if text is None:
        with open(f"{TOP}/{MODEL}", encoding="utf-8") as page:
            text = page.read()
    return [it for cells in table_below(text, "Limit file") for it in files_of(cells)]
