"""Whether what the code and the helpers for hosts say of limit files is what the one table of them in docs/MODEL.md says, and whether that
is the definition's: one row for each in KINDS or OTHER_KINDS. And how much a text takes by the helpers, and by the definition."""
import os, re, sys

from edited import text_of
from limit_table import MODEL, File, rows_of_docs

sys.path.append(f"{os.path.dirname(os.path.dirname(os.path.abspath(__file__)))}/host")
from zirofen_host import files, profile

KINDS = "crates/cg_cgroup/specs/Kinds.antt"
OTHER_KINDS = "crates/cg_cgroup/specs/OtherKinds.antt"
CODE = "crates/cg_cgroup/src/files.rt"
HOST, FORMATS_OF_HOST = "host/zirofen_host/files.py", "host/zirofen_host/profile.py"

ROW = re.compile(
    r"^kind_of \w+ = (?:record \()?usual \d+ \(codes \"([^\"]+)\"\) (?:None|\(Some (\w+)\)) (?:(Max)|\(At (\d+)\))"
    r"(?:\) \{ least = (\d+); greatest = (\d+); takes_max = (true|false) \})?$", re.M)
TEXT_ROW = re.compile(r"^other_kind \w+ = (by_device \()?row \d+ \(codes \"([^\"]+)\"\) (?:None|\(Some (\w+)\)) "
                      r"\(codes \"([^\"]+)\"\) \(codes \"([^\"]+)\"\)\)?$", re.M)
# a number of the helpers' formats, where the definition has it, and how it stands there
NUMBERS = [
    (profile.TEXT_FORMATS[2].most_rows, "crates/cg_format/specs/Form.antt", r"^most_rows Two = (\d+)$"),
    (profile.TEXT_FORMATS[4].most_rows, "crates/cg_format/specs/Form.antt", r"^most_rows Four = (\d+)$"),
    (profile.TEXT_FORMATS[2].longest, "crates/cg_format/specs/TreeTexts.antt", r"^longest_text text = .* (\d+)$"),
    (profile.TEXT_FORMATS[4].longest, "crates/cg_format/specs/TreeTexts.antt", r"^longest_text text = .* (\d+) \d+$"),
    (profile.LARGEST_PID, "crates/cg_cgroup/specs/Numbers.antt", r"^is_pid .* nat_le number (\d+)$"),
]
USUAL = re.compile(r"least = (\d+);\s+greatest = (\d+);\s+takes_max = (true|false);")


def kinds_of(text):
    """Returns the limit files of the definition whose values are numbers, in their order."""
    usual = USUAL.search(text)
    found = []
    for name, controller, is_max, number, *range_ in ROW.findall(text):
        least, greatest, takes_max = range_ if range_[0] else usual.groups()
        takes_max, default = takes_max == "true", "max" if is_max else int(number)
        tried = ("max", "0") if takes_max else (number, least)
        found.append(File(name, controller.lower() or None, int(least), int(greatest), takes_max, False, default, *tried, 1, not controller))
    return found


def text_kinds_of(text):
    """Returns those whose values are texts."""
    return [File(name, controller.lower() or None, None, None, False, bool(has_devices), None, loose, other, 4, False)
            for has_devices, name, controller, loose, other in TEXT_ROW.findall(text)]


def rows_of_definition():
    return kinds_of(text_of(KINDS)) + text_kinds_of(text_of(OTHER_KINDS))


def differing(found, wanted, name_of=lambda it: it.name):
    """Returns what is wrong with rows, in words."""
    faults = [f"{name_of(it)} isn't as in {MODEL}" for it in found if it not in wanted]
    return faults or (["the table of limit files has other rows, or another order"] if found != wanted else [])


def faults_of_model(text):
    """Returns how many limit files there are, and how the table of docs/MODEL.md differs from the definition."""
    wanted, rows = rows_of_definition(), rows_of_docs(text)
    faults = [f"the table of limit files has no row as the definition has for {it.name}" for it in wanted if it not in rows]
    return len(wanted), faults or (["the table of limit files has other rows, or another order"] if rows != wanted else [])


def faults_of_code(text):
    """Returns how many limit files have numbers, and those whose name stands in the code otherwise than once, in its table."""
    counts = {it.name: text.count('"' + it.name + '"') for it in rows_of_docs() if it.since == 1}
    return len(counts), [f"{name} stands {count} times" for name, count in counts.items() if count != 1]


def said_by_host(name, it):
    """Returns what the table of the helpers for hosts says of a limit file: for a text neither default nor numbers."""
    is_number = it.range is not None
    return name, it.controller, *(it.range or (None, None, False)), it.usual if is_number else None, it.since_format


def faults_of_host(_):
    """Returns how many limit files there are, and those of which the table of the helpers for hosts says otherwise."""
    wanted = [(it.name, it.controller, it.least, it.greatest, it.takes_max, it.default, it.since) for it in rows_of_docs()]
    found = [said_by_host(name, it) for name, it in files.LIMIT_FILES.items()]
    return len(wanted), differing(found, wanted, lambda it: it[0])


def faults_of_numbers(_, numbers=NUMBERS):
    """Returns how many numbers the helpers for hosts have of the formats, and those that the definition hasn't."""
    return len(numbers), [f"{number} isn't what {file} says" for number, file, pattern in numbers
                          if re.findall(pattern, text_of(file), re.M) != [str(number)]]
