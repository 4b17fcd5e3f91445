"""Tests of limit_files.py and limit_table.py, which hold tables of limit files against the one in docs/MODEL.md, and that against the definition."""
import os
import unittest
from unittest import mock

from limit_files import NUMBERS, faults_of_code, faults_of_host, faults_of_model, faults_of_numbers, files, kinds_of, text_kinds_of
from limit_table import File, files_of, rows_of_docs, table_below

TOP = os.path.dirname(os.path.dirname(os.path.dirname(os.path.abspath(__file__))))
KINDS = """
usual number name controller default = record {
  number = number;
  least = 0;
  greatest = 99;
  takes_max = true;
}
kind_of MaxDepth = usual 0 (codes "cgroup.max.depth") None Max
kind_of CpuWeight = record (usual 1 (codes "cpu.weight") (Some Cpu) (At 100)) { least = 1; greatest = 10; takes_max = false }
kind_of MemoryMin = usual 2 (codes "memory.min") (Some Memory) (At 0)
"""
TEXT_KINDS = """
other_kind CgroupFreeze = row 0 (codes "cgroup.freeze") None (codes "0") (codes "1")
other_kind IoMax = by_device (row 1 (codes "io.max") (Some Io) (codes "a=max b=max") (codes "a=2 b=2"))
"""
FREEZE = File("cgroup.freeze", None, None, None, False, False, None, "0", "1", 4, False)
IO_MAX = File("io.max", "io", None, None, False, True, None, "a=max b=max", "a=2 b=2", 4, False)
TABLE = """
| Limit file | Controller |
|---|---|
| `a` | b |
| `c` | d |

| other |
"""


class LimitFiles(unittest.TestCase):
    def test_each_row_of_the_definition_is_read(self):
        self.assertEqual(kinds_of(KINDS), [
            File("cgroup.max.depth", None, 0, 99, True, False, "max", "max", "0", 1, True),
            File("cpu.weight", "cpu", 1, 10, False, False, 100, "100", "1", 1, False),
            File("memory.min", "memory", 0, 99, True, False, 0, "max", "0", 1, False),
        ])
        self.assertEqual(text_kinds_of(TEXT_KINDS), [FREEZE, IO_MAX])

    def test_each_row_of_the_page_is_read(self):
        most = 2 ** 63 - 1
        self.assertEqual(table_below(TABLE, "Limit file"), [["`a`", "b"], ["`c`", "d"]])
        for cells, found in [
                (["`a`, `b.c`", "none, at every cgroup", "number", "`max`", "`max`", "`0`", "1"],
                 [File(name, None, 0, most, True, False, "max", "max", "0", 1, True) for name in ("a", "b.c")]),
                (["`w`", "`cpu`", "number from 1 to 9", "`5`", "`5`", "`1`", "1"], [File("w", "cpu", 1, 9, False, False, 5, "5", "1", 1, False)]),
                (["`cgroup.freeze`", "none, but at the root", "text", "not known", "`0`", "`1`", "4"], [FREEZE]),
                (["`io.max`", "`io`", "text of devices", "not known", "`a=max b=max`", "`a=2 b=2`", "4"], [IO_MAX])]:
            self.assertEqual(files_of(cells), found)
        pages = files_of(["`h.SIZE.max` and then `h.SIZE.x`, where SIZE is `1GB` and `2MB` in turn", "`h`", "text", "not known", "`max`", "`0`", "4"])
        self.assertEqual([each.name for each in pages], ["h.1GB.max", "h.1GB.x", "h.2MB.max", "h.2MB.x"])

    def test_a_row_that_says_nothing_known_is_no_row(self):
        for at, cell in ((1, "none"), (2, "word"), (2, "number"), (3, "`x`")):
            cells = ["`a`", "`cpu`", "text", "not known", "`0`", "`1`", "4"]
            with self.assertRaises(ValueError):
                files_of([*cells[:at], cell, *cells[at + 1:]])

    def test_the_table_of_the_page_is_that_of_the_definition(self):
        self.addCleanup(os.chdir, os.getcwd())
        os.chdir(TOP)
        with open("docs/MODEL.md", encoding="utf-8") as page:
            text = page.read()
        self.assertEqual(faults_of_model(text), (51, []))
        self.assertEqual(faults_of_model(text.replace("| `cpu.weight` | `cpu` | number from 1", "| `cpu.weight` | `cpu` | number from 0")),
                         (51, ["the table of limit files has no row as the definition has for cpu.weight"]))
        self.assertEqual(faults_of_code("".join(f'"{it.name}"' for it in rows_of_docs())), (8, []))
        self.assertEqual(faults_of_code("".join(f'"{it.name}"' for it in rows_of_docs()[1:])), (8, ["cgroup.max.descendants stands 0 times"]))


class OfHosts(unittest.TestCase):
    """What the helpers for hosts say, which is looked for where the definition stands."""

    def setUp(self) -> None:
        self.addCleanup(os.chdir, os.getcwd())
        os.chdir(TOP)

    def faults(self, name: str, *args: object, **more: object) -> list[str]:
        with mock.patch.dict(files.LIMIT_FILES, {name: files.LimitFile(name, *args, **more)}):
            return faults_of_host("")[1]

    def test_they_say_what_the_page_says(self) -> None:
        self.assertEqual((faults_of_host(""), faults_of_numbers("")), ((51, []), (5, [])))

    def test_another_row_is_a_fault(self) -> None:
        weight = files.LIMIT_FILES["cpu.weight"]
        for usual, range_ in ((99, weight.range), (100, files.USUAL_RANGE)):
            self.assertEqual(self.faults("cpu.weight", usual, (4, 15), 1, range=range_), ["cpu.weight isn't as in docs/MODEL.md"])
        self.assertEqual(self.faults("cpu.weight", 100, (4, 15), 4, range=weight.range), ["cpu.weight isn't as in docs/MODEL.md"])
        self.assertEqual(self.faults("cpu.most", "max", (6, 0)), ["cpu.most isn't as in docs/MODEL.md"])
        with mock.patch.object(files, "LIMIT_FILES", dict(sorted(files.LIMIT_FILES.items()))):
            self.assertEqual(faults_of_host("")[1], ["the table of limit files has other rows, or another order"])

    def test_another_number_is_a_fault(self) -> None:
        number, file, pattern = NUMBERS[0]
        self.assertEqual(faults_of_numbers("", [(number + 1, file, pattern)]), (1, [f"{number + 1} isn't what {file} says"]))


if __name__ == "__main__":
    unittest.main()
