"""Who reads what a user can choose, and who writes: collect/bounded.py alone, which is given a bound, and output.py."""
import ast
import os
import tempfile
import unittest

import made_up  # noqa: F401
from layers_test import modules
from zirofen_host.collect import bounded

BOUNDED, OUTPUT = "collect.bounded", "output"
# what reads, by how it is called
READS = {"open", "os.open", "os.fdopen", "os.read", "os.pread", "os.readv", "os.listdir", "os.scandir", "os.walk", "os.fwalk",
         "os.readlink", "os.getxattr", "os.listxattr", "io.open", "codecs.open", "glob.glob", "glob.iglob", "json.load",
         "shutil.copyfile", "shutil.copy"}
# of a path object or a stream
METHODS = {"read", "readline", "readlines", "read_text", "read_bytes", "iterdir", "readlink", "getxattr", "listxattr", "rglob"}
# what a function reads that no user can choose
NO_READS = {("show.markup", "read"): "the package's own templates",
            **{("version", name): "the package's own files" for name in ("files_of", "sum_of", "digits")}}
# what writes, by how it is called
WRITES = {"os.write", "os.rename", "os.replace", "os.link", "os.symlink", "os.unlink", "os.remove", "os.mkdir", "os.makedirs", "os.mkfifo",
          "os.chmod", "os.fchmod", "os.chown", "os.fchown", "os.truncate", "shutil.rmtree", "shutil.move", "tempfile.mkstemp",
          "tempfile.mkdtemp", "tempfile.TemporaryDirectory", "tempfile.NamedTemporaryFile", "tempfile.TemporaryFile"}
# what a function writes that is no file
NO_WRITES = {("ending", "end"): "a line on standard error", ("watch.drain", "run"): "a pipe of its own",
             ("watch.drain", "take"): "the same"}
# of what is opened to be written, or was, links of root's on the way to it are read
READ_TO_WRITE = {("opened_folder", "os.readlink"), ("open_back", "os.readlink")}


def called(node):
    """What a call calls, as it is written, or nothing."""
    if isinstance(node.func, ast.Name):
        return node.func.id
    if isinstance(node.func, ast.Attribute):
        of = node.func.value
        return f"{of.id}.{node.func.attr}" if isinstance(of, ast.Name) else f".{node.func.attr}"
    return ""


def own(tree):
    """What is of the package itself where a function is called of it: a module that is imported, and the object at work."""
    imports = [node for node in ast.walk(tree) if isinstance(node, ast.ImportFrom) and (node.module or "").startswith("zirofen_host")]
    return {"self"} | {alias.asname or alias.name for node in imports for alias in node.names}


def is_read(node, own_names):
    name = called(node)
    of, _, method = name.rpartition(".")
    return name in READS or "." in name and of not in own_names and method in METHODS


def is_write(node, _):
    return called(node) in WRITES


def reads(tree, holds=is_read):
    """The innermost function of each call that reads, or is another, and its line."""
    left, own_names = [(tree, "")], own(tree)
    while left:
        node, function = left.pop()
        if isinstance(node, (ast.FunctionDef, ast.AsyncFunctionDef)):
            function = node.name
        if isinstance(node, ast.Call) and holds(node, own_names):
            yield function, node.lineno
        left += [(each, function) for each in ast.iter_child_nodes(node)]


class ReadersTest(unittest.TestCase):
    def test_nothing_else_reads(self):
        there = {name: list(reads(tree)) for name, tree in modules()}
        for name, found in there.items():
            if name not in (BOUNDED, OUTPUT):
                for function, line in found:
                    with self.subTest(name, line=line):
                        self.assertIn((name, function), NO_READS)
        self.assertTrue(there[BOUNDED])
        for name, function in NO_READS:
            self.assertIn(function, {each for each, _ in there[name]}, name)

    def test_nothing_else_writes(self):
        there = {name: {function for function, _ in reads(tree, is_write)} for name, tree in modules()}
        found = {(name, function) for name, functions in there.items() if name != OUTPUT for function in functions}
        self.assertEqual(found, NO_WRITES.keys())
        self.assertIn("replace", there[OUTPUT])

    def test_what_is_written_isnt_read(self):
        (tree,) = [tree for name, tree in modules() if name == OUTPUT]
        opens = {"open", "os.open"}
        found = {(function.name, called(node)) for function in ast.walk(tree) if isinstance(function, ast.FunctionDef)
                 for node in ast.walk(function) if isinstance(node, ast.Call) and is_read(node, own(tree))}
        self.assertEqual({each for each in found if each[1] not in opens}, READ_TO_WRITE)

    def test_a_reader_is_seen(self):
        for text in ("open('x')", "os.read(0, 1)", "with os.scandir(x) as y: pass", "opened.read()", "Path(x).read_text()",
                     "sys.stdin.buffer.read()"):
            self.assertTrue(list(reads(ast.parse(f"def it():\n    {text}"))), text)


class BoundedTest(unittest.TestCase):
    def setUp(self):
        room = tempfile.TemporaryDirectory()
        self.addCleanup(room.cleanup)
        self.room = room.name
        with open(f"{self.room}/file", "wb") as out:
            out.write(b"12345678")
        os.mkdir(f"{self.room}/folder")
        os.symlink("file", f"{self.room}/link")

    def test_what_is_cut_is_told(self):
        for most, data, is_cut in ((7, b"1234567", True), (8, b"12345678", False), (9, b"12345678", False), (0, b"", True)):
            self.assertEqual(bounded.read_file(f"{self.room}/file", most), bounded.Read(data, is_cut))

    def test_no_more_is_read_than_the_bound(self):
        with open(f"{self.room}/file", "rb") as opened:
            bounded.read_opened(opened.fileno(), 3)
            self.assertEqual(os.lseek(opened.fileno(), 0, os.SEEK_CUR), 4)

    def test_a_file_of_a_folder(self):
        folder = bounded.open_folder(self.room)
        try:
            self.assertEqual(bounded.read_file("file", 9, bounded.FILE, folder).text("ascii"), "12345678")
            with self.assertRaises(OSError):
                bounded.read_file("link", 9, bounded.FILE, folder)
            self.assertEqual(bounded.read_attributes(folder, ("user.none",), 9), bounded.Attributes({}, False))
        finally:
            os.close(folder)

    def test_names(self):
        listed = bounded.list_folder(self.room, 3)
        self.assertEqual((sorted(listed.names), listed.is_cut), ([("file", False), ("folder", True), ("link", False)], False))
        self.assertEqual((len(bounded.list_folder(self.room, 2).names), bounded.list_folder(self.room, 2).is_cut), (2, True))

    def test_links(self):
        self.assertEqual((bounded.read_link(f"{self.room}/link"), bounded.read_link(f"{self.room}/link".encode())), ("file", "file"))


if __name__ == "__main__":
    unittest.main()
