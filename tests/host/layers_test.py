"""The layers of the package: each folder imports from those before it alone, and nothing is imported within a function but what one
command in many needs."""
import ast
import glob
import os
import unittest

TOP = os.path.join(os.path.dirname(os.path.dirname(os.path.dirname(os.path.abspath(__file__)))), "host")
PACKAGE = "zirofen_host"
# in the order of the way that data goes
FOLDERS = ("collect", "ask", "judge", "show", "watch", "runs")
# what every folder may import, each from those before it
SHARED = ("progress", "ending", "parsing", "fault", "files", "profile", "output", "installed", "version", "options", "arguments")
# what makes one command of all of it
LAST = "command"
# what imports where it is run, so that no command waits for what it doesn't use
WHERE_USED = {("command", "help_text"), ("command", "main"), ("command", "tell_version"), ("runs.check", "write_page"),
              ("show.formats", "text_parts"), ("show.formats", "parts_of"), ("fault", "nearest")}
# what imports without a statement
IMPORTERS = {"__import__", "import_module", "importlib"}


def modules():
    """Each module's name within the package, with its tree."""
    for path in sorted(glob.glob(f"{TOP}/{PACKAGE}/**/*.py", recursive=True)):
        name = os.path.relpath(path, f"{TOP}/{PACKAGE}")[:-len(".py")].replace(os.sep, ".")
        if name != "__init__":
            with open(path, encoding="utf-8") as source:
                yield name, ast.parse(source.read(), path)


def imported(node):
    """The modules of the package that a statement imports."""
    if isinstance(node, ast.Import):
        names = [alias.name for alias in node.names]
    elif isinstance(node, ast.ImportFrom):
        whole = node.module in (PACKAGE, *(f"{PACKAGE}.{folder}" for folder in FOLDERS))
        names = [f"{node.module}.{alias.name}" for alias in node.names] if whole else [node.module or ""]
    else:
        names = []
    return [name.partition(".")[2] for name in names if name.split(".")[0] == PACKAGE]


def place_of(name):
    """How far on the way a module stands: the shared ones first, and then the folders."""
    folder = name.partition(".")[0]
    if folder in FOLDERS:
        return len(SHARED) + FOLDERS.index(folder)
    return SHARED.index(name) if name in SHARED else len(SHARED) + len(FOLDERS)


class LayersTest(unittest.TestCase):
    def test_each_folder_imports_from_those_before_it(self):
        names = set()
        for name, tree in modules():
            names.add(name)
            for node in ast.walk(tree):
                for other in imported(node):
                    with self.subTest(name, imports=other):
                        self.assertNotEqual(other, LAST)
                        self.assertLessEqual(place_of(other), place_of(name))
                        self.assertTrue(place_of(other) < place_of(name) or "." in name)
        self.assertLessEqual({*SHARED, LAST}, names)
        self.assertEqual({name for name in names if "." not in name} - {*SHARED, LAST}, set())
        self.assertEqual({name.partition(".")[0] for name in names if "." in name}, set(FOLDERS))

    def test_imports_are_absolute_and_stand_outside_of_functions(self):
        for name, tree in modules():
            for node in ast.walk(tree):
                if isinstance(node, ast.ImportFrom):
                    self.assertEqual(node.level, 0, name)
            for function in (node for node in ast.walk(tree) if isinstance(node, (ast.FunctionDef, ast.ClassDef))
                             and (name, node.name) not in WHERE_USED):
                for node in ast.walk(function):
                    with self.subTest(name, function=function.name):
                        self.assertEqual(imported(node), [])
                        self.assertNotIn(getattr(node, "id", getattr(node, "attr", "")), IMPORTERS)

    def test_no_module_imports_itself_by_way_of_others(self):
        of = {name: {other for node in ast.walk(tree) for other in imported(node)} for name, tree in modules()}
        for name in of:
            seen, left = set(), list(of[name])
            while left:
                other = left.pop()
                self.assertNotEqual(other, name)
                if other not in seen:
                    seen.add(other)
                    left += of.get(other, ())


if __name__ == "__main__":
    unittest.main()
