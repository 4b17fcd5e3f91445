"""No module reads a sentence that is shown: what is asked of a note, a reason or a finding is asked of its fields."""
import ast
import unittest

from layers_test import modules

# what takes a text apart, or looks for a word in it
ASKING = {"startswith", "endswith", "partition", "rpartition", "split", "rsplit", "splitlines", "find", "index", "count", "removeprefix",
          "removesuffix"}
MATCHING = {"match", "search", "fullmatch", "sub", "findall"}
# the fields that have sentences of notes, reasons and findings, and the names that such a sentence goes by
FIELDS = {"text", "line", "fact", "rest", "sentence", "why", "told", "fault", "reason", "setting", "accepted", "meaning",
          "description", "details", "remarks", "sentences", "why_shown"}
NAMES = {"told", "sentence", "why", "fault", "reason", "note", "detail", "refused", "error", "description", "details", "message",
         "reasons", "remarks", "sentences"}
TEXT_OF_FILE = "the text of a file, or a name"
CARRIED = "a text of another host carries sentences alone"
# where it is no sentence of this package's, or all that there is
ALLOWED = {
    "ask.program.run": "a line of the program's, which says what it is by its first words",
    "collect.elsewhere.cgroups_of": CARRIED, "collect.elsewhere.version_1_in": CARRIED, "collect.carried.reason_of": CARRIED,
    "collect.unit_files.kind": TEXT_OF_FILE, "collect.unit_files.stem": TEXT_OF_FILE,
    "judge.finding_lines.inside_text": "of what holds a container one is the mount option's own word",
    "show.markup.capital": "a sentence begins with a capital where a word of these begins it, and with a name as it is",
    "show.joined.fact_of": "a report that was read may have a text that doesn't begin with the fact it names, and then nothing is cut off",
    "show.groups.part_in_common": "a report that was read has nothing but the fault's sentence, of which names are cut out"}


def is_sentence(node):
    """Whether an expression is a sentence: a field that has one, a name of one, or what makes a text of one."""
    if isinstance(node, ast.Attribute):
        return node.attr in FIELDS
    if isinstance(node, ast.Name):
        return node.id in NAMES
    if isinstance(node, ast.Subscript):
        return is_sentence(node.value)
    return isinstance(node, ast.Call) and getattr(node.func, "id", "") == "str" and any(map(is_sentence, node.args))


def is_word(node):
    """Whether an expression is a word that is written down: a text, or a constant of one."""
    written = isinstance(node, ast.Constant) and isinstance(node.value, str) and node.value != ""
    return written or isinstance(node, ast.JoinedStr) or isinstance(node, ast.Name) and node.id.isupper()


def asks(node):
    """Whether a node asks for words of a sentence."""
    if isinstance(node, ast.Call) and isinstance(node.func, ast.Attribute):
        return (node.func.attr in ASKING and is_sentence(node.func.value)
                or node.func.attr in MATCHING and any(map(is_sentence, node.args)))
    if isinstance(node, ast.Compare):
        sides = [node.left, *node.comparators]
        is_told = any(isinstance(each, (ast.Eq, ast.NotEq, ast.In, ast.NotIn)) for each in node.ops)
        return is_told and any(map(is_sentence, sides)) and any(map(is_word, sides))
    return False


def readers(name, tree):
    """The functions of a module that ask for words of a sentence."""
    for function in ast.walk(tree):
        if isinstance(function, (ast.FunctionDef, ast.AsyncFunctionDef)):
            lines = [node.lineno for node in ast.walk(function) if asks(node)]
            if lines:
                yield f"{name}.{function.name}", lines


class SentencesTest(unittest.TestCase):
    def test_no_function_reads_a_sentence(self):
        found = {function: lines for name, tree in modules() for function, lines in readers(name, tree)}
        for function, lines in found.items():
            with self.subTest(function, lines=lines):
                self.assertIn(function, ALLOWED)
        self.assertEqual(set(ALLOWED) - set(found), set())

    def test_what_reads_one_is_found(self):
        for body in ('why.startswith("uid ")', 'str(why).partition(":")', 'each.text.partition(": ")[0]', 'why == CHANGED',
                     '"left out" in note.text', 'told.why[0] != "nsdelegate"', '_NAMES.sub("", part.fault)',
                     'each.setting.rpartition(" of ")', 'f" {file} is " in told.text'):
            with self.subTest(body):
                tree = ast.parse(f"def offender(why, each, note, told, part):\n    return {body}\n")
                self.assertEqual(list(readers("judge.made_up", tree)), [("judge.made_up.offender", [2])])

    def test_what_asks_for_a_field_is_none(self):
        for body in ("isinstance(why, Changed)", "why.is_by_somebody", "note.kind == FAILED", 'path.startswith("/")', "each.text == other",
                     'note.place == ""'):
            with self.subTest(body):
                tree = ast.parse(f"def one(why, note, path, each, other):\n    return {body}\n")
                self.assertEqual(list(readers("judge.made_up", tree)), [])


if __name__ == "__main__":
    unittest.main()
