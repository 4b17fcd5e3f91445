"""Answers as JSON: those of the tables' calls, of rows and of random ones, held against their schema and the lines that they stand for; and of the
tables' calls those of a program.
"""
import itertools
import json
import os
import subprocess
import sys
import unittest

MODEL = os.path.dirname(os.path.dirname(os.path.abspath(__file__)))
TOP = os.path.dirname(os.path.dirname(MODEL))
sys.path[:0] = [MODEL, f"{TOP}/tests/program"]
# a folder of tests with names that stand here, too
sys.path.append(f"{TOP}/tests/host")
import answers
import format_4_rows
import json_rows
from case import DELEGATION, EXAMPLES, PIPE, Case
from debian_readers import PYTHON, faults_by_schema
from second import as_json, commands, documents, from_json
from trials import cases, format_4, programs, rows

COMMANDS = ("check", "settle", "may", "replay", "audit", "advise", "explain")
# tables that ask no program
TABLES = (answers.migrations, answers.of_one_subtree, answers.explained, answers.audits, answers.paired, answers.everybody,
          answers.named_by_lines, answers.advices)
KNOWN = frozenset({*commands.OPTIONS, "audit --all", "audit --pairs", "audit --settle", "audit --everybody", "audit --subtrees",
                   "advise --pairs", "advise --settle", "explain --pairs", format_4.FORMAT_4}) - {"upgrade"}
JSON = "--format", "json"
# the tables of what is written as JSON
JSON_TABLES = (json_rows.moves, json_rows.of_one_subtree, json_rows.audits, json_rows.advices, json_rows.explanations, json_rows.everybody,
               json_rows.replays, json_rows.faults, json_rows.spelled)
PROGRAM = f"{TOP}/release/zirofen"
# by hand also many more: python3 tests/model/tests/as_json_test.py 20000
CASES = 700
SEED = "as json"


def schema():
    with open(f"{TOP}/docs/answers.schema.json", encoding="ascii") as kept:
        return json.load(kept)


def of_command(name):
    """The part of the schema that has a command's answers."""
    whole = schema()
    return {"$schema": whole["$schema"], "$ref": f"#/$defs/{name}", "$defs": whole["$defs"]}


def part_of(words):
    name = "check" if words[0] == "settle" else words[0]
    return f"{name} --everybody" if "--everybody" in words else name


def content(name):
    with open(name, "rb") as kept:
        return kept.read()


def cases_of_tables():
    """The calls of the tables, of which none asks for JSON."""
    further = (format_4_rows.answers, format_4_rows.operation_lines, format_4_rows.lines_at_the_root, format_4_rows.sets)
    for case in itertools.chain(*(table() for table in further), *(table(None) for table in TABLES)):
        if case.words[0] in COMMANDS and case.output is None:
            yield case


def asked_by(case):
    """The words, standard input and files of a call of a table."""
    files = {word: content(word) for word in case.words if os.path.isfile(word)}
    return case.words, content(DELEGATION) if case.given is None else case.given, {**files, PIPE: case.piped}


def of_tables():
    """Words, standard input and files of each call of the tables, with the lines that are written."""
    for case in cases_of_tables():
        if case.status != 3:
            yield *asked_by(case), case.lines


def of_rows():
    """The same of the rows that are asked as JSON."""
    for case in rows.TABLES[rows.JSON_TABLE]():
        if as_json.asks_for_json(case.words):
            words = programs.as_lines(case.words)
            lines, status, _ = commands.respond(words, case.stdin, {**case.files, "folder": False})
            if status != 3 and not programs.is_open(lines):
                yield words, case.stdin, {**case.files, "folder": False}, lines


def with_gids(words, objects):
    """Objects with the gids of each pair whose lines say the uid alone, of a call that names no uid twice."""
    users = {uid: [*gids] for uid, gids in commands.Call(words).users}
    return [{**each, "gids": each["gids"] or users.get(each["uid"], [])} if "gids" in each else each for each in objects]


def model_case(case):
    """A case of a table as JSON, as the model has it: of more than one report that may be right the one of its lines."""
    words, stdin, files = asked_by(case)
    texts, status, fault = as_json.respond([*words, *JSON], stdin, files)
    if programs.is_open(texts):
        found = [as_json.text_of_object(each) for each in with_gids(words, as_json.objects_of(words, case.lines))]
        texts, status = (found if texts[0].is_right(found, case.status) else ["none of these is right"]), case.status
    return Case([*words, *JSON], status, texts, fault, case.given, None, case.piped)


def of_random(count):
    """The same of random cases, of whose lines the model knows what they are."""
    for number in range(count):
        case = cases.random_case(SEED, number, KNOWN)
        if case.words[:1] and case.words[0] in COMMANDS and sum(map(len, [case.stdin, *case.files.values()])) < 1 << 20:
            files = {**case.files, "folder": False}
            try:
                lines = commands.respond(case.words, case.stdin, files)[0]
            except documents.Unsure:
                continue
            if not any(isinstance(line, commands.Open) for line in lines):
                yield case.words, case.stdin, files, lines


def all_words(value):
    """Each text in a value that stands at a key, with the key."""
    for key, each in value.items() if isinstance(value, dict) else ():
        yield from all_words(each)
        yield from ((key, word) for word in (each if isinstance(each, list) else [each]) if isinstance(word, str))
    for each in value if isinstance(value, list) else ():
        yield from all_words(each)


def of_own():
    """What no other call meets: a refusal, and two kinds of verdicts."""
    words, tree = ["replay", "--uid", "1000", "--ops", PIPE], content(DELEGATION)
    deep = tree.replace(b'"cgroup.max.depth" = { value = 2 }', b'"cgroup.max.depth" = { value = 0 }')
    yield words, tree, {PIPE: b"rmdir /\n"}, ["refused root-cgroup"]
    yield [*words, "--subtree", "/c0"], deep, {PIPE: b""}, ["broken 0 depth"]
    tree = content(f"{EXAMPLES}/delegation-ancestor-writable.toml")
    yield [*words, "--subtree", "/c0"], tree, {PIPE: b"move 10 /c0\n"}, ["ok", "broken 1 crossed 10"]


def changed(value):
    """A value with one member more, and without each of those that it has."""
    yield {**value, "status": 0}
    yield from ({key: each for key, each in value.items() if key != left} for left in value)


def has_schemas():
    """Whether Debian's package python3-jsonschema is there."""
    return subprocess.run([PYTHON, "-c", "import jsonschema"], capture_output=True).returncode == 0


WITH_SCHEMA = unittest.skipUnless(has_schemas(), "python3-jsonschema isn't installed")


class AsJsonTest(unittest.TestCase):
    @classmethod
    def setUpClass(cls):
        cls.calls = [*of_own(), *of_tables(), *of_rows(), *of_random(CASES)]
        cls.seen = {}
        for words, _, _, lines in cls.calls:
            for each in as_json.objects_of(words, lines):
                cls.seen.setdefault(part_of(words), {})[as_json.text_of_object(each)] = each
        cls.seen = {name: [*each.values()] for name, each in cls.seen.items()}

    def test_from_what_is_answered_the_lines_follow(self):
        for words, stdin, files, lines in self.calls:
            said, *ended = commands.respond(words, stdin, files)
            texts, *ended_too = as_json.in_json(words, stdin, files)
            with self.subTest(words=words):
                self.assertEqual(ended_too, ended)
                if said and isinstance(said[0], commands.Open):
                    self.is_judged_alike(words, said[0], texts[0], lines)
                    continue
                self.assertEqual(texts, [as_json.text_of_object(json.loads(text)) for text in texts])
                self.assertEqual(from_json.lines_of(words, map(json.loads, texts)), lines)

    def is_judged_alike(self, words, of_lines, of_texts, lines):
        """Where more than one report is right: as their lines are, so are the objects, whatever the status."""
        objects = with_gids(words, as_json.objects_of(words, lines))
        texts = [as_json.text_of_object(each) for each in objects]
        self.assertEqual(from_json.lines_of(words, objects), lines)
        for status in range(3):
            self.assertEqual(of_texts.is_right(texts, status), of_lines.is_right(lines, status))
        others = [[text.replace(":", ": ") for text in texts], lines, ["[]"], ["null"], [f"[{text}]" for text in texts], texts * 2]
        others += [[as_json.text_of_object({**each, "gids": [4, *each["gids"]]}) for each in objects]] if "gids" in objects[0] else []
        self.assertFalse(any(of_texts.is_right(other, status) for other in others for status in range(3)))

    def test_a_pair_that_is_said_alone_has_its_groups(self):
        group = ["audit", "--tree", f"{EXAMPLES}/delegation-ancestor-group.toml", "--uid", "1000:5,50", "--subtree", "/c0"]
        texts, status, fault = as_json.respond([*group, *JSON], b"", {group[2]: content(group[2])})
        self.assertEqual((json.loads(texts[0])["gids"], len(texts), status, fault), ([5, 50], 1, 1, ""))

    def test_rows_of_json_are_what_the_model_says(self):
        for case in itertools.chain(*(table() for table in JSON_TABLES)):
            texts, status, fault = as_json.respond(*asked_by(case))
            with self.subTest(words=case.words):
                if case.output is None and programs.is_open(texts):
                    self.assertTrue(texts[0].is_right(case.lines, case.status))
                elif case.output is None:
                    self.assertEqual((texts, status, fault), (case.lines, case.status, case.fault))

    @WITH_SCHEMA
    def test_they_are_as_the_schema_says(self):
        for name, values in self.seen.items():
            faults = faults_by_schema(of_command(name), values)
            self.assertEqual([(found, value) for found, value in zip(faults, values) if found], [])

    @WITH_SCHEMA
    def test_rows_of_json_are_as_the_schema_says(self):
        said = {}
        for case in itertools.chain(*(table() for table in JSON_TABLES)):
            if as_json.asks_for_json(case.words):
                said.setdefault(part_of(case.words), []).extend(map(json.loads, case.lines))
        self.assertEqual({*said}, {*self.seen})
        for name, values in said.items():
            self.assertEqual([value for found, value in zip(faults_by_schema(of_command(name), values), values) if found], [])

    @WITH_SCHEMA
    def test_what_is_otherwise_is_refused(self):
        for name, values in self.seen.items():
            others = [other for value in values[:40] for other in changed(value)]
            self.assertEqual([other for other, found in zip(others, faults_by_schema(of_command(name), others)) if not found], [], name)

    def test_each_word_of_the_schema_comes_up(self):
        wanted = {"refusal": {*as_json.REFUSALS}, "operation": {*as_json.OPERATIONS, "chown"} - {"fork"}, "guard": {*as_json.GUARDS},
                  "answer": {"granted", "refused", "ok", "kept", "broken", "contained", "escapes", "unsettled", "fails"},
                  "what": {"gone", "crossed", "limits", "descendants", "depth"},
                  **dict.fromkeys(("class", "classes"), {"owner", "group", "others"})}
        found = {}
        for key, word in all_words([*self.seen.values()]):
            found.setdefault(key, set()).add(word)
        self.assertEqual({key: words - found[key] for key, words in wanted.items()}, {key: set() for key in wanted})


class ProgramTest(unittest.TestCase):
    @unittest.skipUnless(os.path.exists(PROGRAM) and json_rows.has_format(PROGRAM), "there is no program that writes JSON")
    def test_of_the_tables_it_writes_what_the_model_does(self):
        for case in cases_of_tables():
            with self.subTest(words=case.words):
                self.assertEqual(model_case(case).failure(PROGRAM), "")


if __name__ == "__main__":
    if sys.argv[1:]:
        CASES = int(sys.argv.pop())
    unittest.main()
