"""What others make of what is written: Debian's readers, of which a test that misses one fails."""
import contextlib
import json
import socket
import subprocess
import tempfile
import time
import urllib.request

# Debian's modules are those of its own Python
PYTHON = "/usr/bin/python3"
OF_SCHEMA = """
import json, sys, jsonschema
schema, values = json.load(sys.stdin)
jsonschema.Draft202012Validator.check_schema(schema)
found = jsonschema.Draft202012Validator(schema)
json.dump([[each.json_path for each in found.iter_errors(value)] for value in values], sys.stdout)
"""
OF_JUNIT = """
import json, sys, junitparser
read = []
for text in json.load(sys.stdin):
    for suite in junitparser.JUnitXml.fromstring(text.encode()):
        told = [[case.classname, case.name, [type(each).__name__ for each in case.result]] for case in suite]
        read.append([suite.name, [suite.tests, suite.failures, suite.errors, suite.skipped], told])
json.dump(read, sys.stdout)
"""
SECONDS = 7200


def read_by(code, value):
    ended = subprocess.run([PYTHON, "-c", code], input=json.dumps(value), capture_output=True, text=True)
    assert ended.returncode == 0, ended.stderr
    return json.loads(ended.stdout)


def faults_by_schema(schema, values):
    """For each value the places where it isn't as a schema says, by python3-jsonschema."""
    return read_by(OF_SCHEMA, [schema, values])


def junit_suites(texts):
    """Of each suite its name, its numbers and its cases, by python3-junitparser."""
    return read_by(OF_JUNIT, texts)


def promtool(text):
    """What promtool has against metrics, of the package prometheus."""
    ended = subprocess.run(["promtool", "check", "metrics"], input=text, capture_output=True, text=True)
    return ended.stdout + ended.stderr if ended.returncode else ""


def free_port():
    with socket.socket() as found:
        found.bind(("127.0.0.1", 0))
        return found.getsockname()[1]


@contextlib.contextmanager
def node_exporter(folder):
    """Debian's own exporter with its textfile collector over a folder, as what gives the lines that it serves."""
    port = free_port()
    words = ["prometheus-node-exporter", "--collector.disable-defaults", "--collector.textfile", f"--collector.textfile.directory={folder}",
             f"--web.listen-address=127.0.0.1:{port}"]
    with tempfile.TemporaryFile() as said, subprocess.Popen(words, stdout=said, stderr=said) as running:
        def served():
            until = time.monotonic() + SECONDS
            while True:
                try:
                    with urllib.request.urlopen(f"http://127.0.0.1:{port}/metrics", timeout=SECONDS) as answer:
                        return answer.read().decode().splitlines()
                except OSError:
                    assert running.poll() is None and time.monotonic() < until, "the exporter doesn't answer"
                    time.sleep(0.1)
        try:
            yield served
        finally:
            running.terminate()
