"""The commands of docs/TUTORIAL.md that need no machine, run in turn in one folder: each writes the lines below it, in their order."""
import os
import re
import subprocess
import tempfile
import unittest

from made_up import TOP

COMMAND = re.compile(r"(\./zirofen|host/zirofen-host) ")


def steps_of(text):
    """Each command of the part without a machine, with the lines that stand below it."""
    steps = []
    for line in text.partition("\n## Without a machine\n")[2].partition("\n## ")[0].splitlines():
        said = line.removeprefix("    ")
        if line == said:
            continue
        if COMMAND.match(said):
            steps.append((said, []))
        else:
            steps[-1][1].append(said)
    return steps


class TutorialTest(unittest.TestCase):
    def test_each_command_writes_what_stands_below_it(self):
        with open(f"{TOP}/docs/TUTORIAL.md", encoding="ascii") as page:
            steps = steps_of(page.read())
        self.assertGreater(len(steps), 8)
        with tempfile.TemporaryDirectory() as room:
            for name in ("zirofen", "host", "examples"):
                os.symlink(f"{TOP}/{name}", f"{room}/{name}")
            for command, lines in steps:
                with self.subTest(command):
                    ended = subprocess.run(["bash", "-c", command], cwd=room, capture_output=True, text=True)
                    said = iter(ended.stdout.splitlines())
                    self.assertEqual([line for line in lines if line not in said], [], ended.stdout + ended.stderr)
                    self.assertEqual(ended.stderr, "")


if __name__ == "__main__":
    unittest.main()
