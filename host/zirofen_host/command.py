"""From the words of the command `zirofen-host` to the subcommand that is run, and its status.

Each is imported where it is asked for.
"""
import importlib
import sys
from typing import List, NoReturn

from zirofen_host import ending, fault, installed
from zirofen_host.installed import NAME


def help_text() -> str:
    from zirofen_host.arguments import ABOUT, ARGUMENTS, DESCRIPTIONS
    lines = [f"  {name:<12} {DESCRIPTIONS[name].partition(chr(10))[0]}" for name in ARGUMENTS]
    return "\n".join([ABOUT, "", "Commands:", *lines, "", "Options:", "      --help     this text",
                      "      --version  the versions of the helpers and of the program"])


def tell_version() -> int:
    """The helpers' own line, and the program's."""
    from zirofen_host import version
    program = installed.default_program()
    said = ending.run([program, "--version"])
    if said.returncode:
        raise fault.Fault(f"{program} doesn't run here, and ended with status {said.returncode}")
    fault.write(f"{version.helper_line()}\n{said.stdout}")
    return 0


def main(words: List[str]) -> int:
    if words in (["--help"], ["-h"], ["help"]):
        fault.write(help_text() + "\n")
        return 0
    if words == ["--version"]:
        return tell_version()
    from zirofen_host.arguments import ARGUMENTS, parser_of
    if not words:
        print(help_text(), file=sys.stderr)
        return fault.FAULT
    if words[0] not in ARGUMENTS:
        raise fault.Fault(f"there is no command {words[0]}{fault.nearest(words[0], ARGUMENTS)}; --help lists them")
    given = parser_of(words[0]).given(words[1:])
    run_command = importlib.import_module(f"zirofen_host.runs.{words[0]}").run
    fault.bound(vars(given).get("seconds"))
    status: int = run_command(given)
    return status


def run() -> NoReturn:
    """Runs the command by the words that it was called with."""
    words = sys.argv[1:]
    is_command = bool(words) and words[0].isalpha() and words[0].isascii() and installed.has_command(words[0])
    fault.run(f"{NAME} {words[0]}" if is_command else NAME, lambda: main(words))
