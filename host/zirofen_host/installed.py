"""From where the package stands, in a clone or installed, to what is beside it."""
import os

NAME = "zirofen-host"
TOP = os.path.dirname(os.path.dirname(os.path.dirname(os.path.realpath(__file__))))
WRAPPER = os.path.join(TOP, "zirofen")
PREFIX = os.path.normpath(os.path.join(TOP, "../.."))
# the program that was installed or unpacked with this package, else that of the system
PROGRAM = next(filter(os.path.isfile, (f"{PREFIX}/bin/zirofen",)), "/usr/bin/zirofen")

IS_CLONE = os.path.isfile(WRAPPER)
# what a line can name to read on
UNPACKED = os.path.join(PREFIX, "share/doc/zirofen")


def page_named(path: str, manual: str) -> str:
    """A page of the docs as it is found from here: in a clone, where this was unpacked, or by its manual page."""
    unpacked = os.path.join(UNPACKED, path)
    return path if IS_CLONE else unpacked if PREFIX != "/usr" and os.path.isfile(unpacked) else manual


MANUAL, REPORTS = page_named("docs/HOSTS.md", "zirofen-host(8)"), page_named("docs/REPORTS.md", "zirofen-report(5)")
# what the program is called where its place doesn't matter
PROGRAM_IN_HELP = "the wrapper beside this folder" if IS_CLONE else PROGRAM


def default_program() -> str:
    """The program that is asked where none is named."""
    return os.environ.get("ZIROFEN", WRAPPER if IS_CLONE else PROGRAM)


def has_command(name: str) -> bool:
    """Whether there is a command of a name."""
    return os.path.isfile(os.path.join(os.path.dirname(__file__), "runs", f"{name}.py"))
