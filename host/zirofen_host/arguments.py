"""From a subcommand's name to the parser of its command line, and what its --help says."""
import argparse
import os
import re
from typing import Callable, Dict, Sequence

from zirofen_host.fault import Parser
from zirofen_host.installed import MANUAL, NAME, REPORTS, PROGRAM_IN_HELP, default_program
from zirofen_host.options import MOUNT, PROC, Way
from zirofen_host.profile import LARGEST_ID, NEWEST, TEXT_FORMATS, is_number

ABOUT = f"""The helpers of zirofen for a running host: from its cgroups to answers. They are no part of what is proved.

usage: {NAME} COMMAND ..      what each does: {NAME} COMMAND --help
       {NAME} --version"""
# what a check writes
FORMATS = ("text", "json", "sarif", "junit", "metrics")
# what is written of many hosts
FLEET_FORMATS = ("text", "json", "metrics")
# in which words it tells what mends findings
MENDS = ("systemd", "shell")
# a systemd whose version isn't given
NEW_SYSTEMD = 257
# columns that a tree is drawn in at least
LEAST_WIDTH = 20

DESCRIPTIONS = {
    "accept": f"""Drafts acceptances of what a report found. Usage: {NAME} accept REPORT.json --reason TEXT > accept.toml.

A helper: no part of the proved program, and only tested. Findings of the report that count and can be accepted
are written as tables [[accept]], one for each cause, with the findings' lines above it, as --accept of {NAME} check reads them.
Read the draft, and leave out what is to be fixed: nothing of it is looked at again. The status is 0, or 3 for a fault.
""",
    "ask": f"""Asks zirofen of one user and one subtree of this host, by name. Usage: {NAME} ask NAME|UID PATH. Run it as root.

A helper: no part of the proved program, and only tested. The user's groups are looked up as this host does; one list of
groups was found for their account, and others maybe for their running processes: each is asked of. It prints what `check`
answers, and behind # what to change, and a warning where nothing here is the user's. The status is the worst answer's:
3 for a fault, 1 for an escape, 2 where it is unsettled, 0 where the subtree is contained. With --may it lists in place of
that which entries the user owns or writes there, and what follows of each; the status is 0 then. With --explain it says why: each
entry that a guard is about, and whether it keeps them out, and where one doesn't what else keeps the subtree.
""",
    "check": f"""Asks zirofen whether everybody who can matter on this host is kept by every subtree that was handed over. Run it as root.

A helper: no part of the proved program, and only tested; each answer is the program's own, on the tree text that
{NAME} snapshot writes. The report is a table of each subtree with the answer of who holds it, then each entry that lets
somebody in, with whom and what to change, then the limits that are open beside the proved ones, then containers whose
processes are root's, and at last what none of the answers looks at. Of a container held speaks of cgroup files alone, and
is seen and not proved. {REPORTS} says what each line means. The status is 3 where there is a fault; else 1 where somebody
escapes, a limit is open or a container of root's is not held; else 2 where an answer is unsettled; else 3 where holders
make a fault of their own; else 4 where neither anything to ask nor such a container was found; else 2 where limits are v1's
or an acceptance doesn't hold; else 0.
""",
    "commands": f"""Writes operations as shell commands for this host's mount: {NAME} commands [--uid N --gid N ..] < escape.ops

A helper: no part of the proved program, and only tested. It carries out nothing. Where a user is named, each command is
made theirs by setpriv, with their groups alone and without capabilities, so that the kernel asks what they may; run it as
root, on a host where the operations may be tried. There another process of the same cgroup is named in place of one that has
capabilities, or is the kernel's, where the program finds that the list breaks the subtree with it too; a comment says so.
fork and exit, and the lines of an answer around its operations, are comments.
The status is 0, or 3 for a fault, and then nothing is written.
""",
    "delegations": """Finds who was handed what in a tree text: one line for each user and subtree, UID TAB GIDS TAB PATH.
GIDS is - where there are none.

A helper: no part of the proved program, and only tested. A user is found where they own or write at a cgroup what they
don't one level up: by their uid, by a group, or as one of everybody (uid 65534 means a user of whom nothing else
is known). Groups come from this host's accounts, its subordinate ids and its running processes; for a text of another
host give that host's account files by --accounts. The primary group comes first. The status is 0, or 3 for a fault,
among them more groups than the program takes, where those that were left out could change an answer.
""",
    "fleet": f"""Sums up many hosts, by what {NAME} check --json wrote of each. Usage: {NAME} fleet FOLDER.

A helper: no part of the proved program, and only tested. FOLDER has a file NAME.json for each host, which may have come from
that host: each is read with a bound, and believed to be of the host NAME. It prints a table with the worst on top, and hosts
that have the same findings together. A report that is empty, broken or too large doesn't count, and neither does one that is
missing or older, where that is asked for; its row says why. The status is that of the gravest host: 3 where a report doesn't
count or a host has a fault; else 1 where somebody escapes or a limit is open; else 2 where an answer is unsettled; else 3
where holders make a fault of their own; else 4 where nothing was found to ask of one; else 2 where limits are v1's or an
acceptance doesn't hold; else 0.
""",
    "page": f"""Writes reports of hosts as one page to look at. Usage: {NAME} page REPORT.json .. > page.html.

A helper: no part of the proved program, and only tested. It draws what {NAME} check --json has, and nothing else: first a
sentence and three numbers, then the findings with a picture of each escape, the tree of cgroups, and what no answer looks
at. Of several hosts, up to 20, the worst is on top, and a report that can't be read is a row that says why; {NAME} fleet
writes more. The page is one file, which loads nothing and needs no script. The status is 0, or 3 for a fault, and where no
report could be read nothing is written; {NAME} check has the status of the answers.
""",
    "plan": f"""Answers what changes of root's to this host, or to a tree text, would lead to, before they are made.

A helper: no part of the proved program, and only tested; each answer is the program's own. Nothing is carried out on the host.
What changes is given by --ops FILE, or by --unit FILE ..: units as systemd starts them; what of them isn't known is a line
on standard error, and other drop-ins than those given are read from the system's folders of this host alone. A FILE of changes
has one in each line: mkdir PATH, chown PATH ENTRY UID:GID, chmod PATH ENTRY MODE, control PATH +CONTROLLER .., set PATH FILE
VALUE, process PID UID PATH, mark PATH (the manager's mark of what it hands over). They are made to the tree's text one after
another; one that a kernel wouldn't let root make is a fault of its line. Both trees are asked as {NAME} check asks, and what is
new, worse, changed or gone behind the changes is printed. The status is that of what is new or worse: 3 for a fault, new or
not; else 1 for an escape or a limit that is open; else 2 where an answer is unsettled, or where what isn't known may give
entries away, also with --print; else 4 where nothing was found to ask; else 0.
""",
    "snapshot": f"""Writes the cgroups of this host as a tree text for zirofen, on standard output. Run it as root.

A helper: no part of the proved program, and only tested. Two walks in a row agree on what is written. What the text
can't carry is bent or left out, and standard error has a line for each such thing: KIND: PATH: what was done.
{REPORTS} says what the kinds mean. The status is 0, or 3 where nothing was written.
""",
    "tree": f"""Draws a host's cgroups as a tree: who was handed what, and how it is answered. Usage: {NAME} tree [REPORT.json].

A helper: no part of the proved program, and only tested. It draws what {NAME} check --json has, and nothing else: that of the
report, or without one that of this host, which it looks at as {NAME} check does; then run it as root. At each cgroup that was
handed over are to whom, by which entries, its limits, and its answer with a sign and a word; cgroups without a delegation
in or above them are folded. The status is 0, or 3 for a fault; {NAME} check has the status of the answers.
""",
    "watch": f"""Checks this host, and asks again what a change concerns as soon as it happened. Run it as root.

A helper: no part of the proved program, and only tested; each answer is the program's own, and what differs is found as
{NAME} check --baseline finds it. A line says what is new, worse, mended or gone, when that happened, and who did it, where the
kernel names them. Owners and modes, cgroups that are made and removed, accounts and mounts are reported by the kernel; processes and
groups are read once a minute, and a whole check each hour finds what nothing reported. What opened and closed between two checks
is reported as that. SIGUSR1 has a report of all of it written, and SIGTERM ends it. {MANUAL} says what the lines mean. The status
is 0 where a signal ended it, or 3 for a fault.
""",
}


def number(word: str) -> int:
    if not is_number(word) or int(word) > LARGEST_ID:
        raise argparse.ArgumentTypeError(f"it isn't a number from 0 to {LARGEST_ID}")
    return int(word)


def width(word: str) -> int:
    if not word.isdigit() or int(word) < LEAST_WIDTH:
        raise argparse.ArgumentTypeError(f"it isn't a number from {LEAST_WIDTH} on")
    return int(word)


def way(word: str, kinds: Sequence[str] = FORMATS) -> Way:
    kind, is_named, file = word.partition("=")
    if kind not in kinds:
        raise argparse.ArgumentTypeError(f"{kind!a} is none of {', '.join(kinds)}")
    if is_named and not file:
        raise argparse.ArgumentTypeError("there is no file behind =")
    return Way(kind, file or "-")


def way_to_mend(word: str) -> Way:
    return way(word, MENDS)


def way_of_fleet(word: str) -> Way:
    return way(word, FLEET_FORMATS)


def add_host(parser: argparse.ArgumentParser) -> None:
    """The options of whoever looks at a host."""
    parser.add_argument("--mount", metavar="FOLDER", default=MOUNT, help=f"the cgroup v2 mount ({MOUNT})")
    parser.add_argument("--only", metavar="PATH", type=os.fsencode,
                        help="that cgroup, its ancestors and what is inside it, and no more; or a container by its name, as docker:web")
    parser.add_argument("--proc", metavar="FOLDER", default=PROC, help=f"where processes are listed ({PROC})")
    parser.add_argument("--seconds", metavar="N", type=number, help="ends with a fault where the run takes longer (no bound)")
    parser.add_argument("--no-processes", action="store_true",
                        help="no processes in the tree text: no `contained` rests on them, but an `escapes` may be an `unsettled`")
    add_format(parser)
    parser.add_argument("--plain-folder", action="store_true",
                        help="the mount is a folder of plain files: nothing is asked of root, mounts and namespaces")


def add_format(parser: argparse.ArgumentParser) -> None:
    parser.add_argument("--tree-format", type=number, choices=sorted(TEXT_FORMATS), help=f"the format of tree texts ({NEWEST}); 2 is what "
                        f"older programs take: {TEXT_FORMATS[2].most_rows} cgroups and processes in a text, and three controllers")


def uri(word: str) -> str:
    if not re.fullmatch(r"https?://[!$%&'()*+,./:;=?@A-Z_a-z~0-9-]+", word):
        raise argparse.ArgumentTypeError("it is no address of a page, as https://example.org/docs/HOSTS.md")
    return word


def add_help_uri(parser: argparse.ArgumentParser) -> None:
    parser.add_argument("--help-uri", metavar="URI", type=uri,
                        help="where the page of findings is on the web: sarif leads there from its rules")


def add_text(parser: argparse.ArgumentParser) -> None:
    parser.add_argument("--tree", metavar="FILE", help=f"a tree text in place of this host, as {NAME} snapshot writes it, - for standard "
                        f"input; by number alone, but for accounts by --accounts, or in the text by {NAME} snapshot --with-host")


def add_accounts(parser: argparse.ArgumentParser) -> None:
    parser.add_argument("--accounts", metavar="FOLDER",
                        help="a folder with passwd, group, subuid and subgid, in place of the host's own accounts")


def add_keep(parser: argparse.ArgumentParser) -> None:
    parser.add_argument("--keep", metavar="FILE", help="where the tree text is left, for further questions")


def add_program(parser: argparse.ArgumentParser) -> None:
    parser.add_argument("--zirofen", metavar="PROGRAM", dest="program", default=default_program(),
                        help=f"the program, also by the environment's ZIROFEN ({PROGRAM_IN_HELP})")


def add_ask(parser: argparse.ArgumentParser) -> None:
    parser.add_argument("user", metavar="NAME|UID", help="the user, by the name of an account or by a number")
    parser.add_argument("path", metavar="PATH", help="the top of the subtree, from the mount on, or a container by its name, as docker:web")
    way = parser.add_mutually_exclusive_group()
    way.add_argument("--may", action="store_true", help="what the user may do there at all, in place of an answer: each entry that they "
                     "own or write, and what follows")
    way.add_argument("--explain", action="store_true", help="why: what each guard asks, and by what it holds or fails, and the answer last")
    for add in (add_host, add_text, add_accounts, add_keep, add_program):
        add(parser)


def add_check(parser: argparse.ArgumentParser) -> None:
    for add in (add_host, add_text, add_accounts, add_keep, add_program):
        add(parser)
    parser.add_argument("--each", action="store_true", help="each finding by itself, also those that are alike in one holder's own part")
    parser.add_argument("--format", metavar="KIND", type=way, action="append", default=[], help=f"{', '.join(FORMATS)}, or KIND=FILE into "
                        "a file; once or more. Where none goes to standard output, the text does")
    parser.add_argument("--json", action="store_true", help="what --format json is: all of it, with the host's cgroups and processes")
    add_help_uri(parser)
    parser.add_argument("--mends", metavar="KIND", type=way_to_mend, action="append", default=[], help="in place of the text, what mends "
                        "the findings by what root's settings say: as a script for root (shell), or where to look alone (systemd); or "
                        "KIND=FILE into a file")
    parser.add_argument("--html", metavar="FILE", help="one page of it to look at, into a file; what is printed stays as it is")
    parser.add_argument("--accept", metavar="FILE", help="findings that are accepted, each by itself, for a reason and until a day: "
                        "shown, and not counted")
    parser.add_argument("--baseline", metavar="FILE",
                        help="prints what is new, worse, changed or gone since FILE, an earlier --json; the status is by new and worse")
    parser.add_argument("--baseline-update", metavar="FILE", help="leaves the report of now as a baseline in FILE")


def add_watch(parser: argparse.ArgumentParser) -> None:
    parser.add_argument("--mount", metavar="FOLDER", default=MOUNT, help=f"the cgroup v2 mount ({MOUNT})")
    parser.add_argument("--proc", metavar="FOLDER", default=PROC, help=f"where processes are listed ({PROC})")
    parser.add_argument("--seconds", metavar="N", type=number, help="ends a check that takes longer, and says so (600)")
    parser.add_argument("--plain-folder", action="store_true",
                        help="the mount is a folder of plain files: nothing is asked of root, mounts and namespaces")
    add_accounts(parser)
    add_program(parser)
    parser.add_argument("--baseline", metavar="FILE", help="what is in FILE, an earlier --json, isn't reported as new; it is never written")
    parser.add_argument("--accept", metavar="FILE", help="findings that are accepted, each by itself, for a reason and until a day")
    parser.add_argument("--journal", action="store_true", help="lines go to the journal, with what they say in fields of their own")
    parser.add_argument("--exec", metavar="PROGRAM", help="started without a shell for each thing that is new or worse and counts; its "
                        "environment says which: ZIROFEN_KIND, ZIROFEN_LINE and others")
    parser.add_argument("--format", metavar="KIND", type=way, action="append", default=[], help=f"{', '.join(FORMATS)}, or KIND=FILE into "
                        "a file, as check writes it: on SIGUSR1 and at the end; metrics=FILE each time that something changed, too")
    parser.add_argument("--json", action="store_true", help="what --format json is")
    add_help_uri(parser)
    parser.add_argument("--mends", metavar="KIND", type=way_to_mend, action="append", default=[], help="what mends the findings, also then")
    parser.add_argument("--html", metavar="FILE", help="one page of it to look at, also then")
    parser.add_argument("--each", action="store_true", help="of these forms each finding by itself")


def add_commands(parser: argparse.ArgumentParser) -> None:
    parser.add_argument("--mount", metavar="FOLDER", default=MOUNT, help=f"the cgroup v2 mount ({MOUNT})")
    parser.add_argument("--proc", metavar="FOLDER", default=PROC, help=f"where processes are listed ({PROC})")
    parser.add_argument("--plain-folder", action="store_true", help="the mount is a folder of plain files")
    parser.add_argument("--uid", metavar="N", type=number, help="the user whose commands they are; else those of who runs them")
    parser.add_argument("--gid", metavar="N", type=number, action="append", default=[],
                        help="a group of the user, once or more; the first is the primary one")
    parser.add_argument("--subtree", metavar="PATH", help=f"the subtree that they break, where {NAME} ask hasn't written it behind #")
    add_format(parser)
    add_program(parser)


def add_delegations(parser: argparse.ArgumentParser) -> None:
    parser.add_argument("--tree", metavar="FILE", help="the tree's text; standard input where this is left out")
    parser.add_argument("--proc", metavar="FOLDER",
                        help=f"where running processes are listed ({PROC}; none with --accounts)")
    add_accounts(parser)
    add_program(parser)


def add_accept(parser: argparse.ArgumentParser) -> None:
    parser.add_argument("report", metavar="REPORT.json", help=f"what {NAME} check --json wrote, - for standard input")
    parser.add_argument("--reason", metavar="TEXT", required=True, help="why these are accepted, which each report says beside them")
    parser.add_argument("--until", metavar="DAY", help="the last day on which they are, as 2027-01-31 (90 days from now)")
    parser.add_argument("--only", metavar="PATH", action="append", help="what is at that cgroup or inside it, or a container by its name; "
                        "once or more")
    parser.add_argument("--host", action="store_true", help="each block is for the report's host alone, as in one file for many hosts")


def add_page(parser: argparse.ArgumentParser) -> None:
    parser.add_argument("reports", metavar="REPORT.json", nargs="+", help=f"what {NAME} check --json wrote, - for standard input")
    parser.add_argument("--out", metavar="FILE", default="-", help="where the page goes (standard output)")


def add_fleet(parser: argparse.ArgumentParser) -> None:
    parser.add_argument("folder", metavar="FOLDER", help=f"where NAME.json is what {NAME} check --json wrote of the host NAME")
    parser.add_argument("--json", action="store_true", help="what --format json is: all of it, each host by itself")
    parser.add_argument("--format", metavar="KIND", type=way_of_fleet, action="append", default=[], help=f"{', '.join(FLEET_FORMATS)}, or "
                        "KIND=FILE into a file; once or more. Where none goes to standard output, the text does")
    parser.add_argument("--each", action="store_true", help="each host in a row of its own, also those that are alike")
    parser.add_argument("--html", metavar="FOLDER",
                        help="index.html there, and a page of each host beside it; what is printed stays as it is")
    parser.add_argument("--older", metavar="DAYS", type=number, help="a report that is older than so many days doesn't count")
    parser.add_argument("--hosts", metavar="FILE", help="the names of the hosts that should be there, a line each")


def add_plan(parser: argparse.ArgumentParser) -> None:
    for add in (add_host, add_text, add_accounts, add_program):
        add(parser)
    parser.add_argument("--ops", metavar="FILE", help="changes of root's, a line each, - for standard input")
    parser.add_argument("--unit", metavar="FILE", action="append", default=[], help="in place of these a unit of systemd that is started, "
                        "NAME.service or NAME.slice, or a drop-in of one, UNIT.d/NAME.conf; once or more")
    parser.add_argument("--systemd", metavar="VERSION", type=number, help="the version that units are for (the host's own, else "
                        f"{NEW_SYSTEMD})")
    parser.add_argument("--print", choices=("lines", "text"), help="in place of answers the changes, or the text of the tree behind them")
    parser.add_argument("--json", action="store_true", help=f"what {NAME} check --json would write behind the changes, compared")


def add_snapshot(parser: argparse.ArgumentParser) -> None:
    add_host(parser)
    add_accounts(parser)
    parser.add_argument("--with-host", action="store_true", help="in comments, what a check of the text elsewhere takes too: accounts, "
                        "marks, other files, and the processes' names, groups and capabilities")


def add_tree(parser: argparse.ArgumentParser) -> None:
    parser.add_argument("report", metavar="REPORT.json", nargs="?", help=f"what {NAME} check --json wrote, - for standard input")
    parser.add_argument("--all", action="store_true", help="also the cgroups that are folded")
    parser.add_argument("--colour", "--color", choices=("auto", "always", "never"), default="auto",
                        help="colours: on a terminal where NO_COLOR isn't set (auto), or always, or never")
    parser.add_argument("--ascii", action="store_true", help="signs of ASCII alone, as where the locale has no UTF-8")
    parser.add_argument("--width", metavar="COLUMNS", type=width,
                        help="cut lines to this; else to the terminal's, and elsewhere not at all")
    parser.add_argument("--no-pager", action="store_true", help="don't show it through PAGER (less) on a terminal")
    for add in (add_host, add_accounts, add_keep, add_program):
        add(parser)


ARGUMENTS: Dict[str, Callable[[argparse.ArgumentParser], None]] = {
    "accept": add_accept, "ask": add_ask, "check": add_check, "commands": add_commands, "delegations": add_delegations, "fleet": add_fleet,
    "page": add_page, "plan": add_plan,
    "snapshot": add_snapshot, "tree": add_tree, "watch": add_watch}


def parser_of(name: str) -> Parser:
    """The parser of a subcommand's command line."""
    parser = Parser(prog=f"{NAME} {name}", description=DESCRIPTIONS[name],
                    formatter_class=argparse.RawDescriptionHelpFormatter)
    ARGUMENTS[name](parser)
    return parser
