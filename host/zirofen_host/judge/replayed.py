"""From operations to commands of a user on this host, with processes that can be moved."""
from typing import List, Optional

from zirofen_host import output
from zirofen_host.ask.delegations import Delegations
from zirofen_host.ask.program import program_at
from zirofen_host.collect.accounts import accounts_of
from zirofen_host.collect.model import User
from zirofen_host.collect.snapshot import take
from zirofen_host.fault import Fault
from zirofen_host.judge import one, shell
from zirofen_host.judge.lists import Tried, pids_in, tried
from zirofen_host.options import AskOptions, CommandsOptions
from zirofen_host.profile import path_of

# behind which `ask` writes the subtree
SUBTREE = "# subtree "


def commands(options: CommandsOptions, text: str, user: User) -> List[str]:
    """The commands of a list, where the host has other processes for those that can't be moved; what is said of it stands first."""
    lines = text.split("\n")
    subtree = options.subtree or next((line[len(SUBTREE):] for line in lines if line.startswith(SUBTREE)), None)
    operations = [line for line in lines if line and not line.startswith("#") and line.split(" ")[0] not in shell.ANSWERS]
    if not pids_in(operations):
        return shell.commands(options.mount, text, user)
    found = looked_for(options, user, subtree, operations)
    changed = dict(zip(operations, found.lines))
    comment = [f"# {found.why}"] if found.why else []
    return comment + shell.commands(options.mount, "\n".join(changed.get(line, line) for line in lines), user)


def looked_for(options: CommandsOptions, user: User, subtree: Optional[str], operations: List[str]) -> Tried:
    """The list as it can be tried here; where that can't be found out it stands as it is, with why."""
    if subtree is None:
        return Tried(tuple(operations), "these are the program's own processes: no subtree is named, by --subtree or in the list")
    asked = AskOptions(options.mount, proc=options.proc, plain_folder=options.plain_folder, accounts=options.accounts,
                       tree_format=options.tree_format, program=program_at(options.program), path=subtree)
    path = path_of(subtree)
    try:
        snapshot = take(asked, lambda *_: [path])
        if path not in snapshot.tree.rows:
            raise Fault(f"there is no cgroup {subtree}")
        with output.temporary_folder() as folder:
            delegations = Delegations(snapshot.tree, accounts_of(asked.accounts, snapshot))
            programs = one.program_for(snapshot, asked, folder, delegations, {user.uid})
            return tried(snapshot, programs.of[path], user, path, operations)
    except (Fault, OSError) as error:
        return Tried(tuple(operations), f"these are the program's own processes, since the host couldn't be looked at: {error}")
