"""Completions for bash, zsh and fish, written from what --help says."""
import re
from collections import namedtuple

import helps

OPTION = re.compile(r"\s+(?:(-\w), )?(--[\w-]+)(?: <([^>]*)>)?(?:\.\.\.)?(?:\s\s+(.*))?")

# as the helpers' --help has them
HELPERS_OPTION = re.compile(r"(?:-\w, )?(--[\w-]+)(?: ([A-Z]+|\{[^}]*\}))?(?:, --[\w-]+(?: \S+)?)?")
FILES = ("FILE", "FOLDER", "PROGRAM")

# options whose value is a cgroup's path, and the command whose first word is a user
PATHS, OF_USERS = ("--only", "--subtree"), "ask"
MOUNT = "/sys/fs/cgroup"


class Option(namedtuple("Option", "name value told")):
    """value: what is named after it, or nothing; FILE is completed by names of files."""

    @property
    def choices(self):
        """The words that it takes, where these are all: as {A,B} in place of a value, or of a KIND or a FORMAT in what is said of it."""
        if self.value.startswith("{"):
            return self.value.strip("{}").split(",")
        if self.value == "FORMAT":
            return [*re.search(r": (\w+), or (\w+) ", self.told).groups()]
        if self.value != "KIND":
            return []
        listed = re.match(r"((?:\w+, )+)or KIND=FILE", self.told)
        return listed[1].rstrip(", ").split(", ") if listed else re.findall(r"\((\w+)\)", self.told)


def commands_of(said):
    """The commands that a help lists, each with what is said of it."""
    lines = said.split("\n")
    first = lines.index("Commands:") + 1
    rows = (line.split(None, 1) for line in lines[first:lines.index("", first)])
    return {name: told[0] if told else "" for name, *told in rows}


def options_of(said):
    """The options that a help lists."""
    lines = said.split("\n")
    rows = (OPTION.fullmatch(line) for line in lines[lines.index("Options:") + 1:])
    return [Option(row[2], row[3] or "", (row[4] or "").strip()) for row in rows if row]


def helpers_options_of(said):
    """The options that a helper's help lists."""
    rows = ((HELPERS_OPTION.fullmatch(tag), told) for tag, told in helps.parsed(said).lists["options"])
    return [Option(row[1], "FILE" if row[2] in FILES else row[2] or "", told) for row, told in rows if row]


def read_helpers(help_of):
    """The same of zirofen-host and its helpers."""
    return {name: (told, helpers_options_of(help_of(name))) for name, told in commands_of(help_of()).items()}


def read(help_of):
    """The commands and their options, where `help_of(*words)` gives what --help says behind these words."""
    return {name: (told, options_of(help_of(name))) for name, told in commands_of(help_of()).items() if name != "help"}


def bash_values(commands):
    """The cases of options that take one of some words, a cgroup's path, or a user."""
    cases = [f"        '{name} {it.name}') mapfile -t COMPREPLY < <(compgen -W '{' '.join(it.choices)}' -- \"$word\"); return ;;"
             for name, (_, options) in commands.items() for it in options if it.choices]
    paths = "|".join(f"*' {name}'" for name in PATHS)
    cases.append(f"        {paths}) mapfile -t COMPREPLY < <(compgen -d -- \"{MOUNT}$word\"); "
                 f"COMPREPLY=(\"${{COMPREPLY[@]#{MOUNT}}}\"); return ;;")
    if OF_USERS in commands:
        cases.append(f"        '{OF_USERS} {OF_USERS}') mapfile -t COMPREPLY < <(compgen -u -- \"$word\"); return ;;")
    return "\n".join(cases)


def bash(program, commands):
    cases = []
    for name, (_, options) in commands.items():
        cases.append(f"        {name}) options='{' '.join(option.name for option in options)}' ;;")
    values = sorted({option.name for _, options in commands.values() for option in options if option.value})
    files = sorted({option.name for _, options in commands.values() for option in options if option.value == "FILE"})
    return f"""# completions of {program} for bash, written from its --help
_{program.replace("-", "_")}() {{
    local word=${{COMP_WORDS[COMP_CWORD]}} before=${{COMP_WORDS[COMP_CWORD-1]}} options
    if [ "$COMP_CWORD" -eq 1 ]; then
        mapfile -t COMPREPLY < <(compgen -W '{" ".join(commands)} help --help --version' -- "$word")
        return
    fi
    case "${{COMP_WORDS[1]}} $before" in
{bash_values(commands)}
    esac
    case $before in
        {"|".join(files) or "--"}) mapfile -t COMPREPLY < <(compgen -f -- "$word"); return ;;
        {"|".join(it for it in values if it not in files) or "--"}) return ;;
    esac
    case ${{COMP_WORDS[1]}} in
{chr(10).join(cases)}
        help) options='{" ".join(commands)}' ;;
    esac
    mapfile -t COMPREPLY < <(compgen -W "$options" -- "$word")
}}
complete -o filenames -F _{program.replace("-", "_")} {program}
"""


def quoted(text):
    return "'" + text.replace("'", "'\\''") + "'"


def zsh_values(option):
    """What completes an option's value."""
    if option.choices:
        return f"({' '.join(option.choices)})"
    return f"_path_files -P / -W {MOUNT} -/" if option.name in PATHS else "_files" if option.value == "FILE" else " "


def zsh(program, commands):
    listed = "\n".join(f"        {quoted(name + ':' + told.replace(':', chr(92) + ':'))}" for name, (told, _) in commands.items())
    cases = []
    for name, (_, options) in commands.items():
        words = []
        for it in options:
            told = it.told.replace("[", "(").replace("]", ")").replace(":", "\\:")
            action = f":{re.sub('[^a-z]', ' ', it.value.lower())}:" if it.value else ""
            words.append(quoted(f"*{it.name}[{told}]{action}{zsh_values(it) if action else ''}"))
        words += [quoted("1:user:_users")] if name == OF_USERS else []
        cases.append(f"        {name}) _arguments {' '.join(words)} ;;")
    return f"""#compdef {program}
# completions of {program} for zsh, written from its --help
_{program.replace("-", "_")}() {{
    local -a commands
    commands=(
{listed}
    )
    if (( CURRENT == 2 )); then
        _describe command commands
        return
    fi
    local command=$words[2]
    shift words
    (( CURRENT-- ))
    case $command in
{chr(10).join(cases)}
    esac
}}
_{program.replace("-", "_")} "$@"
"""


FISH_PATHS = f"(for it in {MOUNT}(commandline -ct)*/; string replace {MOUNT} '' -- $it; end)"


def fish(program, commands):
    lines = [f"# completions of {program} for fish, written from its --help", f"complete -c {program} -f"]
    for name, (told, options) in commands.items():
        lines.append(f"complete -c {program} -n __fish_use_subcommand -a {name} -d {quoted(told)}")
        for it in options:
            value = " -r -F" if it.value == "FILE" else " -x" if it.value else ""
            if it.choices or it.name in PATHS:
                value += f" -a {quoted(' '.join(it.choices) or FISH_PATHS)}"
            lines.append(f"complete -c {program} -n '__fish_seen_subcommand_from {name}' -l {it.name[2:]}{value} -d {quoted(it.told)}")
    if OF_USERS in commands:
        lines.append(f"complete -c {program} -n '__fish_seen_subcommand_from {OF_USERS}' -a '(__fish_complete_users)'")
    return "\n".join(lines) + "\n"
