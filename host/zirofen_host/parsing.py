"""From the options of a parser to its help and faults, which are the same whichever Python runs it."""
import argparse
import textwrap
from typing import Dict, Iterator, List, Sequence, Tuple

# columns of a help, and where what is said of an option begins
WIDTH, HELP_AT = 78, 24
HELP = "show this help message and exit"


def value_of(action: argparse.Action) -> str:
    """What stands for the value of an option, or of an argument."""
    if action.choices is not None:
        return "{" + ",".join(map(str, action.choices)) + "}"
    return str(action.metavar or action.dest if not action.option_strings else action.metavar or action.dest.upper())


def invoked(action: argparse.Action) -> str:
    """An option as it is listed, with its value behind each of its names."""
    if not action.option_strings:
        return value_of(action)
    value = "" if action.nargs == 0 else f" {value_of(action)}"
    return ", ".join(f"{name}{value}" for name in action.option_strings)


def in_usage(action: argparse.Action) -> str:
    """An option or an argument as the usage has it."""
    value = value_of(action)
    if action.option_strings:
        name = action.option_strings[0]
        return name if action.nargs == 0 else f"{name} {value}"
    return {"?": f"[{value}]", "+": f"{value} [{value} ...]", "*": f"[{value} ...]"}.get(str(action.nargs), value)


def packed(words: Sequence[str], first: str, indent: str) -> Iterator[str]:
    """Words that are broken nowhere, as many in a line as it has room for."""
    line = first
    for word in words:
        if len(line) + 1 + len(word) > WIDTH and line.strip():
            yield line
            line = indent[:-1]
        line += f" {word}"
    yield line


class StableParser(argparse.ArgumentParser):
    """Options of a helper."""

    def usage_words(self) -> Tuple[List[str], List[str]]:
        """The options, those of which one is taken together, and the arguments."""
        together: Dict[int, List[argparse.Action]] = {}
        for group in self._mutually_exclusive_groups:
            for action in group._group_actions:
                together[id(action)] = group._group_actions
        words, seen = [], set()
        for action in self._actions:
            of = together.get(id(action), [action])
            if action.option_strings and id(of[0]) not in seen:
                seen.add(id(of[0]))
                choices = " | ".join(map(in_usage, of))
                words.append(choices if action.required else f"[{choices}]")
        return words, [in_usage(action) for action in self._actions if not action.option_strings]

    def format_usage(self) -> str:
        options, arguments = self.usage_words()
        first = f"usage: {self.prog}"
        indent = " " * (len(first) + 1)
        if len(" ".join([first, *options, *arguments])) <= WIDTH:
            return " ".join([first, *options, *arguments]) + "\n"
        lines = list(packed(options, first, indent))
        return "\n".join([*lines, *(packed(arguments, indent[:-1], indent) if arguments else ())]) + "\n"

    def listed(self, actions: Sequence[argparse.Action]) -> Iterator[str]:
        """A line for each, with what is said of it behind it or below."""
        for action in actions:
            head, help_text = f"  {invoked(action)}", HELP if isinstance(action, argparse._HelpAction) else action.help or ""
            lines = textwrap.wrap(help_text, WIDTH - HELP_AT) or [""]
            if len(head) > HELP_AT - 2:
                yield head
            else:
                yield f"{head:<{HELP_AT}}{lines.pop(0)}".rstrip()
            yield from (" " * HELP_AT + line for line in lines)

    def format_help(self) -> str:
        parts = [self.format_usage().rstrip("\n"), (self.description or "").strip("\n")]
        for head, is_option in (("positional arguments", False), ("options", True)):
            actions = [action for action in self._actions if bool(action.option_strings) == is_option]
            if actions:
                parts.append("\n".join([f"{head}:", *self.listed(actions)]))
        return "\n\n".join(parts) + "\n"

    def _check_value(self, action: argparse.Action, value: object) -> None:
        if action.choices is not None and value not in action.choices:
            raise argparse.ArgumentError(action, f"invalid choice: {value!r} (choose from {', '.join(map(repr, action.choices))})")
