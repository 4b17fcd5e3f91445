"""From a finding to an article of the page."""
from dataclasses import dataclass, replace
from typing import Dict, Iterator, List, Optional

from zirofen_host.ask.guards import GUARDS
from zirofen_host.collect.model import User
from zirofen_host.fault import Fault
from zirofen_host.judge import long_lists, shell
from zirofen_host.judge.finding_lines import (CAPABILITY, MOUNT_OPTIONS, explaining, held_line, inside_count, owner_text,
                                              processes_text, runs_line)
from zirofen_host.judge.model import (DiffersFinding, EntryFinding, FaultFinding, HeldFinding, OpenedFinding, PremiseFinding, RootInside,
                                      RunsElsewhere)
from zirofen_host.show import picture, words
from zirofen_host.show.lines import causes_of, together
from zirofen_host.show.markup import capital, code, commands, filled, items, paragraph, places, sentence, text
from zirofen_host.show.steps import OVER, Steps, steps_of
from zirofen_host.show.view import Escape, Grouped, Host, Part, accepted_of, entry_of, place_of, subtrees_of, whom_of
from zirofen_host.show.words import ESCAPES, UNSETTLED


@dataclass(frozen=True)
class Place:
    """Where in a page a host's part is: its id, and whether it is the only one."""
    id: str
    is_alone: bool

    def level(self, number: int) -> str:
        """Headings are one level lower below an overview."""
        return f"h{number if self.is_alone else number + 1}"


@dataclass(frozen=True)
class Broken:
    """How a subtree is broken: an escape, carried out in words where operations were found, and where it is shown already."""
    escape: Escape
    steps: Optional[Steps]
    shown_before: Optional[str]


@dataclass(frozen=True)
class Article:
    """A finding as an article of the page."""
    host: Host
    at: Place
    number: int
    finding: Grouped
    broken: Optional[Broken]

    @property
    def id(self) -> str:
        return id_of(self.at, self.number)

    @property
    def steps(self) -> Optional[Steps]:
        return self.broken.steps if self.broken else None

    def html(self) -> str:
        """All that is shown of it, but for its title."""
        return filled("finding.html", what=self.accepted() + self.what(), of=self.of() + self.why(), picture=self.picture(),
                      steps=self.steps_html(), change=self.change(), try_it=self.try_it())

    def accepted(self) -> str:
        """Why it isn't counted, where somebody accepted it."""
        why = accepted_of(self.finding.parts[0])
        return "" if why is None else paragraph(f"Accepted, and not counted: {text(why)}.")

    def title(self) -> str:
        """What is the matter, in one line."""
        part, kind = self.finding.parts[0], self.finding.answer
        if isinstance(part, DiffersFinding):
            return f"{code(part.path)} isn't as a service manager leaves it"
        if isinstance(part, RootInside):
            return f"Root in {code(part.path)} gets at cgroup files outside of its container"
        if isinstance(part, RunsElsewhere):
            return f"{text(capital(words.who(part.whom)))} {words.verb(part.whom, 'runs', 'run')} elsewhere than in {code(part.path)}"
        if isinstance(part, HeldFinding):
            verb = words.verb(part.whom, "holds", "hold")
            return f"{text(capital(words.who(part.whom)))} {verb} {code(part.file)} of {code(part.path)} open"
        if isinstance(part, PremiseFinding):
            return {MOUNT_OPTIONS: "The hierarchy lacks mount options", CAPABILITY: f"Owners are passed over in {code(part.path)}"}.get(
                part.what, f"Something is mounted over {code(part.entry)} of {code(part.path)}")
        if isinstance(part, FaultFinding):
            return f"No answer of {self.titled(part.subtrees[0])}"
        if isinstance(part, OpenedFinding) and part.why:
            verb = "makes" if words.is_one(part.whom) else "make"
            return f"{text(capital(words.who(part.whom)))} {verb} cgroups in {code(part.path)}: {text(part.why)}"
        if isinstance(part, OpenedFinding):
            verb = "sets" if words.is_one(part.whom) else "set"
            return f"{text(capital(words.who(part.whom)))} {verb} limits of {code(part.path)}"
        if self.broken and self.steps and self.steps.breaks.kind == OVER:
            return f"{code(self.broken.escape.subtree)} is over its own limits"
        verb = self.steps.breaks.verb if self.steps else "breaks" if kind == ESCAPES else "may break"
        if self.broken:
            return f"{text(capital(self.broken.escape.who))} {verb} {self.titled(self.broken.escape.subtree)}"
        return f"{text(capital(words.who(part.whom)))} {verb} {self.titled(part.subtrees[0])}"

    def titled(self, subtree: str) -> str:
        """A subtree, and how many more the finding is of; of an escape the one that was broken alone."""
        others = 0 if self.steps else len(subtrees_of(self.finding.parts[0])) - 1
        return code(subtree) + (f" and {words.count(others, 'other')}" if others else "")

    def what(self) -> str:
        """Each part of the report's, once: in a sentence, or below one where there are more."""
        ids = [f"{self.at.id}-{self.finding.key}-{number + 1}" for number in self.finding.numbers]
        if len(ids) == 1:
            return f'<p id="{ids[0]}">{self.part(self.finding.parts[0])}</p>'
        parts = "\n".join(f'<li id="{name}">{self.part(part)}</li>' for name, part in zip(ids, self.finding.parts))
        return paragraph(self.lead()) + f"<ul>\n{parts}\n</ul>"

    def lead(self) -> str:
        """Whom the entries below it let in, and where."""
        first = self.finding.parts[0]
        return f"{self.subject()} these of {place_text(first)}:" if whom_of(first) else ""

    def subject(self) -> str:
        return text(capital("; ".join(words.how(each) for each in whom_of(self.finding.parts[0]))))

    def part(self, part: Part) -> str:
        """A part of the report's."""
        if isinstance(part, FaultFinding):
            return f"{text(part.who)}: {code(part.fault)}"
        if isinstance(part, DiffersFinding):
            return f"Who owns or writes these isn't as it leaves them: {', '.join(map(code, part.entries))}."
        if isinstance(part, RootInside):
            description = "; ".join(part.why)
            return f"{text(description[:1].upper() + description[1:])}. {text(inside_count(part))}."
        if isinstance(part, (RunsElsewhere, HeldFinding)):
            line = runs_line(part) if isinstance(part, RunsElsewhere) else held_line(part)
            return f"{text(line.partition(': ')[2].capitalize())} ({text(processes_text(part.processes))})."
        if isinstance(part, PremiseFinding):
            description = "; ".join(filter(None, (part.told, processes_text(part.processes) if part.processes else None)))
            return f"{text(capital(description))}."
        entry = entry_of(part)
        if entry in GUARDS:
            return f"{text(GUARDS[entry].no_entry)}: {code(part.path)}, {text(words.who(part.whom))}."
        name = "the directory" if entry == "dir" else code(entry)
        owner = f" ({text(owner_text(part.owner))})" if part.owner else ""
        return name + owner if len(self.finding.parts) > 1 else f"{self.subject()} {name}{owner} of {place_text(part)}."

    def of(self) -> str:
        """The subtrees that it opens, where the title doesn't name the one, and what an unsettled guard means."""
        subtrees = subtrees_of(self.finding.parts[0])
        paragraphs = f"<p>The subtrees are {places(subtrees)}.</p>" if len(subtrees) > 1 else ""
        if self.finding.answer == UNSETTLED and self.broken:
            guard = text(words.guard(self.broken.escape.lines[0]))
            paragraphs += f"<p>No operations were found that break it, and it isn't shown to hold: {guard}.</p>"
        return paragraphs

    def why(self) -> str:
        """The command that says what each guard asks of who breaks it."""
        escape = self.broken.escape if self.broken else None
        if not escape or escape.uid is None:
            return ""
        command = explaining(escape.uid, escape.subtree, self.host.report.given)
        return f"<p>What each guard asks, and by what it holds or fails: {code(command)}.</p>"

    def picture(self) -> str:
        """The escape as it was shown already, or its picture."""
        if not self.broken or not self.broken.steps:
            return ""
        if self.broken.shown_before:
            return f'<p>It is done as by <a href="#{self.broken.shown_before}">the finding above</a>, which names another entry.</p>'
        entries = [each for each in self.finding.parts if isinstance(each, EntryFinding)]
        shown = picture.Shown(self.host, self.broken.escape, self.broken.steps.breaks, entries)
        caption = f"Dashed: the subtree's edge. Marked: what lets {text(self.broken.escape.who)} in."
        return f"<figure>{picture.svg(shown, f'{self.id}-picture')}<figcaption>{caption}</figcaption></figure>"

    def steps_here(self) -> Optional[Steps]:
        """The steps, where they are shown for the first time and there are some."""
        return self.steps if self.broken and not self.broken.shown_before and self.steps and self.steps.sentences else None

    def steps_html(self) -> str:
        steps = self.steps_here()
        if not self.broken or not steps:
            return ""
        heading = self.at.level(4)
        return (f"<{heading}>What {text(self.broken.escape.who)} can do</{heading}>"
                f"<ol>\n{items(map(sentence, steps.sentences))}\n</ol>{paragraph(text(capital(self.broken.escape.why_shown)))}")

    def changes(self) -> List[str]:
        """The commands that mend it."""
        return together(command for each in self.finding.parts if not isinstance(each, FaultFinding) for command in each.changes)

    def change(self) -> str:
        changes = self.changes()
        settings = dict.fromkeys(each.setting for each in self.finding.parts
                                 if not isinstance(each, (FaultFinding, RootInside)) and each.setting)
        if isinstance(self.finding.parts[0], RootInside):
            return self.of_container(self.finding.parts[0])
        causes = "".join(f"<p>What of root's files gives it away: {code(each)}</p>" for each in causes_of(self.finding.parts))
        if not changes and not settings and not causes:
            is_missing = self.finding.key == "entries" and not self.host.report.has_advice
            return "<p>What to change isn't known: the program of this report has no advise.</p>" if is_missing else ""
        heading = self.at.level(4)
        effects = dict.fromkeys(each.effect for each in self.finding.parts if isinstance(each, PremiseFinding) and each.effect)
        then = "".join(f"<p>What it does beside: {text(each)}.</p>" for each in effects)
        behind = f"<p>What brings it back when the unit is started again: {text(', '.join(settings))}.</p>" if settings else ""
        return f'<div class="change"><{heading}>What to change</{heading}>{commands(changes)}{then}{behind}{causes}</div>'

    def of_container(self, part: RootInside) -> str:
        """What holds a container: on the host, and where it is started."""
        setting = f"<p>What its manager sets for it: {text(part.setting)}.</p>" if part.setting else ""
        heading = self.at.level(4)
        return f'<div class="change"><{heading}>What to change</{heading}>{commands(self.changes())}{setting}</div>'

    def try_it(self) -> str:
        """The escape as commands, as far as the lines of the report are operations."""
        if not self.broken or not self.steps_here():
            return ""
        escape = self.broken.escape
        user = None if escape.uid is None else User(escape.uid, escape.gids)
        try:
            lines = shell.commands(self.host.report.mount, "\n".join(escape.lines[1:]), user)
        except Fault:
            lines = [f"# {line}" for line in escape.lines[1:]]
        return ("<details><summary>Try it: as commands, which do harm where they work</summary>"
                f"{commands(lines)}</details>")


def id_of(at: Place, number: int) -> str:
    return f"{at.id}-finding-{number + 1}"


def place_text(part: Part) -> str:
    """The cgroup of an entry, and how it stands to the subtrees."""
    subtrees = subtrees_of(part)
    return code(place_of(part)) + (f", which {words.where(place_of(part), subtrees)}" if subtrees else "")


def shortened(steps: Steps, escape: Escape) -> Steps:
    """The first steps of a list, and how many more there are."""
    more = list(long_lists.shown(escape.lines))[long_lists.SHOWN:]
    return replace(steps, sentences=(*steps.sentences[:long_lists.SHOWN], *([line] for line in more)))


def articles(host: Host, at: Place) -> Iterator[Article]:
    """The findings in their order; an escape is shown at the first that it is of."""
    first: Dict[Escape, int] = {}
    for number, finding in enumerate(host.findings):
        part, broken = finding.parts[0], None
        escape = host.escape(part) if isinstance(part, EntryFinding) else None
        if escape and finding.answer == ESCAPES:
            before = first.setdefault(escape, number)
            steps = shortened(steps_of(host, escape.subtree, escape.lines[1:]), escape)
            broken = Broken(escape, steps, None if before == number else id_of(at, before))
        elif escape:
            broken = Broken(escape, None, None)
        yield Article(host, at, number, finding, broken)
