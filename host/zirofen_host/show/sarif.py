"""From a run to SARIF 2.1.0 (OASIS), which gates of code read: places are lines of a tree text, or cgroups of a host."""
import hashlib
import json
import os
import re
import time
from typing import Dict, Iterator, List, Mapping, Optional, Sequence
from urllib.parse import quote

from zirofen_host.collect.bounded import read_file
from zirofen_host.collect.tree import toml_reader
from zirofen_host.fault import FAULT, plain
from zirofen_host.judge import limits
from zirofen_host.judge.host_model import Absent
from zirofen_host.judge.severity import Severity
from zirofen_host.judge.model import Report
from zirofen_host.judge.notes import Outside
from zirofen_host.judge.rules import RULES, Finding, Rule
from zirofen_host.profile import LONGEST_TEXT
from zirofen_host.show import rule_help
from zirofen_host.show.run import Run

SCHEMA = "https://docs.oasis-open.org/sarif/sarif/v2.1.0/os/schemas/sarif-schema-2.1.0.json"
# what counts as an error; what else counts is a warning, and what doesn't a note
ERRORS = (Severity.FAULT, Severity.ESCAPES, Severity.OPENED)
# where each kind is explained, by a name that is the same wherever a check ran
PAGE = "zirofen-host(8)"
FINGERPRINT = "zirofen/v1"
_LINK = re.compile(r"\[(?=[^\]]*\]\()")
_PATH_ROW = re.compile(r"""\s*(?:path|"path"|'path')\s*=""")
Object = Dict[str, object]


def message(lines: Sequence[str]) -> Object:
    """A message in plain text: braces and brackets of others are no placeholders and no links."""
    text = "\n".join(map(plain, lines)).replace("{", "{{").replace("}", "}}")
    return {"text": _LINK.sub(r"\\[", text)}


def level_of(severity: Severity) -> str:
    return "error" if severity in ERRORS else "note" if severity is Severity.CONTAINED else "warning"


def rule_object(rule: Rule, page: Optional[str]) -> Object:
    """A kind of finding with what it means, how grave it is, its cause and its mend, and where a page on the web says so, if named."""
    section = rule_help.sections()[rule.id]
    grave = f"*How grave*: `{rule.severity.value}`, status {rule.severity.status}. {rule.description}"
    more: Object = {"helpUri": f"{page}#{section.anchor}"} if page else {}
    help_text = {"text": f"{rule.description} What to do: {PAGE}, section {rule.id}.", "markdown": f"{section.linked(page)}\n\n{grave}"}
    return {"id": rule.id, "shortDescription": {"text": rule.what}, "fullDescription": {"text": rule.description}, **more,
            "help": help_text, "defaultConfiguration": {"level": level_of(rule.severity)}}


def rows_in(text: Optional[str]) -> Mapping[str, int]:
    """The line of each cgroup's row in a tree text: that of its path."""
    found: Dict[str, int] = {}
    if text is None:
        return found
    reader = toml_reader()
    lines = read_file(text, LONGEST_TEXT).text("utf-8-sig", "replace").split("\n")
    for number, line in enumerate(lines, 1):
        if _PATH_ROW.match(line):
            try:
                found.setdefault(str(reader(line)["path"]), number)
            except (ValueError, KeyError):
                continue
    return found


def artifact_of(tree: str) -> Object:
    """A file as it was named: relative to where the check ran, as far as it lies there."""
    path = os.path.normpath(tree)
    here = os.getcwd()
    if os.path.isabs(path) and os.path.commonpath([here, path]) == here:
        path = os.path.relpath(path, here)
    uri = quote(os.fsencode(path))
    return {"uri": f"file://{uri}"} if os.path.isabs(path) else {"uri": uri, "uriBaseId": "%SRCROOT%"}


def location(run: Run, found: Finding, rows: Mapping[str, int]) -> Object:
    """Where a finding stands: in the tree text, and at the host's cgroup."""
    name = plain(f"{run.subject}:{found.path or '/'}")
    logical: Object = {"fullyQualifiedName": name, "kind": "resource"}
    if found.name:
        logical["name"] = plain(found.name)
    place: Object = {"logicalLocations": [logical]}
    if run.tree and run.tree != "-":
        physical: Object = {"artifactLocation": artifact_of(run.tree)}
        if found.path in rows:
            physical["region"] = {"startLine": rows[found.path]}
        place["physicalLocation"] = physical
    return place


def fingerprint(run: Run, found: Finding) -> str:
    """What stays the same as long as a finding does: its kind and place, and not whom it lets in."""
    parts = (run.report.host, found.rule.id, found.place, found.entry, "" if found.entry else found.line)
    return hashlib.sha256("\0".join(parts).encode("utf-8", "backslashreplace")).hexdigest()


def result(run: Run, found: Finding, number: int, rows: Mapping[str, int]) -> Object:
    setting = [f"setting, at the next start: {found.setting}"] if found.setting else []
    mend = [*(f"change: {each}" for each in found.changes), *setting, *found.cause_lines]
    made: Object = {"ruleId": found.rule.id, "ruleIndex": number, "level": level_of(found.rule.severity),
                    "message": message([found.line, *found.example, *mend]), "locations": [location(run, found, rows)],
                    "partialFingerprints": {FINGERPRINT: fingerprint(run, found)},
                    "properties": {"changes": list(map(plain, found.changes))}}
    if not isinstance(found.accepted, Absent):
        made["suppressions"] = [{"kind": "external", "status": "accepted", "justification": plain(found.accepted)}]
    if run.comparison:
        made["baselineState"] = run.states.get(found.line, "unchanged")
    return made


def moment(seconds: float) -> str:
    return time.strftime("%Y-%m-%dT%H:%M:%SZ", time.gmtime(seconds))


def notifications(report: Report) -> Object:
    """What narrows the answers and what runs outside of what its user holds, of which no result can tell."""
    found: List[Object] = [{"level": "warning", "message": {"text": plain(f"{limits.HEAD}: {each.text}")},
                            "descriptor": {"id": f"limits/{each.kind}"}} for each in limits.narrowing(report)]
    found += [{"level": "note", "message": message([each.line]), "descriptor": {"id": each.kind}} for each in report.unseen
              if each.kind == Outside.kind]
    return {"toolExecutionNotifications": found} if found else {}


def run_object(run: Run) -> Object:
    report, numbers = run.report, {kind: at for at, kind in enumerate(RULES)}
    driver: Object = {"name": "zirofen-host", "rules": [rule_object(each, run.help_uri) for each in RULES.values()]}
    if not isinstance(report.helper, Absent):
        driver["version"] = plain(report.helper.partition(" ")[2])
    rows = rows_in(run.text)
    results: List[Object] = [result(run, found, numbers[found.rule.id], rows) for found in run.findings]
    named = (("program", report.program), ("host", report.host), ("kernel", report.kernel), ("time", report.time),
             ("mount", report.mount))
    about = {key: plain(word) for key, word in named if word}
    return {"tool": {"driver": driver}, "automationDetails": {"id": f"zirofen/{quote(run.subject, errors='backslashreplace')}/"},
            "invocations": [{"executionSuccessful": run.status != FAULT, "exitCode": run.status,
                             "startTimeUtc": moment(run.ended - run.seconds), "endTimeUtc": moment(run.ended),
                             **notifications(report)}],
            "results": results, "properties": about}


def parts_of(run: Run) -> Iterator[str]:
    """The JSON of a report as a log with one run."""
    log = {"$schema": SCHEMA, "version": "2.1.0", "runs": [run_object(run)]}
    yield from json.JSONEncoder(indent=1, check_circular=False).iterencode(log)
    yield "\n"
