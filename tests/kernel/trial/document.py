"""The kernel's own words: for each rule of docs/MODEL.md that names a section of the kernel's document the sentences on which it rests,
each by the words with which it begins and a checksum of the whole; what of it a document says otherwise, or no more.
"""
import hashlib
import re

# beginnings of rules as MODEL.md has them; the section; the beginning of a sentence there; the checksum of the sentence
RULES = (
    ("There is one tree of cgroups.", "Processes", "A child cgroup can be created by creating a sub-directory", "45127acc3e1fbe5b"),
    ("There is one tree of cgroups.", "Processes", "A given cgroup may have multiple child cgroups", "2ebccaad3ddceb61"),
    ("There is one tree of cgroups.", "Processes", "A process can be migrated into a cgroup by writing", "b087eb160eadc675"),
    ("There is one tree of cgroups.", "Processes", "Only one process can be migrated", "02f58dcb316d9402"),
    ("A forked process is born", "Processes", "When a process forks a child process", "1e2934fcf00fab68"),
    ("An exited process is listed nowhere", "Processes", "After exit, a process stays associated", "9e5fab074b7bf534"),
    ("An exited process is listed nowhere", "Processes", "A cgroup which doesn't have any children or live processes", "6cfca448be48b969"),
    ("An exited process is listed nowhere", "Processes", "Note that a cgroup which doesn't have any children", "94416e6598d9531f"),
    ("No controller is enabled by default.", "Enabling and Disabling", "No controller is enabled by default", "b616364818fdc734"),
    ("No controller is enabled by default.", "Enabling and Disabling",
     "Controllers can be enabled and disabled by writing", "bb6e19452aff9b86"),
    ("No controller is enabled by default.", "Enabling and Disabling", "Only controllers which are listed", "2552019457947712"),
    ("No controller is enabled by default.", "Enabling and Disabling", "When multiple operations are specified", "c57a666ada933622"),
    ("No controller is enabled by default.", "Enabling and Disabling", "If multiple operations on the same controller", "6bd6484d1aaa6847"),
    ("A controller that a cgroup enables brings", "Enabling and Disabling",
     "As a controller regulates the distribution", "ace4ec11ff19d7f8"),
    ("A controller that a cgroup enables brings", "Enabling and Disabling", "Likewise, disabling", "74146816d82b727c"),
    ("A cgroup other than the root enables only", "Top-down Constraint", "This means that all non-root", "96c3e74c14125b71"),
    ("A cgroup other than the root enables only", "Top-down Constraint", "A controller can be enabled only if", "bfa2f617df1e178a"),
    ("A cgroup other than the root that enables something", "No Internal Process Constraint",
     "Non-root cgroups can distribute domain resources", "f4b6960dc1f902a4"),
    ("A cgroup other than the root that enables something", "No Internal Process Constraint",
     "The root cgroup is exempt", "ac6373d369d3a3e2"),
    ("A cgroup other than the root that enables something", "No Internal Process Constraint",
     "Note that the restriction doesn't get in the way", "b4e1c6b37827a215"),
    ("Delegation hands over", "Model of Delegation", "First, to a less privileged user", "42c9540be5322bfd"),
    ("Delegation hands over", "Model of Delegation", "Because the resource control interface files", "8c1a57e8a145900e"),
    ("Delegation hands over", "Model of Delegation", "For the first method", "243a35fd60277a4c"),
    ("A writer whose euid isn't root", "Delegation Containment", "For delegations to a less privileged user", "b312f8bd1ab3f380"),
    ("A writer whose euid isn't root", "Delegation Containment",
     "The writer must have write access to the \"cgroup.procs\" file.", "9d220a01d2bf7e36"),
    ("A writer whose euid isn't root", "Delegation Containment",
     "The writer must have write access to the \"cgroup.procs\" file of", "24f61179e1edc603"),
    ("`cgroup.max.descendants` and `cgroup.max.depth`", "Core Interface Files",
     "cgroup.max.descendants A read-write single value files. The default is", "93e73ce4ceec4cc7"),
    ("`cgroup.max.descendants` and `cgroup.max.depth`", "Core Interface Files",
     "Maximum allowed number of descent cgroups", "d4a85ef346461c11"),
    ("`cgroup.max.descendants` and `cgroup.max.depth`", "Core Interface Files",
     "cgroup.max.depth A read-write single value files. The default is", "b164f5ab0bcd690b"),
    ("`cgroup.max.descendants` and `cgroup.max.depth`", "Core Interface Files", "Maximum allowed descent depth", "aa424f2590dfc625"),
    ("| `cpu.weight`", "CPU",
     "cpu.weight A read-write single value file which exists on non-root cgroups. The default is", "64fb137d251267a9"),
    ("| `memory.min`", "Memory",
     "memory.min A read-write single value file which exists on non-root cgroups. The default is", "32318a644e6b28b8"),
    ("| `memory.min`, `memory.low`", "Memory",
     "memory.low A read-write single value file which exists on non-root cgroups. The default is", "44ad439053848ca6"),
    ("| `memory.high`", "Memory",
     "memory.high A read-write single value file which exists on non-root cgroups. The default is", "1d8261d7f78b29c1"),
    ("| `memory.high`, `memory.max`", "Memory",
     "memory.max A read-write single value file which exists on non-root cgroups. The default is", "3ee864defeec0c60"),
    ("| `pids.max`", "PID", "pids.max A read-write single value file which exists on non-root cgroups. The default is", "177c5022ee94afd9"),
)
HEADING = re.compile(r"^(?P<name>\S[^\n]*)\n(?P<line>([-=~^])\3{2,})\n", re.M)
# by the line below a heading how far down it is
LEVELS = "=-~^"


def sections(document):
    """The text of each section with those below it, its blanks and ends of lines as one blank."""
    found, headings = {}, list(HEADING.finditer(document))
    for at, heading in enumerate(headings):
        level = LEVELS.index(heading["line"][0])
        end = next((later.start() for later in headings[at + 1:] if LEVELS.index(later["line"][0]) <= level), len(document))
        found.setdefault(heading["name"], " ".join(document[heading.end():end].split()))
    return found


def sentence(text, words):
    """The sentence that begins with some words, up to its end or to an example, or None."""
    at = text.find(words)
    if at < 0:
        return None
    behind = at + len(words.removesuffix("."))
    return text[at:behind] + re.match(r".*?(?:\.(?= |$)|::(?= |$)|$)", text[behind:])[0]


def sum_of(text):
    return hashlib.sha256(text.encode()).hexdigest()[:16]


def faults(document, rules=RULES):
    """What a document says otherwise than the rules have it, each with its rule."""
    known, found = sections(document), []
    for rule, section, words, known_sum in rules:
        said = sentence(known[section], words) if section in known else None
        if section not in known:
            found.append(f"no section {section!r}, on which rests: {rule}")
        elif said is None:
            found.append(f"section {section!r} has no sentence {words!r}, on which rests: {rule}")
        elif sum_of(said) != known_sum:
            found.append(f"section {section!r} says otherwise what begins with {words!r}, on which rests: {rule}")
    return found


def named_sections(model):
    """Each rule of MODEL.md's table of rules with the sections that it names."""
    table = model.partition("\n## The rules\n")[2].partition("\n## ")[0]
    for row in re.findall(r"^\| (?!Rule \||---)(.*) \| ([^|]*) \|$", table, re.M):
        named = re.split(r"\b[Oo]wn\b", row[1])[0].rstrip(". ;")
        yield row[0], [each.strip() for each in re.split("[,;]", named) if each.strip()]
