"""docs/THEOREMS.md against the sources: the statements that it shows, and what one has to believe of each theorem.

A theorem is a part of the page under a heading `## N. NAME`, which names its law once. A statement may stand in it between ``` below a
line with the law, and behind a comma the clause, that it is of, and a colon. What the part names by a path, each with clauses behind a
colon or with all, carries the theorem, and behind "Turned by" stands an edit that the prover refuses by it. A line that begins with
`Read: ` names definitions in the order in which they are read. Below a line that begins with `All that LAW names`, or with LAW, a comma
and a clause, stand between ``` all definitions and types that the law reaches and that stand in no such place above, with their comments,
file by file.
"""
import re

from believed import HEAD, Definition, World, closure, definitions_of, words_of
from crates import read
from edited import text_of

MARK = "nobody has to believe it."
LAWS = "theorems"
ITEM = re.compile(r"`(\w+(?:::\w+)+)`(?:: (`\w+`(?:(?:, | and )`\w+`)*))?")
PART = re.compile(r"^## (\d+)\. (.*?)(?=^## |\Z)", re.M | re.S)
STATEMENT = re.compile(r"^(`([\w:]+)`(?:, `(\w+)`)?:\n\n```\n)(.*?)^```$", re.M | re.S)
SAID = re.compile(r"(?:--.*\n)*")
PRINTED = re.compile(r"^(All that `([\w:]+)`(?:, `(\w+)`,)? names\b[^`]*?:\n\n```\n)(.*?)^```$", re.M | re.S)
LISTED = re.compile(rf"`({LAWS}::\w+)`")
TURNED = re.compile(r"Turned\s+by\s+`(\w+)`")
READ = re.compile(r"^Read: (.*?)\n(?:\n|\Z)", re.M | re.S)
LINKED = re.compile(r"\[`([^`]+)`\]\(MODEL\.md(?:#[\w-]*)?\)")
# words of the language, which no file brings in
BUILT_IN = {":", "→", "λ", "×", "¬", "⊥", "record", "let", "in", "elim", "Type", "Unit"}


def lines_of(definitions):
    """Returns the files of definitions and types, each with how many of their lines it has."""
    found = {}
    for it in definitions:
        found[it.file] = found.get(it.file, 0) + len(it.lines)
    return found


def place_of(world):
    """Returns what puts files in the order in which crates, and the definitions of a crate, stand on each other."""
    order = [*read(world.top)]

    def place(file):
        crate, folder, *inner = file.split("/")[1:]
        name, library = inner[0].partition(".")[0], f"{world.top}/crates/{crate}/specs/Lib.antt"
        listed = re.findall(r"^pub mod (\w+)", text_of(library), re.M) if folder == "specs" else []
        return order.index(crate), folder == "specs", listed.index(name) if name in listed else -1, file

    return place


def parts_of(text):
    """Returns the text of each theorem, by its number."""
    return {found[1]: found[0] for found in PART.finditer(text)}


def roots_of(world, part):
    """Returns the contracts that a part names, each once."""
    named = {(name, clauses): re.findall(r"\w+", clauses.replace(" and ", " ")) for name, clauses in ITEM.findall(part)}
    return [world.named(name, clauses) for (name, _), clauses in named.items()]


def unreached(text, world):
    """Returns the definitions that no theorem of the page reaches, file by file."""
    reached = closure([it for part in parts_of(text).values() for it in roots_of(world, part)])[0]
    return [it for it in definitions_of(world) if it not in reached]


def marks_of(text, top="."):
    """Returns how many files of definitions there are, and those whose first line says of belief what isn't so.

    A file that no theorem of the page reaches says that nobody has to believe it, and no other does.
    """
    world = World(top)
    own = [*definitions_of(world)]
    rest = unreached(text, world)
    faults, files = [], sorted({it.file for it in own})
    for file in files:
        is_reached = any(it.file == file and it not in rest for it in own)
        is_marked = text_of(f"{top}/{file}").partition("\n")[0].endswith(MARK)
        if is_reached == is_marked:
            faults.append(f"a theorem reaches {file}, whose first line says otherwise" if is_reached
                          else f"no theorem reaches {file}: its first line ends with '{MARK}'")
    return len(files), faults


def shown(contract):
    """Returns the clauses of a contract as they stand in the source but for their brackets and margin, each below its name."""
    texts = [re.sub(r"\n {0,8}", "\n    ", text[1:-1].strip()) for _, text in contract.clauses]
    names = [f"-- {name}\n" if name and texts[1:] else "" for name, _ in contract.clauses]
    return "\n".join(name + text for name, text in zip(names, texts))


def statement_of(world, name, clause):
    return shown(world.named(name, [clause] if clause else []))


def named_in(paragraph):
    """Returns the name of the definition of a paragraph of specs, or None."""
    heads = [it for it in map(HEAD.match, paragraph.split("\n")) if it and not it[0].startswith(("use ", "pub use ", "-- "))]
    return (heads[0][1] or heads[0][2]) if heads else None


def printed(world, name, clause, above):
    """Returns the definitions and types that a contract reaches and that aren't above, with their comments, in the order of files and in
    these of lines, and adds them to what is above.

    What the files of the contract's own crate say at their heads comes first.
    """
    own, heads, found = [it for it in closure([world.named(name, [clause] if clause else [])])[0] if it not in above], [], []
    above.update(own)
    for file in sorted(lines_of(own), key=place_of(world)):
        here, text = {it.name: it for it in own if it.file == file}, text_of(f"{world.top}/{file}")
        if file.endswith(".antt"):
            heads += [SAID.match(text)[0].strip("\n")] if file.split("/")[1] == name.partition("::")[0] else []
            found += [it.strip("\n") for it in re.split(r"\n{2,}", text) if named_in(it.strip("\n")) in here]
        else:
            found += sorted(("\n".join(it.lines) for it in here.values()), key=text.find)
    return "\n\n".join([*heads, *found])


def unexplained(world, name, clause, part):
    """Returns the libraries' words that a contract reaches and that no text of its part has, between `."""
    said = {*re.findall(r"`([^`\n]+)`", re.sub(r"(?ms)^```$.*?^```$", "", part))}
    reached = {word for it in closure([world.named(name, [clause] if clause else [])])[1] for word in words_of(it.name)}
    return sorted(reached - said)


def mended(text, top="."):
    """Returns the text of the page with the statements and definitions that the sources give."""
    world = World(top)
    text = STATEMENT.sub(lambda it: f"{it[1]}{statement_of(world, it[2], it[3])}\n```", text)
    above = set()
    return PRINTED.sub(lambda it: f"{it[1]}{printed(world, it[2], it[3], above)}\n```", text)


def unknown_in(world, contract, linked):
    """Returns the words of a statement that no definition, type or library of its page is behind."""
    knows = world.files[contract.file].knows
    said = Definition(contract.file, contract.name, [text for _, text in contract.clauses], contract.find, contract.bound)
    return sorted(it for it in said.words if not it.isdigit() and it not in BUILT_IN | linked and not knows(it))


def faults_of_part(world, part, linked):
    """Yields what is wrong with the names of a theorem's part."""
    stated = [(name, clause) for _, name, clause, _ in STATEMENT.findall(part)]
    for name, clause in [*stated, *((it, "") for it in LISTED.findall(part) if it not in dict(stated))]:
        for it in unknown_in(world, world.named(name, [clause] if clause else []), linked):
            yield f"`{it}` of {name} is on no page that tools/believed prints, nor linked to a row of MODEL.md"
    for _, name, clause, _ in PRINTED.findall(part):
        yield from (f"`{it}` of {name} is a library's, and its part says nothing of it" for it in unexplained(world, name, clause, part))
    reached = {it.name for it in closure(roots_of(world, part))[0]}
    for it in (word for line in READ.findall(part) for word in re.findall(r"`([^`]+)`", line)):
        if it not in reached:
            yield f"`{it}` is to be read for a theorem that doesn't reach it"


def laws_of(world):
    """Returns the theorems that stand in the sources."""
    code = world.code([LAWS])
    return [f"{LAWS}::{it}" for it in re.findall(r"^pub fn (\w+)", code.text, re.M)] if code else []


def edits_of(text, edits):
    """Returns how many edits the page's theorems are turned by, and which of them aren't there, in words."""
    named = TURNED.findall(text)
    return len(named), [f"there is no edit {it}" for it in named if it not in edits]


def faults_of(text, top="."):
    """Returns how many things were looked at, and what is wrong, in words."""
    world, linked, parts = World(top), {*LINKED.findall(text)}, parts_of(text)
    try:
        right = mended(text, top)
        faults = [it for part in parts.values() for it in faults_of_part(world, part, linked)]
    except LookupError as error:
        return 1, [str(error)]
    named = [name for part in parts.values() for name in LISTED.findall(part)]
    faults += [f"the theorem {it} stands there {named.count(it)} times" for it in laws_of(world) if named.count(it) != 1]
    old, new = text.split("\n"), right.split("\n")
    changed = [f"by the sources it has '{shortened(it)}': tools/believed --write" for it in new if it not in old]
    changed = changed or [f"by the sources it has no '{shortened(it)}': tools/believed --write" for it in old if it not in new]
    return len(named) + len(STATEMENT.findall(text)) + len(parts) + len(PRINTED.findall(text)), faults + changed


def shortened(line):
    return line if len(line) <= 80 else f"{line[:40]}..{line[-30:]}"
