"""What the must-fail edits and the contracts promise: the rules that edits keep, and the table of calls, clauses and edits.

An edit can be applied, names no module that isn't there, and has one line `# breaks: TEXT`, which says what it would break for a
user, in words that no other edit of its crate has. A page that names a call and behind a colon its clauses, as in
"`Replay::step`: `memory`", names the call by the end of its path.
"""
import fnmatch, os, re

from edited import Crate, module_of, text_of

NAME = re.compile(r"`([\w:]+)`")
CLAIM = re.compile(r"`([\w:]+)`: (`\w+`(?:(?:, | and )`\w+`)*)")
EDIT = re.compile(r"`([a-z0-9_*]+)`")
HEAD = re.compile(r' *(?:pub(?:\([\w ]+\))? )?(?:const |unsafe |extern "C" )*fn ')
BODY = re.compile(r" *\{\}?$|.*[{;]$")
OWNER = re.compile(r"(?:pub )?trait (\w+)|impl(?:<.*?>)? (?:(?:\w+::)*(\w+)(?:<.*?>)? for )?&?(\w+)")
PRIVATE = re.compile(r"^(?:pub\([\w ]+\) )?(?:struct|enum|trait) (\w+)", re.M)
CLAUSE = re.compile(r"\bensures (?:(\w+) )?\{")
NAMED = re.compile(r"\b(\w+)::(\w+)::")
SILENT = re.compile(r"^- `([\w:]+)` promises nothing: \S", re.M)
UNPROMISED = re.compile(r"test_|trials$|toml_alone$")
SHOWN = re.compile(r"^pub use (\w+)::(\w+|\{[^}]*\});", re.M)


class Call:
    """A function: its module, the type and the trait that it is in, its comment, and the names of its clauses."""

    def __init__(self, module, is_public, at, lines):
        head = next(it for it in range(at["first"] - 1, len(lines)) if HEAD.match(lines[it]))
        body = next((it for it in range(head, len(lines)) if BODY.match(lines[it])), head)
        above = next((it for it in range(head, -1, -1) if re.match(r"\w", lines[it])), head)
        owners = OWNER.match(lines[above]) if lines[head].startswith(" ") else None
        trait, of, kind = owners.groups() if owners else (None, None, None)
        self.module, self.name, self.file, self.lines = module, at["name"], at["file"], range(at["first"], at["last"] + 1)
        self.owners = [it for it in (trait, of, kind) if it]
        self.is_public = is_public and bool("pub fn" in lines[head] or trait or of)
        self.is_own = self.is_public and "pub fn" in lines[head]
        self.contract = "\n".join(lines[head : body + 1])
        self.clauses = CLAUSE.findall(self.contract)
        # what its impl or trait says of all its calls
        self.ghosts = "\n".join(it for it in lines[above:head] if it.startswith("    ghost "))
        self.says = comment_of(lines[at["first"] - 1 : head])

    def paths(self):
        """Returns its paths: by its type and by its trait, or by its module alone."""
        return [[*self.module, *owner, self.name] for owner in ([[it] for it in self.owners] or [[]])]

    def title(self):
        """Returns its name as a reader finds it: with its type, and the trait whose call it is."""
        trait = f" (`{self.owners[0]}`)" if len(self.owners) == 2 else ""
        return f"`{'::'.join([*self.owners[-1:], self.name])}`{trait}"


class Sources:
    """The calls and modules of crates, and their edits, by name."""

    def __init__(self, folders):
        self.calls, self.modules, self.edits = [], [], {}
        for folder in folders:
            crate = Crate(folder, set())
            crate.read_edits()
            self.edits[crate.name] = crate.edits
            self.read(crate)

    def read(self, crate):
        found = (f"{at}/{it}" for at, _, names in os.walk(f"{crate.folder}/src") for it in names if it.endswith(".rt"))
        files = {tuple(module_of(crate.name, it)): it for it in sorted(os.path.relpath(it, crate.folder) for it in found)}
        texts = {module: text_of(f"{crate.folder}/{file}") for module, file in files.items()}
        hidden = {name for text in texts.values() for name in PRIVATE.findall(text)}
        for module, file in files.items():
            lines = texts[module].split("\n")
            calls = [Call([*module], is_shown(module, texts), it, lines) for it in crate.functions_in(file, {})]
            for it in calls:
                it.is_public = it.is_public and not hidden & {*it.owners}
            self.calls += calls
            self.modules.append([*module])
        for module, text in texts.items():
            for inner, names in SHOWN.findall(text):
                self.show([*module], inner, re.findall(r"\w+", names))

    def show(self, module, inner, names):
        """Has calls of a private module be ones of the module that shows them."""
        for it in self.calls:
            if it.module == [*module, inner] and it.name in names and not it.owners:
                it.module, it.is_public = module, True

    def named(self, name):
        """Returns the calls whose paths end in a name, or that are in a type, trait or module of that name."""
        parts = name.split("::")
        paths = {it: it.paths() + [path[:-1] for path in it.paths()] for it in self.calls}
        return [it for it in self.calls if any(path[-len(parts) :] == parts for path in paths[it])]

    def changed_by(self, edit, crate):
        """Returns the call, or None outside calls, of each place that an edit changes, but for lines of `use`."""
        found = []
        for path, line, old in [] if edit.verdict else edit.lines:
            calls = [it for it in self.calls if (it.file, it.module[0]) == (path, crate) and line in it.lines]
            if not old.lstrip().startswith(("use ", "pub use ")):
                found.append(calls[-1] if calls else None)
        return found


def comment_of(lines):
    """Returns the first paragraph of the comment above a function."""
    said = [it.strip().removeprefix("///").strip() for it in lines if it.strip().startswith("///")]
    return " ".join(said[: said.index("")] if "" in said else said)


def is_shown(module, texts):
    """Returns whether each module on the way to one is public in the one above."""
    return all(re.search(rf"^pub mod {module[at]};", texts.get(module[:at], ""), re.M) for at in range(1, len(module)))


def module_not_there(edit, sources):
    """Returns a module of another crate that an edit's new text names and that isn't there, or None."""
    named = [it for _, _, new in edit.pairs for it in NAMED.findall(new) if it[0] in sources.edits]
    return next((f"{crate}::{inner}" for crate, inner in named if [crate, inner] not in sources.modules), None)


def faults_of_edit(edit, sources, others):
    """Returns what is wrong with an edit, of whose crate the others are."""
    if edit.verdict:
        yield edit.verdict[1]
    elif module_not_there(edit, sources):
        yield f"it names the module {module_not_there(edit, sources)}, which isn't there"
    if len(edit.breaks) != 1 or not edit.breaks[0]:
        yield f"it has {len([*filter(None, edit.breaks)])} lines that say what it breaks for a user ('# breaks: TEXT'), and not one"
    if edit.unread:
        yield f"it has a line that nothing reads: {edit.unread[0]}"
    twins = [it.name for it in others if it.breaks == edit.breaks] if edit.breaks else []
    if twins:
        yield f"it breaks for a user just what {twins[0]} does"


def faults_of_edits(sources):
    """Returns how many edits there are, and what is wrong with them, in words."""
    edits = [(it, found[:at]) for found in sources.edits.values() for at, it in enumerate(found)]
    return len(edits), [f"{it.name}: {why}" for it, before in edits for why in faults_of_edit(it, sources, before)]


def faults_of_claims(text, sources):
    """Returns how many clauses of calls a page names, and which of them aren't there, in words."""
    count, faults = 0, []
    for name, clauses in CLAIM.findall(text):
        calls = sources.named(name)
        for clause in NAME.findall(clauses):
            count += 1
            if not any(clause in it.clauses for it in calls):
                faults.append(f"no call of `{name}` has a clause {clause}" if calls else f"there is no call, module or type {name}")
    return count, faults


def faults_of_silence(text, sources):
    """Returns how many public functions there are, and what is wrong with those that promise nothing, in words.

    A page names each of them, and none that promises something, in lines that end with "promises nothing" and a reason behind a colon.
    Crates of tests, and a call that a trait promises, don't count.
    """
    own = [it for it in sources.calls if it.is_own and not UNPROMISED.match(it.module[0])]
    silent = {"::".join(it.paths()[0]) for it in own if not it.clauses}
    named = {*SILENT.findall(text)}
    faults = [f"`{it}` has no clause, and no line says why" for it in sorted(silent - named)]
    return len(own), faults + [f"`{it}` is told to promise nothing, and isn't such a call" for it in sorted(named - silent)]


def edits_missing(text, edits):
    """Returns how many edits the last column of tables headed "Edits" names, and which of them aren't there, in words."""
    named, is_about_edits = [], False
    for line in text.split("\n"):
        last = line.strip("| ").split("|")[-1]
        is_about_edits = line.startswith("|") and (is_about_edits or last.strip() == "Edits")
        named += EDIT.findall(last) if is_about_edits else []
    return len(named), [f"there is no edit {it}" for it in named if not fnmatch.filter(edits, it)]


def row_of(title, says, clauses, edits):
    """Returns a row of the table: a call, what its comment says, its clauses, and its edits with what each breaks."""
    found = [f"`{it.name.partition('/')[2]}`: {', '.join(it.breaks)}" for it in edits]
    cells = [title, says, ", ".join(f"`{it}`" if it else "unnamed" for it in clauses), "; ".join(found)]
    return f"| {' | '.join(it.replace('|', chr(92) + '|') for it in cells)} |"


def tables_of(sources, wanted):
    """Returns Markdown: by crate and module each public call and each call of an edit, its clauses, and what its edits break."""
    lines = ["# Promises"]
    for crate, edits in sources.edits.items():
        if wanted and crate not in wanted:
            continue
        changed = {it: sources.changed_by(it, crate) for it in edits}
        rows = {}
        for call in (it for it in sources.calls if it.module[0] == crate):
            found = [it for it in edits if call in changed[it]]
            if call.is_public or found:
                title = call.title() + ("" if call.is_public else ", private")
                rows.setdefault("::".join(call.module), []).append(row_of(title, call.says, call.clauses, found))
        outside = [it for it in edits if None in changed[it]]
        more = [(f"{crate}, outside its calls", [row_of("", "", [], outside)])] if outside else []
        for title, found in [*sorted(rows.items()), *more]:
            lines += ["", f"## {title}", "", "| Call | It says | Clauses | Edits that the prover refuses |", "|---|---|---|---|", *found]
    return "\n".join(lines)
