"""The must-fail edits of a crate, and the functions that they change."""
import collections, functools, os, re

import crates
import kit

# how many edits go into one check
MOST_IN_A_CHECK = 32
# How an edit joins others in a check: in a function that others change too, in one of its own, or in a copy of one.
IN_ONE_FUNCTION, BESIDE, IN_A_COPY = 1, 2, 3
# how a line of an edit begins: the kit's words, and comments to it
WORDS = ("file", "old", "new", "# goal", "# breaks")
FUNCTION = re.compile(r'( *)(?:pub(?:\([\w ]+\))? )?(?:const |unsafe |extern "C" )*fn (\w+)')
BLOCK = re.compile(r"impl(?:<.*?>)? (?:(?:\w+::)*(?P<trait>\w+)(?:<.*>)? for )?(?P<type>\w+).*")


def text_of(file):
    with open(file, encoding="utf-8") as it:
        return it.read()


class Edit:
    """A change of a crate's code, as the kit reads it, and whether the prover refuses it."""

    def __init__(self, crate, file):
        self.crate, self.name, self.pairs, self.verdict = crate, f"{crate.name}/{file.removesuffix('.edit')}", [], None
        self.file, self.copy, self.breaks, self.unread = file, None, [], []
        path = old = self.goal = ""
        for line in text_of(f"{crate.folder}/must-fail/{file}").split("\n"):
            word, _, text = line.partition(":")
            text = text.removeprefix(" ")
            path, old = (text.strip(), old) if word == "file" else (path, text if word == "old" else old)
            self.pairs += [(path, old, text)] if word == "new" else []
            self.goal = text.strip() if word == "# goal" else self.goal
            self.breaks += [text.strip()] if word == "# breaks" else []
            self.unread += [line] if line and word not in WORDS else []
        try:
            self.apply({})
        except (OSError, ValueError) as error:
            self.verdict = False, f"it can't be applied: {error}"

    def apply(self, texts):
        """Returns the texts, by path, with this edit in them, and notes which lines it changes."""
        texts, lines = {**texts}, []
        for path, old, new in self.pairs:
            text = texts.get(path) or text_of(f"{self.crate.folder}/{path}")
            if not path.startswith("src/") or not old or text.count(old) != 1:
                raise ValueError(f"'{old}' is in {path} {text.count(old)} times, and not once in a file of src/")
            lines.append((path, text.count("\n", 0, text.index(old)) + 1, old))
            texts[path] = text.replace(old, new)
        if not self.pairs:
            raise ValueError("it has no 'old:' and 'new:' pair")
        self.lines = lines
        return texts

    def functions(self):
        """Returns the functions that the edit changes, or none where it changes what lies outside functions."""
        if self.copy:
            return [self.copy]
        found = []
        for path, line, old in self.lines:
            here = [it for it in self.crate.functions if it["file"] == path and it["first"] <= line <= it["last"]]
            if not here and not old.lstrip().startswith(("use ", "pub use ")):
                return []
            found += here[-1:]
        return found

    def names(self):
        """Returns the names that the prover may give the functions that it changes."""
        return {name for it in self.functions() for name in it["names"]}

    def folders(self):
        """Returns where the proofs of the functions that it changes stand."""
        return {folder_of(name) for name in self.names()}

    def keeps_heads(self):
        """Returns whether it changes what stands in bodies alone: clauses and types decide goals of other functions too."""
        for (path, line, old), (_, _, new) in zip(self.lines, self.pairs):
            here = [it for it in self.functions() if it["file"] == path and it["first"] <= line <= it["body"]]
            if here and not new.startswith(old):
                return False
        return True

    def part(self):
        """Returns the module that it changes, by its path, or of a crate's root the function."""
        path = self.lines[0][0]
        if path in ("src/main.rt", "src/lib.rt"):
            return next((it["name"] for it in self.functions()), "main")
        return path[len("src/") : -len(".rt")].removesuffix("/mod").replace("/", "::")

    def can_be_copied(self):
        """Returns whether it changes one function and nothing else, and a copy of that can stand beside it."""
        first, *others = self.functions()
        is_alone = len(others) == len(self.pairs) - 1 and all(it is first for it in others)
        return is_alone and len(first["names"]) == 1 and not first["trait"] and not self.crate.cites(first["names"][0])

    def move_to_copy(self, number):
        """Has the edit change a copy of its function at the file's end, under a name of its own."""
        it = self.functions()[0]
        name = f"{it['name']}_edited_{number}"
        names = [re.sub(r"\w+$", name, it["names"][0])]
        self.copy = {**it, "name": name, "names": names, "from": it}

    def with_copy(self, texts):
        """Returns the texts, by path, with the changed copy and what is written of its proof, and notes where it stands."""
        path, was, name = self.copy["file"], self.copy["from"], self.copy["name"]
        lines = self.apply({})[path].split("\n")[was["first"] - 1 : was["last"]]
        text = re.sub(rf"\bfn {was['name']}\b", f"fn {name}", "\n".join(lines), count=1)
        head, end = (f"{was['block']}\n", "\n}\n") if was["block"] else ("", "\n")
        before = texts.get(path) or text_of(f"{self.crate.folder}/{path}")
        first = before.count("\n") + head.count("\n") + 2
        self.copy |= {"first": first, "body": first + was["body"] - was["first"], "last": first + len(lines) - 1}
        return {**texts, path: f"{before}\n{head}{text}{end}", **self.proofs_of_copy()}

    def proofs_of_copy(self):
        was, found = folder_of(self.copy["from"]["names"][0]), {}
        old, new = (f"Rattle.{self.crate.name}.{it.replace('/', '.')}." for it in (was, *self.folders()))
        for file in ("Answers.antt", "Invariants.antt", "Proof.antt"):
            if os.path.exists(f"{self.crate.folder}/{was}/{file}"):
                [folder] = self.folders()
                found[f"{folder}/{file}"] = text_of(f"{self.crate.folder}/{was}/{file}").replace(old, new)
        return found

    def is_in_bodies(self):
        """Returns whether it changes bodies of functions of known names, and nothing else."""
        functions = self.functions()
        return bool(functions) and all(it["names"] for it in functions) and self.keeps_heads()

    def way_into(self, group):
        """Returns how the edit can join those of a check, the cheapest way first, or None where it can't."""
        in_place = [it for it in group if not it.copy]
        if len(group) == MOST_IN_A_CHECK:
            return None
        if not all(map(self.goes_beside, in_place)) or not can_be_applied([*in_place, self]):
            return IN_A_COPY if self.can_be_copied() else None
        return IN_ONE_FUNCTION if any(it.names() & self.names() for it in in_place) else BESIDE

    def goes_beside(self, other):
        """Returns whether one check can try both in place: they change other functions, or each names a goal. A function's
        goals are tried on the clauses of those that it calls, also where these are not proved."""
        ours, theirs = self.names(), other.names()
        if ours == theirs:
            return bool(self.goal and other.goal and self.goal != other.goal)
        return not ours & theirs

    def open_goal(self, said):
        """Returns the first goal of an edited function that stays open. Outside functions any function's will do."""
        functions, folders = self.functions(), self.folders()
        for line in said:
            goal, answer = kit.OPEN.match(line), kit.REFUSED_ANSWER.match(line)
            if not goal and not answer or self.goal and f"`{self.goal}`" not in line:
                continue
            path, at = (goal[1], int(goal[2])) if goal else (answer[1], 0)
            here = [it for it in functions if goal and it["file"] == path and it["first"] <= at <= it["last"]]
            if here or not functions or path in folders:
                return f"{path}:{at}: {goal[3]}" if goal else f"{path}: {answer[2]}"
        return None


class Crate:
    def __init__(self, folder, uses, is_static=False):
        self.name, self.folder, self.uses, self.below = os.path.basename(folder), folder, uses, {*uses}
        self.is_library = os.path.isfile(f"{self.folder}/src/lib.rt")
        # a program and a static library leave nothing that a proof is made over
        self.leaves_library = self.is_library and not is_static
        self.edits, self.functions = [], []

    def read_edits(self):
        folder = f"{self.folder}/must-fail"
        files = sorted(os.listdir(folder)) if os.path.isdir(folder) else []
        self.edits = [Edit(self, it) for it in files if not it.endswith(".md")]

    def read_functions(self, rlib):
        """Finds the functions in the text, under the names that the kit keeps of a library for linking."""
        known = kit.names_of_functions(rlib) if self.leaves_library else {}
        for at, _, files in os.walk(f"{self.folder}/src"):
            for file in files:
                self.functions += self.functions_in(os.path.relpath(f"{at}/{file}", self.folder), known)

    @functools.cache
    def cites(self, name):
        """Returns whether a proof file names modules of the proof of a function beside that proof's own: a copy has others."""
        folder = folder_of(name)
        own, modules = f"{self.folder}/{folder}", f"Rattle.{self.name}.{folder.replace('/', '.')}."
        files = (f"{at}/{it}" for at, _, names in os.walk(f"{self.folder}/proofs") if at != own for it in names)
        return any(modules in text_of(it) for it in files)

    def functions_in(self, path, known):
        """Returns the functions of a file in rt fmt's layout: each ends at the first brace below it at its depth."""
        lines, found, block = text_of(f"{self.folder}/{path}").split("\n"), [], None
        parts = [self.name, *path[len("src/") : -len(".rt")].split("/")]
        module = "::".join(parts[:-1] if parts[-1] in ("lib", "mod") else parts)
        for first, line in enumerate(lines, 1):
            block = BLOCK.fullmatch(line) if re.match(r"\w", line) else block
            head = FUNCTION.match(line)
            if head:
                below = (at for at in range(first, len(lines)) if re.match(rf" {{0,{len(head[1])}}}\}}", lines[at]))
                last = first if line.endswith("}") else next(below, first) + 1
                opened = re.compile(rf"{head[1]}(?:\{{|\S.* \{{)$")
                body = next((at + 1 for at in range(first - 1, last) if opened.match(lines[at])), first)
                while first > 1 and lines[first - 2] and not lines[first - 2].endswith(("{", "}", ";")):
                    first -= 1
                names = names_of(head[2], module, block if head[1] else None, known)
                under = {"block": block[0] if head[1] and block else "", "trait": head[1] and block and block["trait"]}
                lines_of = {"file": path, "first": first, "body": body, "last": last}
                found.append({**lines_of, **under, "name": head[2], "names": names})
        return found


def module_of(crate, file):
    parts = [crate, *file.removeprefix("src/").removesuffix(".rt").split("/")]
    return parts[:-1] if parts[-1] in ("lib", "main", "mod") else parts


def names_of(name, module, block, known):
    """Returns the names that the prover may give a function: a method's stands under its type's and its trait's."""
    if not block:
        return [it for it in known if it == f"{module}::{name}"]
    under = re.escape(block["type"]) + (f"{block['trait']}.*" if block["trait"] else "([+].*)?")
    parts = {it: it.split("::") for it in known if "::fn::" not in it}
    return [it for it in parts if parts[it][-1] == name and re.fullmatch(under, parts[it][-2])]


def folder_of(name):
    """Returns where the proof of the function of a name stands."""
    return f"proofs/{name.split('::', 1)[1].replace('::', '/')}"


def texts_with(edits):
    """Returns the texts that these edits change, by path: first of the functions themselves, and then of copies."""
    texts = functools.reduce(lambda texts, it: it.apply(texts), (it for it in edits if not it.copy), {})
    return functools.reduce(lambda texts, it: it.with_copy(texts), (it for it in edits if it.copy), texts)


def with_errors(crate, edits, texts):
    """Returns the texts with an error behind the answers of each function that these edits change."""
    files = {f"{folder}/Answers.antt" for edit in edits for folder in edit.folders()}
    there = {it: f"{crate.folder}/{it}" for it in files - {*texts} if os.path.exists(f"{crate.folder}/{it}")}
    return texts | {it: (texts.get(it) or (text_of(there[it]) if it in there else "")) + kit.NO_OFFER for it in files}


def groups_of(edits):
    """Returns the edits in groups of one check each. Of those that would be in each other's way in a function one changes
    the function and each other a copy of it. One outside bodies, or in a function of no known name, is alone."""
    rivals = collections.Counter(name for edit in edits for name in edit.names())
    in_bodies = [it for it in edits if it.is_in_bodies()]
    groups = [[] for _ in range(0, len(in_bodies), MOST_IN_A_CHECK)]
    for edit in sorted(in_bodies, key=lambda it: (-max(map(rivals.get, it.names())), min(it.names()), it.can_be_copied())):
        ways = [(edit.way_into(it), len(it), number) for number, it in enumerate(groups)]
        way, _, number = min((it for it in ways if it[0]), default=(BESIDE, 0, len(groups)))
        if number == len(groups):
            groups.append([])
        if way == IN_A_COPY:
            edit.move_to_copy(len(groups[number]))
        groups[number].append(edit)
    return groups + [[it] for it in edits if it not in in_bodies]


def can_be_applied(edits):
    try:
        texts_with(edits)
    except ValueError:
        return False
    return True


def crates_of(top, wanted):
    """Returns the crates of crates.txt whose edits are wanted, and those below them, by name."""
    static = crates.static_libraries(top)
    found = {name: Crate(f"{top}/crates/{name}", {*uses}, name in static) for name, uses in crates.read(top).items()}
    for it in found.values():
        it.below = it.uses.union(*(found[name].below for name in it.uses if name in found))
    for name in wanted or found:
        found[name].read_edits()
    needed, ahead = set(), [it for it in found if found[it].edits]
    while ahead:
        needed.add(ahead[-1])
        ahead += found[ahead.pop()].uses & {*found} - needed
    return {it: found[it] for it in found if it in needed}
