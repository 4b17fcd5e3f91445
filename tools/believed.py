"""What one has to believe of a public contract: the definitions and types that its clauses reach, each with its lines.

A definition's text names what it stands on, and the imports of its file say from where. A name that the text itself binds (a
parameter, a field, what a pattern or a `λ` names) is none of these. A type of the code counts by its fields or variants, one
with a model by the `Value` that contracts see, a trait by its ghost members, a constant by its line. What a library of the
toolchain defines is told by its name alone. Lines are those of the text without imports, comments and blanks.
"""
import collections, functools, glob, os, re

from edited import text_of

# of definitions
ASIDE = re.compile(r"(?:pub )?(?:use|mod) |infix|$")
HEAD = re.compile(r"(?:(?:abbrev|unfoldable|pub|record|data) )+(\S+)|(\S+) : ")
IMPORT = re.compile(r"^ *(?:ghost )?(pub )?use ([\w.]+?)(?:\.\{(.*)\}| as (\w+));?$", re.M)
FIELD = re.compile(r"^  (?:pub )?(\w+) : ", re.M)
PARTS = re.compile(r"\n(?=\S|  (?:pub )?\w+ : )")
NAME = r"(?<![\w.'-])[^\W\d][\w'-]*"
WORD = re.compile(rf"{NAME}(?:\.[^\W\d][\w'-]*)*|[^\w\s\"(){{}}\[\],;.]+")
BINDER = re.compile(r"[({]([\w ]+) :|\blet (\w+)|(\w+) ←")
PATTERN = re.compile(r"λ ([^.]*)\.|[\[|]((?:[^|\[\]↦]|\[\])*)↦|^[^\s:]\S*(?: (.*?))? =(?: |$)", re.M)
UNREAD = re.compile(r'"[^"]*"|^  (?:pub )?\w+(?= : )|(?<=[{;])\s*\w+ = ', re.M)
# of code
TYPE = re.compile(r"^(?:pub(?:\([\w ]+\))? )?(struct|enum|trait|const) (?!fn )(\w+)(?:[^{]*?;$|.*?(?:^\}|\{\})$)", re.M | re.S)
VALUE = re.compile(r"^impl[^\n]* Model for (\w+)[^\n]*\{$.*?^( *ghost Value = .*?;)$", re.M | re.S)
USE = re.compile(r"^(?:pub(?:\([\w ]+\))? )?use ([^;]+);", re.M)
BLOCK = re.compile(r"^(?:pub )?(?:trait|impl)\b.*", re.M)
END = re.compile(r"\n *(?=requires|ensures)| \{|;\n")
CLAUSE = re.compile(r"\s*(?:requires|ensures)(?: (\w+))? (?=\{)")

Library = collections.namedtuple("Library", "crate name")


class Definition:
    """What stands in a file under a name: its lines, and the things that these name but for what is bound. Of a contract the clauses."""

    def __init__(self, file, name, lines, find, bound=(), clauses=()):
        self.file, self.name, self.lines, self.find, self.bound, self.clauses = file, name, lines, find, {*bound}, clauses

    @functools.cached_property
    def words(self):
        """Its words but for what is bound."""
        text, before, found = "\n".join(self.lines), self.bound, set()
        for part in PARTS.split(text):
            bound, read = before | names_bound(UNREAD.sub("", part)), UNREAD.sub("", part)
            found |= {word for word in WORD.findall(read) if word.partition(".")[0] not in bound}
            if re.match("(?:pub )?record ", text):
                before = bound | {*FIELD.findall(part)}
        return found

    @functools.cached_property
    def named(self):
        return {it for word in self.words for it in self.find(word)} - {self}


def names_bound(text):
    """Returns what the binders and the patterns of a text name. A capital in a pattern is a constructor."""
    words = {word for found in BINDER.findall(text) for it in found for word in it.split()}
    patterns = " ".join(it for found in PATTERN.findall(text) for it in found)
    return words | {it for it in re.findall(rf"{NAME}(?!\.\w)(?![\w'-])", patterns) if not it[0].isupper()}


def words_of(name):
    """Returns the words by which a name stands in a text: `◌∷◌` by `∷`, and `◌>>=◌` in the steps of a `do` too."""
    return [it for it in name.split("◌") if it] + ["←"] * (name == "◌>>=◌")


class File:
    """A file with imports: what its words, which may be paths, are."""

    def __init__(self, world, file, text):
        self.world, self.file, self.own, self.imports, self.shown = world, file, {}, {}, set()
        for shows, module, names, alias in IMPORT.findall(text):
            for name in names.split(", ") if names else [""]:
                old, _, new = name.partition(" as ")
                words = words_of(alias or new or old)
                self.imports.update({word: (module.split("."), old) for word in words})
                self.shown |= {*words} if shows else set()

    def find(self, word):
        first, *rest = word.split(".")
        if first in self.own:
            return [self.own[first]]
        module, name = self.imports.get(first, ([], ""))
        return self.world.find([*module, *([name] if name else rest[:1])]) if module else []

    def knows(self, word):
        """Whether a word is of the file, or brought in."""
        return bool(self.find(word))


class Specs(File):
    """A file of definitions."""

    def __init__(self, world, file):
        text = text_of(f"{world.top}/{file}")
        super().__init__(world, file, text)
        name, parts = "", {}
        for line in re.sub(r"(?m)\s*(?<!\S)--(?: .*)?$", "", text).split("\n"):
            head = HEAD.match(line)
            if not ASIDE.match(line):
                name = (head[1] or head[2]) if head else name
                parts.setdefault(name, []).append(line)
        for name, lines in parts.items():
            made = Definition(file, name, lines, self.find)
            inner = FIELD.findall("\n".join(lines)) if "data " in lines[0] else []
            self.own.update({word: made for word in [name, *words_of(name), *inner]})

    def has(self, name):
        return name in self.own or name in self.shown


class Code(File):
    """A file of code: its types, and what the words of its clauses are."""

    def __init__(self, world, file, module):
        self.text = re.sub(r"(?m)^\s*(?://.*|#!?\[.*\])\n|\s+//.*$", "", text_of(f"{world.top}/{file}"))
        super().__init__(world, file, self.text)
        self.module, self.uses, values = module, {}, dict(VALUE.findall(self.text))
        for found in USE.findall(self.text):
            self.uses.update(uses_of(re.sub(r"\s+", "", found.replace(" as ", "@"))))
        for found in TYPE.finditer(self.text):
            kind, name, lines = found[1], found[2], [it for it in found[0].split("\n") if it.strip()]
            lines = [values[name]] if name in values else [it for it in lines if " ghost " in it] if kind == "trait" else lines
            finds = self.find if name in values or kind == "trait" else self.find_type
            self.own[name] = Definition(file, name, lines, finds)

    def find(self, word):
        path = self.uses.get(word.partition(".")[0])
        return super().find(word) or (self.world.type_at(self.absolute(path)) if path else [])

    def knows(self, word):
        return word.partition(".")[0] in self.uses or super().knows(word)

    def find_type(self, word):
        return self.find(word) if word[0].isupper() else []

    def absolute(self, path):
        first, *rest = path
        if first in ("crate", "self", "super"):
            return [*self.module[: {"crate": 1, "self": None, "super": -1}[first]], *rest]
        return path if first in self.world.crates else [*self.module, *path]

    def contract(self, name, owner, clauses):
        """Returns the contract of a function, or some clauses of it, with the types of what these speak of."""
        for head in re.finditer(rf'^ *(?:pub(?:\([\w ]+\))? )?(?:const |unsafe |extern "C" )*fn {name}\b', self.text, re.M):
            around = [it[0] for it in BLOCK.finditer(self.text, 0, head.start())][-1:] if head[0][0] == " " else []
            if bool(owner) == bool(around) and all(re.search(rf"\b{owner}\b", it) for it in around):
                end = END.search(self.text, head.end())
                at, told = end.end() if "\n " in end[0] else end.start(), []
                for found in iter(lambda: CLAUSE.match(self.text, at), None):
                    at = past_braces(self.text, found.end())
                    told.append((found[1], self.text[found.end() : at]))
                if told and {*clauses} <= {it for it, _ in told}:
                    asked = [(it, text) for it, text in told if not clauses or it in clauses]
                    return self.spoken_of(name, self.text[head.end() : end.start()], around, asked)
        return None

    def spoken_of(self, name, heads, around, clauses):
        texts = [text for _, text in clauses]
        parameters, arrow, answer = heads.rpartition("->")
        typed = dict(re.findall(r"(\w+): ([^:]*)(?=[,>)]|$)", parameters if arrow else heads))
        typed.update({"result": answer if arrow else "", "self": " ".join(around)})
        said = {word.partition(".")[0] for text in texts for word in WORD.findall(text)}
        types = [it for word, text in typed.items() if word in said for it in re.findall(r"\b[A-Z]\w*", text)]
        return Definition(self.file, name, [*texts, " ".join(types)], self.find, typed, clauses)


def uses_of(text, before=()):
    """Returns the path of each name that a `use` brings in."""
    found, depth, start = {}, 0, 0
    for at, sign in enumerate(text + ","):
        depth += {"{": 1, "}": -1}.get(sign, 0)
        if sign == "," and depth == 0:
            front, brace, inner = text[start:at].partition("{")
            path, _, alias = front.partition("@")
            path = [*before, *(it for it in path.split("::") if it)]
            found.update(uses_of(inner[:-1], path) if brace else {alias or path[-1]: path} if path else {})
            start = at + 1
    return found


def past_braces(text, at):
    """Returns the place behind the brackets that open at a place."""
    depth = 0
    for end in range(at, len(text)):
        depth += {"{": 1, "}": -1}.get(text[end], 0)
        if depth == 0:
            return end + 1
    raise ValueError("a bracket isn't closed")


class World:
    """All definitions and types of a repository."""

    def __init__(self, top):
        self.top, self.files = top, {}
        self.crates = {it for it in os.listdir(f"{top}/crates") if os.path.isdir(f"{top}/crates/{it}")}

    def read(self, make, file, *more):
        if file not in self.files and os.path.isfile(f"{self.top}/{file}"):
            self.files[file] = make(self, file, *more)
        return self.files.get(file)

    def code(self, module):
        crate, *rest = module
        names = ["/".join(rest), "/".join([*rest, "mod"])] if rest else ["lib", "main"]
        return next(filter(None, (self.read(Code, f"crates/{crate}/src/{it}.rt", module) for it in names)), None)

    def find(self, path):
        """Returns what an import names: a definition, a type for itself or for a variant, a constant, or a library's word."""
        crate, *parts = path[1:] if path[0] == "Rattle" else path
        if crate not in self.crates:
            return [Library(crate, path[-1])]
        if parts[:2] == ["specs", "declared"]:
            return self.declared(crate, parts[2:])
        for end in range(len(parts) - 1, 0, -1):
            specs = self.read(Specs, f"crates/{crate}/{'/'.join(parts[:end])}.antt")
            if specs and specs.has(parts[end]):
                return specs.find(parts[end])
        raise LookupError(f"there is no definition {'::'.join(path)}")

    def declared(self, crate, parts):
        words = [it for it in ("TheConstants", "TheVariants") if it in parts]
        front = parts[: parts.index(words[0])] if words else parts[:-1]
        return self.type_at([crate, *front, *(parts[-1:] if words == ["TheConstants"] else [])])

    def type_at(self, path):
        code = self.code(path[:-1]) if path[1:] else None
        if not code or path[-1] in code.own:
            return [code.own[path[-1]]] if code else []
        return self.type_at(code.absolute(code.uses[path[-1]])) if path[-1] in code.uses else []

    def named(self, name, clauses=()):
        """Returns what a path of a definition names, or the contract of the call that it names, or some clauses of it."""
        *front, last = name.split("::")
        if "specs" in front:
            return self.find([*front, last])[0]
        owner = front.pop() if front and front[-1][0].isupper() else None
        code = self.code(front) if front else None
        if code and not owner and last in code.uses:
            *front, last = code.absolute(code.uses[last])
            code = self.code(front)
        found = (it.contract(last, owner, clauses) for it in [code, *(self.inside(front) if owner else [])] if it)
        contract = next(filter(None, found), None)
        if not contract:
            raise LookupError(f"there is no call {name} with {' and '.join(clauses) or 'a contract'}")
        return contract

    def inside(self, module):
        """Yields the files of a module, where a type's calls may stand, too."""
        folder = "/".join([self.top, "crates", module[0], "src", *module[1:]])
        for at, _, names in sorted(os.walk(folder)):
            for it in sorted(names):
                yield self.code([module[0], *os.path.relpath(f"{at}/{it}", f"{self.top}/crates/{module[0]}/src")[:-3].split("/")])


def definitions_of(world):
    """Yields all definitions of the crates' specs, file by file."""
    for path in sorted(glob.glob(f"{world.top}/crates/*/specs/**/*.antt", recursive=True)):
        yield from dict.fromkeys(world.read(Specs, os.path.relpath(path, world.top)).own.values())


def closure(roots):
    """Returns the definitions and types that some reach, without themselves where they are contracts, and libraries' words."""
    found, ahead = {it for it in roots if it.file.endswith(".antt")}, [*roots]
    while ahead:
        new = ahead.pop().named - found
        found |= new
        ahead += [it for it in new if isinstance(it, Definition)]
    return {it for it in found if isinstance(it, Definition)}, {it for it in found if isinstance(it, Library)}


def nearest_first(roots):
    """Yields what some name, then what that names, and so on, each once: who reads from the front meets the nearest first."""
    found, level = {*roots}, [*roots]
    while level:
        named = {it for one in level for it in one.named if isinstance(it, Definition)} - found
        level = sorted(named, key=lambda it: (it.file, it.name))
        found |= named
        yield from level
