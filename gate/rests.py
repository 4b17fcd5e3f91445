"""What the result of a wrong body rests on: the text of its function, the contracts of what that names, and all that these state.

A function is known by its last name, also where it is handed on and not called: of a name that several have, those of the crate and of the
libraries below it all count. Comments count nowhere. Not looked at are what an operator or a `?` calls, of a type's model all but its value,
and what a proof cites: a lemma more may prove a body that was refused.
"""
import functools, hashlib, json, os, re, sys

import crates

sys.path.append(os.path.join(os.path.dirname(os.path.dirname(os.path.abspath(__file__))), "tools"))
from believed import WORD, Definition, World, closure

NAME = re.compile(r"(?<![\w'])[a-z_]\w*")
COMMENT = re.compile(r"^\s*//.*\n?|\s+//.*$", re.M)


class Rests:
    """The functions of a repository's crates, and of each what its results rest on."""

    def __init__(self, top, functions):
        """`functions` has those of each crate, as planted.read_functions gives them."""
        self.top, self.functions, self.world = top, functions, World(top)
        self.uses = crates.read(top)
        self.named = {}
        for crate, found in functions.items():
            for it in found:
                self.named.setdefault((crate, it["name"]), []).append(it)

    def sum_of(self, crate, function):
        """Returns the sum of all that the results of a function rest on."""
        own = self.text(crate, function, "first", "last")
        body = self.text(crate, function, "body", "last")
        heads, reached = set(), set(self.reached(crate, function["file"], own))
        for name in {*NAME.findall(body)}:
            for at in self.below(crate):
                for it in self.named.get((at, name), ()):
                    head = self.text(at, it, "first", "body")
                    if it is not function and head not in heads:
                        heads.add(head)
                        reached |= self.reached(at, it["file"], head)
        stated = sorted((it.name, *it.lines) for it in reached)
        return hashlib.sha256(json.dumps([own, sorted(heads), stated]).encode()).hexdigest()[:16]

    @functools.cache
    def below(self, crate):
        """Returns a crate and those of this repository below it."""
        return sorted(crates.below(self.uses, crate) & {*self.functions} | {crate})

    @functools.cache
    def lines(self, crate, file):
        with open(f"{self.top}/crates/{crate}/{file}", encoding="utf-8") as it:
            return it.read().split("\n")

    def text(self, crate, function, first, last):
        lines = self.lines(crate, function["file"])[function[first] - 1 : function[last]]
        return COMMENT.sub("", "\n".join(lines))

    def reached(self, crate, file, text):
        """Returns the definitions and types that the words of a text of a file reach."""
        module = [crate, *re.sub(r"(^|/)(lib|main|mod)$", "", file.removeprefix("src/").removesuffix(".rt")).split("/")]
        code = self.world.code([it for it in module if it])
        return frozenset().union(*(self.reached_by(code, word) for word in {*WORD.findall(text)})) if code else frozenset()

    @functools.cache
    def reached_by(self, code, word):
        try:
            found = [code.own[word]] if word in code.own else code.find(word)
        except LookupError:
            return frozenset()
        roots = [it for it in found if isinstance(it, Definition)]
        return frozenset(closure(roots)[0] | {*roots})
