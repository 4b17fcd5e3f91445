"""The tables of must-fail edits: crates/NAME/must-fail/README.md has a row for each edit of its crate, and no other.

A row names the edit, a call that it changes with the clause of it, or a definition in one, that refuses it, and why no other edit
of the crate shows the same. The last cell names the section of docs/THEOREMS.md whose promise the edit would break, where it would:
such an edit stays while that promise does.
"""
import os
import re

import crates
from edited import text_of

FILE = "must-fail/README.md"
HEAD = "| Edit | Refused by | It alone shows | Promise |"
ROW = re.compile(r"\| `(?P<edit>\w+)` \| `(?P<call>[\w:]+)`: `(?P<clause>\w+)` \| (?P<why>\S.*?) \| (?P<promise>.*?) ?\|")
SECTION = re.compile(r"^## (?:\d+\. )?(.+)$", re.M)
WORD = re.compile(r"[^\W\d]\w*")
NAMED = re.compile(r"`(\w+_\w+)`")


def rows_of(text):
    """Returns the rows of a table, and the lines below its head that are none."""
    below = text.partition(f"{HEAD}\n|---|---|---|---|\n")[2].splitlines()
    rows = [ROW.fullmatch(line) for line in below]
    return [it for it in rows if it], [line for line, row in zip(below, rows) if not row]


def titles_of(call):
    """Returns the names by which a row may name a call: with its type, its trait, or by itself."""
    return {f"{it}::{call.name}" for it in call.owners} or {call.name}


def words_of(call, sources, below):
    """Returns the words of what a call promises, its trait's clauses among them."""
    named = [it for it in sources.calls if it.name == call.name and it.module[0] in below and "ensures" in it.contract]
    return {word for text in [call.ghosts, call.contract, *(it.contract for it in named)] for word in WORD.findall(text)}


def faults_of_row(row, edit, names, sources, below):
    """Returns what is wrong with the row of an edit."""
    calls = [it for it in sources.changed_by(edit, below[0]) if it and row["call"] in titles_of(it)]
    if not calls:
        yield f"it doesn't change {row['call']}"
    elif not any(row["clause"] in words_of(it, sources, below) for it in calls):
        yield f"{row['call']} promises nothing by the name of {row['clause']}"
    for it in NAMED.findall(row["why"]):
        if it not in names:
            yield f"there is no edit, and no crate, {it}"


def faults_of_table(name, sources, uses, names, sections):
    """Returns what is wrong with the table of a crate, in words."""
    edits = {os.path.splitext(it.file)[0]: it for it in sources.edits[name]}
    file = f"crates/{name}/{FILE}"
    if not os.path.exists(file):
        return [f"{file} isn't there"] if edits else []
    rows, others = rows_of(text_of(file))
    below, seen = crates.in_order(uses, name), set()
    faults = [f"{file}: a line is no row: {it}" for it in others]
    for row in rows:
        edit = edits.get(row["edit"])
        wrong = [*faults_of_row(row, edit, names, sources, below)] if edit else ["there is no such edit"]
        wrong += ["it has two rows"] if row["edit"] in seen else []
        wrong += [f"{row['promise']} is no section of docs/THEOREMS.md"] if row["promise"] not in {"", *sections} else []
        faults += [f"{file}: {row['edit']}: {it}" for it in wrong]
        seen.add(row["edit"])
    said = [row["why"] for row in rows]
    faults += [f"{file}: two rows say: {it}" for it in sorted({it for it in said if said.count(it) > 1})]
    return faults + [f"{file}: {it}: it has no row" for it in edits if it not in seen]


def faults_of(text, sources, uses):
    """Returns how many edits there are, and what is wrong with their tables; the text is that of docs/THEOREMS.md."""
    names = {*uses} | {os.path.splitext(it.file)[0] for edits in sources.edits.values() for it in edits}
    faults = [fault for name in sources.edits for fault in faults_of_table(name, sources, uses, names, SECTION.findall(text))]
    return sum(map(len, sources.edits.values())), faults
