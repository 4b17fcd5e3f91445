"""Manual pages out of the project's own texts: sections of docs/*.md, and what --help says."""
import re
import textwrap

# columns of a line of the source, and of one that stands as it is in a page of 78
SOURCE, AS_IT_IS = 76, 66
HEAD = re.compile(r"(#+) (.*)")
BULLET = re.compile(r"([-*]|\d+\.) (.*)")


def escaped(text):
    return text.replace("\\", "\\e").replace("-", "\\-").replace("'", "\\(aq").replace("^", "\\(ha").replace("~", "\\(ti")


def plain(text):
    """A line of Markdown as a manual page has it: what is code or strong in bold, a link by its words."""
    text = re.sub(r"\[([^]]*)\]\([^)]*\)", r"\1", text)
    parts = re.split(r"(`[^`]*`|\*\*.+?\*\*|(?<![\w*])\*[\w' ]+\*(?!\w))", text)
    return "".join(marked(part) for part in parts)


def marked(part):
    if part[:1] == "`" or part[:2] == "**":
        return f"\\fB{escaped(part.strip('`') if part[:1] == '`' else re.sub('[`*]', '', part))}\\fR"
    return f"\\fI{escaped(part[1:-1])}\\fR" if part[:1] == "*" and part[-1:] == "*" and len(part) > 2 else escaped(part)


def flowed(text):
    """Words as lines of the page's source, none of which is longer than what is read easily there."""
    lines = textwrap.wrap(text, SOURCE, break_long_words=False, break_on_hyphens=False)
    return [at_start(line) for line in lines]


def at_start(text):
    """Text that begins a line of its own, where a point or a quote would be a request."""
    return "\\&" + text if text[:1] in (".", "'") else text


def blocks(lines):
    """What stands together in Markdown: a kind and its lines."""
    block, fenced = [], False
    for line in [*lines, ""]:
        if line.startswith("```"):
            fenced = not fenced
            if not fenced:
                yield "code", block
                block = []
        elif fenced:
            block.append(line)
        elif line.startswith("    ") and (not block or block[0].startswith("    ")):
            block.append(line)
        elif line and not HEAD.fullmatch(line) and not (block and block[0].startswith("    ")):
            block.append(line)
        else:
            if block:
                yield kind_of(block[0]), [it[4:] for it in block] if block[0].startswith("    ") else block
            block = []
            if HEAD.fullmatch(line):
                yield "head", [line]
            elif line:
                block = [line]


def kind_of(line):
    if line.startswith("    "):
        return "code"
    if line.startswith("|"):
        return "table"
    return "list" if BULLET.match(line) else "text"


def code(lines):
    """Lines that stand as they are; of commands with what they do beside them each is a tag, and what is too long is cut."""
    if sum(bool(re.match(r"\S.*?   +\S", line)) for line in lines) > len(lines) / 2 and any(len(it) > AS_IT_IS for it in lines):
        return [part for line in lines for part in described(line)] + [".PP"]
    return [".PP", ".RS 4", ".nf", *(at_start(escaped(part)) for line in lines for part in cut(line)), ".fi", ".RE"]


def described(line):
    command, _, told = line.partition("   ")
    return [".TP", f"\\fB{escaped(command)}\\fR", *flowed(plain(told.strip()))]


def cut(line):
    """A line in parts, as a shell joins them again; a comment goes on as one."""
    indent = " " * (len(line) - len(line.lstrip()) + 4)
    while len(line) > AS_IT_IS:
        at = line.rfind(" ", len(indent), AS_IT_IS - 2)
        if at <= len(indent):
            break
        is_comment = "#" in line[:at + 2]
        yield line[:at].rstrip() + ("" if is_comment else " \\")
        line = indent + ("# " if is_comment and line[at + 1:at + 2] != "#" else "") + line[at + 1:].lstrip()
    yield line


def cells(row):
    return [cell.strip() for cell in re.split(r"(?<!\\)\|", row.strip().strip("|"))]


def table(lines):
    """A table as tagged paragraphs: the first column is the tag, and a third one has its head before it."""
    heads, out = cells(lines[0]), []
    for row in lines[2:]:
        first, *others = cells(row)
        told = [cell if at == 0 else f"{heads[at + 1]}: {cell}" for at, cell in enumerate(others) if cell]
        out += [".TP", at_start(plain(first)), *(line for it in told for line in flowed(plain(it) + "."))]
    return [*out, ".PP"]


def items(lines):
    out = []
    for line in lines:
        found = BULLET.match(line)
        mark = "\\(bu" if found and found[1] in "-*" else found and found[1]
        out += [f".IP {mark} 3", *flowed(plain(found[2]))] if found else flowed(plain(line.strip()))
    return [*out, ".PP"]


def from_markdown(text, depth):
    """The body of a page; headings of `depth` are its sections, and deeper ones below them."""
    out = []
    for kind, lines in blocks(text.split("\n")):
        if kind == "head":
            marks, words = HEAD.fullmatch(lines[0]).groups()
            words = words.replace("`", "")
            out.append(f".SH {escaped(words.upper())}" if len(marks) <= depth else f".SS {escaped(words)}")
        elif kind in ("code", "table", "list"):
            out += {"code": code, "table": table, "list": items}[kind](lines)
        else:
            out += [".PP", *flowed(plain(" ".join(lines)))]
    return out


def headings(lines):
    """The places of headings with their depths and words; in code a line with a number sign is none."""
    fenced = False
    for at, line in enumerate(lines):
        fenced ^= line.startswith("```")
        found = None if fenced else HEAD.fullmatch(line)
        if found:
            yield at, len(found[1]), found[2]


def section(text, name):
    """A section of a text, with its heading and all below it."""
    lines = text.split("\n")
    found = list(headings(lines))
    first, depth = next((at, depth) for at, depth, words in found if words == name)
    end = next((at for at, below, _ in found if at > first and below <= depth), len(lines))
    return "\n".join(lines[first:end])


def tidied(lines):
    """Lines without requests that do nothing: a paragraph that begins where one has begun, or that ends where one begins."""
    out = []
    for at, line in enumerate(lines):
        following = lines[at + 1] if at + 1 < len(lines) else ".SH"
        if line == ".PP" and (following[:3] in (".SH", ".SS", ".TP", ".IP", ".PP") or out and out[-1][:3] in (".SH", ".SS")):
            continue
        out.append(line)
    return out


def page(name, number, version, day, about, body):
    """A whole page: its head, the line that apropos finds, and these lines."""
    head = f'.TH {name.upper()} {number} {day} "zirofen {version}" "zirofen"'
    return "\n".join([head, *tidied([".SH NAME", f"{escaped(name)} \\- {escaped(about)}", *body])]) + "\n"


def listed(entries):
    """Entries of a help, each with its tag."""
    return [line for tag, told in entries for line in (".TP", f"\\fB{escaped(tag)}\\fR", *(flowed(plain(told)) or ["\\&"]))]


def from_helps(known, about):
    """The synopsis, what it is about, the commands, their options and what they end with, out of the help of each by its name."""
    out = [".SH SYNOPSIS"]
    for said in known.values():
        out += [".PP", *flowed(escaped(said.usage))]
    out += [".SH DESCRIPTION", *from_markdown(about, 2), ".SH COMMANDS"]
    for name, said in known.items():
        out += [f".SS {escaped(name)}", *(line for it in said.paragraphs for line in (".PP", *flowed(plain(it))))]
    out.append(".SH OPTIONS")
    for name, said in known.items():
        rows = [entry for kind, rows in said.lists.items() if kind != "commands" for entry in rows]
        out += [f".SS {escaped(name)}", *listed(rows)]
    return [*out, ".SH EXIT STATUS", *listed((name, said.status) for name, said in known.items())]


def options_of(said):
    """The options of a help, and what it takes without one."""
    return [entry for kind, rows in said.lists.items() if kind != "commands" for entry in rows]


def shared_options(known):
    """The options that several commands have, in the same words, each once."""
    rows = [entry for said in known.values() for entry in options_of(said)]
    return [entry for entry in dict.fromkeys(rows) if rows.count(entry) > 1]


def overview(program, known, abouts, about):
    """The page of a program whose commands have pages of their own: what each does, and the options that several have."""
    out = [".SH SYNOPSIS", f"\\fB{escaped(program)}\\fR \\fICOMMAND\\fR ..", ".SH DESCRIPTION", *from_markdown(about, 2), ".SH COMMANDS"]
    out += listed((f"{program}-{name}(8)", told) for name, told in abouts.items())
    out += [".SH OPTIONS", "Of several commands; the page of each has its own.", *listed(shared_options(known))]
    return [*out, ".SH EXIT STATUS", *listed((name, said.status) for name, said in known.items())]


def of_command(program, said, shared):
    """The page of one of its commands."""
    own = [entry for entry in options_of(said) if entry not in shared]
    others = [f"\\fB{escaped(tag.split(' ')[0].rstrip(','))}\\fR" for tag, _ in options_of(said) if (tag, _) in shared]
    out = [".SH SYNOPSIS", *flowed(escaped(said.usage)), ".SH DESCRIPTION"]
    out += [line for it in said.paragraphs for line in (".PP", *flowed(plain(it)))]
    out += [".SH OPTIONS", *listed(own)]
    if others:
        out += [".PP", *flowed(f"{escaped(program)}(8) has what these do: {', '.join(others)}.")]
    return [*out, ".SH EXIT STATUS", *flowed(plain(said.status)), ".SH SEE ALSO", f".BR {escaped(program)} (8),", ".BR zirofen\\-report (5)"]
