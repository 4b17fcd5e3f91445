"""A second model of Zirofen: from the bytes of a tree text to its document. Written from docs/FORMATS.md alone, and from no code
of crates/; keep it so.

TOML is read by Python's tomllib, which is TOML 1.0. What it takes means the same in TOML 1.1, but for the two things that
`number_faults` and `too_deep` look at. What it refuses is no TOML, but where the text may be TOML 1.1 (`may_be_newer`) or nested
deeper than 80: of these nothing is said but that the program ends with a status and, where that is 3, with a line of a fault.
"""
import functools
import math
import re
import tomllib

from .controllers import ALL_CONTROLLERS

MOST_BYTES, MOST_LARGE, NESTED = 16777216, 67108864, 80
# how a large text begins, and what may stand in the brackets beside commas
LARGE = re.compile(rb"(?:controllers = \[([^\n]*)\]\n)?format = 4\n")
QUOTED_NAMES = [b'"%s"' % name.encode() for name in ALL_CONTROLLERS]
# the pieces of a text that tell which TOML it is: texts and comments whole, dates and times by their beginning, and marks
PIECES = re.compile(r"""
    (?P<escaped> \"{3} (?:[^\\]|\\.)*? \"{3,5} | " (?:[^"\\\n]|\\.)* " )
    | (?P<literal> '{3} .*? '{3,5} | ' [^'\n]* ' )
    | (?P<unended> ["'] )
    | (?P<comment> \# [^\n]* )
    | (?P<moment> [0-9]{4}-[0-9]{2}-[0-9]{2} | [0-9]{2}:[0-9]{2} )
    | (?P<comma> , (?= [\ \t]* \} ) )
    | (?P<newline> \n )
    | (?P<opening> [\[{] )
    | (?P<closing> [\]}] )
""", re.VERBOSE | re.DOTALL)
NEW_ESCAPE = re.compile(r"(?<!\\)(?:\\\\)*\\[ex]")
QUOTED = ("escaped", "literal", "comment")


class Fault(Exception):
    """Its text stands behind `fault: `."""


class Unsure(Exception):
    """This model doesn't say what the program answers."""


def may_be_newer(text):
    """Whether a text that TOML 1.0 refuses may be TOML 1.1: it has the escape \\e or \\x, a newline, a comment or a last comma in
    an inline table, or a date or time, which may be without seconds, or one that Python has no word for. What ends within a text,
    or closes what isn't open, is TOML of no version; of what else is no TOML at all either answer will do."""
    opened = []
    for piece in PIECES.finditer(text):
        kind, mark = piece.lastgroup, piece[0]
        if kind == "moment" or kind == "escaped" and NEW_ESCAPE.search(mark):
            return True
        if kind == "unended" or kind == "closing" and (not opened or opened.pop() + mark not in ("[]", "{}")):
            return False
        if kind == "opening":
            opened.append(mark)
        if kind in ("newline", "comment", "comma") and opened[-1:] == ["{"]:
            return True
    return False


def too_deep(text):
    """Whether a text can be nested deeper than 80: by all its brackets and braces, and the dots of a line."""
    bare = PIECES.sub(lambda piece: "" if piece.lastgroup in QUOTED else piece[0], text)
    depth = most = 0
    for mark in re.findall(r"[\[\]{}]", bare):
        depth += 1 if mark in "[{" else -1
        most = max(most, depth)
    return most + max(line.count(".") for line in bare.split("\n")) > NESTED // 2


def number_faults(value):
    """Whether an integer past 64 bits stands in a document."""
    if isinstance(value, dict):
        return any(map(number_faults, value.values()))
    if isinstance(value, list):
        return any(map(number_faults, value))
    return isinstance(value, int) and not -2 ** 63 <= value < 2 ** 63


def float_of(word):
    """The float that a word spells; one that is past its range makes the text no TOML."""
    if math.isinf(float(word)) and "inf" not in word:
        raise ValueError
    return float(word)


def is_large(data):
    """Whether a text says at its beginning that it is a large one of format 4."""
    begins = LARGE.match(data)
    return bool(begins) and (not begins[1] or are_in_order(begins[1].split(b", ")))


def are_in_order(names):
    """Whether these are controllers in quotes, each once and in their order."""
    return names == [name for name in QUOTED_NAMES if name in names]


@functools.lru_cache(maxsize=2)
def reading_of(data):
    """The document of a text, or what stands in its place; kept, since several models ask of one text."""
    if len(data) > (MOST_LARGE if is_large(data) else MOST_BYTES):
        return Fault("tree too-long")
    try:
        text = data.decode("utf-8").removeprefix("\ufeff")
        if too_deep(text):
            return Unsure()
        document = tomllib.loads(text, parse_float=float_of)
    except UnicodeDecodeError:
        return Fault("tree not-toml")
    except (ValueError, RecursionError):
        return Unsure() if may_be_newer(text) else Fault("tree not-toml")
    return Fault("tree not-toml") if number_faults(document) else document


def document_of(data):
    reading = reading_of(data)
    if isinstance(reading, Exception):
        raise reading.with_traceback(None)
    return reading
