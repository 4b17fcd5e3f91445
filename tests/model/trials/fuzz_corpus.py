"""Texts that were made to harm: each of them is answered, or is a fault with its line."""
import random

SMALL = b"""format = 2
controllers = ["cpu"]
[[cgroup]]
path = '/'
enabled = ["cpu"]
[[cgroup]]
path = "/a"
dir = { uid = 1000, mode = 0o700 }
files = { "cpu.weight" = { value = 1_0 }, 'cgroup.procs' = { uid = 0x3E8 } }
[[process]]
pid = 7
uid = 1000
at = "/"
"""
SMALL_4 = SMALL.replace(b"2", b"4", 1).replace(b'["cpu"]', b'["cpu", "io"]')
SMALL_4 = b"""format = 4
controllers = ["io"]
[[cgroup]]
path = '/'
enabled = ["io"]
[[cgroup]]
path = '/a'
files = { "io.max" = { uid = 5, value = ["8:0 rbps=1", '8:16'] }, "cgroup.freeze" = { value = 5 }, "io.weight" = { value = "a b" } }
"""
HEAD = b"format = 1\ncontrollers = []\n"
ROOT = HEAD + b"[[cgroup]]\npath = '/'\n"
LEVELS = [1, 8, 40, 76, 77, 78, 79, 80, 81, 82, 83, 160, 1000, 20000]


def cut(text):
    return [text[:length] for length in range(len(text) + 1)]


def changed(text):
    """Each byte of a text changed: its case or lowest bit, to NUL, past ASCII, and to what TOML reads as a mark."""
    marks = b"\"'[]{}=,.#\n\r\t 0-\\"
    for at, byte in enumerate(text):
        for other in {byte ^ 0x20, byte ^ 1, 0, 0x80 | byte, marks[at % len(marks)]} - {byte}:
            yield text[:at] + bytes([other]) + text[at + 1:]


def spliced(text, count):
    """The lines of a text doubled, dropped, swapped and shuffled."""
    rng = random.Random(20261125)
    lines = text.splitlines(keepends=True)
    for _ in range(count):
        some = list(lines)
        for _ in range(rng.choice([1, 2, 3])):
            at, to = rng.randrange(len(some)), rng.randrange(len(some))
            rng.choice([lambda: some.insert(to, some[at]), lambda: some.pop(at), lambda: rng.shuffle(some),
                        lambda: some.insert(to, some.pop(at))])()
        yield b"".join(some)


def nested():
    for levels in LEVELS:
        deep = b".".join([b"a"] * levels)
        yield from (b"a = " + b"[" * levels, b"a = " + b"[" * levels + b"]" * levels, b"a = " + b"{a = " * levels,
                    b"a = " + b"{a = " * levels + b"1" + b"}" * levels, b"[" + deep + b"]", b"[[" + deep + b"]]\n" * 2, deep + b" = 1",
                    b"[" * levels + b"a" + b"]" * levels, b"[[a]]\n" + deep + b" = 1\n[[a]]\n", b"x = {" + deep + b" = 1}",
                    ROOT + b"files." + deep + b" = 1", b"[[cgroup." + deep + b"]]", b"a = [" + b"{a = [" * levels)


def spelled_numbers():
    ends = [0, 1, 2 ** 16, 2 ** 22, 2 ** 31, 2 ** 32, 2 ** 53, 2 ** 63, 2 ** 64, 2 ** 128, 10 ** 400]
    spelled = {str(sign * (end + by)) for end in ends for by in (-1, 0, 1) for sign in (1, -1)}
    spelled |= {form.format(end + by) for end in ends for by in (-1, 0, 1) if end + by >= 0
                for form in ("0x{:x}", "0o{:o}", "0b{:b}", "+{}", "{}.0", "{:_}")}
    spelled |= {"1e400", "-1e400", "inf", "-inf", "nan", "1e-400", "-0", "+0", "00", "0_0", "0x", "0o8", "1__0", "_1", "1_", "1.", ".1",
                "1979-05-27T07:32:00.999999999999999999Z", "9999-12-31", "07:32:00"}
    return [word.encode() for word in sorted(spelled)]


def numbers():
    for value in spelled_numbers():
        yield from (b"format = " + value + b"\ncontrollers = []\n", ROOT + b"dir = { uid = " + value + b" }",
                    ROOT + b"dir = { mode = " + value + b" }", ROOT + b"files = { 'cgroup.max.depth' = { value = " + value + b" } }",
                    ROOT + b"[[process]]\npid = " + value + b"\nuid = 0\nat = '/'",
                    ROOT + b"[[process]]\npid = 1\nuid = " + value + b"\nat = '/'")


def odd_letters():
    odd = [b"\xff", b"\xc0\x80", b"\xed\xa0\x80", b"\xf4\x90\x80\x80", b"\xe2\x82", b"\xf0\x9f\x98\x80", b"\xef\xbb\xbf", b"\xe2\x80\xa8",
           b"\xc2\x85", b"\0", b"\x7f", b"\x1b", b"\r", b"\x0b", b"\\u0000", b"\\ud800", b"\\U00110000", b"\\q", b"\\x41", b"\\e", b"\\"]
    for letter in odd:
        yield from (letter, letter + SMALL, SMALL + letter, SMALL + b"# " + letter + b"\n", ROOT.replace(b"'/'", b'"/' + letter + b'"'),
                    ROOT.replace(b"'/'", b"'/" + letter + b"'"), HEAD + letter + b" = 1", HEAD + b'"' + letter + b'" = 1',
                    HEAD + b"x = '''" + letter + b"'''", HEAD + b'x = """' + letter + b'"""', b"[[" + letter + b"]]")


def doubled():
    for part in (b"[a]\n", b"[[a]]\n", b"a = 1\n", b"a.b = 1\n", b"[a.b]\n", b"[[a.b]]\n", b"a = {}\n", b"a = []\n", b"a = [{}]\n"):
        for other in (b"[a]\n", b"[[a]]\n", b"a = 1\n", b"a.b = 2\n", b"[a.b]\n", b"[[a.b]]\n", b"a.c = {}\n", b"a = [{}]\n"):
            yield part + other
            yield HEAD + part + other + part


def texts_of_4():
    """Texts of format 4 that name limit files whose values are texts."""
    yield from changed(SMALL_4)
    for value in spelled_numbers():
        yield from (SMALL_4.replace(b"value = 5", b"value = " + value), SMALL_4.replace(b"'8:16'", value))
    for line in (b"x", b"x ", b" x", b"\xc3\xa9", b"\\n", b"'"):
        for count in (0, 1, 2, 2047, 2048, 4094, 4095, 4096, 70000):
            yield SMALL_4.replace(b"a b", line * count)


def tree_texts(with_format_4):
    of_4 = texts_of_4() if with_format_4 else []
    for kind in (cut(SMALL), changed(SMALL), spliced(SMALL, 400), nested(), numbers(), odd_letters(), doubled(), of_4):
        yield from kind


def operation_texts():
    line = b"control /a +cpu -cpu\n"
    yield from cut(line)
    yield from changed(line)
    yield from changed(b"set /a cpu.weight 100\n")
    yield from changed(b"chmod /a dir 755\n")
    for part in (b"\0", b"\n", b" ", b"x", b"move 7 /\n", b"\r\n", b"\xff", b"control /" + b" +cpu" * 1600 + b"\n"):
        for count in (1, 2, 8191, 8192, 8193, 70000):
            yield part * min(count, 1 + 2 ** 21 // len(part))


def operation_texts_4():
    """Of controllers and limit files that lines for a tree of format 4 may name."""
    line = b"control /a +io -io\n"
    yield from cut(line)
    yield from changed(line)
    yield from changed(b"control / -dmem +hugetlb\n")
    line = b"set /a io.max 8:0 rbps=1 wiops=max\n"
    yield from cut(line)
    yield from changed(line)
    yield from changed(b"chmod /a cpuset.mems 600\n")
    for part in (b"x", b" x", b" ", b"\t", b"\xff"):
        for count in (1899, 1900, 3799, 3800, 3801, 8180):
            yield b"set /a io.max 1" + part * count + b"\n"


def large_trees(with_format_4):
    """A tree as deep, and of each format one with as many cgroups, as may be. Who is asked moves what is below /a, and of no subtree there
    more is shown by the guards."""
    opened = b"files = { 'cgroup.procs' = { uid = 1000 } }\n"
    wide = [[b"/a/a", *(b"/a/n%d" % number for number in range(most - 3))] for most in (4096, 65536)]
    for form, paths in ((b"1", [b"/a" * levels for levels in range(2, 2048)]), *zip([b"1", *[b"4"] * with_format_4], wide)):
        rows = b"".join(b"[[cgroup]]\npath = '%s'\n" % path for path in paths)
        yield ROOT.replace(b"1", form) + b"[[cgroup]]\npath = '/a'\n" + opened + rows


def growing(size):
    """Texts of one kind, as long as is said, by the name of the kind."""
    deep = b".".join([b"a"] * 77)
    parts = {"newlines": b"\n", "array headers": b"[[a]]\n", "array headers 77 deep": b"[[" + deep + b"]]\n",
             "keys 77 deep below array headers": b"[[a]]\n" + deep + b" = 1\n", "rows": b"[[cgroup]]\n",
             "rows with an entry": b"[[cgroup]]\ndir={uid=1}\n", "comments": b"# x\n"}
    for name, part in parts.items():
        yield name, part * (size // len(part))
    for name, part in {"empty tables": b"{},", "empty arrays": b"[],", "numbers": b"1,", "texts": b"'',"}.items():
        yield name, b"a = [" + part * (size // len(part)) + b"]"
    levels = b".a" * 79
    yield "headers 80 deep, each anew", b"".join(b"[%x%s]\n" % (number, levels) for number in range(size // 165))
    yield "keys 80 deep, each anew", b"".join(b"%x%s=1\n" % (number, levels) for number in range(size // 165))
    yield "brackets", b"[" * size
    yield "one text", b'a = "' + b"x" * size + b'"'
    yield "keys", b"".join(b"a%d=1\n" % number for number in range(size // 9))
    yield "tables", b"".join(b"[a%d]\n" % number for number in range(size // 9))
