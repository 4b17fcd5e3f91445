"""The sheets of a PDF as Chromium writes one: how far down on each something is written."""
import re
import zlib

OBJECT = re.compile(rb"(\d+) 0 obj\r?\n(.*?)endobj", re.S)
MATRIX = re.compile(rb"(?:^|\n)(q|Q|(?:-?[0-9.]+ ){6}(?:cm|Tm))(?=\s)")


def after(given, now):
    """One matrix behind another."""
    a, b, c, d, e, f = given
    g, h, i, j, k, m = now
    return (a * g + b * i, a * h + b * j, c * g + d * i, c * h + d * j, e * g + f * i + k, e * h + f * j + m)


def lowest(content):
    """The lowest place where a text begins."""
    now, kept, found = (1, 0, 0, 1, 0, 0), [], []
    for each in MATRIX.finditer(content):
        *numbers, word = each[1].decode().split()
        if word == "q":
            kept.append(now)
        elif word == "Q":
            now = kept.pop() if kept else now
        elif word == "cm":
            now = after(tuple(map(float, numbers)), now)
        else:
            found.append(after(tuple(map(float, numbers)), now)[5])
    return min(found, default=None)


def filled(file):
    """For each sheet, in their order, how far down it is filled: from 0, nothing, to 1, its lower edge."""
    with open(file, "rb") as opened:
        objects = {int(number): body for number, body in OBJECT.findall(opened.read())}
    found = []
    for _, body in sorted(objects.items()):
        if not re.search(rb"/Type\s*/Page\b(?!s)", body):
            continue
        height = float(re.search(rb"/MediaBox \[0 0 [0-9.]+ ([0-9.]+)\]", body)[1])
        content = objects[int(re.search(rb"/Contents (\d+) 0 R", body)[1])]
        stream = zlib.decompressobj().decompress(content.partition(b"stream")[2].lstrip(b"\r\n"))
        at = lowest(stream)
        found.append(0 if at is None else 1 - at / height)
    return found
