"""Writes the pictures of docs/HOSTS.md and README.md anew, by a browser, to be looked at: tests/host/draw_pictures.py

Where pngquant is there they are made small.
"""
import os
import shutil
import subprocess
import sys
import tempfile

sys.dont_write_bytecode = True

import browser  # noqa: E402
import crowded  # noqa: E402
import example  # noqa: E402
from made_up import TOP  # noqa: E402
from shown import made  # noqa: E402
from zirofen_host.show import fleet, fleet_page, page, view  # noqa: E402

# name, page, width, what the page is for, how much of its height, and the size of a picture's point
PICTURES = (("page.png", "page", 1000, "screen", 1960, 0.75), ("page-phone.png", "page", 390, "screen", 2050, 0.75),
            ("page-print.png", "page", 794, "print", 1123, 0.6), ("hosts.png", "index", 1000, "screen", 740, 0.75))
# hosts that are alike: their names' beginning, how many they are, and the findings of each
ALIKE = (("app", 312, ("group", "opened")), ("web", 1640, ()), ("db", 2, ("limit",)))


def hosts():
    """Rows of many hosts, some of which have no report."""
    rows = [fleet.row_of("web1", view.host_of(made(example.kept())), True), fleet.missing("web17", "it is empty"),
            fleet.missing("web18", "it is older than 3 days"), fleet.missing("mail2", "there is none")]
    for name, count, kinds in ALIKE:
        crowd = crowded.Crowd()
        for number, kind in enumerate((*kinds, None, None)):
            crowd.one(1000 + number, kind)
        told = view.host_of(made({**crowd.report, "status": 1 if kinds else 0, "host": ""}))
        rows += [fleet.row_of(f"{name}{number}", told, True) for number in range(100, 100 + count)]
    return fleet.Fleet(sorted(rows, key=fleet.Row.place), 0)


def main():
    with tempfile.TemporaryDirectory() as folder, browser.Browser() as opened:
        page.write(f"{folder}/page.html", [made(example.kept())])
        fleet_page.write_index(folder, hosts())
        for name, shown, width, media, height, scale in PICTURES:
            opened.open(f"{folder}/{shown}.html", width, media)
            file = os.path.join(TOP, "docs", name)
            opened.picture(file, height, scale)
            if shutil.which("pngquant"):
                subprocess.run(["pngquant", "--nofs", "--speed", "1", "--ext", ".png", "--force", "64", file], check=True)


if __name__ == "__main__":
    main()
