"""How wide the lines of proofs are. An import stays on one line, since the kit's layout would give each of its names a line."""
import glob

from edited import text_of

WIDEST = 140


def wide_lines(text):
    """Returns the numbers of the lines that are too wide to be read, counted from 1."""
    lines = enumerate(text.split("\n"), 1)
    return [number for number, line in lines if len(line) > WIDEST and not line.startswith(("use ", "pub use "))]


def faults_of(folder):
    """Returns how many files of proofs there are below a folder of crates, and those that have a line that is too wide."""
    files = sorted(glob.glob(f"{folder}/*/proofs/**/*.antt", recursive=True))
    found = {file: wide_lines(text_of(file)) for file in files}
    return len(files), [f"{file}:{lines[0]}: over {WIDEST} columns, as {len(lines)} of its lines" for file, lines in found.items() if lines]
