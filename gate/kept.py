"""What passed on this machine, kept so that what can't come out otherwise isn't done again.

A result is kept under the sum of every byte that decided it, and so it never goes stale: another byte is another sum. The folder
is the one that GATE_KEPT names, else zirofen-gate in the user's cache: XDG_CACHE_HOME, else .cache in the home folder that the
system has for this user, whatever HOME says. It is its owner's alone, and one that others can write to isn't used. An entry is
written apart and renamed, and begins with the sum of what follows: one that is damaged or cut off counts for nothing. Where
GATE_ANEW is set, nothing is taken and nothing kept.
"""
import contextlib, gzip, hashlib, json, os, pwd, stat, sys, tarfile, tempfile, zlib

# bytes of all entries; those that were used longest ago go first
MOST = 2_000_000_000
# what is begun is so named until it is whole
BEGUN = "begun-"
CHUNK = 1 << 20


def sum_of(*values):
    """Returns a sum of values that JSON can write, no two of which it writes alike."""
    return hashlib.sha256(json.dumps(values).encode()).hexdigest()


def sum_of_file(path):
    made = hashlib.sha256()
    with open(path, "rb") as file:
        while chunk := file.read(CHUNK):
            made.update(chunk)
    return made.hexdigest()


def sums_of_files(top, paths, unread=()):
    """Returns the sums of files, or where links lead, by their paths below a folder. A folder stands for all in it, but for what has
    one of the names `unread`."""
    found = {}
    for path in paths:
        whole = os.path.join(top, path)
        if os.path.islink(whole):
            found[path] = f"link {os.readlink(whole)}"
        elif os.path.isdir(whole):
            found |= sums_of_files(top, [f"{path}/{it}" for it in sorted(os.listdir(whole)) if it not in unread], unread)
        elif os.path.isfile(whole):
            found[path] = f"{sum_of_file(whole)} {'x' if os.access(whole, os.X_OK) else '-'}"
    return found


def folder():
    """Returns where results are kept."""
    named = os.environ.get("GATE_KEPT")
    if named:
        return os.path.abspath(named)
    cache = os.environ.get("XDG_CACHE_HOME") or ""
    if not os.path.isabs(cache):
        cache = os.path.join(pwd.getpwuid(os.geteuid()).pw_dir, ".cache")
    return os.path.join(cache, "zirofen-gate")


def is_own(path, is_kind):
    """Whether a file or folder is this user's, and nobody else can write to it."""
    found = os.lstat(path)
    return is_kind(found.st_mode) and found.st_uid == os.geteuid() and not found.st_mode & 0o022


class Store:
    """The folder of what is kept, or nothing where it can't be used."""

    def __init__(self, say=lambda text: print(text, file=sys.stderr, flush=True)):
        self.at = None
        if os.environ.get("GATE_ANEW"):
            return
        at = folder()
        try:
            os.makedirs(at, 0o700, exist_ok=True)
            if is_own(at, stat.S_ISDIR):
                self.at = at
                return
            why = "it is another user's, or others can write to it"
        except (OSError, KeyError) as error:
            why = f"{error}"
        # the parts of a run have one environment, and the first of them says it
        if os.environ.get("GATE_NOT_KEPT") != at:
            os.environ["GATE_NOT_KEPT"] = at
            say(f"gate: nothing is kept, and nothing taken: {at} isn't used: {why}")

    def path(self, kind, name, key):
        return f"{self.at}/{kind}-{name.replace('/', '.')}-{key}"

    def touch(self, kind, name, key):
        """Has an entry count as used now."""
        with contextlib.suppress(OSError):
            if self.at is not None:
                os.utime(self.path(kind, name, key))

    def take(self, kind, name, key, to=None):
        """Returns what is kept under a sum, a dict, or None; what it has of files is unpacked in the folder `to`."""
        if self.at is None:
            return None
        path = self.path(kind, name, key)
        try:
            if not is_own(path, stat.S_ISREG):
                return None
            with open(path, "rb") as file:
                told = self.read(file, kind, name, key)
                if told is not None and to is not None:
                    with gzip.GzipFile(fileobj=file, mode="rb") as text, tarfile.open(fileobj=text, mode="r|") as packed:
                        # where Python has it: nothing leads out of the folder
                        packed.extraction_filter = getattr(tarfile, "data_filter", None)
                        packed.extractall(to)
            os.utime(path)
            return told
        except (OSError, ValueError, KeyError, TypeError, EOFError, tarfile.TarError, zlib.error):
            return None

    def read(self, file, kind, name, key):
        """Returns what the head of an entry tells, once all of it has the sum that it begins with, or None. The file then stands
        behind the head."""
        wanted, begin = file.readline().rstrip(b"\n").decode("ascii"), file.tell()
        made = hashlib.sha256()
        while chunk := file.read(CHUNK):
            made.update(chunk)
        if made.hexdigest() != wanted:
            return None
        file.seek(begin)
        head = json.loads(file.readline())
        return head["told"] if head["of"] == [kind, name, key] else None

    def keep(self, kind, name, key, told, files=None):
        """Keeps what was found under a sum, with files of a folder: `files` is the folder, and their paths in it."""
        if self.at is None:
            return
        begun = None
        try:
            number, begun = tempfile.mkstemp(prefix=f"{BEGUN}{os.getpid()}-", dir=self.at)
            with os.fdopen(number, "w+b") as file:
                file.write(b"0" * 64 + b"\n" + json.dumps({"of": [kind, name, key], "told": told}).encode() + b"\n")
                if files:
                    with gzip.GzipFile(fileobj=file, mode="wb", compresslevel=1) as text, tarfile.open(fileobj=text, mode="w|") as packed:
                        for path in files[1]:
                            packed.add(f"{files[0]}/{path}", path)
                file.seek(65)
                made = hashlib.sha256()
                while chunk := file.read(CHUNK):
                    made.update(chunk)
                file.seek(0)
                file.write(made.hexdigest().encode())
            os.rename(begun, self.path(kind, name, key))
        except OSError as error:
            # no room, say: it is done again in the next run
            print(f"gate: {name} isn't kept: {error}", file=sys.stderr, flush=True)
            with contextlib.suppress(OSError, TypeError):
                os.remove(begun)

    def shrink(self, most=MOST):
        """Removes what killed runs have begun, and entries until the rest is within bounds, those first that were used longest ago."""
        if self.at is None:
            return
        entries = []
        for it in os.scandir(self.at):
            with contextlib.suppress(OSError):
                found = it.stat(follow_symlinks=False)
                if it.name.startswith(BEGUN):
                    if not os.path.exists(f"/proc/{it.name.split('-')[1]}"):
                        os.remove(it.path)
                else:
                    entries.append((found.st_mtime, it.path, 512 * found.st_blocks))
        much = sum(size for _, _, size in entries)
        for _, path, size in sorted(entries):
            if much <= most:
                break
            much -= size
            with contextlib.suppress(OSError):
                os.remove(path)
