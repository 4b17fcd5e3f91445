"""Which program answers for this checkout, and how one is proved and built: for ./zirofen, tools/build and whoever measures it.

A program stands in a folder, a file for each kind of processor, with a MANIFEST: its version, the toolchain that proved and built it,
the sum of the sources that decide its bytes, and of each file the sum of the object that it was linked of, and of its bytes. Run by
./zirofen this chooses one, and builds one where none is of these sources.
"""
import contextlib, glob, hashlib, os, re, resource, shutil, signal, subprocess, sys, tempfile, time

sys.dont_write_bytecode = True
TOP = os.path.dirname(os.path.dirname(os.path.realpath(__file__)))
sys.path[:0] = [f"{TOP}/gate", f"{TOP}/tools"]
import crates, kit, linked

# where it is closed, what is said goes nowhere
sys.stderr = sys.stderr or open(os.devnull, "w")
TRIED = [it.split(" ")[0] for it in kit.TRIED]
ENDING = [signal.SIGINT, signal.SIGTERM, signal.SIGHUP, signal.SIGQUIT, signal.SIGPIPE]
# what a toolchain says of how far it is, and of what it waits for
SHOWN = re.compile(r"so far:|rt: (waiting|chose --jobs)")
# which version the program says that it is, and of which sources: the first digits of their sum, which leaves this file out
VERSIONED = f"{TOP}/crates/zirofen/src/version.rt"
SAYS = re.compile(r'"(\d+\.\d+\.\d+) \(([0-9a-f]{12})\)"')
# beside the crates
LINKING = ("runtime/errors.h", "runtime/runtime.c", "tools/linked.py")
# the kinds of processors that a release is for, as `uname -m` calls them, and this one
MACHINES = (*linked.MACHINES,)
MACHINE = os.uname().machine
# a function of the wrapper
IN_WRAPPER = ["bash", "-p", "-c", '. "$1"; "${@:2}"', "zirofen", f"{TOP}/zirofen"]
HEARD = {"stdin": subprocess.DEVNULL, "stdout": subprocess.PIPE, "errors": "replace"}


def say(text):
    with contextlib.suppress(OSError):
        print(f"zirofen: {text}", file=sys.stderr, flush=True)


def sum_of(path):
    with open(path, "rb") as it:
        return hashlib.sha256(it.read()).hexdigest()


def version():
    """Returns the version that the program's sources name, and the digits of the sum that they say."""
    with open(VERSIONED, encoding="utf-8") as it:
        return SAYS.search(it.read()).groups()


def write_digits(sources):
    """Has the program say of which sources it is."""
    with open(VERSIONED, encoding="utf-8") as it:
        before = it.read()
    after = SAYS.sub(f'"{version()[0]} ({sources[:12]})"', before)
    if after != before:
        with open(VERSIONED, "w", encoding="utf-8") as out:
            out.write(after)


def sum_of_crates(crate, version_of, beside, unread=()):
    """Returns the sum of what decides what is built of a crate: the version, src/ of the crates that it stands on and their lines of
    crates.txt, and the files beside them by which it is linked, but for files that say this sum, or nothing where that can't be read."""
    with contextlib.suppress(OSError, ValueError, AttributeError):
        lines = {name: line.partition("#")[0].rstrip("\n") for line, name, _ in crates.rows(TOP) if name}
        names = crates.in_order(crates.read(TOP), crate)
        files = {os.path.relpath(f"{at}/{it}", f"{TOP}/crates")
                 for name in names for at, _, found in os.walk(f"{TOP}/crates/{name}/src") for it in found}
        files -= {os.path.relpath(it, f"{TOP}/crates") for it in unread}
        sums = [f"{sum_of(f'{TOP}/crates/{it}')}  {it}" for it in sorted(files, key=os.fsencode)]
        sums += [f"{sum_of(f'{TOP}/{it}')}  {it}" for it in beside]
        return hashlib.sha256("".join(f"{it}\n" for it in [version_of(), *(lines[it] for it in names), *sums]).encode()).hexdigest()
    return ""


def sum_of_sources():
    """Returns the sum of what decides the program's bytes, or nothing where that can't be read."""
    return sum_of_crates("zirofen", lambda: version()[0], LINKING, [VERSIONED])


def name_of(machine):
    """Returns the name of the program's file for a kind of processor."""
    return "zirofen" if machine == "x86_64" else f"zirofen-{machine}"


def key_of(key, machine):
    """Returns the key of a MANIFEST for a kind of processor."""
    return key if machine == "x86_64" else f"{key}-{machine}"


class Program:
    """The program in a folder of this checkout."""

    def __init__(self, folder):
        self.folder, self.manifest = folder, f"{TOP}/{folder}/MANIFEST"
        self.name = f"{folder}/{name_of(MACHINE)}"
        self.path = f"{TOP}/{self.name}"

    def file(self, machine):
        return f"{TOP}/{self.folder}/{name_of(machine)}"

    def text(self):
        with contextlib.suppress(OSError), open(self.manifest, encoding="utf-8", errors="replace") as it:
            return it.read()
        return ""

    def says(self, key):
        return dict(line.partition(" ")[::2] for line in self.text().splitlines()).get(key, "").strip()

    def changed(self, machine=MACHINE):
        """Returns why the file for a kind of processor isn't the one of the MANIFEST, or nothing."""
        if not os.path.isfile(self.file(machine)):
            return "it isn't there" if machine in MACHINES else f"there is none for {machine}"
        same = sum_of(self.file(machine)) == self.says(key_of("program", machine))
        return "" if same else "its bytes aren't those of its MANIFEST"

    def unfit(self):
        """Returns what keeps it from answering here, or nothing."""
        if self.changed():
            return self.changed()
        if not os.access(self.path, os.X_OK):
            return "it can't be executed: its run bit is lost, or the file system is mounted without execution"
        try:
            ran = subprocess.run([self.path, "--version"], stderr=subprocess.STDOUT, **HEARD)
        except OSError as error:
            return f"it doesn't run here: {error.strerror}"
        if (ran.returncode, ran.stdout) == (0, f"zirofen {self.says('version')} ({self.says('sources')[:12]})\n"):
            return ""
        return f"it doesn't run here, and ended with status {ran.returncode}: {(ran.stdout or 'it wrote nothing').splitlines()[0]}"


BUILT, RELEASED = Program("crates/zirofen/out"), Program("release")


def object_of(machine):
    """Returns the object of the program for a kind of processor, as a build leaves it."""
    return f"{TOP}/{BUILT.folder}/zirofen-{machine}.o"


def manifest_of(program, version, kit, sources, objects):
    """Returns the lines of a MANIFEST: `objects` has the sum of the object of each file."""
    lines = {"version": version, "kit": kit, "sources": sources}
    for machine, made in objects.items():
        lines |= {key_of("object", machine): made, key_of("program", machine): sum_of(program.file(machine))}
    return "".join(f"{key} {value}\n" for key, value in lines.items())


def of_sources(sources=None):
    """Returns the program that is of the sources and answers here: the built one, else the released one, else none."""
    sources = sources or sum_of_sources()
    return next((it for it in (BUILT, RELEASED) if sources and it.says("sources") == sources and not it.unfit()), None)


def choose():
    """Returns the program that ./zirofen runs, or says why there is none. It is noted by what was seen before it was chosen, in a
    checkout of whoever runs this. What was changed within the second before could be changed again without a trace."""
    began, seen = int(time.time()), subprocess.run([*IN_WRAPPER, "look", TOP], **HEARD).stdout.rstrip("\n")
    sources = sum_of_sources()
    chosen = of_sources(sources)
    if chosen:
        newest = max(map(int, re.findall(r"^(\d+)\.\d+ \d+ ", seen, re.M)), default=began)
        if os.stat(TOP).st_uid == os.geteuid() and newest < began - 1:
            with contextlib.suppress(OSError):
                with tempfile.NamedTemporaryFile("w", prefix=".chosen.", dir=TOP, delete=False) as out:
                    out.write(f"{chosen.name}\n{seen}")
                os.replace(out.name, f"{TOP}/.chosen")
    elif sources and RELEASED.says("sources") == sources:
        mend = ". tools/build makes one here, with the toolchain" if MACHINE in MACHINES else ""
        say(f"the released program of these sources can't answer: {RELEASED.unfit()}{mend}")
    else:
        say("a source of this checkout isn't the released program's, whose MANIFEST has another sum")
        chosen = BUILT if build() else None
    return chosen


def toolchain():
    with contextlib.suppress(OSError):
        return subprocess.run(["rt", "version"], **HEARD).stdout.strip()
    return ""


def hinders():
    """Returns why a build can't begin, or nothing, and says which toolchain it is where that isn't the released program's."""
    wanted = RELEASED.says("kit")
    if not shutil.which("rt"):
        return f"not built: there is no rt on the PATH. To prove and build takes the toolchain {wanted or ' or '.join(TRIED)}"
    if not os.access(f"{TOP}/crates/zirofen", os.W_OK):
        return f"not built: {TOP}/crates/zirofen can't be written. Build where it can, or copy an executable that is built"
    if not sum_of_sources():
        return "not built: the sources can't be read"
    if wanted not in ("", toolchain()):
        say(f"this toolchain is {toolchain()}, and the released program is of {wanted}; {' and '.join(TRIED)} were tried")
    return ""


def interrupt(number, _):
    for it in ENDING:
        signal.signal(it, signal.SIG_IGN)
    raise KeyboardInterrupt(number)


def build_object(room):
    """Proves the program and builds its object; returns what hindered it, or nothing. The toolchain's own run takes what earlier checks
    kept; it runs a program that it links itself on --help, so its status tells whether that was built."""
    words, at = [f"{TOP}/gate/from_nothing", "zirofen"], TOP
    if subprocess.run([words[0], "--is-best", words[1]], cwd=TOP, stderr=subprocess.DEVNULL, **HEARD).returncode:
        words, at = ["rt", "run", "--", "--help"], f"{TOP}/crates/zirofen"
    why = run_toolchain(words, at, room)
    if not why:
        shutil.copyfile(f"{TOP}/{BUILT.folder}/zirofen.o", object_of("x86_64"))
    return why


def build_objects(room, machines, over_kept):
    """Builds the objects for some kinds of processors over libraries that are kept, or were just proved; returns what hindered it, or
    nothing."""
    words = [f"{TOP}/gate/objects", *([] if over_kept else ["--left"]), TOP, *machines]
    return run_toolchain(words, TOP, room) if machines else ""


def run_toolchain(words, at, room):
    """Runs the toolchain, and passes on how far that is; returns what hindered it, or nothing."""
    # in a session of its own, so that all of it can be ended and stopped
    ran = subprocess.Popen(words, cwd=at, env={**os.environ, "TMPDIR": room}, start_new_session=True, stderr=subprocess.STDOUT, **HEARD)

    def stop(*_):
        os.killpg(ran.pid, signal.SIGSTOP)
        os.kill(os.getpid(), signal.SIGSTOP)
        os.killpg(ran.pid, signal.SIGCONT)

    signal.signal(signal.SIGTSTP, stop)
    said = []
    try:
        for line in ran.stdout:
            said.append(line)
            if SHOWN.match(line):
                print(line, end="", file=sys.stderr, flush=True)
        if ran.wait() == 0:
            return ""
        print("".join(said), end="", file=sys.stderr, flush=True)
        return f"not built. It needs the toolchain {RELEASED.says('kit')}, and this is {toolchain()}"
    finally:
        signal.signal(signal.SIGTSTP, signal.SIG_DFL)
        with contextlib.suppress(ProcessLookupError):
            os.killpg(ran.pid, signal.SIGTERM)
            os.killpg(ran.pid, signal.SIGCONT)
        ran.wait()


def keep_built(sources):
    """Links what was built from the sources with that sum, and writes its manifest; returns why it can't answer for them, or nothing."""
    if sum_of_sources() != sources:
        return "not built: a source was changed meanwhile. Build again"
    with contextlib.suppress(OSError, subprocess.CalledProcessError):
        machines = [it for it in MACHINES if os.path.isfile(object_of(it))]
        for it in machines:
            linked.link(it, object_of(it), BUILT.file(it))
        with open(BUILT.manifest, "w", encoding="utf-8") as out:
            out.write(manifest_of(BUILT, version()[0], toolchain(), sources, {it: sum_of(object_of(it)) for it in machines}))
    return BUILT.unfit() and f"what was built can't answer: {BUILT.unfit()}"


def build(is_release=False, over_kept=False):
    """Proves and builds the program, for a release for each kind of processor, and returns whether that is done; over what is kept the
    program's own crate alone is proved. A signal ends it, and then the caller by that signal. What is left of a build that failed has no
    manifest with its sum, and is no program."""
    why, sources = hinders(), sum_of_sources()
    machines = [it for it in MACHINES if over_kept or is_release and it != "x86_64"]
    if not why:
        write_digits(sources)
        say("building over kept libraries; for each kind of processor this takes some minutes" if over_kept else
            "proving and building; from nothing this took 23 minutes on 4 cores, and 3 GB of memory")
        for it in glob.glob(f"{TOP}/{BUILT.folder}/zirofen*.o"):
            os.remove(it)
        before = {it: signal.signal(it, interrupt) for it in ENDING}
        try:
            with tempfile.TemporaryDirectory(ignore_cleanup_errors=True) as room:
                # the gate runs programs as nobody, who has to reach them
                os.chmod(room, 0o711)
                why = ("" if over_kept else build_object(room)) or build_objects(room, machines, over_kept) or keep_built(sources)
        except KeyboardInterrupt as it:
            say("interrupted, and not built")
            resource.setrlimit(resource.RLIMIT_CORE, (0, 0))
            signal.signal(it.args[0], signal.SIG_DFL)
            os.kill(os.getpid(), it.args[0])
        for number, was in before.items():
            signal.signal(number, was)
    if why:
        say(why)
    return not why


if __name__ == "__main__":
    # as they were: Python takes two for itself
    signal.signal(signal.SIGPIPE, signal.SIG_DFL)
    if signal.getsignal(signal.SIGINT) is signal.default_int_handler:
        signal.signal(signal.SIGINT, signal.SIG_DFL)
    program = choose()
    if not program:
        sys.exit(70)
    os.execv(shutil.which("bash"), [*IN_WRAPPER, "run", program.path, *sys.argv[1:]])
