"""Tests of tools/package: what is installed, byte for byte the same each time, and held against docs and --help."""
import gzip
import hashlib
import importlib.machinery
import importlib.util
import io
import itertools
import json
import os
import re
import shutil
import subprocess
import sys
import tarfile
import tempfile
import unittest

import linked
import program

TOP = os.path.dirname(os.path.dirname(os.path.dirname(os.path.abspath(__file__))))


def script(name):
    """A script of the checkout as a module."""
    loader = importlib.machinery.SourceFileLoader(name, f"{TOP}/tools/{name}")
    made = importlib.util.module_from_spec(importlib.util.spec_from_loader(name, loader))
    loader.exec_module(made)
    return made


package = script("package")
from zirofen_host import version  # noqa: E402

PACKAGE = f"{TOP}/host/zirofen_host"


def run(*words, **more):
    return subprocess.run(words, capture_output=True, text=True, stdin=subprocess.DEVNULL, **more)


def members(data):
    """What is in a Debian package's outer archive, by name."""
    found, at = {}, len("!<arch>\n")
    while at < len(data):
        head = data[at:at + 60].decode()
        size = int(head[48:58])
        found[head[:16].strip()] = data[at + 60:at + 60 + size]
        at += 60 + size + size % 2
    return found


def folder_of_program():
    """The folder of a program of this checkout's sources: the released one's or the built one's, else nothing."""
    found = program.of_sources()
    return found and found.folder


class PackageTest(unittest.TestCase):
    @classmethod
    def setUpClass(cls):
        source = folder_of_program()
        if source is None:
            print("package_test: left out: there is no program of these sources, neither in release/ nor in crates/zirofen/out/")
            raise unittest.SkipTest("there is no program of these sources")
        cls.source, cls.options = source, ["--built"] if source == package.BUILT else []
        cls.program = package.Program(source)
        cls.folder = tempfile.TemporaryDirectory()
        cls.addClassCleanup(cls.folder.cleanup)
        cls.made = f"{cls.folder.name}/made"
        ended = cls.pack(cls.made, cwd="/")
        assert ended.returncode == 0, ended.stderr
        cls.files = {file.path: file for file in package.installed(cls.program)}

    @classmethod
    def pack(cls, folder, **more):
        return run(sys.executable, f"{TOP}/tools/package", *cls.options, folder, **more)

    def archive(self, suffix):
        [name] = [it for it in os.listdir(self.made) if it.startswith("zirofen") and it.endswith(suffix)]
        with open(f"{self.made}/{name}", "rb") as it:
            return it.read()

    def test_twice_the_same_bytes(self):
        again = f"{self.folder.name}/again"
        self.pack(again, env={**os.environ, "TZ": "Asia/Tokyo", "LC_ALL": "C", "COLUMNS": "40"})
        self.assertEqual(sorted(os.listdir(again)), sorted(os.listdir(self.made)))
        for name in os.listdir(again):
            with open(f"{again}/{name}", "rb") as one, open(f"{self.made}/{name}", "rb") as other:
                self.assertEqual(one.read(), other.read(), name)

    def test_sums(self):
        self.assertEqual(run("sha256sum", "-c", "--quiet", "SHA256SUMS", cwd=self.made).returncode, 0)

    def test_the_program_is_whole_and_all_is_roots(self):
        data = members(self.archive("_amd64.deb"))
        with tarfile.open(fileobj=io.BytesIO(data["data.tar.xz"])) as files:
            program = files.extractfile("./usr/bin/zirofen")
            self.assertEqual(program.read(), self.program.bytes)
            for file in files:
                self.assertEqual((file.uid, file.gid, file.mtime), (0, 0, 1577836800))
                self.assertIn(file.mode, (0o755, 0o644))
        with tarfile.open(fileobj=io.BytesIO(self.archive(f"{os.uname().machine}.tar.gz"))) as files:
            # the licence and what says how it is used
            self.assertEqual(len([it for it in files if it.isfile()]), len(self.files) + 2)

    def test_dpkg_reads_it(self):
        out, version = f"{self.folder.name}/out", f"{self.program.version}-{package.REVISION}"
        for name, told in (("zirofen", ["Architecture: amd64", "Recommends: zirofen-host"]),
                           ("zirofen-host", ["Architecture: all", f"Depends: zirofen (= {version}), python3 (>= 3.11)",
                                             "Breaks: zirofen (<< 0.2.0-1~)", "Replaces: zirofen (<< 0.2.0-1~)"]),
                           ("python3-zirofen", ["Architecture: all", f"Depends: zirofen (= {version}), python3 (>= 3.9)", "Recommends: libzirofen0"])):
            file = self.debian_file(name)
            said = run("dpkg-deb", "--field", file, "Package", "Version", "Architecture", "Depends", "Recommends", "Breaks", "Replaces")
            self.assertEqual(said.stdout.splitlines(), [f"Package: {name}", f"Version: {version}", *told])
            self.assertEqual(run("dpkg-deb", "--extract", file, out).returncode, 0)
        self.assertEqual(run(f"{out}/usr/bin/zirofen", "--version").stdout, f"{self.program.line()}\n")
        self.helpers_run(f"{out}/usr/bin", f"{out}/{package.DOCS}/examples/delegation.toml")
        # the module finds the program on the PATH, where no library is
        asking = "import zirofen; print(zirofen.version(), zirofen.asked().name)"
        environment = {"PATH": f"{out}/usr/bin", "PYTHONPATH": f"{out}/usr/lib/python3/dist-packages", "ZIROFEN_LIBRARY": "/none"}
        said = run(sys.executable, "-B", "-c", asking, env=environment)
        self.assertEqual(said.stdout, f"{self.program.line()} {out}/usr/bin/zirofen\n", said.stderr)

    def debian_file(self, name, kind="amd64"):
        [found] = [it for it in os.listdir(self.made) if it.startswith(f"{name}_") and it.endswith((f"_{kind}.deb", "_all.deb"))]
        return f"{self.made}/{found}"

    def test_packages_of_the_library(self):
        """Of each kind of processor, as dpkg reads them."""
        if self.source != package.RELEASED or not package.LIBRARY.text():
            self.skipTest("there is no library for C beside the program")
        version = f"{self.program.version}-{package.REVISION}"
        for machine, it in linked.MACHINES.items():
            triplet, out = f"{machine}-linux-gnu", f"{self.folder.name}/library-{machine}"
            for name, told in (("libzirofen0", []), ("libzirofen-dev", [f"Depends: libzirofen0 (= {version})"])):
                file = self.debian_file(name, it.debian)
                said = run("dpkg-deb", "--field", file, "Package", "Version", "Architecture", "Multi-Arch", "Depends")
                self.assertEqual(said.stdout.splitlines(), [f"Package: {name}", f"Version: {version}", f"Architecture: {it.debian}", "Multi-Arch: same", *told])
                self.assertEqual(run("dpkg-deb", "--extract", file, out).returncode, 0)
            for name, kind in (("libzirofen.so", "shared"), ("libzirofen.so.0", "shared"), ("libzirofen.a", "static")):
                with open(f"{out}/usr/lib/{triplet}/{name}", "rb") as file:
                    self.assertEqual(hashlib.sha256(file.read()).hexdigest(), package.LIBRARY.says(program.key_of(kind, machine)))
            said = run("dpkg-deb", "--info", self.debian_file("libzirofen0", it.debian), "symbols", "shlibs", "triggers").stdout
            self.assertEqual(re.findall(r"^ (\w+)@ZIROFEN_0 ", said, re.M), ["ZIROFEN_0", "zirofen_run"])
            found = run("pkg-config", "--cflags", "--libs", "zirofen", env={**os.environ, "PKG_CONFIG_LIBDIR": f"{out}/usr/lib/{triplet}/pkgconfig",
                                                                            "PKG_CONFIG_SYSROOT_DIR": out}).stdout
            self.assertEqual(found.split(), [f"-I{out}/usr/include", f"-L{out}/usr/lib/{triplet}", "-lzirofen"])
        # the names that the shared one has are those that its file of symbols names
        with open(f"{TOP}/runtime/library.map", encoding="ascii") as text:
            self.assertEqual(re.findall(r"^\s+(\w+);$", text.read(), re.M), ["zirofen_run"])

    def test_each_kind_of_processor_has_its_program(self):
        """And nothing else is of a kind."""
        found = {}
        for machine in package.machines(self.source):
            data = members(self.archive(f"_{linked.MACHINES[machine].debian}.deb"))
            with tarfile.open(fileobj=io.BytesIO(data["data.tar.xz"])) as files:
                found[machine] = {it.name: files.extractfile(it).read() for it in files if it.isfile()}
            with tarfile.open(fileobj=io.BytesIO(self.archive(f"{machine}.tar.gz"))) as files:
                [program] = [it for it in files if it.name.endswith("/usr/bin/zirofen")]
                self.assertEqual(files.extractfile(program).read(), found[machine]["./usr/bin/zirofen"])
            # elf(5): the machine
            kind = {62: "x86_64", 183: "aarch64"}[int.from_bytes(found[machine]["./usr/bin/zirofen"][18:20], "little")]
            self.assertEqual((kind, hashlib.sha256(found[machine]["./usr/bin/zirofen"]).hexdigest()),
                             (machine, package.Program(self.source, machine).sum))
        for one, other in itertools.combinations(found.values(), 2):
            self.assertEqual({name for name in one | other if one.get(name) != other.get(name)}, {"./usr/bin/zirofen"})

    def test_each_file_is_in_one_package(self):
        """And the program's needs no Python, but to read an example."""
        listed = {}
        for name in ("zirofen", "zirofen-host"):
            said = run("dpkg-deb", "--contents", self.debian_file(name)).stdout
            listed[name] = {line.split()[5][2:] for line in said.splitlines() if not line.endswith("/")}
        self.assertEqual(listed["zirofen"] & listed["zirofen-host"], set())
        self.assertLessEqual(set(self.files), listed["zirofen"] | listed["zirofen-host"])
        run_by_python = {path for path in listed["zirofen"] if path.endswith(".py")} - {"usr/share/doc/zirofen/examples/before.py"}
        self.assertFalse([*run_by_python, *(path for path in listed["zirofen"] if "systemd" in path or path.startswith("etc/"))])
        self.assertIn("usr/share/doc/zirofen/NEWS.Debian.gz", listed["zirofen"])

    def test_the_archive_works_wherever_it_is_unpacked(self):
        """In a folder with a blank, for nobody, as its README says."""
        with tempfile.TemporaryDirectory() as room:
            os.chmod(room, 0o755)
            with tarfile.open(fileobj=io.BytesIO(self.archive(f"{os.uname().machine}.tar.gz"))) as files:
                files.extractall(f"{room}/a blank")
            [top] = os.listdir(f"{room}/a blank")
            where = f"{room}/a blank/{top}"
            as_nobody = ["setpriv", "--reuid", "65534", "--regid", "65534", "--clear-groups"] if os.geteuid() == 0 else []
            with open(f"{where}/README", encoding="ascii") as text:
                commands = [line.strip() for line in text if line.startswith("    usr/bin/") and "--tree" in line]
            self.assertEqual(len(commands), 2)
            for command, first in zip(commands, ("contained\n", "UID ")):
                said = run(*as_nobody, "sh", "-c", command, cwd=where, env={"PATH": "/usr/bin:/bin"})
                self.assertEqual((said.returncode, said.stderr, said.stdout[:len(first)]), (0, "", first))
            said = run(*as_nobody, f"{where}/usr/bin/zirofen-host", "check", "--help", cwd="/", env={"PATH": "/usr/bin:/bin"}).stdout
            self.assertIn(f"{where}/usr/share/doc/zirofen/docs/REPORTS.md", re.sub(r"\s+", " ", said))

    def fenced(self, kind):
        """The blocks of a kind in the page for pipelines."""
        with open(f"{TOP}/docs/CI.md", encoding="ascii") as text:
            return re.findall(rf"^```{kind}\n(.*?)^```$", text.read(), re.M | re.S)

    def jobs(self):
        """The lines of each job: behind `run: |` those that are indented further, behind `script:` those of its list."""
        github, gitlab = self.fenced("yaml")[:2]
        runs = [block for _, block in re.findall(r"^( +)run: \|\n((?:\1 +.*\n)+)", github, re.M)]
        [script] = re.findall(r"^  script:\n((?:    - .*\n)+)", gitlab, re.M)
        return {"zirofen.sarif": "".join(runs), "zirofen.xml": re.sub("^    - ", "", script, flags=re.M)}

    def test_the_jobs_of_the_page_for_pipelines(self):
        """They fail on a tree that escapes, and pass on one that holds; the report is left both times."""
        for tree, status, told in (("delegation-limit-writable", 1, "escapes/limit-file"), ("delegation", 0, None)):
            for left, lines in self.jobs().items():
                with self.subTest(tree, left=left), tempfile.TemporaryDirectory() as room:
                    # of several the newest is taken
                    for version_of, content in (("0.9.0", b"none"), ("0.10.0", self.archive(f"{os.uname().machine}.tar.gz"))):
                        with open(f"{room}/zirofen-{version_of}-linux-{os.uname().machine}.tar.gz", "wb") as out:
                            out.write(content)
                    shutil.copy(f"{TOP}/examples/{tree}.toml", f"{room}/tree.toml")
                    ended = run("bash", "-e", "-c", lines, cwd=room, env={"PATH": "/usr/bin:/bin"})
                    self.assertEqual((ended.returncode, ended.stderr), (status, ""))
                    with open(f"{room}/{left}", encoding="ascii") as text:
                        report = text.read()
                    if left.endswith("sarif"):
                        results = json.loads(report)["runs"][0]["results"]
                        self.assertEqual([each["ruleId"] for each in results], [told] if told else [])
                    else:
                        self.assertEqual("<failure" in report, bool(status))

    def recipe_ends(self, room, tree, *words):
        """What a recipe of the page ends with where the program of each host judges a tree in place of it."""
        os.makedirs(f"{room}/bin", exist_ok=True)
        for name, does in (("ssh", '[ "$1" = -n ]; shift 2; exec "$@"'),
                           ("zirofen-host", f'exec {TOP}/host/zirofen-host "$@" --tree {TOP}/examples/{tree}.toml')):
            with open(f"{room}/bin/{name}", "w", encoding="ascii") as out:
                out.write(f"#!/bin/sh\n{does}\n")
            os.chmod(out.name, 0o755)
        return run(*words, cwd=room, env={**os.environ, "PATH": f"{room}/bin:/usr/bin:/bin", "HOME": room})

    def test_the_recipe_for_ssh(self):
        with tempfile.TemporaryDirectory() as room:
            with open(f"{room}/hosts", "w", encoding="ascii") as out:
                out.write("web1\nweb2\n")
            [recipe] = self.fenced("sh")
            ended = self.recipe_ends(room, "delegation-limit-writable", "bash", "-c", recipe)
            self.assertEqual(ended.stdout, "web1: status 1\nweb2: status 1\n")
            with open(f"{room}/web2.json", encoding="ascii") as text:
                self.assertEqual(json.load(text)["status"], 1)

    def test_the_recipe_for_ansible(self):
        """On the machine itself, by Debian's ansible."""
        with tempfile.TemporaryDirectory() as room:
            with open(f"{room}/check.yml", "w", encoding="ascii") as out:
                out.write(self.fenced("yaml")[2].replace("become: true", "gather_facts: false"))
            for tree, status in (("delegation-limit-writable", 2), ("delegation", 0)):
                ended = self.recipe_ends(room, tree, "ansible-playbook", "-i", "localhost,", "-c", "local", "check.yml")
                self.assertEqual(ended.returncode, status, ended.stdout + ended.stderr)

    def helpers_run(self, folder, tree):
        """The installed helpers ask the installed program, and draw what it answered."""
        environment = {**os.environ, "ZIROFEN": f"{folder}/zirofen"}
        said = run(f"{folder}/zirofen-host", "--version", env=environment)
        helper = f"zirofen-host {version.VERSION} ({version.sum_of(PACKAGE)})"
        self.assertEqual((said.stdout, said.stderr), (f"{helper}\n{self.program.line()}\n", ""))
        checked = run(f"{folder}/zirofen-host", "check", "--json", "--tree", tree, env=environment)
        found = json.loads(checked.stdout)
        self.assertEqual((found["program"], found["helper"], checked.stderr), (self.program.line(), helper, ""))
        with open(f"{self.folder.name}/report.json", "w", encoding="ascii") as out:
            out.write(checked.stdout)
        self.assertIn("<!DOCTYPE html>", run(f"{folder}/zirofen-host", "page", out.name).stdout)

    def test_lintian_has_nothing_above_information(self):
        packages = [f"{self.made}/{it}" for it in sorted(os.listdir(self.made)) if it.endswith(".deb")]
        said = run("lintian", "--allow-root", *packages)
        self.assertEqual([line for line in said.stdout.splitlines() if line[:2] in ("E:", "W:")], [], said.stderr)

    def page(self, path):
        return gzip.decompress(self.files[f"usr/share/man/{path}.gz"].data).decode()

    def shown(self, path):
        """A page as it is read, without its breaks of lines."""
        how = {"input": self.page(path), "capture_output": True, "text": True}
        said = subprocess.run(["groff", "-man", "-Tutf8", "-P-cbou", "-rLL=400n", "-rHY=0"], **how)
        self.assertEqual(said.stderr, "", path)
        return re.sub(r"\s+", " ", said.stdout)

    def test_pages_say_what_help_and_docs_say(self):
        for path, help_of, names in (("man1/zirofen.1", self.program.help, self.program.commands()),
                                     ("man8/zirofen-host.8", package.host_help, package.helpers())):
            shown = self.shown(path)
            for name in names:
                if "man8" in path:
                    shown += self.shown(f"man8/zirofen-host-{name}.8")
                said = package.helps.parsed(help_of(name))
                self.assertTrue(said.usage and said.paragraphs and said.status and said.lists["options"], name)
                told = [word for entries in said.lists.values() for entry in entries for word in entry]
                for words in (said.usage, said.status, *said.paragraphs, *told):
                    self.assertIn(re.sub(r"\s+", " ", words.replace("`", "")), shown)
        shown = self.shown("man5/zirofen-tree.5")
        for word in re.findall(r"^\| `([^`|]+)`", package.manual.section(package.docs("FORMATS.md"), "Tree text"), re.M):
            self.assertIn(word, shown)

    def test_pages_are_manual_pages(self):
        """By mandoc and man, in 78 columns, with the sections that one looks for and no mark of Markdown."""
        of_commands = [f"man8/zirofen-host-{name}.8" for name in package.helpers()]
        for path in ("man1/zirofen.1", "man5/zirofen-tree.5", "man5/zirofen-report.5", "man8/zirofen-host.8", *of_commands):
            with self.subTest(path):
                file = f"{self.folder.name}/{os.path.basename(path)}"
                with open(file, "w", encoding="ascii") as out:
                    out.write(self.page(path))
                said = run("mandoc", "-Tlint", file)
                self.assertEqual((said.returncode, said.stdout, said.stderr), (0, "", ""))
                said = run("man", "--warnings", "-l", file, env={**os.environ, "MANWIDTH": "78", "LC_ALL": "C.UTF-8"})
                self.assertEqual((said.returncode, said.stderr), (0, ""))
                self.assertEqual([line for line in said.stdout.splitlines() if len(line) > 78], [])
                self.assertNotRegex(said.stdout, r"`|\*\*|\*(Means|Stays|Subtrees)\*|\]\(")
                if path in ("man1/zirofen.1", "man8/zirofen-host.8"):
                    wanted = ["SYNOPSIS", "DESCRIPTION", "OPTIONS", "EXIT STATUS", "ENVIRONMENT", "FILES", "EXAMPLES"]
                    self.assertEqual([head for head in re.findall(r"^([A-Z ]+)$", said.stdout, re.M) if head in wanted], wanted)
        self.assertIn("hugetlb.*", self.shown("man8/zirofen-host.8"))

    def test_completions_are_whole_sentences(self):
        for known in (package.completions.read(self.program.help), package.completions.read_helpers(package.host_help)):
            for name, (_, options) in known.items():
                for option in options:
                    self.assertNotRegex(option.told, r"^$|,$|\b(the|a|of|(?<!lets )in|and|or|with|by)$", f"{name} {option.name}")
        self.assertIn("that cgroup, its ancestors and what is inside it, and no more",
                      self.files["usr/share/fish/vendor_completions.d/zirofen-host.fish"].data.decode())

    def test_completions_have_each_command_and_option(self):
        known = package.completions.read(self.program.help)
        self.assertEqual(list(known), self.program.commands())
        for name, (_, options) in known.items():
            wanted = set(re.findall(r"^ +(?:-\w, )?(--[\w-]+)", self.program.help(name).split("Options:")[1], re.M))
            self.assertEqual({it.name for it in options}, wanted)

        known = package.completions.read_helpers(package.host_help)
        self.assertEqual(list(known), package.helpers())
        for name, (_, options) in known.items():
            wanted = set(re.findall(r"^  (?:-\w, )?(--[\w-]+)", package.host_help(name).split("options:")[1], re.M))
            self.assertEqual({it.name for it in options}, wanted)

    def complete(self, shell, *words, program="zirofen"):
        """What a shell offers behind these words of a command line."""
        files = {it: path for path in self.files for it in ("bash", "zsh", "fish")
                 if f"/{it}" in path and "completions" in path and ("host" in path) == ("host" in program)}
        source = f"{self.folder.name}/{shell}"
        with open(source, "wb") as out:
            out.write(self.files[files[shell]].data)
        if shell == "fish":
            said = run("fish", "-c", f"source {source}; complete -C '{program} {' '.join(words)}'").stdout
            return {line.split("\t")[0] for line in said.splitlines()}
        listed = " ".join(f"'{it}'" for it in (program, *words))
        code = f". {source}; COMP_WORDS=({listed}); COMP_CWORD={len(words)}; _{program.replace('-', '_')}; printf '%s\\n' \"${{COMPREPLY[@]}}\""
        return set(run("bash", "-c", code).stdout.split())

    def test_completions_are_offered_by_real_shells(self):
        has_format = "--format" in self.program.help("check")
        for shell in ("bash", "fish"):
            with self.subTest(shell):
                self.assertEqual(self.complete(shell, "check", "--format", ""), {"lines", "json"} if has_format else set())
                self.assertLessEqual({"may", "check", "audit", "replay"}, self.complete(shell, ""))
                self.assertLessEqual({"--uid", "--subtree", "--tree"}, self.complete(shell, "check", "--"))
                self.assertNotIn("--subtree", self.complete(shell, "may", "--"))
                values = {("check", "--format", ""): {"text", "json", "sarif", "junit", "metrics"}, ("fleet", "--format", ""): {"text", "json", "metrics"},
                          ("check", "--mends", ""): {"shell", "systemd"}, ("plan", "--print", ""): {"lines", "text"},
                          ("check", "--tree-format", ""): {"2", "4"}, ("tree", "--colour", ""): {"auto", "always", "never"}}
                for typed, wanted in values.items():
                    self.assertEqual(self.complete(shell, *typed, program="zirofen-host"), wanted, typed)
                self.assertIn("root", self.complete(shell, "ask", "ro", program="zirofen-host"))
        for path in (path for path in self.files if "zsh" in path):
            with open(f"{self.folder.name}/_zirofen", "wb") as out:
                out.write(self.files[path].data)
            self.assertEqual(run("zsh", "-n", f"{self.folder.name}/_zirofen").stderr, "")

    def test_the_copyright_names_the_toolchain_of_the_program(self):
        for name in ("zirofen", "zirofen-host", "libzirofen0"):
            legal = next(file for file in package.legal_files(self.program, name) if file.path.endswith("/copyright"))
            self.assertIn(f" built with, {self.program.manifest['kit'].split(' ')[0]}, and with no C library", legal.data.decode())

    def test_the_version_is_the_first_of_the_changes(self):
        with open(f"{TOP}/CHANGELOG.md", encoding="ascii") as text:
            self.assertEqual(re.search(r"^## (\S+),", text.read(), re.M)[1], self.program.version)

    def test_what_help_names_is_installed(self):
        for words in ((), *((name,) for name in self.program.commands())):
            for path in re.findall(r"/usr/share/\S+", self.program.help(*words)):
                self.assertIn(path.strip("/.,"), {"/".join(it.split("/")[:end]) for it in self.files for end in range(1, 9)})
            for name, number in re.findall(r"\b(zirofen[a-z-]*)\((\d)\)", self.program.help(*words)):
                self.assertIn(f"usr/share/man/man{number}/{name}.{number}.gz", self.files)
            for path in re.findall(r"\b(?:docs|examples)/[\w.-]*", self.program.help(*words)):
                self.assertTrue(any(it.startswith(f"{package.DOCS}/{path}") for it in self.files), path)

    def test_what_the_page_names_of_json_is_installed(self):
        self.assertIn("/usr/share/doc/zirofen/docs/answers.schema.json", self.page("man1/zirofen.1").replace("\\-", "-"))
        self.assertIn("usr/share/doc/zirofen/docs/answers.schema.json", self.files)

    def test_what_the_helpers_help_names_is_installed(self):
        for name in package.helpers():
            said = package.host_help(name)
            self.assertNotRegex(said, r"\b(host|docs|examples)/")
            for page, number in re.findall(r"\b(zirofen[a-z-]*)\((\d)\)", said):
                self.assertIn(f"usr/share/man/man{number}/{page}.{number}.gz", self.files)

    def test_what_the_helpers_page_names_is_installed(self):
        pages = self.page("man8/zirofen-host.8") + self.page("man5/zirofen-report.5")
        page = re.sub(r"\\f[BR]", "", pages).replace("\\-", "-")
        self.assertNotRegex(page, r"(?<![\w/])(host|docs|examples|bench|packaging)/")
        self.assertNotIn("/opt/", page)
        there = {"/".join(it.split("/")[:end]) for it in self.files for end in range(1, 9)}
        for path in re.findall(r"/usr/share/[\w./-]*\w", page):
            self.assertIn(path.strip("/"), there)
        self.assertIn("report.schema.json", page)

    def test_the_helpers_tell_their_version_and_the_programs(self):
        environment = {**os.environ, "ZIROFEN": self.program.path}
        said = run(sys.executable, f"{TOP}/host/zirofen-host", "--version", env=environment).stdout
        self.assertEqual(said, f"zirofen-host {version.VERSION} ({version.sum_of(PACKAGE)})\n{self.program.line()}\n")


if __name__ == "__main__":
    unittest.main()
