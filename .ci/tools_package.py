#!/usr/bin/env python3
"""Tests `tools/package`: makes a package, unpacks and installs it into fresh roots, and runs the tools from there.

usage: .ci/tools_package.py PROGRAM

It needs Debian's packages dpkg and dpkg-dev. If one is missing, that is said, and only the modules are tested. Tests
that need lintian, man-db, pyosmium, or to be root are left out without it, which is said.
"""
import atexit
import functools
import gzip
import hashlib
import json
import os
import re
import resource
import shutil
import subprocess
import sys
import tempfile
import unittest
from pathlib import Path

from tools_package_parts import Parts, shown_page, there  # noqa: F401 (the tests of the modules are run too)
from tools_parts import HAS_OSMIUM, PYTHON, TOOLS, TOP, FolderTest, needs_osmium
from tools_routes import small_certificate, small_instance, small_key

from carp_package import contents, origin

PACKAGE = os.path.join(TOOLS, "package")
PROGRAM = ""
COMMIT, SECONDS = "0123456789abcdef0123456789abcdef01234567", 1_700_000_000
# 14 November 2023, 22:13:20 UTC, as `date -u -d @1700000000` has it.
VERSION = "0.20231114.221320+0123456789ab-1"
NAME = f"carp_{VERSION}_amd64.deb"
MAKES = all(map(shutil.which, ("dpkg-deb", "dpkg-shlibdeps")))
makes = unittest.skipUnless(MAKES, "dpkg or dpkg-dev is missing")
IS_ROOT = os.geteuid() == 0


def program_usage() -> list[str]:
    """Returns the lines that the program writes for wrong words."""
    return subprocess.run([PROGRAM], capture_output=True, text=True).stdout.splitlines()


def environment(**more: str) -> dict[str, str]:
    """Returns the environment of a maker of packages, without what could name another program or commit."""
    kept = {name: os.environ[name] for name in ("PATH", "HOME", "TMPDIR") if name in os.environ}
    return {**kept, "SOURCE_DATE_EPOCH": str(SECONDS), **more}


def make(tool: str, folder: str, *words: str, umask: int = 0o022, **more: str) -> subprocess.CompletedProcess[str]:
    """Makes a package in a folder."""
    return subprocess.run(
        [tool, "--out", ".", *words], cwd=folder, capture_output=True, text=True, env=environment(**more), umask=umask
    )


def copy_checkout(target: str) -> None:
    """Copies what a package is made of, newer than it is."""
    parts = [f"{path.relative_to(TOP)}" for path in Path(TOP, "crates").glob("*/*") if path.name in origin.PARTS]
    for name in ("tools", "docs", *parts):
        shutil.copytree(os.path.join(TOP, name), os.path.join(target, name), copy_function=shutil.copyfile)
    for name in ("README.md", "crates.txt"):
        shutil.copyfile(os.path.join(TOP, name), os.path.join(target, name))
    for path in Path(TOP, "tools").glob("**/*"):
        os.chmod(os.path.join(target, path.relative_to(TOP)), path.stat().st_mode & 0o700)


def hiding() -> list[str]:
    """Returns the words before a command that hide the checkout from it, if that may be done."""
    words = ["unshare", "--mount", "sh", "-c", 'mount -t tmpfs none "$0" && exec "$@"', TOP]
    inside = tempfile.gettempdir().startswith(TOP + os.sep) or not shutil.which("unshare")
    return [] if inside or subprocess.run([*words, "true"], capture_output=True).returncode else words


@functools.cache
def make_once() -> tuple[str, str, list[str]]:
    """Makes the package that all tests share; returns its path, the root that it is unpacked into, and `hiding()`."""
    room = tempfile.TemporaryDirectory()
    atexit.register(room.cleanup)
    done = make(PACKAGE, room.name, "--commit", COMMIT, "--program", PROGRAM)
    assert (done.returncode, done.stdout, done.stderr) == (0, f"./{NAME}\n", ""), done.stderr or done.stdout
    made, root = os.path.join(room.name, NAME), os.path.join(room.name, "root")
    subprocess.run(["dpkg-deb", "-x", made, root], check=True)
    return made, root, hiding()


def listing(root: str) -> list[tuple[str, int]]:
    """Returns the paths below a root with their modes, without what dpkg keeps of packages."""
    paths = (path for path in Path(root).glob("**/*") if path.relative_to(root).parts[0] != "var")
    return sorted((str(path), path.lstat().st_mode) for path in paths)


class Made(FolderTest):
    """Tests of one package, which is made once and unpacked into a fresh root."""

    made: str
    root: str
    hidden: list[str]

    @classmethod
    def setUpClass(cls) -> None:
        if not MAKES:
            raise unittest.SkipTest("dpkg or dpkg-dev is missing")
        cls.made, cls.root, cls.hidden = make_once()

    def path(self, *names: str) -> str:
        """Returns a path in the root."""
        return os.path.join(self.root, *names)

    def read(self, *names: str) -> str:
        """Returns a text of the root."""
        with open(self.path(*names), encoding="utf-8") as file:
            return file.read()

    def installed(self, *words: str) -> subprocess.CompletedProcess[str]:
        """Runs a command of the root where the checkout is hidden."""
        known = {"PATH": f"{self.path('usr', 'bin')}:/usr/bin:/bin", "HOME": os.getcwd(), "LC_ALL": "C.UTF-8"}
        call = [*self.hidden, *words]
        return subprocess.run(call, capture_output=True, text=True, encoding="utf-8", env=known, timeout=120)

    def answers(self, *words: str) -> str:
        """Returns what a command of the root writes, which has to end with 0 or 1 and without a message."""
        done = self.installed(*words)
        self.assertEqual((done.stderr, done.returncode in (0, 1)), ("", True), words)
        return done.stdout

    def tools(self) -> list[str]:
        """Returns the names of the tools of the root."""
        return sorted(name for name in os.listdir(self.path("usr/bin")) if name != "carp")

    def roff(self, name: str) -> str:
        """Returns a man page as it is packed."""
        with gzip.open(self.path(f"usr/share/man/man1/{name}.1.gz"), "rt", encoding="utf-8") as file:
            return file.read()

    def small_town(self) -> None:
        """Writes an instance, a certificate and a key that were made by hand."""
        town = small_key()
        for name, text in (("town.dat", small_instance(town)), ("town.cert", small_certificate(town))):
            self.write(name, text)
        self.write("town.key", json.dumps(town))


class Archive(Made):
    """What stands in the package."""

    def test_the_same_input_gives_the_same_bytes(self) -> None:
        copy_checkout(os.path.join(os.getcwd(), "copy"))
        os.mkdir("out")
        tool = os.path.join(os.getcwd(), "copy", "tools", "package")
        other = {"CARP": PROGRAM, "TZ": "Asia/Tokyo", "LC_ALL": "C", "PYTHONHASHSEED": "7"}
        done = make(tool, "out", "--commit", COMMIT, umask=0o077, **other)
        self.assertEqual((done.returncode, done.stderr), (0, ""))
        with open(self.made, "rb") as first, open(os.path.join("out", NAME), "rb") as second:
            self.assertTrue(first.read() == second.read(), "two packages of the same input differ")

    def test_it_has_no_script_and_gives_no_rights(self) -> None:
        listed = subprocess.run(["dpkg-deb", "-c", self.made], capture_output=True, text=True, check=True).stdout
        rows = [line.split() for line in listed.splitlines()]
        self.assertEqual({row[1] for row in rows}, {"root/root"})
        self.assertEqual({row[0] for row in rows}, {"drwxr-xr-x", "-rwxr-xr-x", "-rw-r--r--", "lrwxrwxrwx"})
        self.assertEqual({" ".join(row[3:5]) for row in rows}, {"2023-11-14 22:13"})
        subprocess.run(["dpkg-deb", "-e", self.made, "control"], check=True)
        self.assertEqual(sorted(os.listdir("control")), ["control", "md5sums"])
        sums = os.path.join(os.getcwd(), "control", "md5sums")
        self.assertEqual(subprocess.run(["md5sum", "--quiet", "-c", sums], cwd=self.root).returncode, 0)
        files = [path for path in Path(self.root).glob("**/*") if path.is_file() and not path.is_symlink()]
        with open(sums, encoding="utf-8") as file:
            self.assertEqual(len(file.readlines()), len(files))

    def test_the_control_file_names_packages(self) -> None:
        said = subprocess.run(["dpkg-deb", "-f", self.made], capture_output=True, text=True, check=True).stdout
        fields = dict(re.findall(r"^(\S+): (.*)$", said, re.MULTILINE))
        wanted = {"Package": "carp", "Version": VERSION, "Architecture": "amd64"}
        self.assertEqual({name: fields[name] for name in wanted}, wanted)
        library = re.search(r"libc6 \(>= 2\.(\d+)\)", fields["Depends"])
        assert library is not None, fields
        with open(PROGRAM, "rb") as file:
            needed = max(map(int, re.findall(rb"\0GLIBC_2\.(\d+)", file.read())))
        self.assertEqual(int(library[1]), needed)
        self.assertIn("python3 (>= 3.11)", fields["Depends"].split(", "))
        recommended = "python3-pyosmium graphviz python3-matplotlib python3-distributed python3-scipy libjs-leaflet"
        self.assertEqual(sorted(fields["Recommends"].split(", ")), sorted(recommended.split()))

    def test_the_version_tells_the_checksums(self) -> None:
        found = "find crates/*/src crates/*/specs crates/*/proofs -type f; echo crates.txt"
        script = f"{{ {found}; }} | LC_ALL=C sort | xargs sha256sum | sha256sum"
        crates = subprocess.run(["sh", "-c", script], cwd=TOP, capture_output=True, text=True, check=True)
        with open(PROGRAM, "rb") as file:
            program = file.read()
        with open(self.path("usr/bin/carp"), "rb") as file:
            self.assertTrue(file.read() == program, "the program is not the one that was named")
        wanted = [
            f"carp {VERSION}", f"commit {COMMIT}", "time 2023-11-14T22:13:20Z",
            f"crates sha256 {crates.stdout.split()[0]}",
            f"program sha256 {hashlib.sha256(program).hexdigest()} (named by whoever made the package)",
        ]
        self.assertEqual(self.read("usr/share/doc/carp/version").splitlines(), wanted)
        self.assertTrue(self.tools())
        for tool in self.tools():
            done = self.installed(tool, "--version")
            first = f"{tool} {VERSION}"
            self.assertEqual((done.returncode, done.stderr, done.stdout.splitlines()), (0, "", [first, *wanted[1:]]))

    def test_pages_and_the_sample_are_there(self) -> None:
        for name, kept in (
            ("docs/FORMATS.md", "FORMATS.md"), ("docs/GLOSSARY.md", "GLOSSARY.md"),
            ("tools/samples/town.osm", "examples/town.osm"),
        ):
            with open(os.path.join(TOP, name), encoding="utf-8") as file:
                self.assertEqual(self.read("usr/share/doc/carp", kept), file.read())
        self.assertIn("No licence is stated", self.read("usr/share/doc/carp/copyright"))
        built = ("streets", "routes", "draw", "longer", "city")
        self.assertEqual(self.tools(), sorted(f"carp-{name}" for name in built if os.path.exists(f"{TOOLS}/{name}")))

    def test_lintian_has_no_error(self) -> None:
        if not there("lintian", "lintian"):
            return
        known = {**os.environ, "LC_ALL": "C.UTF-8"}
        done = subprocess.run(["lintian", "--fail-on", "error", self.made], capture_output=True, text=True, env=known)
        self.assertEqual((done.returncode, re.findall(r"^E: .*$", done.stdout, re.MULTILINE)), (0, []), done.stderr)


class Installed(Made):
    """What runs from a fresh root, without the checkout."""

    def test_routes_and_drawings_are_those_of_the_checkout(self) -> None:
        self.small_town()
        summary = self.answers("carp-routes", "town.dat", "town.cert", "town.key", "--out", "routes")
        drawn = self.answers("carp-draw", "town.dat", "town.cert", "town.key")
        words = ["town.dat", "town.cert", "town.key"]
        self.assertEqual(summary, self.call(f"{TOOLS}/routes", *words, "--out", "others").stdout)
        self.assertEqual(drawn, self.call(f"{TOOLS}/draw", *words).stdout)
        self.assertIn("<svg ", drawn)
        self.assertEqual(sorted(os.listdir("routes")), sorted(os.listdir("others")))
        for name in (name for name in os.listdir("routes") if name != "index.html"):
            with open(f"routes/{name}", "rb") as one, open(f"others/{name}", "rb") as other:
                self.assertEqual(one.read(), other.read(), name)

    def test_a_run_as_long_as_there_is_time(self) -> None:
        if "carp-longer" in self.tools():
            self.small_town()
            self.answers("carp-longer", "town.dat", "new.cert", "--minutes", "0.05")
            self.assertIn("accepted", self.answers("carp", "check", "town.dat", "new.cert"))

    def test_a_city(self) -> None:
        needed = subprocess.run([PYTHON, "-c", "import distributed, scipy"], capture_output=True).returncode == 0
        if "carp-city" in self.tools() and needed:
            self.small_town()
            done = self.installed("carp-city", "town.dat", "--out", "plan", "--workers", "1", "--minutes", "1")
            self.assertEqual(done.returncode, 0, done.stderr)
            self.assertIn("plan.json", os.listdir("plan/routes"))

    @needs_osmium
    def test_the_examples_of_the_man_page(self) -> None:
        lines = self.roff("carp").split(".SH EXAMPLES\n.nf\n")[1].split("\n.fi")[0].replace("\\-", "-").splitlines()
        self.assertEqual({line.split()[0] for line in lines}, {"carp-streets", "carp", "carp-routes"})
        for line in lines:
            self.answers(*line.replace(" /usr", f" {self.path('usr')}").split())
        for name in ("town.dat", "town.key"):
            with open(name, "rb") as file:
                kept = file.read()
            self.call(f"{TOOLS}/streets", f"{TOOLS}/samples/town.osm", *lines[0].split()[2:6], "other.dat", "other.key")
            with open(name.replace("town", "other"), "rb") as file:
                self.assertEqual(kept, file.read())
        self.assertIn("summary.txt", os.listdir("routes"))

    def test_what_is_said_names_what_is_installed(self) -> None:
        self.small_town()
        without = {"PATH": "/usr/bin:/bin", "HOME": os.getcwd()}
        words = [self.path("usr/bin/carp-routes"), "town.dat", "town.cert", "town.key", "--out", "routes"]
        if shutil.which("carp", path=without["PATH"]) is None:
            said = subprocess.run(words, capture_output=True, text=True, env=without)
            self.assertEqual(said.returncode, 1)
            self.assertRegex(said.stderr, "^routes: no program at .*; put carp on the path, or name it in CARP$")
        texts = [self.read(str(path)) for path in Path(self.root).glob("usr/share/carp/**/*") if path.is_file()]
        for tool in self.tools():
            done = self.installed(tool, "--help")
            texts.append(done.stdout + done.stderr)
            self.assertIn(tool, texts[-1])
            texts.append(self.roff(tool))
        for text in texts:
            self.assertNotRegex(text, rf"\btools/({'|'.join(contents.TOOLS)})\b|\./carp\b|{re.escape(TOP)}/|env python3")

    def test_wrong_words(self) -> None:
        done = self.installed("carp-routes", "a", "--version")
        self.assertEqual((done.returncode, done.stdout), (2, ""))
        self.assertEqual(self.installed("carp").returncode, 3)

    @unittest.skipUnless(IS_ROOT, "only root installs")
    def test_removal_leaves_nothing(self) -> None:
        self.small_town()
        for name in ("info", "updates", "triggers"):
            os.makedirs(f"fresh/var/lib/dpkg/{name}")
        for name in ("status", "available"):
            self.write(f"fresh/var/lib/dpkg/{name}", "")
        before = listing("fresh")
        dpkg = ["dpkg", f"--root={os.getcwd()}/fresh", "--force-depends"]
        done = self.call(*dpkg, "--install", self.made)
        self.assertEqual(done.returncode, 0, done.stderr)
        self.assertIn(f"Version: {VERSION}", self.call(*dpkg, "--status", "carp").stdout)
        names = [path.removeprefix("fresh/") for path, _ in listing("fresh")]
        self.assertEqual(names, [path.removeprefix(f"{self.root}/") for path, _ in listing(self.root)])
        known = {"PATH": f"{os.getcwd()}/fresh/usr/bin:/usr/bin:/bin", "HOME": os.getcwd()}
        words = ["carp-routes", "town.dat", "town.cert", "town.key", "--out", "routes"]
        self.assertEqual(subprocess.run(words, capture_output=True, env=known).returncode, 0)
        self.assertEqual(self.call(*dpkg, "--purge", "carp").stderr, "")
        self.assertEqual(listing("fresh"), before)


class Told(Made):
    """Man pages and the completion of words."""

    def manual(self, name: str) -> str:
        """Returns a man page as a reader sees it; it has to be free of warnings."""
        text = " ".join(shown_page(self.path(f"usr/share/man/man1/{name}.1.gz")).split())
        self.assertNotIn("warning", text)
        return text

    def options(self, tool: str) -> set[str]:
        """Returns the long options of an installed tool, as the help of the tool in the checkout lists them."""
        helped = self.call(f"{TOOLS}/{tool.removeprefix('carp-')}", "--help").stdout
        listed = re.findall(r"^  (-.*?)(?:  .*)?$", helped, re.MULTILINE)
        return {"--version", *(option for words in listed for option in re.findall(r"--[a-z0-9-]+", words))}

    def test_each_verb_option_and_code_has_its_entry(self) -> None:
        if not there("man", "man-db"):
            return
        text = self.manual("carp")
        calls = [line.removeprefix("usage:").strip() for line in program_usage()]
        self.assertEqual(len(calls), 10)
        for call in calls:
            self.assertEqual(text.count(call), 2, call)
        with open(os.path.join(TOP, "docs", "FORMATS.md"), encoding="utf-8") as file:
            rows = file.read().split("| Answer | Code | Text |\n")[1].split("\n\n")[0].splitlines()[1:]
        codes = text.split("EXIT STATUS")[1].split("ENVIRONMENT")[0]
        for answer, code in (row.split(" | ")[:2] for row in rows):
            entry = re.search(rf" {code} (.*?\.) (?={int(code) + 1} |$)", codes)
            assert entry is not None, code
            self.assertIn(re.sub(r"[`|]|\[([^]]*)\]\[\w*\]", r"\1", answer).strip(), entry[1])
        self.assertEqual(len({row.split(" | ")[1] for row in rows}), 12)

    def test_each_option_of_a_tool_has_its_entry(self) -> None:
        if not there("man", "man-db"):
            return
        for tool in self.tools():
            self.assertIn("OPTIONS", self.manual(tool))
            terms = "".join(re.findall(r"^\.TP\n(.*)$", self.roff(tool), re.MULTILINE)).replace(r"\-", "-")
            self.assertEqual([option for option in self.options(tool) if option not in terms], [], tool)

    def completed(self, *words: str) -> list[str]:
        """Returns what bash offers for the last word, where it has the whole of the completion."""
        called = '"$(complete -p "$1" | sed "s/.*-F \\([^ ]*\\).*/\\1/")"'
        script = f'source "$0"; COMP_WORDS=("$@"); COMP_CWORD=$(($# - 1)); {called}'
        loaded = self.path("usr/share/bash-completion/completions", words[0])
        call = ["bash", "--norc", "-c", f'{script}; printf "%s\\n" "${{COMPREPLY[@]}}"', loaded, *words]
        done = subprocess.run(call, capture_output=True, text=True)
        self.assertEqual(done.stderr, "")
        return done.stdout.split()

    def test_completion_answers(self) -> None:
        verbs = [line.split("carp ")[1].split()[0] for line in program_usage()]
        self.assertEqual(self.completed("carp", ""), verbs)
        self.assertEqual(self.completed("carp", "s"), ["solve", "sheet"])
        self.assertEqual(self.completed("carp", "solve", "a.dat", "a.cert", "--"), ["--turns", "--seed"])
        self.assertEqual(self.completed("carp", "make", "--"), ["--seed"])
        for words in (("carp", "check", "--"), ("carp", "solve", "s"), ("carp-routes", "solve")):
            self.assertEqual(self.completed(*words), [])
        self.assertEqual(self.completed("carp-streets", "--de"), ["--depot", "--demand-per-100m", "--demands"])
        self.assertEqual(self.completed("carp-streets", "--costs", "s"), ["seconds"])
        for tool in self.tools():
            self.assertEqual(set(self.completed(tool, "--")), self.options(tool), tool)


class Refusals(FolderTest):
    """What `tools/package` refuses, with a message and a code; nothing is left behind."""

    def refused(self, message: str, *words: str, status: int = 1, **more: str) -> None:
        done = make(PACKAGE, ".", "--commit", COMMIT, *words, **more)
        self.assertEqual((done.returncode, done.stdout), (status, ""), done.stderr)
        self.assertRegex(done.stderr, f"^package: {message}\n" if status != 2 else f"^package: {message}\nusage: ")
        self.assertEqual(os.listdir("."), self.before)

    def setUp(self) -> None:
        super().setUp()
        self.write("text", "carp")
        os.mkdir("bin")
        # Nothing of Debian's tools is on this path.
        for name in ("env", "python3", "git"):
            if found := shutil.which(name):
                os.symlink(found, f"bin/{name}")
        self.before = os.listdir(".")

    def test_wrong_words(self) -> None:
        self.refused("unrecognized arguments: a.dat", "a.dat", status=2)
        self.refused("unrecognized arguments: --prog x", "--prog", "x", status=2)
        self.refused("argument --commit: 'main' is not a commit of 7 to 40 .*", "--commit", "main", status=2)

    def test_programs_that_are_none(self) -> None:
        self.refused(r"no program at .*/none; .*", "--program", "none")
        self.refused(r"no program at .*/none; .*", CARP="none")
        self.refused("/.*/text is no program for one of these machines: amd64, arm64", "--program", "text")
        self.refused("/.*/bin cannot be read: Is a directory", "--program", "bin", status=6)
        other = os.path.realpath(shutil.which("true") or "")
        self.refused(".* is not carp: it wrote no usage text", "--program", other)

    @makes
    def test_tools_of_debian_that_are_missing(self) -> None:
        words, path = ["--program", PROGRAM], os.path.abspath("bin")
        self.refused("dpkg-shlibdeps is not there; it comes with Debian's package dpkg-dev", *words, PATH=path)
        os.chmod(self.write("bin/dpkg-shlibdeps", "#!/bin/sh\necho shlibs:Depends=libc6\n"), 0o755)
        self.refused("dpkg-deb is not there; it comes with Debian's package dpkg", *words, PATH=path)

    def test_a_time_that_is_none(self) -> None:
        self.refused("SOURCE_DATE_EPOCH is no number of seconds: '-1'", "--program", PROGRAM, SOURCE_DATE_EPOCH="-1")

    def test_folders_and_disks_that_take_nothing(self) -> None:
        for folder in ("none", "text"):
            self.refused(f"{folder} is not a folder", "--program", PROGRAM, "--out", folder, status=7)
        limit = resource.getrlimit(resource.RLIMIT_FSIZE)
        self.addCleanup(resource.setrlimit, resource.RLIMIT_FSIZE, limit)
        resource.setrlimit(resource.RLIMIT_FSIZE, (4096, limit[1]))
        self.refused(".* cannot be written: File too large", "--program", PROGRAM, status=7)


def main() -> None:
    global PROGRAM
    if len(sys.argv) != 2:
        sys.exit("usage: .ci/tools_package.py PROGRAM")
    PROGRAM = os.path.realpath(sys.argv[1])
    if not (os.path.isfile(PROGRAM) and os.access(PROGRAM, os.X_OK)):
        sys.exit(f"tools_package: no program at {PROGRAM}")
    os.environ["CARP"] = PROGRAM
    if not MAKES:
        print("tools_package: dpkg-deb or dpkg-shlibdeps is missing, of Debian's dpkg and dpkg-dev; no package is made")
    if not HAS_OSMIUM:
        print("tools_package: pyosmium is missing, of Debian's package python3-pyosmium; no test reads a map")
    unittest.main(argv=sys.argv[:1])


if __name__ == "__main__":
    main()
