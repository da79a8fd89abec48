"""Tests of the modules on which `tools/package` stands, which `.ci/tools_package.py` runs with its own."""
import os
import re
import shutil
import subprocess
from pathlib import Path

from tools_parts import FolderTest

import carp_run
from carp_package import archive, completion, contents, origin, pages, roff, usage


def there(name: str, package: str) -> bool:
    """Tells if a command is there, and says so if it is not."""
    if shutil.which(name) is None:
        print(f"tools_package: {name} is missing, of Debian's package {package}; what needs it is left out")
        return False
    return True


def shown_page(path: str) -> str:
    """Returns a man page as a reader sees it on wide lines, and then the warnings of it."""
    known = {**os.environ, "LC_ALL": "C.UTF-8", "MANWIDTH": "1000", "MANROFFOPT": "", "MAN_KEEP_FORMATTING": ""}
    words = ["man", "--warnings", "-l", path]
    done = subprocess.run(words, capture_output=True, text=True, encoding="utf-8", env=known)
    return done.stdout.replace("−", "-").replace("‐", "-") + done.stderr


def times_in(line: str, text: str) -> int:
    """Returns how often a line has a text and nothing else: once, or twice if a term and its meaning fit one line."""
    return {text: 1, f"{text} {text}": 2}.get(" ".join(line.split()), 0)


class Parts(FolderTest):
    """The modules by themselves."""

    def test_roff_shows_what_stands(self) -> None:
        quotes = "-a 'b' \"c\" `d` ^~ <e> 50%"
        hostile = [".so /etc/hostname", "'br", "\\fBx\\n(.g", quotes, "Größe 大通り", "...", "\\"]
        unmarked = [text.replace("`", "") for text in hostile]
        section = roff.Section(".de X", list(zip(hostile, unmarked)))
        page = roff.Page("carp-x", "-- \\x", hostile, unmarked, [section], hostile, ["carp"])
        text = roff.page_text(page, "1\"2", "2026-12-02")
        self.assertTrue(text.isascii())
        requests = set(re.findall(r"^[.'](\S*)", text, re.MULTILINE))
        self.assertLessEqual(requests, set("TH SH PP TP HP nh ad PD hy nf fi".split()))
        if not there("man", "man-db"):
            return
        self.write("carp-x.1", text)
        lines = shown_page("./carp-x.1").splitlines()
        for shown in hostile:
            # In the synopsis and the examples, as a term, and without signs of literals as a paragraph and as a meaning.
            wanted = 5 if "`" not in shown else 3
            self.assertEqual(sum(times_in(line, shown) for line in lines), wanted, (shown, lines))
        self.assertNotIn("warning", " ".join(lines))

    def test_help_is_read(self) -> None:
        text = (
            "usage: tools/x [-h] A\n       tools/x --log B\n\nDoes a `b`.\n\nusage: tools/x [-h] A\n\n"
            "More:\n  of it\nhere.\n\n"
            "positional arguments:\n  A\n  B           the b\n\noptions:\n  -h, --help  ends\n"
            "  --many {one,two}\n                        which,\n                        of two\n  --log LOG\n"
        )
        read = usage.help_of(text)
        self.assertEqual(read.usage, ["tools/x [-h] A", "tools/x --log B"])
        self.assertEqual(read.paragraphs, ["Does a `b`.", "More:\n  of it\nhere."])
        entries = {title: [(entry.words, entry.meaning) for entry in found] for title, found in read.sections.items()}
        self.assertEqual(entries["positional arguments"], [("A", ""), ("B", "the b")])
        self.assertEqual(
            entries["options"], [("-h, --help", "ends"), ("--many {one,two}", "which, of two"), ("--log LOG", "")]
        )
        self.assertEqual((read.options, read.choices), (["-h", "--help", "--many", "--log"], {"--many": ["one", "two"]}))
        for bad in ("", "usage: x\n", "Only words.\n"):
            self.assertRaises(carp_run.Refusal, usage.help_of, bad)

    def test_documents_that_lack_something(self) -> None:
        verbs = usage.verbs_of(["usage: carp solve FILE [--turns N]", "       carp check FILE"])
        self.assertEqual([(verb.name, verb.options) for verb in verbs], [("solve", ["--turns"]), ("check", [])])
        readme = "carp solve FILE [--turns N]    tours\n"
        with self.assertRaisesRegex(carp_run.Refusal, "README.md does not say what carp check does"):
            pages.described(readme, verbs)
        with self.assertRaisesRegex(carp_run.Refusal, "has no table of the exit codes"):
            pages.exit_codes("| Answer | Code |\n|---|---|\n| a | 0 |\n")
        head = "| Answer | Code | Text |\n|---|---|---|\n"
        table = head + "| b | 2 | x; the lines above |\n| a [k][l] | 0 | `r` |\n| c | 2 | y |\n"
        said = [("0", "a k: `r`."), ("2", "b: x; the lines that FORMATS.md lists; c: y.")]
        self.assertEqual(pages.exit_codes(table), said)
        self.assertRaises(carp_run.Refusal, usage.verbs_of, ["usage: carp solve FILE", "and more"])
        self.assertIn("carp:*) words='solve check'", completion.completion(verbs, {}))

    def test_tools_that_are_not_there_are_left_out(self) -> None:
        os.makedirs("tools/carp_run/__pycache__")
        for name in ("tools/draw", "tools/dear", "tools/carp_run/a.py", "tools/carp_run/__pycache__/a.pyc"):
            self.write(name, "#!/usr/bin/env python3\nprint('tools/draw, ./carp')\n")
        os.chmod("tools/draw", 0o755)
        found = {file.path: (file.data.decode(), file.runs) for file in contents.tool_files(".")}
        said = "#!/usr/bin/python3\nprint('carp-draw, carp')\n"
        self.assertEqual(found, {"usr/share/carp/draw": (said, True), "usr/share/carp/carp_run/a.py": (said, False)})
        os.mkdir("empty")
        self.assertRaises(carp_run.Refusal, contents.tool_files, "empty")

    def test_everything_gets_one_time(self) -> None:
        archive.lay_out("root", [contents.File("a/b", b"", runs=True)])
        archive.link("root", {"a/c": "b"})
        os.chmod("root/a", 0o700)
        archive.settle("root", 1000)
        found = [os.lstat(path) for path in ("root", "root/a", "root/a/b", "root/a/c")]
        self.assertEqual([status.st_mtime for status in found], [1000] * 4)
        self.assertEqual([status.st_mode & 0o777 for status in found[:3]], [0o755] * 3)

    def test_a_commit_and_its_time(self) -> None:
        with self.assertRaisesRegex(carp_run.Refusal, "^git cannot .*; --commit names "):
            origin.commit_of(".")
        if there("git", "git"):
            who = ["-c", "user.name=n", "-c", "user.email=n@example.org", "-c", "commit.gpgsign=false"]
            known = {**os.environ, "GIT_COMMITTER_DATE": "@1700000000 +0000"}
            for words in (["init", "-q"], [*who, "commit", "-q", "--allow-empty", "-m", "first"]):
                subprocess.run(["git", *words], check=True, env=known)
            with open(f".git/{Path('.git/HEAD').read_text().split()[1]}", encoding="ascii") as file:
                commit = file.read().strip()
            self.assertEqual((origin.commit_of("."), origin.seconds_of(".")), (commit, 1_700_000_000))
            self.write("new", "")
            self.assertEqual(origin.commit_of("."), f"{commit} changed")
            made = origin.Origin(f"{commit} changed", 1_700_000_000, "", "", False)
            self.assertEqual(made.version, f"0.20231114.221320+{commit[:12]}.changed-1")

    def test_a_program_that_is_older_than_its_crates(self) -> None:
        for name, seconds in (("carp", 2000), ("old", 1000), ("same", 2000), ("new", 2001)):
            os.utime(self.write(name, ""), (seconds, seconds))
        origin.refuse_older(".", "carp", ["old", "same"])
        with self.assertRaisesRegex(carp_run.Refusal, "carp is older than new; run ./carp once"):
            origin.refuse_older(".", "carp", ["old", "new"])
