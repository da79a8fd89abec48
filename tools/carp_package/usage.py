"""Reads usage texts: that of the program, and those that `argparse` writes of the tools."""
import ast
import os
import re
import subprocess
import sys
from dataclasses import dataclass, field

import carp_run
from carp_run import Refusal

from carp_package.contents import reworded

VERB = re.compile(r"(?:usage:|      ) carp ([a-z]+)((?: [^ ]+)*)")
ENTRY = re.compile(r"  (\S.*?)(?:  +(\S.*))?")
OPTION = re.compile(r"--?[a-zA-Z][a-z0-9-]*")
CHOICES = re.compile(r"(--[a-z-]+) \{([\w,-]+)\}")


@dataclass(frozen=True)
class Verb:
    """A verb of the program, and the words that follow it."""

    name: str
    words: str

    @property
    def options(self) -> list[str]:
        """The options that the verb takes."""
        return OPTION.findall(self.words)


@dataclass(frozen=True)
class Entry:
    """What the help of a tool says of an operand or of an option with its words."""

    words: str
    meaning: str


@dataclass
class Help:
    """The help of a tool: its usage lines, its paragraphs, and the entries of each section."""

    usage: list[str]
    paragraphs: list[str]
    sections: dict[str, list[Entry]] = field(default_factory=dict)

    @property
    def options(self) -> list[str]:
        """All options, as they are written."""
        return [option for entries in self.sections.values() for entry in entries for option in options_in(entry.words)]

    @property
    def choices(self) -> dict[str, list[str]]:
        """The words that an option takes, for each option that takes only some."""
        words = [entry.words for entries in self.sections.values() for entry in entries]
        return {option: named.split(",") for option, named in CHOICES.findall("\n".join(words))}


def options_in(words: str) -> list[str]:
    """Returns the options of an entry, which stand at its front and behind commas."""
    firsts = [part.split()[0] for part in words.split(", ") if part.split()]
    return [first for first in firsts if OPTION.fullmatch(first)]


def program_usage() -> list[str]:
    """Returns the lines of the program's usage text, which it writes for wrong words."""
    done = carp_run.run()
    if done.code != 3 or not done.text.startswith("usage: carp "):
        raise Refusal(f"{carp_run.program()} is not carp: it wrote no usage text")
    return done.text.splitlines()


def verbs_of(usage: list[str]) -> list[Verb]:
    """Returns the verbs of the program."""
    found = [VERB.fullmatch(line) for line in usage]
    verbs = [Verb(match[1], match[2].strip()) for match in found if match]
    if len(verbs) < len(usage):
        raise Refusal("the usage text of carp has a line that is no call of it")
    return verbs


def help_text(path: str) -> str:
    """Returns what a tool says of itself as an installed one: its help, or its first string if it has no help."""
    # Lines that are not wrapped are read without a guess.
    known = {**os.environ, "COLUMNS": "10000", "LC_ALL": "C.UTF-8", "PYTHONDONTWRITEBYTECODE": "1"}
    done = subprocess.run([sys.executable, path, "--help"], capture_output=True, text=True, encoding="utf-8", env=known)
    if done.returncode == 0:
        return reworded(done.stdout)
    with open(path, encoding="utf-8") as file:
        return reworded(ast.get_docstring(ast.parse(file.read())) or "")


def read_entry(lines: list[str], at: int) -> tuple[Entry, int]:
    """Returns the entry that begins at a line, and the line after it."""
    match = ENTRY.fullmatch(lines[at])
    assert match is not None
    words, meaning = match[1], [match[2] or ""]
    at += 1
    while at < len(lines) and lines[at].startswith("   "):
        meaning.append(lines[at])
        at += 1
    return Entry(words, " ".join(" ".join(meaning).split())), at


def entries_of(lines: list[str]) -> list[Entry]:
    """Returns the entries of a section."""
    found, at = [], 0
    while at < len(lines):
        entry, at = read_entry(lines, at)
        found.append(entry)
    return found


def help_of(text: str) -> Help:
    """Reads the help of a tool."""
    read = Help([], [])
    for part in (part.strip("\n").split("\n") for part in re.split(r"\n\n+", text.strip("\n"))):
        if part[0].startswith("usage: "):
            lines = [line.removeprefix("usage:").strip() for line in part]
            read.usage.extend(line for line in lines if line not in read.usage)
        elif part[0].endswith(":") and len(part) > 1 and all(line.startswith("  ") for line in part[1:]):
            read.sections[part[0].removesuffix(":")] = entries_of(part[1:])
        else:
            read.paragraphs.append("\n".join(part))
    if not read.usage or not read.paragraphs:
        raise Refusal("a tool has no usage line or no description")
    return read
