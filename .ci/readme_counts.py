#!/usr/bin/env python3
"""Compares the counts and the quotes of docs/STATEMENT.md with the sources, and each link of README.md and docs/*.md with what is there.

usage: .ci/readme_counts.py

The first table of the page lists definitions. A row has as many lines as its definitions have, each from its comment on, and the list is closed: what a
definition names stands there too. The second table has a row for each sentence, with the definitions, and their lines, that what it rests on needs beside the
rows above it. Each line of a block stands in the file that the page names last before it.
"""
import glob
import os
import re
import sys

TOP = os.path.join(os.path.dirname(os.path.abspath(__file__)), "..")
PAGE = "docs/STATEMENT.md"
NAME = re.compile(r"[A-Za-z_][A-Za-z0-9_-]*")
DEFINES = re.compile(r"(?:unfoldable )?(?:pub|abbrev pub) (?:record |data )?([A-Za-z_][A-Za-z0-9_-]*)")
TYPE = re.compile(r"(?:pub |pub\(crate\) )?(?:struct|enum) ([A-Za-z0-9_]+)")
# The first list of the page does not go into these, and the second one not into the answers: the page says what is read of them.
ANSWERS = {"Answer", "Status"}
BORDER = ANSWERS | {"Certificate", "Cert"}

Key = tuple[str, str]  # a file and a name of it


def read(path: str) -> str:
    """The text of a file, and none of one that is not there."""
    try:
        with open(os.path.join(TOP, path), encoding="utf-8") as file:
            return file.read()
    except FileNotFoundError:
        return ""


# ---- The definitions of the specs ----


def uses_of(lines: list[str]) -> list[tuple[str, str]]:
    """The names that a Rust file imports from crates, each with its crate."""
    uses = [found for line in lines if (found := re.match(r"use (\w+)::(?:\{(.*)\}|(\w+));", line))]
    return [(name.strip(), use[1]) for use in uses for name in (use[2] or use[3]).split(",")]


class Specs:
    """Definitions by file and name: their lines, and what they name."""

    def __init__(self) -> None:
        self.blocks: dict[Key, list[str]] = {}
        self.files: dict[str, list[str]] = {}  # the lines of a file that import names
        self.used: dict[Key, dict[str, str]] = {}  # the crates of the names that the file of a Rust type imports
        self.stands: dict[Key, str] = {}  # the file of a Rust type
        for path in sorted(glob.glob("crates/*/specs/**/*.antt", recursive=True, root_dir=TOP)):
            crate, inside = re.fullmatch(r"crates/([^/]+)/specs/(.*)\.antt", path).groups()
            self.add_file(f"{crate}.specs.{inside.replace('/', '.')}", read(path))

    def add_file(self, module: str, text: str) -> None:
        """Adds the definitions of a file: what blank lines part, from its comment on."""
        lines = text.split("\n")
        self.files[module] = [line for line in lines if line.startswith("use ")]
        for block in re.split(r"\n[ \t]*\n", text):
            rows = [row for row in block.strip("\n").split("\n") if not row.startswith("use ")]
            names = [found[1] for row in rows if (found := DEFINES.match(row)) and not row.startswith(("pub mod", "pub use"))]
            for name in names:
                self.blocks[module, name] = rows

    def add_type(self, module: str, name: str) -> None:
        """Adds a Rust type, from its comment on."""
        crate = module.split(".")[0]
        for path in sorted(glob.glob(f"crates/{crate}/src/**/*.rt", recursive=True, root_dir=TOP)):
            lines = read(path).split("\n")
            for at, line in enumerate(lines):
                if (found := TYPE.match(line)) and found[1] == name:
                    start, end = at, at
                    while start and lines[start - 1].startswith(("//", "#[")):
                        start -= 1
                    while lines[end].rstrip()[-1:] not in "};" or lines[end].startswith(" "):
                        end += 1
                    self.blocks[module, name] = lines[start : end + 1]
                    self.used[module, name] = dict(uses_of(lines))
                    self.stands[module, name] = path
                    return

    def imports(self, module: str) -> tuple[dict[str, Key], dict[str, str]]:
        """What the names of a file stand for, and what its aliases do."""
        names, aliases = {}, {}
        for line in self.files[module]:
            if found := re.fullmatch(r"use Rattle\.([\w.]+)\.\{(.*)\}", line.strip()):
                source = found[1]
                for name in found[2].split(","):
                    names[name.strip()] = (source, name.strip())
            elif found := re.fullmatch(r"use Rattle\.([\w.]+) as (\w+)", line.strip()):
                aliases[found[2]] = found[1]
        return names, aliases

    def place(self, source: str, name: str) -> Key | None:
        """The definition of a name of a module: in a file of specs, or a Rust type."""
        if ".specs.declared." in source:
            parts = source.split(".")
            owner = parts[parts.index("declared") + 2]
            key = (".".join(parts[: parts.index("declared") + 1]), owner)
            if key not in self.blocks:
                self.add_type(*key)
            return key if key in self.blocks else None
        return (source, name) if (source, name) in self.blocks else None

    def named_by(self, key: Key) -> set[Key]:
        """The definitions that one names."""
        module, own = key
        if module.endswith(".declared"):
            return self.fields_of(key)
        names, aliases = self.imports(module)
        found = set()
        for row in self.blocks[key]:
            if row.startswith("--"):
                continue
            row = re.sub(r"--.*", "", row)
            for word in re.finditer(r"(\w+)\.([A-Za-z_][A-Za-z0-9_-]*)", row):
                if word[1] in aliases:
                    found.add(self.place(aliases[word[1]], word[2]))
            row = re.sub(r"^(\s+pub )[\w-]+ :", r"\1", row)
            row = re.sub(r"(?<!\w)[\w-]+ = (?=[^;]*;)", "", row) if "record {" in row or row.rstrip().endswith(";") else row
            row = re.sub(r"\.[A-Za-z_][\w-]*", "", row)
            for word in NAME.findall(row):
                if word in names:
                    found.add(self.place(*names[word]))
                elif (module, word) in self.blocks:
                    found.add((module, word))
        return {at for at in found if at and at != key}

    def fields_of(self, key: Key) -> set[Key]:
        """The types that stand in a Rust type."""
        module, own = key
        crate = module.split(".")[0]
        rows = [row for row in self.blocks[key] if not row.lstrip().startswith(("//", "#"))]
        words = {word for row in rows for word in re.findall(r"\b[A-Z]\w*", row)} - {own}
        found = {self.place(f"{self.used[key].get(word, crate)}.specs.declared.x.{word}", word) for word in words}
        return {at for at in found if at}

    def find(self, path: str, name: str) -> Key | None:
        """The definition of a name in a file of specs, or the Rust type of that name in a source file."""
        found = re.fullmatch(r"([^/]+)/(specs|src)/(.*)\.(?:antt|rt)", path)
        if not found:
            return None
        crate, kind, inside = found.groups()
        if kind == "specs":
            return self.place(f"{crate}.specs.{inside.replace('/', '.')}", name)
        key = self.place(f"{crate}.specs.declared.x.{name}", name)
        return key if key and self.stands[key] == f"crates/{path}" else None

    def closure(self, roots: list[Key], border: set[str]) -> set[Key]:
        """The roots with all that they name, and so on, not beyond the border."""
        reached, waiting = set(), list(roots)
        while waiting:
            key = waiting.pop()
            if key not in reached:
                reached.add(key)
                if key[1] not in border:
                    waiting.extend(self.named_by(key))
        return reached

    def lines(self, keys: set[Key]) -> int:
        """How many lines these definitions have: two of one block count once."""
        return sum(map(len, {id(self.blocks[key]): self.blocks[key] for key in keys}.values()))


# ---- The page of the statement ----


def tables_of(text: str) -> list[list[list[str]]]:
    """The tables of a page: of each the cells of its rows, the head first."""
    tables = [[]]
    for line in text.split("\n"):
        if line.startswith("|"):
            if not line.startswith("|---"):
                tables[-1].append([cell.strip() for cell in line.strip("|").split("|")])
        elif tables[-1]:
            tables.append([])
    return [table for table in tables if table]


def list_faults(specs: Specs, table: list[list[str]]) -> tuple[list[str], set[Key]]:
    """What is wrong with the list of definitions, and the definitions that it names."""
    faults, listed = [], set()
    for paths, names, *_, lines in table[1:]:
        keys = set()
        for name in re.findall(r"`(\w+)`", names):
            found = [key for path in re.findall(r"`([^`]+)`", paths) if (key := specs.find(path, name))]
            keys.update(found)
            if not found:
                faults.append(f"{name} is not in {paths}")
        listed |= keys
        if specs.lines(keys) != int(lines):
            faults.append(f"{names}: {lines} lines are stated, and there are {specs.lines(keys)}")
    for module, name in sorted(specs.closure(sorted(listed), BORDER) - listed):
        faults.append(f"{name} of {module} is not in the list")
    return faults, listed


def sentence_faults(specs: Specs, table: list[list[str]], known: set[Key]) -> list[str]:
    """What is wrong with the counts of the sentences."""
    faults = []
    for number, row in enumerate(table[1:], 1):
        roots, names = [], []
        for word in re.findall(r"`([^`]+)`", row[2]):
            if "/" not in word:
                names.append(word)
                continue
            roots += [(specs.find(word, name), name) for name in names]
            names = []
        faults += [f"sentence {number}: {name} is not there" for key, name in roots if not key]
        added = specs.closure([key for key, _ in roots if key], ANSWERS) - known
        known = known | added
        if [len(added), specs.lines(added)] != [int(row[3].replace(",", "")), int(row[4].replace(",", ""))]:
            faults.append(f"sentence {number}: {row[3]} definitions of {row[4]} lines are stated, and there are {len(added)} of {specs.lines(added)}")
    return faults


def text_faults(specs: Specs, text: str, listed: set[Key]) -> list[str]:
    """What is wrong with the counts in sentences."""
    faults = []
    words = re.sub(r"\s+", " ", text)
    total = sum(read(path).count("\n") for path in glob.glob("crates/*/specs/**/*.antt", recursive=True, root_dir=TOP))
    count, lines = len(listed), specs.lines(listed)
    faults += [f"there is no: {said}" for said in (f"These are {count} definitions of {lines} lines", f"The {lines} lines above") if said not in words]
    for path, stated in re.findall(r"`([\w/]+\.\w+)` \((\d+) lines\)", words):
        if (there := read(f"crates/{path}").count("\n")) != int(stated):
            faults.append(f"{path} has {there} lines, and {stated} are stated")
    thousands = re.findall(r"(\d+) thousand lines of specs", words)
    if [total // 1000] != [int(number) for number in thousands]:
        faults.append(f"there are {total} lines of specs")
    return faults


def quote_faults(text: str) -> list[str]:
    """The lines of blocks that do not stand in one of the files that the paragraph before names."""
    faults = []
    named = ""
    for place, part in enumerate(text.split("```")):
        if place % 2 == 0:
            paths = re.findall(r"`([\w/]+\.(?:antt|rt))`", part.strip().split("\n\n")[-1])
            named = "\n".join(read(f"crates/{path}") for path in paths) if paths else named
            continue
        faults += [f"no file has: {line}" for line in part.strip("\n").split("\n") if line not in named.split("\n")]
    return faults


# ---- Links ----


def anchors_of(text: str) -> set[str]:
    """The anchors of a page: those that it sets, and those of its headings."""
    headings = re.findall(r"(?m)^#+ (.*)$", re.sub(r"(?ms)^```.*?^```", "", text))
    words = [re.sub(r"\[([^]]*)\](?:\([^)]*\)|\[[^]]*\])?", r"\1", heading) for heading in headings]
    slugs = [re.sub(r"[^\w\- ]", "", word.lower()).replace(" ", "-") for word in words]
    return set(re.findall(r'<a id="([^"]+)">', text)) | set(slugs)


def link_faults(page: str) -> list[str]:
    """The links of a page that lead nowhere, and the short ones without a target."""
    text = read(page)
    plain = re.sub(r"`[^`\n]*`", "", re.sub(r"(?ms)^```.*?^```", "", text))
    short = dict(re.findall(r"(?m)^\[([^]]+)\]: (\S+)$", plain))
    body = re.sub(r"(?m)^\[[^]]+\]: \S+$", "", plain)
    faults = []
    for words, name in re.findall(r"\[([^][]*)\]\s?\[([^][]*)\]", body):
        name = re.sub(r"\s+", " ", name or words)
        if name not in short:
            faults.append(f"[{name}] has no target")
    targets = set(short.values()) | set(re.findall(r"\]\(([^)\s]+)\)", body)) | set(re.findall(r'(?:src|href)="([^"]+)"', body))
    for target in sorted(targets):
        if target.startswith(("http://", "https://")):
            continue
        path, _, anchor = target.partition("#")
        place = os.path.normpath(os.path.join(os.path.dirname(page), path)) if path else page
        if not os.path.exists(os.path.join(TOP, place)):
            faults.append(f"{target} is not there")
        elif anchor and anchor not in anchors_of(read(place)):
            faults.append(f"{target} has no such place")
    return faults


def main() -> int:
    text = read(PAGE)
    specs = Specs()
    tables = {("list" if "In words" in table[0] else "sentences" if "Rests on" in table[0] else ""): table for table in tables_of(text)}
    faults, listed = list_faults(specs, tables["list"])
    faults += sentence_faults(specs, tables["sentences"], listed) + text_faults(specs, text, listed) + quote_faults(text)
    faults = [f"{PAGE}: {fault}" for fault in faults]
    pages = ["README.md", *sorted(glob.glob("docs/*.md", root_dir=TOP))]
    faults += [f"{page}: {fault}" for page in pages for fault in link_faults(page)]
    for fault in faults:
        print(f"readme: {fault}", file=sys.stderr)
    return 1 if faults else 0


if __name__ == "__main__":
    sys.exit(main())
