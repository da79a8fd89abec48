"""What the package holds, in one place, and how what the checkout says of itself is said of the package."""
import os
import re
from dataclasses import dataclass

from carp_run import Refusal, contents

# The tools of the package, and the folders of modules beside them. Those that are not there are left out.
TOOLS = ("streets", "routes", "draw", "longer", "city")
MODULES = ("carp_run", "carp_map", "carp_longer", "carp_city")
PAGES = ("docs/FORMATS.md", "docs/GLOSSARY.md")
SAMPLE = "tools/samples/town.osm"

SHARED = "usr/share/carp"
DOCUMENTS = "usr/share/doc/carp"
REWORDED = (
    (re.compile(r"\A#!.*python3$", re.MULTILINE), "#!/usr/bin/python3"),
    (re.compile(rf"\btools/({'|'.join(TOOLS)})\b"), r"carp-\1"),
    (re.compile(r"the\s+one\s+that\s+(?:\./)?carp\s+builds"), "`carp` on the path"),
    (re.compile(r"run \./carp once, which builds it, or name another"), "put carp on the path, or name it"),
    (re.compile(r"(?<![\w/.])\./carp\b"), "carp"),
)


@dataclass(frozen=True)
class File:
    """A file of the package: its path from the root, what it holds, and if it can be run."""

    path: str
    data: bytes
    runs: bool = False


def tools_in(top: str) -> list[str]:
    """Returns the names of the tools that are there."""
    return [name for name in TOOLS if os.path.isfile(os.path.join(top, "tools", name))]


def reworded(text: str) -> str:
    """Returns what a tool of the checkout says as the installed tool says it."""
    for pattern, words in REWORDED:
        text = pattern.sub(words, text)
    return text


def installed(path: str, target: str) -> File:
    """Returns a file of a tool as it is installed; what is Python speaks of the installed tools."""
    data = contents(path)
    if path.endswith(".py") or data.startswith(b"#!") and b"python3" in data.split(b"\n")[0]:
        data = reworded(data.decode("utf-8")).encode("utf-8")
    return File(target, data, os.stat(path).st_mode & 0o100 != 0)


def paths_in(folder: str) -> list[str]:
    """Returns the paths of the files in a folder and below, from the folder, without what Python compiled."""
    found = []
    for here, folders, names in os.walk(folder):
        folders[:] = [name for name in folders if name != "__pycache__"]
        found.extend(os.path.relpath(os.path.join(here, name), folder) for name in names)
    return sorted(found)


def tool_files(top: str) -> list[File]:
    """Returns the files of the tools and of the modules that they stand on."""
    names = tools_in(top)
    for folder in MODULES:
        names += [os.path.join(folder, name) for name in paths_in(os.path.join(top, "tools", folder))]
    if not names:
        raise Refusal(f"{top} has no tools")
    return [installed(os.path.join(top, "tools", name), f"{SHARED}/{name}") for name in names]


def page_files(top: str) -> list[File]:
    """Returns the pages and the sample map."""
    named = {page: f"{DOCUMENTS}/{os.path.basename(page)}" for page in PAGES}
    named[SAMPLE] = f"{DOCUMENTS}/examples/{os.path.basename(SAMPLE)}"
    return [File(target, contents(os.path.join(top, name))) for name, target in named.items()]
