"""The man pages of the program and of the tools, of what their usage texts and the documents say."""
import re

from carp_run import Refusal

from carp_package import usage
from carp_package.contents import DOCUMENTS
from carp_package.roff import Page, Section

COMMAND_LINE = re.compile(r"carp ([a-z]+)\b.*?    (\S.*)")
EXIT_TABLE = re.compile(r"^\| Answer \| Code \| Text \|\n\|[-|]+\|\n((?:\|.*\|\n)+)", re.MULTILINE)
LINK = re.compile(r"\[([^]]+)\]\[[^]]*\]")
PLACE = re.compile(r"\bthe (words|lines) (?:above|below)")
TITLES = {"positional arguments": "ARGUMENTS", "options": "OPTIONS"}

SUMMARY = "solves the Capacitated Arc Routing Problem, with a proved lower bound"
ABOUT = [
    "Vehicles of one capacity leave a depot and serve each required street once, in either direction. `carp` finds "
    "tours, and a lower bound on the cost of any plan. It keeps a certificate of that bound, which `carp check` "
    "verifies, whoever made it. All texts go to the standard output.",
    f"`/{DOCUMENTS}/FORMATS.md` describes the files, and what each command writes.",
]
OPTIONS = [
    ("--turns N", "How many turns the search has, 1 to 1,048,576. It is 64 without the option, and 4 for `carp drill`."),
    ("--seed N", "A number of at most 18 digits, from which all choices come: the same words and files give the same "
     "result. It is 1 without the option."),
]
FILES = [
    (f"/{DOCUMENTS}/version", "The version of the package, the commit, and the checksums of the crates that the program "
     "is proved from, and of the program. `carp` has no option that tells them, since its words are proved as they are. "
     "The tools tell them with `--version`."),
    (f"/{DOCUMENTS}/FORMATS.md", "What stands in the files and in the outputs, and how to check a certificate without "
     "`carp`."),
    (f"/{DOCUMENTS}/examples/town.osm", "The map of a made town."),
]
# From a map to routes; a test runs them.
EXAMPLES = [
    f"carp-streets /{DOCUMENTS}/examples/town.osm --depot 45,-30 --capacity 20 town.dat town.key",
    "carp solve town.dat town.cert --turns 1",
    "carp check town.dat town.cert",
    "carp-routes town.dat town.cert town.key --out routes",
]
ENVIRONMENT = [("CARP", "The program that the tools run, if it is another one than `carp` on the path.")]
VERSION_OPTION = ("--version", "tells the version of the package, the commit and the checksums, and exits")


def plain(text: str) -> str:
    """Returns a cell of a table of Markdown without its links, as another page says it."""
    return PLACE.sub(r"the \1 that FORMATS.md lists", LINK.sub(r"\1", text)).strip()


def described(readme: str, verbs: list[usage.Verb]) -> list[tuple[str, str]]:
    """Returns each call of the program with what README.md says of it."""
    found = dict(match.groups() for match in map(COMMAND_LINE.fullmatch, readme.splitlines()) if match)
    missing = [verb.name for verb in verbs if verb.name not in found]
    if missing:
        raise Refusal(f"README.md does not say what carp {missing[0]} does")
    return [(f"carp {verb.name} {verb.words}", found[verb.name]) for verb in verbs]


def exit_codes(formats: str) -> list[tuple[str, str]]:
    """Returns each exit code of the program with the answers that FORMATS.md names for it."""
    table = EXIT_TABLE.search(formats)
    if table is None:
        raise Refusal("docs/FORMATS.md has no table of the exit codes")
    answers: dict[str, list[str]] = {}
    for row in table[1].splitlines():
        answer, code, text = (plain(cell) for cell in row.strip("|").split(" | ", 2))
        answers.setdefault(code, []).append(f"{answer}: the usage text" if code == "3" else f"{answer}: {text}")
    return [(code, "; ".join(answers[code]) + ".") for code in sorted(answers, key=int)]


def program_page(lines: list[str], readme: str, formats: str, tools: list[str]) -> Page:
    """Returns the man page of the program."""
    sections = [
        Section("COMMANDS", described(readme, usage.verbs_of(lines))),
        Section("OPTIONS", OPTIONS),
        Section("EXIT STATUS", exit_codes(formats)),
        Section("ENVIRONMENT", ENVIRONMENT),
        Section("FILES", FILES),
    ]
    calls = [line.removeprefix("usage:").strip() for line in lines]
    return Page("carp", SUMMARY, calls, ABOUT, sections, EXAMPLES, [f"carp-{name}" for name in tools])


def tool_page(name: str, tool: usage.Help, tools: list[str]) -> Page:
    """Returns the man page of a tool."""
    # The description tells of an operand that has no help of its own.
    told = {
        title: [(entry.words, entry.meaning) for entry in entries if entry.meaning or entry.words.startswith("-")]
        for title, entries in tool.sections.items()
    }
    told.setdefault("options", []).append(VERSION_OPTION)
    sections = [Section(TITLES.get(title, title.upper()), terms) for title, terms in told.items() if terms]
    sentence = " ".join(tool.paragraphs[0].replace("`", "").split()).removesuffix(".")
    also = ["carp", *(f"carp-{other}" for other in tools if other != name)]
    return Page(
        f"carp-{name}", sentence[:1].lower() + sentence[1:], tool.usage, tool.paragraphs, sections, see_also=also
    )
