"""Writes man pages."""
import re
from dataclasses import dataclass, field

SPECIAL = {"\\": r"\(rs", "-": r"\-", "'": r"\(aq", "`": r"\(ga", "^": r"\(ha", "~": r"\(ti", '"': r"\(dq"}
SPAN = re.compile(r"`([^`]+)`")


@dataclass(frozen=True)
class Section:
    """A section of terms, each with what it means."""

    title: str
    terms: list[tuple[str, str]]


@dataclass(frozen=True)
class Page:
    """A man page. In paragraphs and meanings, what stands between backquotes is a literal."""

    name: str
    summary: str
    synopsis: list[str]
    paragraphs: list[str]
    sections: list[Section]
    examples: list[str] = field(default_factory=list)
    see_also: list[str] = field(default_factory=list)


def literal(text: str) -> str:
    """Returns a text of one line so that roff sets it as it stands, if other text stands before it."""
    return "".join(SPECIAL.get(c, c if c.isascii() else f"\\[u{ord(c):04X}]") for c in text)


def alone(line: str) -> str:
    """Returns a line that is no request: these begin with a period, or with a quote, which is escaped already."""
    return rf"\&{line}" if line.startswith(".") else line


def escaped(text: str) -> str:
    """Returns a text as one line that roff sets as it stands; each run of white space becomes one blank."""
    return alone(literal(" ".join(text.split())))


def running(text: str) -> str:
    """Returns a paragraph as one line in which literals are bold."""
    parts = SPAN.split(" ".join(text.split()))
    parts[1::2] = [part.strip() for part in parts[1::2]]
    return alone("".join(rf"\fB{literal(part)}\fR" if at % 2 else literal(part) for at, part in enumerate(parts)))


def synopsis_lines(calls: list[str]) -> list[str]:
    """Returns the lines of the calls of a program: each begins a line, and what is too long goes on below, moved in."""
    lines = [line for call in calls for line in (".HP 4", rf"\fB{escaped(call)}\fR")]
    return [".SH SYNOPSIS", ".nh", ".ad l", ".PD 0", *lines, ".PD", ".ad", ".hy"]


def section_lines(section: Section) -> list[str]:
    """Returns the lines of a section of terms."""
    terms = [line for term, meaning in section.terms for line in (".TP", rf"\fB{escaped(term)}\fR", running(meaning))]
    return [f'.SH "{escaped(section.title)}"', *(line for line in terms if line)]


def example_lines(page: Page) -> list[str]:
    """Returns the lines of the examples, which are set as they stand."""
    return [".SH EXAMPLES", ".nf", *(alone(literal(line)) for line in page.examples), ".fi"] if page.examples else []


def page_text(page: Page, version: str, date: str) -> str:
    """Returns a man page."""
    lines = [
        f'.TH "{escaped(page.name.upper())}" 1 "{escaped(date)}" "carp {escaped(version)}" "User Commands"',
        ".SH NAME", rf"{escaped(page.name)} \- {escaped(page.summary)}",
        *synopsis_lines(page.synopsis), ".SH DESCRIPTION",
        *(line for text in page.paragraphs for line in (".PP", running(text))),
        *(line for section in page.sections for line in section_lines(section)),
        *example_lines(page), ".SH SEE ALSO",
        ", ".join(rf"\fB{escaped(name)}\fR(1)" for name in page.see_also),
    ]
    return "\n".join(lines) + "\n"
