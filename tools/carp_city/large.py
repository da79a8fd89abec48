"""Reads the file of a city: the grammar of docs/FORMATS.md, with greater limits on counts.

A city is a `carp_run.Instance`. What is wrong with a file is said in the words of docs/FORMATS.md, with the name of the
street if a key has one.
"""
import json
import re
from collections.abc import Callable, Sequence
from dataclasses import dataclass, field

import carp_run
from carp_run import Edge, Instance, Refusal

MOST_BYTES = 64_000_000
MOST_VERTICES = 200_000
MOST_EDGES = 100_000
MOST_REQUIRED = 30_000
MOST_CAPACITY = 30_000
MOST_COST = 1_000_000
MOST_DIGITS = 18

# The exit codes of docs/FORMATS.md: a bad instance, a file that is too long, and required streets that are not joined.
BAD, TOO_LONG, NOT_JOINED = 4, 9, 10

NUMBERS = ("VERTICES", "ARISTAS_REQ", "ARISTAS_NOREQ", "CAPACIDAD", "DEPOSITO")
LISTS = ("LISTA_ARISTAS_REQ", "LISTA_ARISTAS_NOREQ")
B = rb"[\t\r\x1a ]*"
WORD = re.compile(B + rb"([A-Za-z0-9_]+)")
NUMBER = re.compile(B + rb":?" + B + rb"([0-9]+)(?:[\t\r\x1a ].*)?", re.DOTALL)
HEAD = B.join([rb"", rb"\(", rb"([0-9]+)", rb",", rb"([0-9]+)", rb"\)", rb"coste", rb"([0-9]+)"])
DEMAND = B + rb"demanda" + B + rb"([0-9]+)"
REQUIRED = re.compile(HEAD + DEMAND + rb"(?:" + B + rb"servicio" + B + rb"([0-9]+))?" + B, re.IGNORECASE)
OTHER = re.compile(HEAD + rb"(?:" + B + rb"demanda" + B + rb"0+)?" + B, re.IGNORECASE)


# How an edge may be bad, and the words for it.
Fault = tuple[Callable[[Edge], bool], str]


class BadCity(Refusal):
    """What is wrong with the file of a city."""

    def __init__(self, message: str, code: int = BAD) -> None:
        super().__init__(message, code)


@dataclass
class Lines:
    """What the lines of a file hold, as far as they are read."""

    numbers: dict[str, int] = field(default_factory=dict)
    edges: dict[str, list[Edge]] = field(default_factory=lambda: {name: [] for name in LISTS})
    seen: list[str] = field(default_factory=list)

    def take(self, number: int, line: bytes) -> None:
        """Takes a line, or says what is wrong with it."""
        word = WORD.match(line)
        key = word[1].decode("ascii").upper() if word else ""
        if line.lstrip(b"\t\r\x1a ").startswith(b"("):
            self.take_edge(number, line)
        elif word and key in NUMBERS:
            found = NUMBER.fullmatch(line, word.end())
            if not found:
                raise BadCity(f"line {number} cannot be read")
            self.note(key)
            self.numbers[key] = value_of(number, found[1])
        elif key in LISTS:
            self.note(key)

    def note(self, key: str) -> None:
        """Notes a key, which may stand once."""
        if key in self.seen:
            raise BadCity(f"key {key} stands twice")
        self.seen.append(key)

    def take_edge(self, number: int, line: bytes) -> None:
        """Takes the line of an edge."""
        current = next((key for key in reversed(self.seen) if key in LISTS), None)
        found = current and (REQUIRED if current == LISTS[0] else OTHER).fullmatch(line)
        if not (current and found):
            raise BadCity(f"line {number} cannot be read")
        u, v, cost, *rest = (value_of(number, digits) for digits in found.groups() if digits is not None)
        demand, service = rest + [0, cost][len(rest) :]
        self.edges[current].append(Edge((u, v), cost, demand, service))


def value_of(line: int, digits: bytes) -> int:
    """Returns the number of digits."""
    if len(digits) > MOST_DIGITS:
        raise BadCity(f"line {line} has a number of more than {MOST_DIGITS} digits")
    return int(digits)


def names_in(path: str) -> list[str | None]:
    """Returns the names of the streets in a key, to tell faults; nothing if it is none."""
    try:
        return [edge["name"] for edge in json.loads(carp_run.contents(path))["edges"]]
    except (ValueError, LookupError, TypeError, RecursionError):
        return []


def read_city(path: str, names: Sequence[str | None] = ()) -> Instance:
    """Returns the city in a file; the names of its streets, if they are known, are told of what is wrong."""
    text = carp_run.contents(path)
    if len(text) > MOST_BYTES:
        raise BadCity(f"{path} has more than {MOST_BYTES} bytes", TOO_LONG)
    try:
        return city_of(text, names)
    except BadCity as fault:
        raise BadCity(f"{path}: {fault}", fault.code) from None


def city_of(text: bytes, names: Sequence[str | None] = ()) -> Instance:
    """Returns the city of a text."""
    lines = Lines()
    for number, line in enumerate(text.split(b"\n"), 1):
        lines.take(number, line)
    for key in ("VERTICES", "ARISTAS_REQ", "CAPACIDAD", "DEPOSITO"):
        if key not in lines.numbers:
            raise BadCity(f"key {key} is missing")
    for key, name in zip(("ARISTAS_REQ", "ARISTAS_NOREQ"), LISTS):
        stated, found = lines.numbers.get(key, len(lines.edges[name])), len(lines.edges[name])
        if stated != found:
            raise BadCity(f"{key} states {stated} and the list has {found}")
    refuse_faults(lines, names)
    edges = [edge for name in LISTS for edge in lines.edges[name]]
    return Instance(lines.numbers["VERTICES"], lines.numbers["CAPACIDAD"], lines.numbers["DEPOSITO"], edges)


def refuse_faults(lines: Lines, names: Sequence[str | None]) -> None:
    """Says the first fault of a city, in the order of docs/FORMATS.md."""
    vertices, capacity, depot = (lines.numbers[key] for key in ("VERTICES", "CAPACIDAD", "DEPOSITO"))
    edges = [edge for name in LISTS for edge in lines.edges[name]]
    required = lines.edges[LISTS[0]]
    refuse_counts(vertices, len(edges), len(required))
    refuse_edges(edges, names, [
        (lambda edge: not all(1 <= end <= vertices for end in edge.ends), "has an end out of range"),
        (lambda edge: edge.ends[0] == edge.ends[1], "is a loop"),
        (lambda edge: edge.cost > MOST_COST, "has too large a cost"),
    ])
    if not 1 <= capacity <= MOST_CAPACITY:
        raise BadCity(f"capacity {capacity} is out of range")
    refuse_edges(required, names, [(lambda edge: edge.demand == 0, "has demand 0")], "required edge")
    refuse_edges(required, names, [(lambda edge: edge.demand > capacity, "has a demand above the capacity")])
    if not 1 <= depot <= vertices:
        raise BadCity(f"depot {depot} is out of range")
    found = reached(edges, depot)
    refuse_edges(required, names, [(lambda edge: edge.ends[0] not in found, "cannot be reached")], code=NOT_JOINED)
    refuse_edges(required, names, [(lambda edge: edge.service > MOST_COST, "has too large a service cost")])


def refuse_counts(vertices: int, edges: int, required: int) -> None:
    """Says which count is above its limit."""
    for count, most, what in (
        (vertices, MOST_VERTICES, "vertices"), (edges, MOST_EDGES, "edges"), (required, MOST_REQUIRED, "required edges")
    ):
        if count > most:
            raise BadCity(f"{count} {what} are too many: the limit is {most}")


def refuse_edges(
    edges: Sequence[Edge], names: Sequence[str | None], faults: Sequence[Fault], what: str = "edge", code: int = BAD
) -> None:
    """Says the first fault that an edge has, and the least edge that has it."""
    for is_bad, words in faults:
        number = next((at for at, edge in enumerate(edges, 1) if is_bad(edge)), None)
        if number is not None:
            raise BadCity(f"{what} {named(number, names)} {words}", code)


def named(number: int, names: Sequence[str | None]) -> str:
    """Returns the number of a street, and its name if that is known."""
    name = names[number - 1] if number <= len(names) else None
    return f"{number} ({name})" if isinstance(name, str) and name else str(number)


def reached(edges: Sequence[Edge], depot: int) -> set[int]:
    """Returns the vertices that are joined to the depot."""
    beside: dict[int, list[int]] = {}
    for edge in edges:
        beside.setdefault(edge.ends[0], []).append(edge.ends[1])
        beside.setdefault(edge.ends[1], []).append(edge.ends[0])
    found, waiting = {depot}, [depot]
    while waiting:
        new = [other for other in beside.get(waiting.pop(), []) if other not in found]
        found.update(new)
        waiting.extend(new)
    return found
