"""The files that `carp` reads and writes: instances, the tours of certificates, and files that are written whole."""
import os
import re
from collections.abc import Hashable, Iterable, Mapping
from dataclasses import dataclass
from typing import Any

BLANK = rb"[\t\r\x1a ]*"
KEY_LINE = re.compile(BLANK + rb"(\w+)" + BLANK + rb":?" + BLANK + rb"(\d*)")
EDGE_LINE = re.compile(BLANK + rb"\(")
LISTS = ("LISTA_ARISTAS_REQ", "LISTA_ARISTAS_NOREQ")
NUMBERS = ("VERTICES", "CAPACIDAD", "DEPOSITO")


class Refusal(Exception):
    """Why a call was not carried out; `code` is the exit code of docs/FORMATS.md, and 1 if it has none for the cause."""

    def __init__(self, message: str, code: int = 1) -> None:
        super().__init__(message)
        self.code = code


@dataclass(frozen=True)
class Edge:
    """An edge of an instance; its demand is 0 if it is not required, and `service` is what a crossing with service costs."""

    ends: tuple[int, int]
    cost: int
    demand: int
    service: int


@dataclass(frozen=True)
class Instance:
    """An instance: its edges in order, the required ones first."""

    vertices: int
    capacity: int
    depot: int
    edges: list[Edge]

    def text(self) -> bytes:
        """Returns the instance as a `.dat` file."""
        required = [edge for edge in self.edges if edge.demand]
        rows = [
            f"( {edge.ends[0]}, {edge.ends[1]}) coste {edge.cost}"
            + (f" demanda {edge.demand} servicio {edge.service}" if edge.demand else "")
            for edge in self.edges
        ]
        lines = [
            f"VERTICES : {self.vertices}", f"ARISTAS_REQ : {len(required)}",
            f"ARISTAS_NOREQ : {len(rows) - len(required)}", f"CAPACIDAD : {self.capacity}",
            f"{LISTS[0]} :", *rows[: len(required)], f"{LISTS[1]} :", *rows[len(required) :],
            f"DEPOSITO : {self.depot}",
        ]
        return ("\n".join(lines) + "\n").encode("ascii")


@dataclass(frozen=True)
class Move:
    """A step of a tour: the number of its edge, whether it goes from its first end to its second, and if it serves."""

    edge: int
    forward: bool
    serves: bool


def contents(path: str) -> bytes:
    """Returns what a file holds."""
    try:
        with open(path, "rb") as file:
            return file.read()
    except OSError as error:
        raise Refusal(f"{path} cannot be read: {error.strerror}", 6) from error


def write_whole(path: str, data: bytes | str) -> None:
    """Writes a file beside its path and renames it, so that the path holds what it held, or all of the new data."""
    target = os.path.realpath(path)
    beside = f"{target}.{os.getpid()}.new"
    try:
        with open(beside, "xb") as file:
            file.write(data if isinstance(data, bytes) else data.encode("utf-8"))
            file.flush()
            os.fsync(file.fileno())
        os.replace(beside, target)
    except OSError as error:
        if not isinstance(error, FileExistsError) and os.path.exists(beside):
            os.remove(beside)
        raise Refusal(f"{path} cannot be written: {error.strerror}", 7) from error


def instance_from(text: bytes, name: str = "the text") -> Instance:
    """Returns the instance of a text that `carp` accepts."""
    numbers: dict[str, int] = {}
    edges: dict[str, list[Edge]] = {name: [] for name in LISTS}
    current = LISTS[0]
    for line in text.split(b"\n"):
        if EDGE_LINE.match(line):
            u, v, cost, *rest = (int(number) for number in re.findall(rb"\d+", line))
            demand, service = rest + [0, cost][len(rest):]
            edges[current].append(Edge((u, v), cost, demand, service))
        elif found := KEY_LINE.match(line):
            key = found[1].decode("ascii").upper()
            if key in LISTS:
                current = key
            elif key in NUMBERS:
                numbers[key] = int(found[2])
    if any(key not in numbers for key in NUMBERS):
        raise Refusal(f"{name} is no instance any more", 4)
    vertices, capacity, depot = (numbers[key] for key in NUMBERS)
    return Instance(vertices, capacity, depot, [edge for key in LISTS for edge in edges[key]])


def read_instance(path: str) -> Instance:
    """Returns the instance of a file that `carp` accepts."""
    return instance_from(contents(path), path)


def tours_of(certificate: bytes) -> list[list[Move]]:
    """Returns the tours of a certificate that `carp` accepts."""
    tours = []
    for line in certificate.split(b"\n"):
        words = line.decode("ascii").split(" ")
        if words[0] == "tour":
            tours.append([Move(int(step[1:]), step[0] in "+>", step[0] in "+-") for step in words[2:]])
        elif words[0] == "shores":
            break
    return tours


def instance_of(
    edges: Iterable[tuple[Hashable, Hashable, Mapping[str, Any]]], depot: Hashable, capacity: int
) -> tuple[Instance, list[Hashable]]:
    """Returns the instance of edges with their data, as `graph.edges(data=True)` gives them, and the name of each vertex.

    The data of an edge are its `cost`, its `demand` (0 if it is missing: not required), and what a crossing with
    `service` costs (its cost if that is missing).
    """
    numbers: dict[Hashable, int] = {depot: 1}
    found = []
    for u, v, data in edges:
        ends = tuple(numbers.setdefault(end, len(numbers) + 1) for end in (u, v))
        cost = int(data["cost"])
        found.append(Edge((ends[0], ends[1]), cost, int(data.get("demand", 0)), int(data.get("service", cost))))
    return Instance(len(numbers), capacity, 1, sorted(found, key=lambda edge: not edge.demand)), list(numbers)
