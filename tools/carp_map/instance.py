"""Gives streets their costs and demands, holds them against the limits of `carp`, and writes an instance and its key.

The key is JSON. It holds what an instance lacks, in the order of its vertices and edges (the required ones first):

    { "version": 1, "depot": VERTEX, "vertices": [[LAT, LON], ..],
      "edges": [ { "ends": [U, V], "name": "..." or null, "length": METRES, "cost": N, "demand": N,
                   "oneway": 0, 1 or -1, "geometry": [[LAT, LON], ..] }, .. ] }

A geometry runs from U to V. `oneway` is 1 if the street is driven only from U to V, and -1 if only from V to U. The
demand is 0 if the edge is not required.
"""
import json
import os
from collections.abc import Mapping, Sequence
from dataclasses import dataclass, replace

from carp_map.geometry import Place
from carp_map.network import Street
from carp_map.reading import MapError

MOST_CAPACITY = 30_000
MOST_COST = 1_000_000


@dataclass(frozen=True)
class Limits:
    """The greatest counts of an instance; the states have no limit of their own if it is 0."""

    vertices: int
    edges: int
    required: int
    states: int


# What `carp` takes, and what `tools/city` takes.
CARP = Limits(1_000, 4_000, 600, 24_000_000)
CITY = Limits(200_000, 100_000, 30_000, 0)


def rounded(value: float) -> int:
    """Returns the nearest whole number, and the greater of two."""
    return int(value + 0.5)


def with_costs(streets: Sequence[Street], unit: str) -> list[Street]:
    """Sets the costs of the streets in whole metres or seconds."""
    return [replace(each, cost=rounded(each.length if unit == "metres" else each.seconds)) for each in streets]


def with_demands_by_length(streets: Sequence[Street], per_100m: float) -> list[Street]:
    """Sets the demand of each street that needs service in proportion to its length, and to 1 at least."""
    return [
        replace(each, demand=max(1, rounded(each.length * per_100m / 100)) if each.required else 0) for each in streets
    ]


def with_demands_by_name(streets: Sequence[Street], demands: Mapping[str, int]) -> list[Street]:
    """Divides the demand of each named street over its edges in proportion to their lengths; others need no service."""
    edges: dict[str, list[int]] = {}
    for at, each in enumerate(streets):
        if each.name is not None:
            edges.setdefault(each.name, []).append(at)
    unknown = [name for name in demands if name not in edges]
    if unknown:
        more = f" and {len(unknown) - 5} more" if len(unknown) > 5 else ""
        raise MapError(f"demands of streets that are not joined to the depot: {', '.join(unknown[:5])}{more}")
    result = [replace(each, demand=0) for each in streets]
    for name, demand in demands.items():
        if 0 < demand < len(edges[name]):
            raise MapError(f"{name} has {len(edges[name])} parts and a demand of {demand}; each part needs 1 at least")
        for at, part in zip(edges[name], divided(demand, [streets[at].length for at in edges[name]])):
            result[at] = replace(result[at], demand=part)
    return result


def divided(total: int, lengths: Sequence[float]) -> list[int]:
    """Divides a total into parts of 1 at least, and what is left in proportion to the lengths; all are 0 if it is 0."""
    if total == 0:
        return [0] * len(lengths)
    left = total - len(lengths)
    weights = lengths if sum(lengths) > 0 else [1.0] * len(lengths)
    shares = [left * each / sum(weights) for each in weights]
    parts = [int(share) for share in shares]
    by_remainder = sorted(range(len(lengths)), key=lambda at: parts[at] - shares[at])
    for at in by_remainder[: left - sum(parts)]:
        parts[at] += 1
    return [1 + part for part in parts]


@dataclass(frozen=True)
class Counts:
    """The numbers of an instance that have limits."""

    vertices: int
    edges: int
    required: int

    def __str__(self) -> str:
        return f"vertices {self.vertices} edges {self.edges} required {self.required}"


def count(streets: Sequence[Street]) -> Counts:
    """Counts the vertices, the edges and the required edges of streets; the depot is a vertex without streets too."""
    vertices = {end for each in streets for end in each.ends}
    return Counts(max(1, len(vertices)), len(streets), sum(each.demand > 0 for each in streets))


def faults(streets: Sequence[Street], capacity: int, limits: Limits = CARP) -> list[str]:
    """Returns what does not fit the limits, those of `carp` if no others are given, and by how much."""
    counts = count(streets)
    states = 2 * counts.required * (capacity + 1)
    measures = [
        ("vertices", counts.vertices, limits.vertices),
        ("edges", counts.edges, limits.edges),
        ("required edges", counts.required, limits.required),
        ("capacity", capacity, MOST_CAPACITY),
        (f"states 2 * {counts.required} * ({capacity} + 1) =", states, limits.states or states),
    ]
    found = [f"{what} {value:,}: {above(value, most)}" for what, value, most in measures if value > most]
    for what, most in (("cost", MOST_COST), ("demand", capacity)):
        values = [getattr(each, what) for each in streets]
        excess = sum(value > most for value in values)
        if excess:
            greatest = streets[values.index(max(values))]
            name = f"{greatest.name or 'a street without a name'} ({greatest.length:,.0f} m)"
            more = f"; {excess} streets are above it" if excess > 1 else ""
            limit = "capacity" if what == "demand" else "limit"
            found.append(f"{what} {max(values):,} of {name}: {above(max(values), most, limit)}{more}")
    return found


def above(value: int, most: int, limit: str = "limit") -> str:
    """Tells by how much a value passes its limit."""
    return f"{value - most:,} above the {limit} of {most:,}"


@dataclass(frozen=True)
class Instance:
    """Streets with the required ones first, the numbers of both ends of each, and the places of all vertices."""

    streets: list[Street]
    places: list[Place]
    ends: list[tuple[int, int]]
    capacity: int


def make_instance(streets: Sequence[Street], depot: int, place: Place, capacity: int) -> Instance:
    """Numbers the edges and the vertices of streets; the depot is vertex 1."""
    ordered = sorted(streets, key=lambda each: each.demand == 0)
    numbers, places = {depot: 1}, [place]
    for each in ordered:
        for node, end in zip(each.ends, (each.geometry[0], each.geometry[-1])):
            if node not in numbers:
                places.append(end)
                numbers[node] = len(places)
    ends = [(numbers[each.ends[0]], numbers[each.ends[1]]) for each in ordered]
    return Instance(ordered, places, ends, capacity)


def dat_of(instance: Instance, unit: str) -> str:
    """Returns the text of an instance, as docs/FORMATS.md describes it."""
    required = [each for each in instance.streets if each.demand > 0]
    rows = [
        f"( {u}, {v}) coste {each.cost}" + (f" demanda {each.demand}" if each.demand else "")
        for (u, v), each in zip(instance.ends, instance.streets)
    ]
    lines = [
        "NOMBRE : streets",
        f"COMENTARIO : costs are {unit}",
        f"VERTICES : {len(instance.places)}",
        f"ARISTAS_REQ : {len(required)}",
        f"ARISTAS_NOREQ : {len(rows) - len(required)}",
        f"VEHICULOS : {-(-sum(each.demand for each in required) // instance.capacity)}",
        f"CAPACIDAD : {instance.capacity}",
        "TIPO_COSTES_ARISTAS : EXPLICITOS",
        f"COSTE_TOTAL_REQ : {sum(each.cost for each in required)}",
        "LISTA_ARISTAS_REQ :",
        *rows[: len(required)],
        "LISTA_ARISTAS_NOREQ :",
        *rows[len(required) :],
        "DEPOSITO : 1",
    ]
    return "\n".join(lines) + "\n"


def key_of(instance: Instance) -> str:
    """Returns the key of an instance, with an edge on each line."""
    edges = [
        {
            "ends": ends,
            "name": each.name,
            "length": round(each.length, 2),
            "cost": each.cost,
            "demand": each.demand,
            "oneway": each.oneway,
            "geometry": each.geometry,
        }
        for ends, each in zip(instance.ends, instance.streets)
    ]
    rows = ",\n".join(json.dumps(edge, ensure_ascii=False) for edge in edges)
    return f'{{"version": 1, "depot": 1, "vertices": {json.dumps(instance.places)},\n"edges": [\n{rows}\n]}}\n'


def write_all(texts: Mapping[str, str]) -> None:
    """Writes each text beside its path, and then renames them all, so that nothing is written if one cannot be."""
    beside: dict[str, str] = {}
    try:
        for path, text in texts.items():
            write_beside(path, text, beside)
        for path in texts:
            os.replace(beside[path], os.path.realpath(path))
            del beside[path]
    except OSError as error:
        raise MapError(f"{path} cannot be written: {error.strerror}") from None
    finally:
        for name in beside.values():
            os.remove(name)


def write_beside(path: str, text: str, beside: dict[str, str]) -> None:
    """Writes a text to a new file beside what a path leads to, and notes its name."""
    target = os.path.realpath(path)
    if os.path.exists(target) and not os.path.isfile(target):
        raise MapError(f"{path} cannot be written: it is not a plain file")
    name = f"{target}.{os.getpid()}.new"
    with open(name, "x", encoding="utf-8", newline="\n") as file:
        beside[path] = name
        file.write(text)
