"""Reads the key of a map, checks that it is one of an instance, and lays tours along its streets.

The key is what `carp_map/instance.py` describes.
"""
import json
import unicodedata
from dataclasses import dataclass
from typing import Any, TypeGuard

from carp_map.geometry import Place
from carp_run import Edge, Instance, Move, Refusal, contents


@dataclass(frozen=True)
class Street:
    """What the key tells of an edge: 1 as `oneway` allows only the way from its first end, -1 only the way back."""

    name: str | None
    metres: float
    oneway: int
    line: list[Place]


@dataclass(frozen=True)
class Key:
    """The position of each vertex, from vertex 1 on, and the street of each edge."""

    places: list[Place]
    streets: list[Street]


@dataclass(frozen=True)
class Step:
    """A step of a tour along its street, with the load after it."""

    move: Move
    edge: Edge
    street: Street
    load: int

    @property
    def ends(self) -> tuple[int, int]:
        """The vertices where the step starts and ends."""
        return self.edge.ends if self.move.forward else self.edge.ends[::-1]

    @property
    def do(self) -> str:
        """What the step does in a word."""
        return "serve" if self.move.serves else "drive"

    @property
    def cost(self) -> int:
        """What the step costs."""
        return self.edge.service if self.move.serves else self.edge.cost

    @property
    def line(self) -> list[Place]:
        """The places along the step, in the order in which it comes to them."""
        return self.street.line if self.move.forward else self.street.line[::-1]

    @property
    def is_against(self) -> bool:
        """Whether the step goes against a one-way street."""
        return self.street.oneway == (-1 if self.move.forward else 1)


def read_key(path: str, instance: Instance) -> Key:
    """Returns the key in a file, if it is one of the instance."""
    text = contents(path)
    try:
        return key_of(json.loads(text), instance)
    except Refusal as refusal:
        raise Refusal(f"{path}: {refusal}") from None
    except (ValueError, RecursionError) as error:
        raise Refusal(f"{path}: it is no JSON: {error}") from error


def key_of(text: Any, instance: Instance) -> Key:
    """Returns the key that a JSON value is, if it is one of the instance."""
    if not isinstance(text, dict) or text.get("version") != 1:
        raise Refusal("it is no key of version 1")
    for name, count in ("vertices", instance.vertices), ("edges", len(instance.edges)):
        if not isinstance(text.get(name), list):
            raise Refusal(f"it has no list of {name}")
        if len(text[name]) != count:
            raise Refusal(f"it has {len(text[name])} {name}, and the instance has {count}")
    if text.get("depot") != instance.depot:
        raise Refusal(f"its depot is {text.get('depot')}, and that of the instance is {instance.depot}")
    places = [place_of(place, f"vertex {number}") for number, place in enumerate(text["vertices"], 1)]
    streets = [
        street_of(part, edge, places, f"edge {number}")
        for number, (part, edge) in enumerate(zip(text["edges"], instance.edges), 1)
    ]
    return Key(places, streets)


def place_of(value: Any, owner: str) -> Place:
    """Returns the place that a JSON value is."""
    if isinstance(value, list) and len(value) == 2 and all(is_number(part) for part in value):
        latitude, longitude = value
        if abs(latitude) <= 90 and abs(longitude) <= 180:
            return float(latitude), float(longitude)
    raise Refusal(f"{owner} has no place [latitude, longitude]")


def street_of(part: Any, edge: Edge, places: list[Place], owner: str) -> Street:
    """Returns the street that a JSON value tells of an edge, if it is one of this edge."""
    if not isinstance(part, dict):
        raise Refusal(f"{owner} is no object")
    for field, wanted in ("ends", list(edge.ends)), ("cost", edge.cost), ("demand", edge.demand):
        if part.get(field) != wanted:
            raise Refusal(f"{owner} has the {field} {part.get(field)}, and {wanted} in the instance")
    name, metres, oneway, points = (part.get(field) for field in ("name", "length", "oneway", "geometry"))
    if name is not None and not isinstance(name, str):
        raise Refusal(f"{owner} has a name that is no text")
    if not is_number(metres) or metres < 0:
        raise Refusal(f"{owner} has no length")
    if type(oneway) is not int or oneway not in (-1, 0, 1):
        raise Refusal(f"{owner} has no oneway of -1, 0 or 1")
    if not isinstance(points, list) or len(points) < 2:
        raise Refusal(f"{owner} has no geometry of two places or more")
    line = [place_of(point, f"the geometry of {owner}") for point in points]
    if [line[0], line[-1]] != [places[end - 1] for end in edge.ends]:
        raise Refusal(f"the geometry of {owner} does not lead from the place of one end to that of the other")
    return Street(printable(name) if name else None, metres, oneway, line)


def is_number(value: Any) -> TypeGuard[float]:
    """Returns whether a JSON value is a number of a size that a map can have."""
    return type(value) in (int, float) and abs(value) <= 1e9


def printable(name: str) -> str:
    """Returns a name on one line, without what XML cannot hold."""
    plain = (" " if unicodedata.category(c) in ("Cc", "Cs", "Zl", "Zp") or c in "\ufffe\uffff" else c for c in name)
    return " ".join("".join(plain).split()) or "?"


def steps_of(moves: list[Move], instance: Instance, key: Key) -> list[Step]:
    """Returns the steps of a tour along the streets of the key."""
    load, steps = 0, []
    for move in moves:
        edge = instance.edges[move.edge - 1]
        load += edge.demand if move.serves else 0
        steps.append(Step(move, edge, key.streets[move.edge - 1], load))
    return steps
