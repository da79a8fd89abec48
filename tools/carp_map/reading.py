"""Reads the drivable streets of an OpenStreetMap extract, and the demands of a CSV file.

An extract is read twice by pyosmium, first its ways and then their nodes, so that nodes may come in any order. A way is
cut where the extract lacks one of its nodes. pyosmium is loaded only if an extract is read.
"""
import csv
import os
import re
import unicodedata
from collections.abc import Callable, Mapping, Sequence
from dataclasses import dataclass
from typing import Any

from carp_map.geometry import Place

# The kinds of streets that cars drive, with the speed in km/h that is taken if none is stated.
SPEEDS = {
    "motorway": 100, "motorway_link": 60, "trunk": 80, "trunk_link": 50, "primary": 50, "primary_link": 50,
    "secondary": 50, "secondary_link": 50, "tertiary": 50, "tertiary_link": 50, "unclassified": 50, "road": 30,
    "residential": 30, "living_street": 10, "service": 15,
}
PRIVATE_SERVICE = {"driveway", "parking_aisle"}
WALKING_SPEED = 7
KILOMETRES_PER_MILE = 1.609344

# A tag that is looked for: its key, and its value or None for any.
Pattern = tuple[str, str | None]


class MapError(Exception):
    """What is wrong with a map or another file, in words for whoever runs the tool."""


@dataclass(frozen=True)
class Way:
    """A street of the extract: its nodes in order, and what matters of its tags.

    `oneway` is 1 if it is driven only in the order of its nodes, -1 if only against it, and else 0.
    """

    nodes: tuple[int, ...]
    name: str | None
    oneway: int
    speed: float
    required: bool


@dataclass(frozen=True)
class StreetMap:
    """The drivable ways of an extract, the places of their nodes, and which of these have a house number."""

    ways: list[Way]
    places: dict[int, Place]
    houses: set[int]
    missing: int


def read_patterns(text: str) -> list[Pattern]:
    """Reads tags as `highway=residential,name`; raises ValueError if one has no key."""
    patterns: list[Pattern] = []
    for part in text.split(","):
        key, equals, value = part.strip().partition("=")
        if not key or (equals and not value):
            raise ValueError(f"not a tag: {part!r}")
        patterns.append((key, value if equals else None))
    return patterns


def matches(tags: Mapping[str, str], patterns: Sequence[Pattern]) -> bool:
    """Tells if one of the patterns is among the tags."""
    return any(key in tags and value in (None, tags[key]) for key, value in patterns)


def is_drivable(tags: Mapping[str, str]) -> bool:
    """Tells if anybody may drive a way with these tags."""
    if tags.get("highway") not in SPEEDS or tags.get("area") == "yes" or tags.get("service") in PRIVATE_SERVICE:
        return False
    access = next((tags[key] for key in ("motor_vehicle", "vehicle", "access") if key in tags), "yes")
    return access not in ("no", "private")


def direction_of(tags: Mapping[str, str]) -> int:
    """Returns 1 if a way is driven only in the order of its nodes, -1 if only against it, and else 0."""
    stated = tags.get("oneway")
    if stated in ("-1", "reverse"):
        return -1
    if stated in ("yes", "true", "1"):
        return 1
    if stated is not None:
        return 0
    round_or_fast = tags.get("junction") in ("roundabout", "circular") or tags.get("highway") == "motorway"
    return 1 if round_or_fast else 0


def speed_of(tags: Mapping[str, str]) -> float:
    """Returns the speed limit of a way in km/h, or what is usual for its kind."""
    usual = float(SPEEDS[tags["highway"]])
    stated = tags.get("maxspeed", "").strip().lower()
    if stated == "walk":
        return WALKING_SPEED
    number = re.fullmatch(r"([0-9]{1,3}(?:\.[0-9]+)?)\s*(mph|km/h|kmh|kph)?", stated)
    if number is None or float(number[1]) == 0:
        return usual
    return float(number[1]) * (KILOMETRES_PER_MILE if number[2] == "mph" else 1)


def plain_name(name: str) -> str:
    """Returns a name in one spelling: composed letters, and single blanks between the words."""
    return " ".join(unicodedata.normalize("NFC", name).split())


def name_of(tags: Mapping[str, str]) -> str | None:
    """Returns the name of a way, or its number if it has none."""
    return plain_name(tags.get("name", "")) or plain_name(tags.get("ref", "")) or None


def scan(path: str, **callbacks: Callable[[Any], None]) -> None:
    """Calls the callbacks for the objects of an extract, `way` or `node`."""
    try:
        import osmium
    except ImportError:
        raise MapError(
            "pyosmium is missing: install Debian's package python3-pyosmium, or osmium of PyPI for another Python"
        ) from None
    try:
        osmium.make_simple_handler(**callbacks).apply_file(path)
    except (RuntimeError, ValueError, OSError) as error:
        raise MapError(f"{path} cannot be read as a map: {error}") from None


def read_map(path: str, require: Sequence[Pattern], exclude: Sequence[Pattern]) -> StreetMap:
    """Reads the drivable streets of an extract that match no pattern to exclude.

    Those that match a pattern to require need service, or all if there is none.
    """
    if not os.path.isfile(path):
        raise MapError(f"{path} is not a file")
    ways: list[Way] = []
    places: dict[int, Place] = {}
    houses: set[int] = set()

    def take_way(way: Any) -> None:
        tags = {tag.k: tag.v for tag in way.tags}
        if is_drivable(tags) and not matches(tags, exclude):
            nodes = tuple(node.ref for node in way.nodes)
            required = not require or matches(tags, require)
            ways.append(Way(nodes, name_of(tags), direction_of(tags), speed_of(tags), required))

    def take_node(node: Any) -> None:
        if node.id in wanted and node.location.valid():
            places[node.id] = (node.location.lat, node.location.lon)
            if "addr:housenumber" in node.tags:
                houses.add(node.id)

    scan(path, way=take_way)
    wanted = {node for way in ways for node in way.nodes}
    scan(path, node=take_node)
    if not places:
        raise MapError(f"{path} has no street that can be driven")
    return StreetMap(ways, places, houses, len(wanted) - len(places))


def read_demands(path: str) -> dict[str, int]:
    """Reads a CSV file with a line `street,demand` for each street; a line with these words may stand above them."""
    demands: dict[str, int] = {}
    try:
        with open(path, encoding="utf-8-sig", newline="") as file:
            rows = csv.reader(file, strict=True)
            for row in rows:
                if row and not (rows.line_num == 1 and [word.strip().lower() for word in row] == ["street", "demand"]):
                    name, demand = read_demand(path, rows.line_num, row)
                    if name in demands:
                        raise MapError(f"{path} line {rows.line_num}: {name} stands twice")
                    demands[name] = demand
    except (OSError, UnicodeError, csv.Error) as error:
        raise MapError(f"{path} cannot be read as demands: {error}") from None
    return demands


def read_demand(path: str, line: int, row: Sequence[str]) -> tuple[str, int]:
    """Reads one row of a file of demands."""
    if len(row) != 2 or not row[0].strip():
        raise MapError(f"{path} line {line}: not a street and its demand")
    if not re.fullmatch(r"\s*[0-9]{1,9}\s*", row[1]):
        raise MapError(f"{path} line {line}: the demand of {row[0].strip()} is not a whole number: {row[1].strip()}")
    return plain_name(row[0]), int(row[1])
