#!/usr/bin/env python3
"""Makes a city of a seed: an instance of any size and the key of its places.

usage: bench/make_city.py OUT.dat OUT.key --required N [--seed N] [--capacity N]

The junctions are those of a grid with noise, whose lines lie close together in the middle and far apart at the rim, so
that there are three densities. A river runs through it, and a few bridges cross it. Some streets are missing, and some
junctions have a dead end. A part of the streets needs service, less of them the farther out. Exactly N of those that
hang together with the depot are required.
"""
import argparse
import json
import math
import os
import random
import sys
from dataclasses import dataclass

sys.path.insert(0, os.path.join(os.path.dirname(os.path.dirname(os.path.abspath(__file__))), "tools"))

import carp_run  # noqa: E402

MIDDLE = (44.0, -32.0)
METRES = 111_195.08

Junction = tuple[int, int, int]
Point = tuple[float, float]


@dataclass(frozen=True)
class Zone:
    """How a part of a city is: the metres between its grid lines, and the shares of its streets that are missing,
    that need service, and of its junctions that have a dead end; and the metres that one unit of demand takes."""

    spacing: float
    missing: float
    required: float
    dead_ends: float
    metres: float


ZONES = Zone(70.0, 0.05, 0.9, 0.05, 9.0), Zone(110.0, 0.1, 0.7, 0.1, 14.0), Zone(180.0, 0.2, 0.5, 0.15, 24.0)
BRIDGES = 9


@dataclass(frozen=True)
class Street:
    """A street between two junctions."""

    ends: tuple[Junction, Junction]
    name: str
    metres: float
    demand: int


def zone_of(place: float) -> Zone:
    """Returns the zone at a place from -1 at one rim to 1 at the other."""
    return ZONES[min(2, int(abs(place) * 3))]


def lines_of(count: int) -> list[float]:
    """Returns where the grid lines lie, in metres from the middle."""
    steps = [zone_of(2 * (at + 0.5) / (count - 1) - 1).spacing for at in range(count - 1)]
    lines = [sum(steps[:at]) for at in range(count)]
    return [line - lines[-1] / 2 for line in lines]


class Grid:
    """The junctions and the streets of a city before it is cut to its size."""

    def __init__(self, count: int, seed: int) -> None:
        self.random = random.Random(f"city {count} {seed}")
        self.count = count
        self.lines = lines_of(count)
        self.places: dict[Junction, Point] = {}
        self.streets: list[Street] = []
        for row in range(count):
            for column in range(count):
                self.add_junction(row, column)
        for row in range(count):
            for column in range(count):
                self.add_streets(row, column)

    def zone(self, row: int, column: int) -> Zone:
        """Returns the zone of a junction."""
        return zone_of(max((abs(2 * at / (self.count - 1) - 1) for at in (row, column))))

    def add_junction(self, row: int, column: int) -> None:
        """Adds a junction near its place in the grid."""
        noise = 0.25 * self.zone(row, column).spacing
        east, north = (self.lines[at] + self.random.uniform(-noise, noise) for at in (column, row))
        self.places[row, column, 0] = (east, north)

    def is_bridge(self, column: int) -> bool:
        """Returns whether a bridge crosses the river at a column."""
        return column % max(1, self.count // BRIDGES) == 1

    def add_streets(self, row: int, column: int) -> None:
        """Adds the streets from a junction to the next ones, and perhaps a dead end."""
        zone = self.zone(row, column)
        # The river winds from west to east, below the row that it has at a column.
        river = int(self.count * (0.4 + 0.08 * math.sin(4 * column / self.count)))
        is_over_river = row == river and column < self.count
        if column + 1 < self.count and self.random.random() >= zone.missing:
            self.add((row, column, 0), (row, column + 1, 0), f"Row {row + 1}", zone)
        if row + 1 < self.count and (self.is_bridge(column) if is_over_river else self.random.random() >= zone.missing):
            self.add((row, column, 0), (row + 1, column, 0), f"Column {column + 1}", zone)
        if self.random.random() < zone.dead_ends:
            self.add_dead_end(row, column, zone)

    def add_dead_end(self, row: int, column: int, zone: Zone) -> None:
        """Adds a dead end at a junction."""
        east, north = self.places[row, column, 0]
        angle = self.random.uniform(0.2, math.pi / 2 - 0.2)
        reach = zone.spacing * self.random.uniform(0.2, 0.45)
        self.places[row, column, 1] = (east + reach * math.cos(angle), north + reach * math.sin(angle))
        self.add((row, column, 0), (row, column, 1), f"Court {row + 1}/{column + 1}", zone)

    def add(self, a: Junction, b: Junction, name: str, zone: Zone) -> None:
        """Adds a street, which needs service by chance."""
        metres = math.dist(self.places[a], self.places[b]) * self.random.uniform(1.0, 1.15)
        demand = max(1, round(metres / zone.metres)) if self.random.random() < zone.required else 0
        self.streets.append(Street((a, b), name, max(1.0, metres), demand))

    def joined(self, depot: Junction) -> list[Street]:
        """Returns the streets that hang together with the depot, near ones first."""
        at: dict[Junction, list[Street]] = {}
        for street in self.streets:
            for end in street.ends:
                at.setdefault(end, []).append(street)
        found, waiting, kept = {depot}, [depot], {}
        for junction in waiting:
            for street in at.get(junction, []):
                kept[street] = None
                waiting += [end for end in street.ends if end not in found]
                found.update(street.ends)
        return list(kept)


def city_of(required: int, seed: int) -> tuple[Grid, Junction, list[Street]]:
    """Returns a grid with its depot, and the streets of it with exactly so many required ones."""
    count = max(4, int(math.sqrt(required / 1.6)))
    while True:
        grid = Grid(count, seed)
        depot = (count // 3, count // 4, 0)
        streets = grid.joined(depot)
        if sum(street.demand > 0 for street in streets) >= required:
            return grid, depot, cut(streets, required)
        count += 1


def cut(streets: list[Street], required: int) -> list[Street]:
    """Returns the first streets with so many required ones, the required ones first."""
    kept: list[Street] = []
    for street in streets:
        if required == 0:
            break
        required -= street.demand > 0
        kept.append(street)
    return sorted(kept, key=lambda street: street.demand == 0)


def files_of(required: int, seed: int, capacity: int) -> tuple[bytes, str]:
    """Returns the instance and the key of a city."""
    grid, depot, streets = city_of(required, seed)
    numbers: dict[Junction, int] = {depot: 1}
    for street in streets:
        for end in street.ends:
            numbers.setdefault(end, len(numbers) + 1)
    edges, rows = [], []
    places = [place_of(grid.places[junction]) for junction in numbers]
    for street in streets:
        ends = numbers[street.ends[0]], numbers[street.ends[1]]
        cost = round(street.metres)
        edges.append(carp_run.Edge(ends, cost, street.demand, cost))
        rows.append(json.dumps({
            "ends": ends, "name": street.name, "length": round(street.metres, 2), "cost": cost, "demand": street.demand,
            "oneway": 0, "geometry": [places[end - 1] for end in ends],
        }))
    key = f'{{"version": 1, "depot": 1, "vertices": {json.dumps(places)},\n"edges": [\n' + ",\n".join(rows) + "\n]}\n"
    return carp_run.Instance(len(numbers), capacity, 1, edges).text(), key


def place_of(point: Point) -> tuple[float, float]:
    """Returns the latitude and the longitude of a point."""
    east = point[0] / METRES / math.cos(math.radians(MIDDLE[0]))
    return round(MIDDLE[0] + point[1] / METRES, 7), round(MIDDLE[1] + east, 7)


def main() -> None:
    parser = argparse.ArgumentParser(description=__doc__, formatter_class=argparse.RawDescriptionHelpFormatter)
    parser.add_argument("dat", metavar="OUT.dat")
    parser.add_argument("key", metavar="OUT.key")
    parser.add_argument("--required", type=int, required=True)
    parser.add_argument("--seed", type=int, default=1)
    parser.add_argument("--capacity", type=int, default=150)
    words = parser.parse_args()
    text, key = files_of(words.required, words.seed, words.capacity)
    carp_run.write_whole(words.dat, text)
    carp_run.write_whole(words.key, key)


if __name__ == "__main__":
    main()
