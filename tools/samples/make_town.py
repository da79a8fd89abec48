#!/usr/bin/env python3
"""Makes an extract of a small town in the OpenStreetMap format. The town is made up, and lies in the open Atlantic.

usage: make_town.py OUT.osm [--seed N] [--rows N] [--columns N]

Streets run along the rows and the columns of a grid with moved crossings. Besides there are a roundabout, a one-way
street, one that is one-way against its nodes, two parallel streets, a dead end, a turning loop, a street that changes
its name, a house that is a node of a street, ways that nobody drives, a way that leaves the extract, and an island of
three streets. `town.osm` is the town of seed 1 with 6 rows and 7 columns.
"""
import argparse
import math
import random
from xml.sax.saxutils import quoteattr

MIDDLE = (45.0, -30.0)
SPACING = 110.0
METRES = 111_195.08
ROWS = [
    "Größe Straße", "Rue de l’Église", "Ångströms väg", "Łąkowa", "Οδός Νίκης", "Улица Мира", "Çeşme Sokağı",
]
COLUMNS = [
    '"Smith & Sons" Lane', "Žižkova", "Calle del Ñandú", "大通り", "Mill Road", "Sørgata", "Tűzoltó utca", "<Old> Row",
]
QUIET = ("highway", "residential"), ("maxspeed", "30")


class Town:
    """The nodes and ways of an extract, numbered from 1."""

    def __init__(self, seed: int) -> None:
        self.random = random.Random(seed)
        self.nodes: list[str] = []
        self.ways: list[str] = []

    def node(self, east: float, north: float, *tags: tuple[str, str]) -> int:
        """Adds a node at a place in metres from the middle of the town, and returns its number."""
        number = len(self.nodes) + 1
        latitude = MIDDLE[0] + north / METRES
        longitude = MIDDLE[1] + east / METRES / math.cos(math.radians(MIDDLE[0]))
        start = f'  <node id="{number}" version="1" lat="{latitude:.7f}" lon="{longitude:.7f}"'
        self.nodes.append(start + ("/>" if not tags else ">\n" + self.lines(tags) + "  </node>"))
        return number

    def way(self, nodes: list[int], *tags: tuple[str, str]) -> None:
        """Adds a way along nodes."""
        references = "".join(f'    <nd ref="{node}"/>\n' for node in nodes)
        number = len(self.ways) + 1
        self.ways.append(f'  <way id="{number}" version="1">\n{references}{self.lines(tags)}  </way>')

    def lines(self, tags: tuple[tuple[str, str], ...]) -> str:
        """Returns the lines of tags."""
        return "".join(f"    <tag k={quoteattr(key)} v={quoteattr(value)}/>\n" for key, value in tags)

    def moved(self, most: float) -> float:
        """Returns a random distance of at most so many metres to either side."""
        return (2 * self.random.random() - 1) * most

    def text(self) -> str:
        """Returns the extract."""
        objects = "\n".join(self.nodes + self.ways)
        head = '<?xml version="1.0" encoding="UTF-8"?>\n<osm version="0.6" generator="carp make_town">'
        return f"{head}\n{objects}\n</osm>\n"


class Grid:
    """The crossings of a town, with one of them widened to a roundabout, and the bends between them."""

    def __init__(self, town: Town, rows: int, columns: int) -> None:
        self.town, self.rows, self.columns = town, rows, columns
        self.places: dict[tuple[int, int], tuple[float, float]] = {}
        for row in range(rows):
            for column in range(columns):
                east = SPACING * (column - columns / 2) + town.moved(25)
                north = SPACING * (rows / 2 - row) + town.moved(25)
                self.places[row, column] = (east, north)
        self.circle = (rows // 2, columns // 2)
        self.crossings = {at: town.node(*place) for at, place in self.places.items() if at != self.circle}
        east, north = self.places[self.circle]
        angles = [math.pi * step / 4 for step in range(8)]
        self.round = [town.node(east + 15 * math.cos(angle), north + 15 * math.sin(angle)) for angle in angles]

    def node(self, at: tuple[int, int], towards: tuple[int, int]) -> int:
        """Returns the node where the street towards a neighbour leaves a crossing."""
        if at != self.circle:
            return self.crossings[at]
        sides = {(0, 1): 0, (-1, 0): 2, (0, -1): 4, (1, 0): 6}
        return self.round[sides[towards[0] - at[0], towards[1] - at[1]]]

    def bend(self, at: tuple[int, int], towards: tuple[int, int], most: float) -> int:
        """Returns a new node near the middle between two crossings."""
        (east, north), (other_east, other_north) = self.places[at], self.places[towards]
        return self.town.node(
            (east + other_east) / 2 + self.town.moved(most), (north + other_north) / 2 + self.town.moved(most)
        )

    def line(self, crossings: list[tuple[int, int]]) -> list[list[int]]:
        """Returns the nodes along neighbouring crossings, with bends; the roundabout cuts the line in two."""
        parts: list[list[int]] = [[]]
        for at, towards in zip(crossings, crossings[1:]):
            parts[-1].append(self.node(at, towards))
            if self.town.random.random() < 0.4:
                parts[-1].append(self.bend(at, towards, 12))
            if towards == self.circle:
                parts[-1].append(self.node(towards, at))
                parts.append([])
        parts[-1].append(self.node(crossings[-1], crossings[-2]))
        return parts


def add_grid(town: Town, grid: Grid) -> None:
    """Adds the streets of the grid; the second row is one-way, and the second column is so against its nodes."""
    town.way([*grid.round, grid.round[0]], ("highway", "residential"), ("junction", "roundabout"))
    for row in range(grid.rows):
        name = ROWS[row % len(ROWS)] + (f" {row // len(ROWS) + 1}" if row >= len(ROWS) else "")
        more = [("oneway", "yes")] if row == 1 else []
        for part in grid.line([(row, column) for column in range(grid.columns)]):
            town.way(part, *QUIET, ("name", name), *more)
    for column in range(grid.columns):
        name = COLUMNS[column % len(COLUMNS)] + (f" {column // len(COLUMNS) + 1}" if column >= len(COLUMNS) else "")
        more = [("oneway", "-1")] if column == 1 else []
        for part in grid.line([(row, column) for row in range(grid.rows)]):
            town.way(part, ("highway", "tertiary"), ("name", name), *more)


def add_special(town: Town, grid: Grid) -> None:
    """Adds what is rare in a grid."""
    last = (grid.rows - 1, grid.columns - 1)
    # A second street between two crossings.
    east, north = grid.places[0, 0]
    parallel = town.node(east + SPACING / 2, north + 45)
    town.way([grid.crossings[0, 0], parallel, grid.crossings[0, 1]], *QUIET, ("name", "Upper Größe Straße"))
    # A dead end with a house in its line, which changes its name, and ends in a turning loop.
    east, north = grid.places[last]
    corner = grid.crossings[last]
    house = town.node(east + 60, north - 10, ("addr:housenumber", "7"), ("addr:street", "Quai des Brumes"))
    change = town.node(east + 110, north - 5)
    neck = town.node(east + 160, north)
    loop = [town.node(east + 160 + x, north + y) for x, y in ((20, 15), (40, 0), (20, -15))]
    town.way([corner, house, change], *QUIET, ("name", "Quai des Brumes"))
    town.way([change, neck], *QUIET, ("name", "Quai d’Été"))
    town.way([neck, *loop, neck], ("highway", "living_street"), ("name", "Am Wendehammer"))
    # A plain dead end.
    east, north = grid.places[0, grid.columns - 1]
    end = town.node(east + 70, north + 40)
    town.way([grid.crossings[0, grid.columns - 1], end], ("highway", "service"), ("name", "Blindgasse"))


def add_outside(town: Town, grid: Grid) -> None:
    """Adds what is not part of the network: ways that are not driven, an island, and a way that leaves the extract."""
    corner = grid.crossings[grid.rows - 1, 0]
    east, north = grid.places[grid.rows - 1, 0]
    yard = town.node(east - 40, north + 30)
    town.way([corner, yard], ("highway", "footway"), ("name", "Treppenweg"))
    town.way([yard, grid.crossings[grid.rows - 2, 0]], ("highway", "service"), ("access", "private"))
    square = [town.node(east - 60 + x, north + y) for x, y in ((0, 0), (12, 0), (12, 9), (0, 9))]
    town.way([*square, square[0]], ("building", "yes"), ("addr:housenumber", "1"))
    island = [town.node(east - 500 + x, north + y) for x, y in ((0, 0), (90, 20), (40, 80))]
    for start, end, name in ((0, 1, "Østervej"), (1, 2, "Vestervej"), (2, 0, "Møllevej")):
        town.way([island[start], island[end]], *QUIET, ("name", name))
    edge = town.node(east - 30, north - 60)
    town.way([corner, edge, 999_999_999], *QUIET, ("name", "Long Way Out"))


def make_town(seed: int, rows: int, columns: int) -> str:
    """Returns the extract of the town of a seed."""
    town = Town(seed)
    grid = Grid(town, rows, columns)
    add_grid(town, grid)
    add_special(town, grid)
    add_outside(town, grid)
    return town.text()


def main() -> None:
    parser = argparse.ArgumentParser(description=__doc__, formatter_class=argparse.RawDescriptionHelpFormatter)
    parser.add_argument("out", metavar="OUT.osm")
    parser.add_argument("--seed", type=int, default=1)
    parser.add_argument("--rows", type=int, default=6)
    parser.add_argument("--columns", type=int, default=7)
    options = parser.parse_args()
    if min(options.rows, options.columns) < 4:
        parser.error("a town has at least 4 rows and 4 columns")
    with open(options.out, "w", encoding="utf-8", newline="\n") as file:
        file.write(make_town(options.seed, options.rows, options.columns))


if __name__ == "__main__":
    main()
