"""Tests of the modules on which `tools/streets` stands, and what the tests of the command share.

`.ci/tools_streets.py` runs them with its own.
"""
import json
import math
import os
import subprocess
import sys
import tempfile
import unittest
from collections import Counter
from typing import Any

TOP = os.path.dirname(os.path.dirname(os.path.abspath(__file__)))
TOOLS = os.path.join(TOP, "tools")
STREETS = os.path.join(TOOLS, "streets")
MAKE_TOWN = os.path.join(TOOLS, "samples", "make_town.py")
TOWN = os.path.join(TOOLS, "samples", "town.osm")
sys.path.insert(0, TOOLS)

from carp_map import geometry, instance, network, reading  # noqa: E402

PYTHON = "/usr/bin/python3"


def has_osmium() -> bool:
    """Tells if the Python that runs `tools/streets` has pyosmium."""
    words = [PYTHON, "-c", "import osmium"]
    return os.path.exists(PYTHON) and subprocess.run(words, capture_output=True).returncode == 0


HAS_OSMIUM = has_osmium()
needs_osmium = unittest.skipUnless(HAS_OSMIUM, "pyosmium is missing")


class FolderTest(unittest.TestCase):
    """A test that works in a new folder."""

    def setUp(self) -> None:
        folder = tempfile.TemporaryDirectory()
        self.addCleanup(folder.cleanup)
        self.addCleanup(os.chdir, os.getcwd())
        os.chdir(folder.name)

    def call(self, *words: str) -> subprocess.CompletedProcess[str]:
        """Runs a command in the folder."""
        return subprocess.run(words, capture_output=True, text=True, encoding="utf-8", timeout=60)

    def write(self, path: str, text: str) -> str:
        """Writes a file, and returns its name."""
        with open(path, "w", encoding="utf-8", newline="") as file:
            file.write(text)
        return path

    def streets(self, *words: str, depot: str = "45,-30", capacity: int = 20, town: str = TOWN) -> Any:
        """Runs `tools/streets` on a map that it takes, and returns the key."""
        done = self.call(STREETS, town, "--depot", depot, "--capacity", str(capacity), *words, "town.dat", "town.key")
        self.assertEqual((done.returncode, done.stderr), (0, ""))
        self.said = done.stdout.splitlines()
        with open("town.key", encoding="utf-8") as file:
            return json.load(file)

    def refused(self, *words: str, status: int = 1) -> list[str]:
        """Runs `tools/streets` where it refuses, and returns what it says; nothing may be written."""
        before = sorted(os.listdir())
        done = self.call(STREETS, *words)
        self.assertEqual((done.returncode, done.stdout), (status, ""), done.stderr)
        self.assertEqual(sorted(os.listdir()), before)
        lines = done.stderr.splitlines()
        self.assertTrue(lines[0].startswith("streets: "), lines)
        return [line.removeprefix("streets: ") for line in lines]

    def accepts(self, path: str) -> None:
        """Solves an instance with the program, and has it check the certificate."""
        solved = self.call(os.environ["CARP"], "solve", path, "kept.cert", "--turns", "1")
        self.assertIn(solved.returncode, (0, 1), solved.stdout)
        checked = self.call(os.environ["CARP"], "check", path, "kept.cert")
        self.assertTrue(checked.stdout.startswith("accepted\n"), checked.stdout)


def direction_of(place: geometry.Place) -> tuple[float, float, float]:
    """Returns the direction of a place from the middle of the Earth."""
    latitude, longitude = (math.radians(angle) for angle in place)
    flat = math.cos(latitude)
    return flat * math.cos(longitude), flat * math.sin(longitude), math.sin(latitude)


class Geometry(unittest.TestCase):
    def test_distances(self) -> None:
        degree = math.pi * geometry.EARTH_RADIUS / 180
        self.assertAlmostEqual(geometry.haversine((0, 0), (0, 1)), degree, 6)
        self.assertAlmostEqual(geometry.haversine((60, 0), (61, 0)), degree, 6)
        self.assertAlmostEqual(geometry.haversine((0, 179.5), (0, -179.5)), degree, 6)
        self.assertAlmostEqual(geometry.haversine((60, 0), (60, 0.001)) / degree, 0.0005, 9)
        self.assertAlmostEqual(geometry.haversine((10, 10), (-10, -170)), 180 * degree, -1)
        self.assertEqual(geometry.haversine((45, 7), (45, 7)), 0)
        for a, b in (((52.5, 13.4), (48.9, 2.4)), ((-33.9, 151.2), (51.5, -0.1)), ((89, 10), (80, -120))):
            angle = math.acos(sum(x * y for x, y in zip(direction_of(a), direction_of(b))))
            self.assertAlmostEqual(geometry.haversine(a, b), angle * geometry.EARTH_RADIUS, 2)
        self.assertAlmostEqual(geometry.length([(0, 0), (0, 1), (1, 1), (0, 1)]), 3 * degree, 6)
        self.assertEqual(geometry.length([(0, 0)]), 0)

    def test_directions(self) -> None:
        for place, angle in (((1, 0), 0), ((0, 1), 90), ((-1, 0), 180), ((0, -1), 270), ((0, 0), 0)):
            self.assertAlmostEqual(geometry.bearing((0, 0), place), angle)
        self.assertEqual(geometry.bearing((0, 0), (1, -1e-20)), 0)
        self.assertAlmostEqual(geometry.departure([(0, 0), (0, 0), (0, 1), (1, 1)]), 90)
        self.assertAlmostEqual(geometry.arrival([(0, 0), (0, 1), (1, 1), (1, 1)]), 0)

    def test_turns(self) -> None:
        wanted = {
            "straight on": (0, 29, 331, 359),
            "right": (30, 90, 119),
            "sharp right": (120, 169),
            "back": (170, 180, 190),
            "sharp left": (191, 240),
            "left": (241, 270, 330),
        }
        for word, changes in wanted.items():
            for change in changes:
                for before in (0, 45, 350):
                    self.assertEqual(geometry.turn(before, (before + change) % 360), word, change)

    def test_flat_positions(self) -> None:
        places = [(45.0, -30.0), (45.01, -30.0), (45.01, -29.99)]
        flat = [geometry.Projection(places).flat(place) for place in places]
        for a in range(3):
            for b in range(a):
                self.assertAlmostEqual(math.dist(flat[a], flat[b]) / geometry.haversine(places[a], places[b]), 1, 3)
        self.assertLess(flat[1][1], flat[0][1])
        self.assertLess(flat[1][0], flat[2][0])


class Reading(FolderTest):
    def test_tags(self) -> None:
        patterns = reading.read_patterns("highway=road, name,ref=A=1")
        self.assertEqual(patterns, [("highway", "road"), ("name", None), ("ref", "A=1")])
        self.assertTrue(reading.matches({"name": ""}, patterns))
        self.assertFalse(reading.matches({"highway": "service"}, patterns))
        for bad in ("", "=x", "a=", "a,,b"):
            self.assertRaises(ValueError, reading.read_patterns, bad)

    def test_drivable(self) -> None:
        open_ways: list[dict[str, str]] = [{}, {"access": "private", "vehicle": "yes"}, {"access": "destination"}]
        for more in open_ways:
            self.assertTrue(reading.is_drivable({"highway": "road", **more}), more)
        closed_ways = [
            {"access": "no"},
            {"motor_vehicle": "no", "access": "yes"},
            {"area": "yes"},
            {"service": "driveway"},
            {"highway": "footway"},
        ]
        for more in closed_ways:
            self.assertFalse(reading.is_drivable({"highway": "road", **more}), more)
        self.assertFalse(reading.is_drivable({}))

    def test_directions_and_speeds(self) -> None:
        wanted = {"yes": 1, "1": 1, "true": 1, "-1": -1, "reverse": -1, "no": 0, "reversible": 0}
        for stated, direction in wanted.items():
            self.assertEqual(reading.direction_of({"oneway": stated, "junction": "roundabout"}), direction)
        self.assertEqual(reading.direction_of({"junction": "roundabout"}), 1)
        self.assertEqual(reading.direction_of({"highway": "motorway"}), 1)
        self.assertEqual(reading.direction_of({"highway": "road"}), 0)
        speeds = {"50": 50, "20 mph": 32.18688, "30 km/h": 30, "walk": 7, "none": 30, "0": 30, "": 30, "DE:urban": 30}
        for stated, speed in speeds.items():
            self.assertAlmostEqual(reading.speed_of({"highway": "residential", "maxspeed": stated}), speed)

    def test_demands(self) -> None:
        path = self.write("demands.csv", 'street,demand\n"Smith, John",3\n\nGro\u0308ße  Straße, 12\n')
        self.assertEqual(reading.read_demands(path), {"Smith, John": 3, "Größe Straße": 12})
        self.assertEqual(reading.read_demands(self.write("demands.csv", "\ufeffStreet,Demand\r\nA,0\r\n")), {"A": 0})
        self.assertEqual(reading.read_demands(self.write("demands.csv", "A,1\n")), {"A": 1})
        faults = {
            "A\n": "line 1: not a street and its demand",
            "A,1\nB,x\n": "line 2: the demand of B is not a whole number: x",
            "A,-1\n": "line 1: the demand of A is not a whole number: -1",
            "A,1\nA,2\n": "line 2: A stands twice",
            ",1\n": "line 1: not a street and its demand",
            "A,1,2\n": "line 1: not a street and its demand",
            '"A,1\n': "cannot be read as demands",
        }
        for text, words in faults.items():
            with self.assertRaisesRegex(reading.MapError, f"^demands.csv {words}"):
                reading.read_demands(self.write("demands.csv", text))
        with open("demands.csv", "wb") as file:
            file.write(b"\xff,1\n")
        self.assertRaisesRegex(reading.MapError, "cannot be read", reading.read_demands, "demands.csv")
        self.assertRaisesRegex(reading.MapError, "cannot be read", reading.read_demands, "none.csv")


def make_way(
    *nodes: int, name: str | None = "A", oneway: int = 0, speed: float = 30, required: bool = True
) -> reading.Way:
    """Returns a way along nodes."""
    return reading.Way(nodes, name, oneway, speed, required)


def make_map(*ways: reading.Way, houses: tuple[int, ...] = (), missing: tuple[int, ...] = ()) -> reading.StreetMap:
    """Returns a map of ways, with the node 10 * y + x at x and y times about 100 m to the east and north of a place."""
    nodes = {node for way in ways for node in way.nodes} - set(missing)
    places = {node: (node // 10 / 1112, node % 10 / 1112) for node in nodes}
    return reading.StreetMap(list(ways), places, set(houses), len(missing))


def edges_of(street_map: reading.StreetMap, depot: int) -> list[tuple[int, int, str | None, int]]:
    """Returns the ends, the names and the directions of the streets of a map."""
    streets = network.streets_of(street_map, network.link(street_map), depot)
    return [(*each.ends, each.name, each.oneway) for each in streets]


class Network(unittest.TestCase):
    def test_chains_are_joined(self) -> None:
        street_map = make_map(make_way(1, 2, 3), make_way(5, 4, 3))
        (street,) = network.streets_of(street_map, network.link(street_map), 1)
        self.assertEqual((street.ends, len(street.geometry)), ((1, 5), 5))
        self.assertAlmostEqual(street.length, 4 * 111195.08 / 1112, 1)
        self.assertEqual(street.reach, math.ceil(street.length))
        self.assertAlmostEqual(street.seconds, street.length * 3.6 / 30)
        street_map = make_map(make_way(1, 2, speed=10), make_way(2, 3, speed=50))
        (street,) = network.streets_of(street_map, network.link(street_map), 1)
        self.assertAlmostEqual(street.seconds, street.length * 3.6 * (1 / 10 + 1 / 50) / 2)

    def test_stops(self) -> None:
        for other in (
            make_way(2, 3, name="B"),
            make_way(2, 3, name=None),
            make_way(2, 3, oneway=1),
            make_way(2, 3, required=False),
        ):
            self.assertEqual(len(edges_of(make_map(make_way(1, 2), other), 1)), 2, other)
        self.assertEqual(len(edges_of(make_map(make_way(1, 2), make_way(2, 3, speed=50)), 1)), 1)
        self.assertEqual(edges_of(make_map(make_way(1, 2, 3), houses=(2,)), 1), [(1, 2, "A", 0), (2, 3, "A", 0)])
        self.assertEqual(edges_of(make_map(make_way(1, 2, 3)), 2), [(1, 2, "A", 0), (2, 3, "A", 0)])
        crossing = make_map(make_way(1, 11, 21), make_way(10, 11, 12))
        ends = Counter(end for edge in edges_of(crossing, 11) for end in edge[:2])
        self.assertEqual(ends, {11: 4, 1: 1, 10: 1, 12: 1, 21: 1})

    def test_directions(self) -> None:
        self.assertEqual(edges_of(make_map(make_way(1, 2, oneway=1), make_way(3, 2, oneway=-1)), 1), [(1, 3, "A", 1)])
        then_free = edges_of(make_map(make_way(3, 2, 1, oneway=1), make_way(1, 11)), 1)
        self.assertEqual(then_free, [(3, 1, "A", 1), (1, 11, "A", 0)])
        meeting = edges_of(make_map(make_way(1, 2, oneway=1), make_way(3, 2, oneway=1)), 1)
        self.assertEqual(meeting, [(1, 2, "A", 1), (2, 3, "A", -1)])

    def test_loops_and_parallel_streets(self) -> None:
        loop = edges_of(make_map(make_way(1, 2), make_way(2, 3, 13, 12, 2, oneway=1)), 1)
        self.assertEqual(loop, [(1, 2, "A", 0), (2, 13, "A", 1), (13, 2, "A", 1)])
        alone = edges_of(make_map(make_way(1, 2, 12, 1)), 1)
        self.assertEqual(len(alone), 2)
        self.assertFalse(any(u == v for u, v, *_ in alone))
        parallel = edges_of(make_map(make_way(0, 1, 2, 3), make_way(1, 11, 12, 2)), 0)
        self.assertEqual(Counter(edge[:2] for edge in parallel), {(0, 1): 1, (1, 2): 2, (2, 3): 1})

    def test_faults_of_maps(self) -> None:
        self.assertEqual(edges_of(make_map(make_way(1, 2, 2, 1, 2, 3), make_way(3, 2)), 1), [(1, 3, "A", 0)])
        self.assertEqual(edges_of(make_map(make_way(1, 2, 3, 4, 5), missing=(3,)), 5), [(4, 5, "A", 0)])
        self.assertEqual(network.link(make_map(make_way(1))), {})
        self.assertEqual(edges_of(make_map(make_way(1, 2), make_way(4, 5)), 1), [(1, 2, "A", 0)])

    def test_cut_outs(self) -> None:
        rows = [make_way(*range(10 * row, 10 * row + 9)) for row in range(9)]
        columns = [make_way(*range(column, column + 90, 10), name="B") for column in range(9)]
        street_map = make_map(*rows, *columns, make_way(30, 21, 12, 3, name="C"))
        streets = network.streets_of(street_map, network.link(street_map), 0)
        self.assertEqual(network.cut_out(streets, 0, 10_000), streets)
        self.assertEqual(network.cut_out(streets, 0, 50), [])
        # A street that is near, and is joined to the depot only by one that is far.
        returning = make_map(make_way(0, 5, name="B"), make_way(5, 11, name="A"), make_way(11, 10, name="C"))
        near = network.streets_of(returning, network.link(returning), 0)
        self.assertEqual(network.cut_out(near, 0, 200), [])
        self.assertEqual(network.cut_out(near, 0, 600), near)
        for most in (2, 7, 20, 60):
            found = network.largest_cut_out(streets, 0, lambda some: len(some) <= most)
            assert found is not None
            radius, kept = found
            self.assertEqual(network.cut_out(streets, 0, radius), kept)
            self.assertLessEqual(len(kept), most)
            more = min(each.reach for each in streets if each.reach > radius)
            self.assertGreater(len(network.cut_out(streets, 0, more)), most)
        self.assertIsNone(network.largest_cut_out(streets, 0, lambda some: False))


def make_streets(count: int, demand: int = 1, cost: int = 5) -> list[network.Street]:
    """Returns streets along a path from the node 0."""
    return [
        network.Street(
            ends=(at, at + 1),
            geometry=((0, at / 1000), (0, (at + 1) / 1000)),
            name=f"S{at}",
            oneway=0,
            required=True,
            length=111.2,
            seconds=9.0,
            reach=at,
            cost=cost,
            demand=demand,
        )
        for at in range(count)
    ]


class Instances(FolderTest):
    def test_limits(self) -> None:
        self.assertEqual(instance.faults(make_streets(600), 19_999), [])
        self.assertEqual(instance.faults(make_streets(999, 0), 30_000), [])
        self.assertEqual(instance.faults(make_streets(1, 30_000, 1_000_000), 30_000), [])
        self.assertEqual(instance.faults(make_streets(1002, 0), 9), ["vertices 1,003: 3 above the limit of 1,000"])
        self.assertEqual(instance.faults(make_streets(1, 0) * 4001, 9), ["edges 4,001: 1 above the limit of 4,000"])
        self.assertEqual(instance.faults(make_streets(601), 9), ["required edges 601: 1 above the limit of 600"])
        self.assertEqual(instance.faults(make_streets(1), 30_001), ["capacity 30,001: 1 above the limit of 30,000"])
        states = "states 2 * 600 * (20000 + 1) = 24,001,200: 1,200 above the limit of 24,000,000"
        self.assertEqual(instance.faults(make_streets(600), 20_000), [states])
        both = [
            "cost 1,000,001 of S0 (111 m): 1 above the limit of 1,000,000",
            "demand 7 of S0 (111 m): 2 above the capacity of 5",
        ]
        self.assertEqual(instance.faults(make_streets(1, 7, 1_000_001), 5), both)
        self.assertIn("; 2 streets are above it", instance.faults(make_streets(2, 7), 5)[0])

    def test_demands(self) -> None:
        self.assertEqual(instance.divided(10, [1, 1, 8]), [2, 2, 6])
        self.assertEqual(instance.divided(3, [5, 0, 9]), [1, 1, 1])
        self.assertEqual(instance.divided(0, [5, 9]), [0, 0])
        self.assertEqual(instance.divided(7, [0, 0]), [4, 3])
        for total in range(9, 40):
            parts = instance.divided(total, [3, 1, 4, 1, 5, 9, 2, 6, 5])
            self.assertEqual((sum(parts), min(parts) >= 1), (total, True))
        by_length = instance.with_demands_by_length(make_streets(2), 3.0)
        self.assertEqual([each.demand for each in by_length], [3, 3])
        self.assertEqual(instance.with_demands_by_length(make_streets(1), 0.001)[0].demand, 1)
        by_name = instance.with_demands_by_name(make_streets(3), {"S1": 4, "S2": 0})
        self.assertEqual([each.demand for each in by_name], [0, 4, 0])
        with self.assertRaisesRegex(reading.MapError, "joined to the depot: T1, T2, T3, T4, T5 and 2 more$"):
            instance.with_demands_by_name(make_streets(3), {f"T{at}": 1 for at in range(1, 8)})
        with self.assertRaisesRegex(reading.MapError, "S0 has 2 parts and a demand of 1"):
            instance.with_demands_by_name(make_streets(1) * 2, {"S0": 1})

    def test_program_reads_an_instance(self) -> None:
        streets = instance.with_demands_by_name(make_streets(4), {"S1": 4, "S3": 2})
        made = instance.make_instance(streets, 0, (0, 0), 5)
        self.assertEqual(made.ends, [(2, 3), (4, 5), (1, 2), (3, 4)])
        self.assertEqual(made.places[:3], [(0, 0), (0, 0.001), (0, 0.002)])
        self.accepts(self.write("path.dat", instance.dat_of(made, "metres")))
        key = json.loads(instance.key_of(made))
        self.assertEqual([edge["demand"] for edge in key["edges"]], [4, 2, 0, 0])

    def test_program_reads_the_greatest(self) -> None:
        made = instance.make_instance(make_streets(600, 19_999, 1_000_000), 0, (0, 0), 19_999)
        self.write("long.dat", instance.dat_of(made, "metres"))
        self.write("none.cert", "")
        self.assertIn("bad certificate", self.call(os.environ["CARP"], "check", "long.dat", "none.cert").stdout)
        more = instance.make_instance(make_streets(601), 0, (0, 0), 1)
        self.write("long.dat", instance.dat_of(more, "metres"))
        self.assertIn("601 required edges", self.call(os.environ["CARP"], "check", "long.dat", "none.cert").stdout)

    def test_writing(self) -> None:
        self.write("a", "old")
        os.mkdir("b")
        for other in ("b", "none/b"):
            with self.assertRaisesRegex(reading.MapError, f"^{other}.* cannot be written"):
                instance.write_all({"a": "new", other: "new"})
            self.assertEqual(sorted(os.listdir()), ["a", "b"])
        instance.write_all({"a": "new", "b/c": "ß\n"})
        with open("b/c", "rb") as file:
            self.assertEqual(file.read(), b"\xc3\x9f\n")
        self.assertEqual(os.listdir("b"), ["c"])
        os.symlink("b/c", "link")
        instance.write_all({"link": "newer"})
        self.assertTrue(os.path.islink("link"))
        with open("b/c", encoding="utf-8") as kept:
            self.assertEqual(kept.read(), "newer")
