"""Tests of the modules on which `tools/city` stands. `.ci/tools_city.py` runs them with its own.

Those of the network, the districts and the rounds need scipy; if it is missing, they are left out.
"""
import json
import random
import sys
import unittest
from collections.abc import Collection
from importlib.util import find_spec
from pathlib import Path
from typing import Any

TOP = Path(__file__).resolve().parent.parent
sys.path[:0] = [str(TOP / "tools"), str(TOP / "bench")]

import carp_run  # noqa: E402
import make_city  # noqa: E402
from carp_city import large  # noqa: E402
from carp_run import Edge, Instance, Move  # noqa: E402

HAS_SCIPY = find_spec("scipy") is not None
HAS_DASK = find_spec("distributed") is not None
needs_scipy = unittest.skipUnless(HAS_SCIPY, "scipy is missing")

if HAS_SCIPY:
    import numpy
    from carp_city import contraction, districts, network

Distances = dict[int, dict[int, int]]


def random_city(seed: int, vertices: int = 30, most: int = 20) -> Instance:
    """Returns a connected instance with parallel streets and streets of cost 0; the depot is any vertex."""
    chance = random.Random(seed)
    pairs = [(at, chance.randrange(max(1, at - 4), at)) for at in range(2, vertices + 1)]
    pairs += [tuple(chance.sample(range(1, vertices + 1), 2)) for _ in range(vertices // 3)] + pairs[:3]
    edges = []
    for u, v in pairs:
        cost, demand = chance.randrange(most), chance.choice((0, 0, 1, 3))
        edges.append(Edge((u, v), cost, demand, cost + chance.randrange(3) if demand else cost))
    return Instance(vertices, 9, chance.randrange(1, vertices + 1), sorted(edges, key=lambda edge: not edge.demand))


def distances_of(instance: Instance) -> Distances:
    """Returns all least distances (Floyd 1962)."""
    vertices = range(1, instance.vertices + 1)
    far: Distances = {u: {v: 0 if u == v else 10**12 for v in vertices} for u in vertices}
    for edge in instance.edges:
        for u, v in (edge.ends, edge.ends[::-1]):
            far[u][v] = min(far[u][v], edge.cost)
    for middle in vertices:
        for u in vertices:
            for v in vertices:
                far[u][v] = min(far[u][v], far[u][middle] + far[middle][v])
    return far


def path_city(costs: list[int], required: Collection[int], capacity: int = 5) -> Instance:
    """Returns streets in a row from the depot on, of which some are required."""
    edges = [
        Edge((at, at + 1), cost, int(at in required), cost) for at, cost in enumerate(costs, 1)
    ]
    return Instance(len(costs) + 1, capacity, 1, sorted(edges, key=lambda edge: not edge.demand))


def are_joined(instance: Instance, edges: list[int]) -> bool:
    """Returns whether edges, from 0, are connected by themselves."""
    left, found = set(edges[1:]), set(instance.edges[edges[0]].ends)
    while True:
        more = {edge for edge in left if found & set(instance.edges[edge].ends)}
        if not more:
            return not left
        left -= more
        found.update(end for edge in more for end in instance.edges[edge].ends)


class Large(unittest.TestCase):
    def test_program_agrees(self) -> None:
        # A text is changed at random, and the program says what is wrong with it, or nothing.
        chance = random.Random(5)
        whole = path_city([4, 0, 7, 3], [1, 3]).text().replace(b"servicio 4", b"servicio 6").decode("ascii")
        pieces = [
            "(", ")", ",", ":", " ", "\t", "\x1a", "\n", "0", "7", "1234567", "30001", "1" * 19, "coste", "DEMANDA 2",
            "servicio 1", "vertices : 9", "DEPOSITO", "LISTA_ARISTAS_REQ", "ARISTAS_NOREQ 2 x", "demanda 00", "\r",
            "ß",
        ]
        faults = 0
        for _ in range(250):
            text = whole
            for _ in range(chance.choice((1, 1, 2))):
                at = chance.randrange(len(text))
                piece = chance.choice(pieces + text.splitlines())
                text = text[:at] + piece + text[at + chance.choice((0, 0, 1, len(piece))) :]
            faults += self.agrees(text.encode("utf-8"))
        self.assertGreater(faults, 150)
        for text in whole.replace("CAPACIDAD : 5", "CAPACIDAD : 0"), whole.replace("( 3, 4)", "( 3, 3)"), "", whole:
            self.agrees(text.encode("ascii"))

    def agrees(self, text: bytes) -> bool:
        """The city's reader says what the program says, or gives what that reads; returns whether the text is bad."""
        try:
            carp_run.checked(text, b"")
        except carp_run.Refusal as refusal:
            said = str(refusal).removeprefix("carp check: ")
        try:
            found = large.city_of(text)
        except large.BadCity as fault:
            self.assertEqual(f"bad instance: {fault}", said, text)
            return True
        self.assertTrue(said.startswith("bad certificate"), (said, text))
        self.assertEqual(found, carp_run.instance_from(text), text)
        return False

    def test_limits(self) -> None:
        def row(count: int, required: int) -> bytes:
            return path_city([1] * count, range(1, required + 1)).text()

        self.assertEqual(len(large.city_of(row(100_000, 30_000)).edges), 100_000)
        for text, said in (
            (row(100_001, 1), "100001 edges are too many: the limit is 100000"),
            (row(30_001, 30_001), "30001 required edges are too many: the limit is 30000"),
            (row(1, 1).replace(b"VERTICES : 2", b"VERTICES : 200001"), "200001 vertices are too many"),
        ):
            self.assertRaisesRegex(large.BadCity, f"^{said}", large.city_of, text)

    def test_faults_name_the_street(self) -> None:
        names = ["Mill Road", None, "Quai"]
        apart = b"VERTICES 5\nARISTAS_REQ 3\nCAPACIDAD 4\nDEPOSITO 1\nLISTA_ARISTAS_REQ\n(1,2) coste 1 demanda 1\n"
        apart += b"(2,3) coste 1 demanda 1\n(4,5) coste 1 demanda 4\n"
        for text, said, code in (
            (apart, r"edge 3 \(Quai\) cannot be reached", 10),
            (apart.replace(b"demanda 4", b"demanda 5"), r"edge 3 \(Quai\) has a demand above the capacity", 4),
            (apart.replace(b"(2,3)", b"(2,2)"), "edge 2 is a loop", 4),
        ):
            with self.assertRaisesRegex(large.BadCity, f"^{said}$") as caught:
                large.city_of(text, names)
            self.assertEqual(caught.exception.code, code)


@needs_scipy
class Paths(unittest.TestCase):
    def test_least_distances(self) -> None:
        for seed in range(6):
            city = random_city(seed)
            streets, far = network.Network(city), distances_of(city)
            found, before = streets.trees(range(city.vertices))
            for u in range(city.vertices):
                self.assertEqual([far[u + 1][v + 1] for v in range(city.vertices)], found[u].tolist())
            pairs = [tuple(random.Random(seed).sample(range(1, 31), 2)) for _ in range(9)]
            for u, v in pairs:
                path = numpy.array(streets.path(before[u - 1], u - 1, v - 1))
                edges = [city.edges[edge] for edge in streets.edges_between(path[:-1], path[1:])]
                self.assertEqual([{a + 1, b + 1} for a, b in zip(path, path[1:])], [set(edge.ends) for edge in edges])
                self.assertEqual(sum(edge.cost for edge in edges), far[u][v])
            self.assertEqual(streets.nearest([0, 7]).tolist(), [min(far[1][v], far[8][v]) for v in far])

    def test_parts_keep_distances(self) -> None:
        for seed in range(40):
            city = random_city(seed)
            streets = [at for at, edge in enumerate(city.edges) if edge.demand]
            some = sorted(random.Random(seed).sample(streets, min(len(streets), 1 + seed % 7)))
            self.keeps(city, some)
        self.keeps(make_city_of(120), list(range(0, 40)))

    def keeps(self, city: Instance, some: list[int]) -> None:
        """A part has the services of some streets, the least distances of their ends, and no junction without use."""
        part = contraction.part_of(city, network.Network(city), some)
        far, near = distances_of(city), distances_of(part.instance)
        places = {1: city.depot}
        for at, edge in enumerate(part.instance.edges):
            path = part.paths[at]
            steps = [city.edges[number - 1].ends[:: 1 if forward else -1] for number, forward in path]
            self.assertEqual([end for _, end in steps[:-1]], [start for start, _ in steps[1:]])
            for vertex, place in zip(edge.ends, (steps[0][0], steps[-1][1])):
                self.assertEqual(places.setdefault(vertex, place), place)
            self.assertEqual(edge.cost, sum(city.edges[number - 1].cost for number, _ in path))
        services = [(edge.demand, edge.service) for edge in part.instance.edges if edge.demand]
        self.assertEqual(services, [(city.edges[at].demand, city.edges[at].service) for at in some])
        self.assertEqual([part.paths[at] for at in range(len(some))], [[(at + 1, True)] for at in some])
        stops = {1, *(end for edge in part.instance.edges if edge.demand for end in edge.ends)}
        for u in stops:
            self.assertEqual({v: near[u][v] for v in stops}, {v: far[places[u]][places[v]] for v in stops})
        for vertex in set(places) - stops:
            self.assertGreater(sum(vertex in edge.ends for edge in part.instance.edges), 2)

    def test_chains(self) -> None:
        city = path_city([3, 4, 5, 6, 2, 9], [5])
        part = contraction.part_of(city, network.Network(city), [0])
        self.assertEqual([edge.cost for edge in part.instance.edges], [2, 18])
        there = part.in_city([Move(2, True, False), Move(1, True, True), Move(1, False, False), Move(2, False, False)])
        numbers = [2, 3, 4, 5]  # The required street is number 1.
        wanted = [(edge, True, False) for edge in numbers] + [(1, True, True), (1, False, False)]
        wanted += [(edge, False, False) for edge in reversed(numbers)]
        self.assertEqual([(move.edge, move.forward, move.serves) for move in there], wanted)
        # A chain that costs more than an edge may is cut.
        long = path_city([400_000, 400_000, 400_000, 1], [4])
        part = contraction.part_of(long, network.Network(long), [0])
        self.assertEqual([edge.cost for edge in part.instance.edges], [1, 800_000, 400_000])
        self.assertTrue(part.fits())
        self.assertRaises(carp_run.Refusal, carp_run.checked, part.instance.text(), b"")

    def test_fits(self) -> None:
        edge, other = Edge((1, 2), 1, 1, 1), Edge((1, 2), 1, 0, 1)
        for vertices, required, others, capacity, is_good in (
            (1000, 600, 3400, 19_999, True), (1001, 1, 0, 9, False), (9, 601, 0, 9, False), (9, 1, 4000, 9, False),
            (9, 600, 0, 20_000, False), (9, 399, 0, 30_000, True),
        ):
            part = contraction.Part(Instance(vertices, capacity, 1, [edge] * required + [other] * others), [])
            self.assertEqual(part.fits(), is_good, (vertices, required, others, capacity))


def make_city_of(required: int, seed: int = 1, capacity: int = 40) -> Instance:
    """Returns a made city."""
    return carp_run.instance_from(make_city.files_of(required, seed, capacity)[0])


def points_of(required: int, seed: int = 1) -> list[tuple[float, float]]:
    """Returns the places of the vertices of a made city, in steps of about a metre."""
    places = json.loads(make_city.files_of(required, seed, 40)[1])["vertices"]
    return [(latitude * 111_195, longitude * 80_000) for latitude, longitude in places]


@needs_scipy
class Districts(unittest.TestCase):
    def cut(self, city: Instance, most: int, points: Any) -> list[list[int]]:
        """Cuts a city into districts, whose parts all fit and in which each required street is once."""
        streets = network.Network(city)
        found = districts.Bisection(streets, most, points).districts(
            lambda some: contraction.part_of(city, streets, some).fits()
        )
        wanted = [at for at, edge in enumerate(city.edges) if edge.demand]
        self.assertEqual(sorted(at for some in found for at in some), wanted)
        self.assertTrue(all(contraction.part_of(city, streets, some).fits() for some in found))
        return found

    def test_sizes(self) -> None:
        city, points = make_city_of(1300), points_of(1300)
        for places in points, None:
            found = self.cut(city, 300, places)
            self.assertTrue(all(150 <= len(some) <= 300 for some in found), [len(some) for some in found])
            # Compact: squares that cover a square spread by the root of their number less than it.
            spreads = [spread(city, points, some) for some in found]
            square = spread(city, points, [at for some in found for at in some]) / len(found) ** 0.5
            self.assertLess(max(spreads), 2 * square)
            self.assertLess(sum(spreads) / len(spreads), 1.5 * square)

    def test_halves_are_connected(self) -> None:
        for seed in range(4):
            city, points = make_city_of(150, seed), points_of(150, seed)
            for places in points, None:
                waiting = [numpy.arange(len(city.edges))]
                bisection = districts.Bisection(network.Network(city), 20, places)
                while waiting:
                    edges = waiting.pop()
                    halves = [half for half in bisection.halves(edges)]
                    self.assertEqual(sorted(numpy.concatenate(halves).tolist()), sorted(edges.tolist()))
                    for half in halves:
                        self.assertTrue(are_joined(city, half.tolist()))
                        self.assertGreater(bisection.required(half), 0)
                        waiting += [half] if bisection.required(half) > 20 else []

    def test_what_does_not_fit_is_cut_again(self) -> None:
        city = make_city_of(60)
        bisection = districts.Bisection(network.Network(city), 300)
        found = bisection.districts(lambda some: len(some) <= 7)
        self.assertLessEqual(max(map(len, found)), 7)
        alone = districts.Bisection(network.Network(city), 1).districts(lambda some: True)
        self.assertEqual(sorted(alone), [[at] for at in range(60)])
        # Streets that are not joined to the depot and need no service do not matter.
        more = Instance(city.vertices + 2, 40, 1, [*city.edges, Edge((city.vertices + 1, city.vertices + 2), 1, 0, 1)])
        whole = districts.Bisection(network.Network(more), 300).districts(lambda some: True)
        self.assertEqual(whole, [list(range(60))])


def spread(city: Instance, points: Any, some: list[int]) -> float:
    """Returns how far streets lie from their middle in the mean."""
    middles = numpy.array([numpy.add(*(points[end - 1] for end in city.edges[at].ends)) / 2 for at in some])
    return float(numpy.linalg.norm(middles - middles.mean(axis=0), axis=1).mean())
