"""The instance of some required streets of a city, over a network that keeps their least distances.

The network is the union of least paths between the ends of these streets and the depot, one for each two of them.
Chains of streets whose inner junctions have no other use are contracted to one edge.
"""
from collections.abc import Iterable, Iterator, Sequence
from dataclasses import dataclass

import numpy

from carp_city.network import Network, Numbers, least_trees
from carp_run import Edge, Instance, Move

# The limits of an instance, as docs/FORMATS.md has them.
MOST_VERTICES, MOST_EDGES, MOST_REQUIRED, MOST_STATES, MOST_COST = 1_000, 4_000, 600, 24_000_000, 1_000_000
# How many trees of least paths are held at a time.
BATCH = 32

# The way along an edge of the part in the city, from its first end to its second: edges from 1, and the directions.
Path = list[tuple[int, bool]]


@dataclass(frozen=True)
class Part:
    """An instance over a part of a city, with the way of each of its edges in the city."""

    instance: Instance
    paths: list[Path]

    def fits(self) -> bool:
        """Returns whether `carp` takes the instance."""
        instance, required = self.instance, sum(edge.demand > 0 for edge in self.instance.edges)
        return (
            instance.vertices <= MOST_VERTICES
            and len(instance.edges) <= MOST_EDGES
            and required <= MOST_REQUIRED
            and 2 * required * (instance.capacity + 1) <= MOST_STATES
        )

    def in_city(self, tour: Iterable[Move]) -> tuple[Move, ...]:
        """Returns the moves of the city that a tour of the part makes."""
        moves = []
        for move in tour:
            path = self.paths[move.edge - 1]
            for edge, forward in path if move.forward else reversed(path):
                moves.append(Move(edge, forward == move.forward, move.serves))
        return tuple(moves)


def part_of(city: Instance, network: Network, streets: Sequence[int]) -> Part:
    """Returns the part of a city for some of its required streets, given from 0 in rising order."""
    services = numpy.array(sorted(streets), dtype=numpy.int64)
    stops = numpy.unique(numpy.concatenate([network.starts[services], network.ends[services], [network.depot]]))
    used = numpy.zeros(len(network.costs), dtype=bool)
    mark_trees(network, stops, used)
    used[services] = False
    chains = chains_of(network, numpy.flatnonzero(used), services, set(stops.tolist()))
    return numbered(city, network, services.tolist(), chains)


def mark_trees(network: Network, stops: Numbers, used: Numbers) -> None:
    """Marks the edges of least paths between all stops."""
    every = numpy.arange(network.vertices)
    mark(network, every, network.depot_tree[1][numpy.newaxis], stops, used)
    others = stops[stops != network.depot]
    # A vertex on the way between two stops is as near to one of them as half of that way, which is as long as the
    # greatest distance of a stop from the middle one at most.
    around = network.trees(middle_of(network, others))[0]
    near = numpy.flatnonzero(around <= 2 * around[others].max())
    matrix = network.matrix[near][:, near]
    places = numpy.searchsorted(near, others)
    for at in range(0, len(places), BATCH):
        before = least_trees(matrix, places[at : at + BATCH])[1]
        mark(network, near, before, places, used)


def middle_of(network: Network, stops: Numbers) -> int:
    """Returns a stop that is near to two stops which lie far apart."""
    first = stops[network.trees(stops[0])[0][stops].argmax()]
    away = network.trees(first)[0][stops]
    back = network.trees(stops[away.argmax()])[0][stops]
    return int(stops[numpy.maximum(away, back).argmin()])


def mark(network: Network, real: Numbers, before: Numbers, targets: Numbers, used: Numbers) -> None:
    """Marks the edges on the paths of trees, a row each, to all targets; `real` tells the vertices of the network."""
    seen = numpy.zeros(before.shape, dtype=bool)
    rows, vertices = (each.ravel() for each in numpy.meshgrid(numpy.arange(len(before)), targets, indexing="ij"))
    while len(rows):
        previous = before[rows, vertices]
        inner = (previous >= 0) & ~seen[rows, vertices]
        rows, vertices, previous = rows[inner], vertices[inner], previous[inner]
        seen[rows, vertices] = True
        used[network.edges_between(real[previous], real[vertices])] = True
        keys = numpy.unique(rows * before.shape[1] + previous)
        rows, vertices = keys // before.shape[1], keys % before.shape[1]


@dataclass(frozen=True)
class Chain:
    """A way between two vertices without a stop on it."""

    ends: tuple[int, int]
    cost: int
    path: Path

    @property
    def pair(self) -> tuple[int, int]:
        """The ends in rising order."""
        return min(self.ends), max(self.ends)


def chains_of(network: Network, edges: Numbers, services: Numbers, stops: set[int]) -> list[Chain]:
    """Returns the chains that edges of least paths make, one between two vertices, if no service is as cheap there."""
    beside = links_of(network, edges)
    kept = stops | {vertex for vertex, around in beside.items() if len(around) != 2}
    done: set[int] = set()
    found = [chain for vertex in sorted(kept) for chain in chains_from(network, vertex, beside, kept, done)]
    # Chains side by side cost the same, since each is a least path between its ends; no service is cheaper.
    chains = {chain.pair: chain for chain in reversed(found) if chain.pair[0] != chain.pair[1]}
    pairs = zip(network.starts[services].tolist(), network.ends[services].tolist(), network.costs[services].tolist())
    cheapest = {(min(u, v), max(u, v)): cost for u, v, cost in sorted(pairs, key=lambda each: -each[2])}
    return [chains[pair] for pair in sorted(chains) if pair not in cheapest or chains[pair].cost < cheapest[pair]]


def links_of(network: Network, edges: Numbers) -> dict[int, list[int]]:
    """Returns the edges at each vertex that has any."""
    beside: dict[int, list[int]] = {}
    for edge, start, end in zip(edges.tolist(), network.starts[edges].tolist(), network.ends[edges].tolist()):
        beside.setdefault(start, []).append(edge)
        beside.setdefault(end, []).append(edge)
    return beside


def chains_from(
    network: Network, vertex: int, beside: dict[int, list[int]], kept: set[int], done: set[int]
) -> Iterator[Chain]:
    """Returns the chains from a vertex that were not followed yet."""
    for edge in beside.get(vertex, []):
        if edge not in done:
            yield from chains_along(network, vertex, edge, beside, kept, done)


def chains_along(
    network: Network, vertex: int, edge: int, beside: dict[int, list[int]], kept: set[int], done: set[int]
) -> Iterator[Chain]:
    """Follows an edge from a vertex to the next that is kept; the chain is cut if it costs too much for one edge."""
    at, start, cost = vertex, vertex, 0
    path: Path = []
    while not path or at not in kept:
        done.add(edge)
        step = int(network.costs[edge])
        if path and cost + step > MOST_COST:
            yield Chain((start, at), cost, path)
            start, cost, path = at, 0, []
        forward = int(network.starts[edge]) == at
        path.append((edge + 1, forward))
        cost += step
        at = int(network.ends[edge] if forward else network.starts[edge])
        if at not in kept:
            edge = next(other for other in beside[at] if other != edge)
    yield Chain((start, at), cost, path)


def numbered(city: Instance, network: Network, services: Sequence[int], chains: Sequence[Chain]) -> Part:
    """Returns the part of services and chains, with its depot as vertex 1."""
    numbers = {network.depot: 1}
    edges, paths = [], []
    for at in services:
        edge = city.edges[at]
        ends = [numbers.setdefault(end - 1, len(numbers) + 1) for end in edge.ends]
        edges.append(Edge((ends[0], ends[1]), edge.cost, edge.demand, edge.service))
        paths.append([(at + 1, True)])
    for chain in chains:
        ends = [numbers.setdefault(end, len(numbers) + 1) for end in chain.ends]
        edges.append(Edge((ends[0], ends[1]), chain.cost, 0, chain.cost))
        paths.append(chain.path)
    return Part(Instance(len(numbers), city.capacity, 1, edges), paths)
