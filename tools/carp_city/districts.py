"""Cuts a city into districts by recursive bisection of its street network.

Each half is connected by its own streets, those that need no service among them. The streets are put in an order by
their places along a line, if they are known, or by how much nearer they are to one of two far ends of the network than
to the other. Of some such orders the one counts whose cut meets the fewest junctions.
"""
import math
from collections.abc import Callable, Iterator, Sequence

import numpy

from carp_city.network import Network, Numbers

# A district has this part of the most required streets, if they can be dealt out evenly.
FILLED = 0.75
# A half may have this part more or less required streets than its share, before fewer cut junctions count.
SLACK = 0.15
DIRECTIONS = 8


class Bisection:
    """A network that is cut; `points` are the places of its vertices, a row each, if they are known."""

    def __init__(self, network: Network, most: int, points: Sequence[tuple[float, float]] | None = None) -> None:
        self.network = network
        self.most = most
        self.points = None if points is None else numpy.array(points, dtype=numpy.float64)

    def required(self, edges: Numbers) -> int:
        """Returns how many of some edges are required."""
        return int(self.network.required[edges].sum())

    def districts(self, fits: Callable[[list[int]], bool]) -> list[list[int]]:
        """Returns the required edges of each district; one that does not fit is cut again."""
        network = self.network
        whole = numpy.arange(len(network.costs))
        joined = whole[numpy.isfinite(network.depot_tree[0][network.starts])]
        found, waiting = [], [joined]
        while waiting:
            edges = waiting.pop()
            streets = [int(edge) for edge in edges[network.required[edges]]]
            if not streets:
                continue
            if len(streets) <= self.most and (fits(streets) or len(streets) == 1):
                found.append(streets)
            else:
                waiting.extend(reversed(self.halves(edges)))
        return found

    def halves(self, edges: Numbers) -> tuple[Numbers, Numbers]:
        """Returns two connected parts of connected edges, whose required edges make whole numbers of districts."""
        total = self.required(edges)
        count = max(2, math.ceil(total / max(1.0, FILLED * self.most)))
        wanted = min(max(1, round(total * (count // 2) / count)), total - 1)
        cuts = [self.cut(edges, values, wanted) for values in self.orders(edges)]
        return min(cuts, key=lambda halves: self.badness(halves, wanted, total))

    def badness(self, halves: tuple[Numbers, Numbers], wanted: int, total: int) -> tuple[float, int]:
        """Returns how far a cut is from the wanted shares beyond the slack, and how many junctions it meets."""
        network = self.network
        off = abs(self.required(halves[0]) - wanted) / total
        sides = [numpy.unique(numpy.concatenate([network.starts[half], network.ends[half]])) for half in halves]
        return max(off, SLACK), len(numpy.intersect1d(*sides, assume_unique=True))

    def orders(self, edges: Numbers) -> Iterator[Numbers]:
        """Returns the values by which the edges may be put in order."""
        network = self.network
        starts, ends = network.starts[edges], network.ends[edges]
        if self.points is not None:
            middles = self.points[starts] + self.points[ends]
            for angle in (math.pi * step / DIRECTIONS for step in range(DIRECTIONS)):
                yield middles @ numpy.array([math.cos(angle), math.sin(angle)])
            return
        first = self.far_from(edges, int(starts[0]))
        for _ in range(2):
            near = network.distances_within(edges, first)
            second = self.far_from(edges, first)
            far = network.distances_within(edges, second)
            yield near[starts] + near[ends] - far[starts] - far[ends]
            # The next two far ends lie across: one that is far from both.
            both = numpy.where(numpy.isfinite(near), numpy.minimum(near, far), -1.0)
            first = int(both.argmax())

    def far_from(self, edges: Numbers, vertex: int) -> int:
        """Returns the vertex that is the farthest from another one over some edges."""
        distances = self.network.distances_within(edges, vertex)
        return int(numpy.where(numpy.isfinite(distances), distances, -1.0).argmax())

    def cut(self, edges: Numbers, values: Numbers, wanted: int) -> tuple[Numbers, Numbers]:
        """Returns the edges up to so many required ones in an order, and the others, both made connected.

        What hangs apart from the largest component of one half is joined to the other half.
        """
        order = edges[numpy.lexsort((edges, values))]
        count = int(numpy.searchsorted(numpy.cumsum(self.network.required[order]), wanted)) + 1
        first, second = order[:count], order[count:]
        first, apart = self.largest(first)
        second, back = self.largest(numpy.concatenate([second, apart]))
        return numpy.sort(numpy.concatenate([first, back])), numpy.sort(second)

    def largest(self, edges: Numbers) -> tuple[Numbers, Numbers]:
        """Returns the component of edges with the most required ones, and the edges that are not in it."""
        labels = self.network.components(edges)
        weights = numpy.bincount(labels, weights=self.network.required[edges])
        inside = labels == weights.argmax()
        return edges[inside], edges[~inside]
