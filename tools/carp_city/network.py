"""Least paths in the network of an instance, by Dijkstra's algorithm of `scipy.sparse.csgraph`.

Vertices and edges are numbered from 0 here, as arrays are. Costs are whole numbers below 2^53 in all, so that sums of
floating-point numbers are exact.
"""
from collections.abc import Sequence
from functools import cached_property

import numpy
from scipy.sparse import csr_matrix
from scipy.sparse.csgraph import connected_components, dijkstra

from carp_run import Instance

Numbers = numpy.ndarray


def least_trees(matrix: csr_matrix, sources: int | Sequence[int] | Numbers) -> tuple[Numbers, Numbers]:
    """Returns for each source the least distances, and the vertex before each one, or less than 0 if there is none."""
    return dijkstra(matrix, directed=True, indices=sources, return_predecessors=True)


class Network:
    """The streets of an instance with their least paths; of streets side by side the cheapest counts."""

    def __init__(self, instance: Instance) -> None:
        self.vertices = instance.vertices
        self.depot = instance.depot - 1
        self.starts = numpy.array([edge.ends[0] - 1 for edge in instance.edges], dtype=numpy.int64)
        self.ends = numpy.array([edge.ends[1] - 1 for edge in instance.edges], dtype=numpy.int64)
        self.costs = numpy.array([edge.cost for edge in instance.edges], dtype=numpy.float64)
        self.required = numpy.array([edge.demand > 0 for edge in instance.edges], dtype=bool)
        self.matrix, self.pairs, self.cheapest = self.linked(numpy.arange(len(instance.edges)))

    def linked(self, edges: Numbers) -> tuple[csr_matrix, Numbers, Numbers]:
        """Returns the matrix of some edges, the pairs of vertices in it, and the cheapest edge of each pair."""
        sources = numpy.concatenate([self.starts[edges], self.ends[edges]])
        targets = numpy.concatenate([self.ends[edges], self.starts[edges]])
        both = numpy.concatenate([edges, edges])
        pairs = sources * self.vertices + targets
        order = numpy.lexsort((both, self.costs[both], pairs))
        first = numpy.ones(len(order), dtype=bool)
        first[1:] = pairs[order][1:] != pairs[order][:-1]
        kept = order[first]
        shape = (self.vertices, self.vertices)
        # Each pair stands once, so that nothing is summed, and a cost of 0 stays a street.
        matrix = csr_matrix((self.costs[both[kept]], (sources[kept], targets[kept])), shape=shape)
        return matrix, pairs[kept], both[kept]

    def edges_between(self, sources: Numbers, targets: Numbers) -> Numbers:
        """Returns the cheapest edge between the vertices of each pair, which have to be neighbours."""
        return self.cheapest[numpy.searchsorted(self.pairs, sources * self.vertices + targets)]

    def trees(self, sources: int | Sequence[int] | Numbers) -> tuple[Numbers, Numbers]:
        """Returns for each source the least distances, and the vertex before each one on its path."""
        return least_trees(self.matrix, sources)

    @cached_property
    def depot_tree(self) -> tuple[Numbers, Numbers]:
        """The least distances from the depot, and the vertex before each one."""
        return self.trees(self.depot)

    def nearest(self, sources: Sequence[int] | Numbers) -> Numbers:
        """Returns the distance of each vertex from the nearest source."""
        return dijkstra(self.matrix, directed=True, indices=sources, min_only=True)

    def distances_within(self, edges: Numbers, source: int) -> Numbers:
        """Returns the least distances from a vertex over some edges only."""
        return dijkstra(self.linked(edges)[0], directed=True, indices=source)

    def components(self, edges: Numbers) -> Numbers:
        """Returns for each of some edges the number of the component that it is in, of these edges alone."""
        ones = numpy.ones(len(edges))
        shape = (self.vertices, self.vertices)
        matrix = csr_matrix((ones, (self.starts[edges], self.ends[edges])), shape=shape)
        return connected_components(matrix, directed=False)[1][self.starts[edges]]

    def path(self, before: Numbers, source: int, target: int) -> list[int]:
        """Returns the vertices of the path of a tree from its source to a target."""
        found = [target]
        while found[-1] != source:
            found.append(int(before[found[-1]]))
        return found[::-1]
