"""The tours of a plan, and the certificate of tours as they are."""
from collections.abc import Iterable, Sequence
from dataclasses import dataclass

import numpy

from carp_city.contraction import Part
from carp_city.network import Network
from carp_run import Instance, Move

Tours = Sequence[Sequence[Move]]
# A service of a street: its number from 1, and whether it goes from its first end to its second.
Service = tuple[int, bool]


@dataclass(frozen=True)
class Tour:
    """A tour of the city; no two tours of a run have one number, so that a tour with another number has changed."""

    number: int
    moves: tuple[Move, ...]

    @property
    def services(self) -> list[Service]:
        """The services of the tour in their order."""
        return [(move.edge, move.forward) for move in self.moves if move.serves]


def words_of(moves: Iterable[Move]) -> str:
    """Returns moves as a certificate writes them."""
    return " ".join(("+-" if move.serves else "><")[not move.forward] + str(move.edge) for move in moves)


def moves_of(words: str) -> tuple[Move, ...]:
    """Returns the moves that words as those of a certificate tell."""
    return tuple(Move(int(word[1:]), word[0] in "+>", word[0] in "+-") for word in words.split())


def cost_of(instance: Instance, moves: Iterable[Move]) -> int:
    """Returns what moves cost."""
    edges = instance.edges
    return sum(edges[move.edge - 1].service if move.serves else edges[move.edge - 1].cost for move in moves)


def load_of(instance: Instance, moves: Iterable[Move]) -> int:
    """Returns what moves load."""
    return sum(instance.edges[move.edge - 1].demand for move in moves if move.serves)


def reversed_tour(moves: Sequence[Move]) -> tuple[Move, ...]:
    """Returns a tour the other way round."""
    return tuple(Move(move.edge, not move.forward, move.serves) for move in reversed(moves))


def walks_of(instance: Instance, orders: Sequence[Sequence[Service]]) -> list[list[Move]]:
    """Returns tours that make services in their orders, joined by least paths."""
    network = Network(instance)
    exits = {network.depot: 0}
    for edge, forward in (service for order in orders for service in order):
        exits.setdefault(instance.edges[edge - 1].ends[forward] - 1, len(exits))
    before = network.trees(numpy.array(list(exits), dtype=numpy.int64))[1]
    return [walk_of(instance, network, order, exits, before) for order in orders]


def walk_of(
    instance: Instance, network: Network, order: Sequence[Service], exits: dict[int, int], before: numpy.ndarray
) -> list[Move]:
    """Returns the tour of one order of services."""
    at, moves = network.depot, []
    for edge, forward in order:
        ends = instance.edges[edge - 1].ends[:: 1 if forward else -1]
        moves += deadheads(network, before[exits[at]], at, ends[0] - 1)
        moves.append(Move(edge, forward, True))
        at = ends[1] - 1
    return moves + deadheads(network, before[exits[at]], at, network.depot)


def deadheads(network: Network, before: numpy.ndarray, source: int, target: int) -> list[Move]:
    """Returns the moves along the path of a tree."""
    path = numpy.array(network.path(before, source, target), dtype=numpy.int64)
    edges = network.edges_between(path[:-1], path[1:]).tolist() if len(path) > 1 else []
    return [Move(edge + 1, int(network.starts[edge]) == start, False) for edge, start in zip(edges, path.tolist())]


def certificate_of(instance: Instance, tours: Tours) -> bytes:
    """Returns the certificate of version 1 of tours, whose bound is what all services cost: no tour costs less."""
    required = [edge for edge in instance.edges if edge.demand]
    prices = " ".join(str(edge.service) for edge in required)
    lines = [
        "carp-certificate 1",
        f"cost {sum(cost_of(instance, tour) for tour in tours)}",
        f"bound {sum(edge.service for edge in required)}",
        f"tours {len(tours)}",
        *(f"tour {len(tour)} {words_of(tour)}" for tour in tours),
        "shores 0", "sets 1", f"prices 1 {len(required)} {prices}", "weights 0", "nodes 1", "price 1", "end",
    ]
    return ("\n".join(lines) + "\n").encode("ascii")


def start_of(part: Part, tours: Iterable[Tour]) -> bytes:
    """Returns the certificate of tours of the city as they are, in a part that has their services."""
    numbers = {path[0][0]: at for at, path in enumerate(part.paths, 1) if part.instance.edges[at - 1].demand}
    orders = [[(numbers[edge], forward) for edge, forward in tour.services] for tour in tours]
    return certificate_of(part.instance, walks_of(part.instance, orders))
