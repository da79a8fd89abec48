"""Improves a plan across the borders of its districts (POPMUSIC: Taillard and Voss 2002).

A seed tour and its nearest tours are a neighbourhood, which is planned anew as an instance of its own. Those of a round
share no tour, and are done side by side. A round is decided before it begins, and what it finds is taken in the order
of its neighbourhoods, so that the result does not depend on who ends first.
"""
import random
from collections.abc import Iterable, Mapping, Sequence
from dataclasses import dataclass, field

import numpy

from carp_city.contraction import MOST_REQUIRED, Part, part_of
from carp_city.network import Network
from carp_city.plan import Tour, cost_of, reversed_tour, start_of
from carp_city.tasks import Task
from carp_run import Bounds, Instance, Move, tours_of

Numbers = frozenset[int]


@dataclass(frozen=True)
class Rest:
    """Tours that no new plan of them alone was found to improve: the name of its files, the cost and the bound."""

    name: str
    bounds: Bounds


@dataclass(frozen=True)
class Neighbourhood:
    """Tours that are planned anew together."""

    tours: list[Tour]
    part: Part
    task: Task

    @property
    def numbers(self) -> Numbers:
        """The numbers of the tours."""
        return frozenset(tour.number for tour in self.tours)


@dataclass
class Standing:
    """A plan between two rounds: its tours, for each seed at rest its neighbourhood, and what is known of these."""

    round: int
    next: int
    tours: dict[int, Tour]
    rest: dict[int, Numbers] = field(default_factory=dict)
    known: dict[Numbers, Rest] = field(default_factory=dict)

    def seeds(self) -> list[int]:
        """Returns the tours that are not at rest."""
        return [number for number in self.tours if number not in self.rest]

    def keep_whole(self) -> None:
        """Wakes the seeds of which a tour has changed, and forgets neighbourhoods that are no more."""
        tours = self.tours.keys()
        self.rest = {seed: group for seed, group in self.rest.items() if seed in tours and group <= tours}
        self.known = {group: rest for group, rest in self.known.items() if group <= tours}


def task_name(standing: Standing, at: int) -> str:
    """Returns the name of a task of the round that comes next."""
    return f"{standing.round + 1:04}-{at:04}"


def first_standing(plans: Iterable[Sequence[tuple[Move, ...]]]) -> Standing:
    """Returns the plan that those of all districts make."""
    tours = [Tour(number, moves) for number, moves in enumerate((moves for plan in plans for moves in plan), 1)]
    return Standing(0, len(tours) + 1, {tour.number: tour for tour in tours})


class Distances:
    """How far tours are from each other: the mean over the services of one of the way to the nearest of the other."""

    def __init__(self, network: Network, tours: Mapping[int, Tour]) -> None:
        services = {number: [edge - 1 for edge, _ in tour.services] for number, tour in tours.items()}
        self.network = network
        self.numbers = list(services)
        self.sizes = {number: len(edges) for number, edges in services.items()}
        self.edges = numpy.array([edge for edges in services.values() for edge in edges], dtype=numpy.int64)
        self.owners = numpy.repeat(numpy.arange(len(services)), list(self.sizes.values()))

    def nearest(self, seed: int) -> list[int]:
        """Returns the other tours, the nearest first."""
        starts, ends = self.network.starts[self.edges], self.network.ends[self.edges]
        own = self.owners == self.numbers.index(seed)
        away = self.network.nearest(numpy.unique([starts[own], ends[own]]))
        means = numpy.bincount(self.owners, weights=away[starts] + away[ends]) / numpy.bincount(self.owners)
        order = numpy.lexsort((self.numbers, means)).tolist()
        return [self.numbers[at] for at in order if self.numbers[at] != seed]


class Borders:
    """The rounds over the plan of a city; a neighbourhood has at most so many required streets, or two tours."""

    def __init__(self, city: Instance, network: Network, most: int, turns: int, seed: int) -> None:
        self.city, self.network = city, network
        self.most, self.turns, self.seed = most, turns, seed

    def cost(self, standing: Standing) -> int:
        """Returns what a plan costs."""
        return sum(cost_of(self.city, tour.moves) for tour in standing.tours.values())

    def chosen(self, standing: Standing) -> list[tuple[int, Neighbourhood]]:
        """Returns the seeds and the neighbourhoods of the next round; seeds with nothing to do come to rest."""
        order = standing.seeds()
        random.Random(f"{self.seed} {standing.round}").shuffle(order)
        distances = Distances(self.network, standing.tours)
        taken: set[int] = set()
        found = []
        for seed in order:
            neighbourhood = None if seed in taken else self.next(standing, distances, seed, taken)
            if neighbourhood is not None:
                taken |= neighbourhood.numbers
                found.append((seed, neighbourhood))
        return found

    def next(self, standing: Standing, distances: "Distances", seed: int, taken: set[int]) -> Neighbourhood | None:
        """Returns the neighbourhood of a seed if it is to be planned in this round; if it never is, the seed rests."""
        group = self.around(distances, seed)
        if len(group) > 1 and frozenset(group) not in standing.known:
            if taken & set(group):
                return None
            neighbourhood = self.fitting([standing.tours[number] for number in group])
            if neighbourhood is not None and neighbourhood.numbers not in standing.known:
                return neighbourhood
            group = [seed] if neighbourhood is None else list(neighbourhood.numbers)
        standing.rest[seed] = frozenset(group)
        return None

    def around(self, distances: "Distances", seed: int) -> list[int]:
        """Returns a tour and the nearest ones, as many as a neighbourhood may have; two also if they have more."""
        group, total = [seed], distances.sizes[seed]
        for number in distances.nearest(seed):
            total += distances.sizes[number]
            if total > (self.most if len(group) > 1 else MOST_REQUIRED):
                break
            group.append(number)
        return group

    def fitting(self, tours: list[Tour]) -> Neighbourhood | None:
        """Returns the neighbourhood of tours, without the farthest if it is too large; nothing if two do not fit."""
        while len(tours) > 1:
            services = [edge - 1 for tour in tours for edge, _ in tour.services]
            part = part_of(self.city, self.network, services)
            if part.fits():
                task = Task(part.instance.text(), start_of(part, tours), self.turns, self.seed)
                return Neighbourhood(tours, part, task)
            tours = tours[:-1]
        return None

    def took(
        self,
        standing: Standing,
        chosen: Sequence[tuple[int, Neighbourhood]],
        answers: Mapping[int, tuple[bytes, Bounds]],
    ) -> dict[int, bool]:
        """Takes the answers of a round into the plan; returns for each one whether its certificate is to be kept."""
        results = {
            at: self.take(standing, task_name(standing, at), seed, neighbourhood, *answers[at])
            for at, (seed, neighbourhood) in enumerate(chosen)
            if at in answers
        }
        standing.keep_whole()
        standing.round += 1
        return results

    def take(
        self, standing: Standing, name: str, seed: int, old: Neighbourhood, certificate: bytes, bounds: Bounds
    ) -> bool:
        """Takes a cheaper plan of a neighbourhood; returns whether no better one is to be looked for."""
        is_cheaper = bounds.cost < sum(cost_of(self.city, tour.moves) for tour in old.tours)
        numbers = old.numbers
        if is_cheaper:
            numbers = self.put(standing, old, [old.part.in_city(tour) for tour in tours_of(certificate)])
        if is_cheaper and bounds.gap > 0:
            return False
        standing.known[numbers] = Rest(name, bounds)
        if not is_cheaper:
            standing.rest[seed] = numbers
        return True

    def put(self, standing: Standing, old: Neighbourhood, new: Iterable[tuple[Move, ...]]) -> Numbers:
        """Puts new tours in the place of old ones; a tour that stays as it is keeps its number."""
        before = {form: tour for tour in old.tours for form in (tour.moves, reversed_tour(tour.moves))}
        for tour in old.tours:
            del standing.tours[tour.number]
        numbers = []
        for moves in (moves for moves in new if any(move.serves for move in moves)):
            tour = before.get(moves) or Tour(standing.next, moves)
            standing.next += tour.number == standing.next
            standing.tours[tour.number] = tour
            numbers.append(tour.number)
        return frozenset(numbers)
