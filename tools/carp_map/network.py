"""Makes a network of streets from the ways of a map: splits them at junctions, joins what lies between, and cuts out.

A street runs from one junction, dead end or other stop to the next. A node with two neighbours is a stop only if it has
a house number, is the depot, or if the name, the direction or the need of service changes there. A street that comes
back to where it begins is split in the middle, since an instance has no loops.
"""
import bisect
import math
from collections.abc import Callable, Iterable, Sequence
from dataclasses import dataclass

from carp_map.geometry import Place, haversine, length
from carp_map.reading import StreetMap, Way


@dataclass(frozen=True, eq=False)
class Segment:
    """A straight piece of a way between two nodes that follow each other on it."""

    start: int
    end: int
    way: Way

    def other(self, node: int) -> int:
        """Returns the end that is not the given one."""
        return self.end if node == self.start else self.start

    def kind(self, node: int) -> tuple[str | None, bool, int]:
        """Returns what has to agree along a street, as seen by whoever leaves the given end."""
        return self.way.name, self.way.required, self.way.oneway if node == self.start else -self.way.oneway


# The segments at each node.
Links = dict[int, list[Segment]]


@dataclass(frozen=True)
class Street:
    """An edge of the network, with the nodes at its ends and all places from the first end to the second.

    `oneway` is 1 if it is driven only from the first end, -1 if only from the second. `reach` is the greatest distance
    of its places from the depot in metres, rounded up. The cost and the demand are set later; a street of demand 0
    needs no service.
    """

    ends: tuple[int, int]
    geometry: tuple[Place, ...]
    name: str | None
    oneway: int
    required: bool
    length: float
    seconds: float
    reach: int
    cost: int = 0
    demand: int = 0


def link(street_map: StreetMap) -> Links:
    """Returns the segments at each node, each pair of nodes once, without nodes that the extract lacks."""
    links: Links = {}
    seen: set[tuple[int, int]] = set()
    for way in street_map.ways:
        for start, end in zip(way.nodes, way.nodes[1:]):
            pair = (min(start, end), max(start, end))
            if start == end or pair in seen or start not in street_map.places or end not in street_map.places:
                continue
            seen.add(pair)
            segment = Segment(start, end, way)
            links.setdefault(start, []).append(segment)
            links.setdefault(end, []).append(segment)
    return links


def nearest(nodes: Iterable[int], places: dict[int, Place], place: Place) -> tuple[int, float]:
    """Returns the node that is nearest to a place, and how far away it is in metres."""
    distance, node = min((haversine(places[node], place), node) for node in nodes)
    return node, distance


def reached(links: Links, depot: int) -> set[int]:
    """Returns the nodes that are joined to the depot."""
    found, waiting = {depot}, [depot]
    while waiting:
        node = waiting.pop()
        for segment in links[node]:
            other = segment.other(node)
            if other not in found:
                found.add(other)
                waiting.append(other)
    return found


def is_stop(node: int, segments: Sequence[Segment]) -> bool:
    """Tells if streets end at a node because of its segments."""
    if len(segments) != 2:
        return True
    first, second = segments
    return first.kind(first.other(node)) != second.kind(node)


def streets_of(street_map: StreetMap, links: Links, depot: int) -> list[Street]:
    """Returns the streets that are joined to the depot, in the order of the map."""
    found = reached(links, depot)
    stops = [node for node in links if node in found and is_stop(node, links[node])]
    all_stops = {depot, *stops, *(street_map.houses & found)}
    used: set[Segment] = set()
    streets: list[Street] = []
    for node in (node for node in links if node in all_stops):
        for segment in links[node]:
            if segment not in used:
                nodes, segments = walk(node, segment, links, all_stops)
                used.update(segments)
                for piece in pieces(nodes, segments, street_map.places):
                    streets.append(street(*piece, street_map.places, depot))
    return streets


def walk(start: int, segment: Segment, links: Links, stops: set[int]) -> tuple[list[int], list[Segment]]:
    """Follows a segment from a stop to the next one, and returns the nodes and the segments on the way."""
    nodes, segments = [start, segment.other(start)], [segment]
    while nodes[-1] not in stops:
        segment = next(other for other in links[nodes[-1]] if other is not segment)
        segments.append(segment)
        nodes.append(segment.other(nodes[-1]))
    return nodes, segments


def pieces(
    nodes: list[int], segments: list[Segment], places: dict[int, Place]
) -> list[tuple[list[int], list[Segment]]]:
    """Splits a walk that ends where it begins at the node next to its middle; another one stays whole."""
    if nodes[0] != nodes[-1]:
        return [(nodes, segments)]
    line = [places[node] for node in nodes]
    half = length(line) / 2
    middle = min(range(1, len(nodes) - 1), key=lambda at: abs(length(line[: at + 1]) - half))
    return [(nodes[: middle + 1], segments[:middle]), (nodes[middle:], segments[middle:])]


def street(nodes: list[int], segments: list[Segment], places: dict[int, Place], depot: int) -> Street:
    """Returns the street of a walk."""
    geometry = tuple(places[node] for node in nodes)
    lengths = [haversine(a, b) for a, b in zip(geometry, geometry[1:])]
    name, required, oneway = segments[0].kind(nodes[0])
    return Street(
        ends=(nodes[0], nodes[-1]),
        geometry=geometry,
        name=name,
        oneway=oneway,
        required=required,
        length=math.fsum(lengths),
        seconds=math.fsum(metres * 3.6 / segment.way.speed for metres, segment in zip(lengths, segments)),
        reach=math.ceil(max(haversine(places[depot], place) for place in geometry)),
    )


def cut_out(streets: Sequence[Street], depot: int, radius: int) -> list[Street]:
    """Returns the streets that lie within the radius around the depot, and that such streets join to it."""
    near: dict[int, list[Street]] = {depot: []}
    for each in streets:
        if each.reach <= radius:
            for end in each.ends:
                near.setdefault(end, []).append(each)
    found, waiting = {depot}, [depot]
    while waiting:
        for each in near[waiting.pop()]:
            new = set(each.ends) - found
            found |= new
            waiting.extend(new)
    return [each for each in streets if each.reach <= radius and each.ends[0] in found]


def largest_cut_out(
    streets: Sequence[Street], depot: int, fits: Callable[[list[Street]], bool]
) -> tuple[int, list[Street]] | None:
    """Returns the greatest radius whose streets fit, with these streets, or None if there is none.

    What fits has to fit with fewer streets too.
    """
    radii = sorted({each.reach for each in streets})
    first_bad = bisect.bisect_left(radii, True, key=lambda radius: not fits(cut_out(streets, depot, radius)))
    if first_bad == 0:
        return None
    return radii[first_bad - 1], cut_out(streets, depot, radii[first_bad - 1])
