"""Writes tours as GeoJSON and GPX, and draws them as SVG.

A drawing shows all streets in grey and the tours over them: whole lines where they serve, dashed ones where they drive
without service, with small arrows in their direction. Where a street is used more than once, the lines lie side by
side, those of the two directions on their right. The depot is a square.
"""
import colorsys
import json
import math
from collections.abc import Iterable, Iterator, Sequence
from dataclasses import dataclass, field
from html import escape
from unicodedata import east_asian_width

from carp_map.geometry import Place, Projection
from carp_map.key import Key, Step
from carp_run import Instance, Move

Point = tuple[float, float]
Box = tuple[float, float, float, float]

# In pixels: between lines on one street, the least and the most that a street is wide by them.
GAP, NARROW, WIDE = 3.5, 6.0, 30.0
# In pixels: the middle length of streets, the most and the least extent of a map.
STREET, MOST, LEAST = 60.0, 4000.0, 300.0
ARROW, MARGIN, LEGEND_WIDTH, LEGEND_LINE, LEGEND_SCALE = 4.0, 20.0, 220.0, 16.0, 90.0

# Steps of this part of a circle come near to none of the places where they were before.
GOLDEN = (math.sqrt(5) - 1) / 2

ROUND = 'stroke-linecap="round"'
STYLE = """
path { fill: none }
text { font-family: sans-serif; font-size: 8px; text-anchor: middle }
text.halo { stroke: white; stroke-width: 2px }
text.legend { font-size: 11px; text-anchor: start }
"""


@dataclass(frozen=True)
class Tour:
    """A tour as it is drawn."""

    colour: str
    moves: Sequence[Move]
    title: str = ""


@dataclass(frozen=True)
class Ground:
    """What tours are drawn on: the lines and the names of edges, the points of vertices, and the pixels of a metre."""

    lines: list[list[Point]]
    points: list[Point]
    depot: int
    names: list[str | None] = field(default_factory=list)
    scale: float | None = None


def colour(number: int) -> str:
    """Returns the colour of a tour by its number; those of tours with near numbers are far apart."""
    parts = colorsys.hsv_to_rgb(number * GOLDEN % 1, 0.9, (0.6, 0.8, 0.45)[number % 3])
    return "#" + "".join(f"{round(255 * part):02x}" for part in parts)


def ground_of(instance: Instance, key: Key) -> Ground:
    """Returns the ground at the places of a key."""
    projection = Projection([*key.places, *(place for street in key.streets for place in street.line)])
    flat = [[projection.flat(place) for place in street.line] for street in key.streets]
    points = [projection.flat(place) for place in key.places]
    middle = sorted([0.0, *map(reach, flat)])[(len(flat) + 1) // 2]
    left, top, right, bottom = box_of([*points, *(point for line in flat for point in line)])
    size = max(right - left, bottom - top, 1.0)
    scale = min(max(STREET / max(middle, 1.0), LEAST / size), MOST / size)
    lines = [[(scale * x, scale * y) for x, y in line] for line in flat]
    names = [street.name for street in key.streets]
    return Ground(lines, [(scale * x, scale * y) for x, y in points], instance.depot, names, scale)


def box_of(points: Iterable[Point], margin: float = 0.0) -> Box:
    """Returns the left, the top, the right and the bottom of points with a margin."""
    xs, ys = zip(*points)
    return min(xs) - margin, min(ys) - margin, max(xs) + margin, max(ys) + margin


def is_in(box: Box, point: Point) -> bool:
    """Returns whether a point lies in a box."""
    return box[0] <= point[0] <= box[2] and box[1] <= point[1] <= box[3]


def reach(line: Sequence[Point]) -> float:
    """Returns how long a line is."""
    return math.fsum(math.dist(a, b) for a, b in zip(line, line[1:]))


def longest_piece(line: Sequence[Point]) -> tuple[Point, Point]:
    """Returns the ends of the longest straight piece of a line."""
    return max(zip(line, line[1:]), key=lambda ends: math.dist(*ends))


def beside(line: Sequence[Point], shift: float) -> list[Point]:
    """Returns a line moved to its right."""
    points = [a for a, b in zip(line, line[1:]) if a != b] + [line[-1]]
    if shift == 0 or len(points) < 2:
        return points
    sides = [((a[1] - b[1]) / math.dist(a, b), (b[0] - a[0]) / math.dist(a, b)) for a, b in zip(points, points[1:])]
    moved = []
    for (x, y), (x1, y1), (x2, y2) in zip(points, [sides[0], *sides], [*sides, sides[-1]]):
        # At a bend both pieces move by the shift, but not if it is so sharp that they would meet far away.
        part = max(1 + x1 * x2 + y1 * y2, 0.5)
        moved.append((x + shift * (x1 + x2) / part, y + shift * (y1 + y2) / part))
    return moved


def along(line: Sequence[Point], part: float) -> tuple[Point, Point]:
    """Returns the point after a part of a line, and the direction there as a step of length 1."""
    left = part * reach(line)
    for a, b in zip(line, line[1:]):
        step = math.dist(a, b)
        if step > 0 and left <= step:
            right, down = (b[0] - a[0]) / step, (b[1] - a[1]) / step
            return (a[0] + left * right, a[1] + left * down), (right, down)
        left -= step
    return line[-1], (1.0, 0.0)


def path(line: Sequence[Point], style: str) -> str:
    """Returns a line in SVG."""
    return f'<path d="M{" L".join(f"{x:.1f} {y:.1f}" for x, y in line)}" {style}/>'


def arrow(line: Sequence[Point], tint: str) -> str:
    """Returns an arrow on a line in SVG, behind its middle, so that those of two directions are apart."""
    (x, y), (right, down) = along(line, 0.6)
    corners = (1.0, 0.0), (-0.7, 0.8), (-0.7, -0.8)
    points = " ".join(
        f"{x + ARROW * (a * right - b * down):.1f},{y + ARROW * (a * down + b * right):.1f}" for a, b in corners
    )
    return f'<polygon points="{points}" fill="{tint}"/>'


def uses_of(tours: Sequence[Tour], edges: int) -> list[list[tuple[Move, str]]]:
    """Returns the moves along each edge with their colours, those back to its first end before the others."""
    uses: list[list[tuple[Move, str]]] = [[] for _ in range(edges)]
    for tour in tours:
        for move in tour.moves:
            uses[move.edge - 1].append((move, tour.colour))
    return [sorted(each, key=lambda use: use[0].forward) for each in uses]


def width_of(line: Sequence[Point], uses: Sequence[object]) -> float:
    """Returns how wide a street is drawn for its uses, less if it is short."""
    return max(NARROW, min(GAP * len(uses) + 2.5, reach(line) / 2, WIDE))


def moves_along(line: Sequence[Point], uses: Sequence[tuple[Move, str]]) -> Iterator[str]:
    """Returns the moves along a street in SVG, side by side."""
    gap = min(GAP, width_of(line, uses) / max(len(uses), 1))
    for slot, (move, tint) in enumerate(uses):
        moved = beside(line, gap * (slot - (len(uses) - 1) / 2))
        dash = "" if move.serves else ' stroke-dasharray="4 3"'
        yield path(moved, f'stroke="{tint}" stroke-width="{2.5 if move.serves else 1.5}"{dash}')
        if reach(moved) > 4 * ARROW:
            yield arrow(moved if move.forward else moved[::-1], tint)


def name_along(name: str, line: Sequence[Point], width: float) -> tuple[str, list[Point]]:
    """Returns a name beside the longest piece of its line in SVG, on white, and about the corners of its letters."""
    (x, y), (right, down) = along(longest_piece(line), 0.5)
    if (right, down) < (0.0, 0.0):
        right, down = -right, -down
    half = sum(8.0 if east_asian_width(letter) in "WF" else 5.0 for letter in name) / 2
    side = width / 2 + 2
    corners = [(part, high) for part in (-half, half) for high in (side, side + 8)]
    place = f"translate({x:.1f} {y:.1f}) rotate({math.degrees(math.atan2(down, right)):.1f})"
    text = f'transform="{place}" y="{-side:.1f}">{escape(name)}</text>'
    return (
        f'<text class="halo" {text}<text {text}',
        [(x + part * right + high * down, y + part * down - high * right) for part, high in corners],
    )


def legend(tours: Sequence[Tour], scale: float, box: Box) -> tuple[list[str], Box]:
    """Returns the legend on the right of a box in SVG, and the box with it: tours, kinds of lines and a length."""
    lengths = (part * 10.0**power for power in range(-2, 8) for part in (1, 2, 5))
    metres = max(length for length in lengths if length * scale <= LEGEND_SCALE)
    rows = [(24.0, f'stroke="{tour.colour}" stroke-width="4"', tour.title) for tour in tours]
    rows.append((24.0, 'stroke="#333" stroke-width="2.5"', "serves"))
    rows.append((24.0, 'stroke="#333" stroke-width="1.5" stroke-dasharray="4 3"', "drives without service"))
    rows.append((metres * scale, 'stroke="black"', f"{metres:.12g} m, north is up"))
    _, top, right, bottom = box
    high = max(int((bottom - top - 2 * MARGIN) / LEGEND_LINE), 8)
    parts = []
    for number, (width, style, title) in enumerate(rows):
        x, y = right + LEGEND_WIDTH * (number // high), top + MARGIN + LEGEND_LINE * (number % high + 0.5)
        parts.append(path([(x, y), (x + width, y)], style))
        parts.append(f'<text class="legend" x="{x + width + 8:.1f}" y="{y + 4:.1f}">{escape(title)}</text>')
    right += LEGEND_WIDTH * math.ceil(len(rows) / high)
    return parts, (*box[:2], right, max(bottom, top + 2 * MARGIN + LEGEND_LINE * min(high, len(rows))))


def names_in(ground: Ground, edges: Iterable[int], uses: Sequence[Sequence[object]]) -> dict[str, int]:
    """Returns for each name the edge where it stands: one that is used, if there is one, and has the most room."""
    best: dict[str, tuple[bool, float, int]] = {}
    for edge in edges:
        name = ground.names[edge] if ground.names else None
        if name:
            room = math.dist(*longest_piece(ground.lines[edge]))
            best[name] = max(best.get(name, (False, -1.0, -1)), (bool(uses[edge]), room, edge))
    return {name: edge for name, (_, _, edge) in best.items()}


def drawn(ground: Ground, uses: Sequence[Sequence[tuple[Move, str]]], frame: Box) -> tuple[list[str], Box]:
    """Returns what lies in a frame in SVG, and the frame with the names that stand out of it."""
    edges = [edge for edge, line in enumerate(ground.lines) if any(is_in(frame, point) for point in line)]
    widths = {edge: width_of(ground.lines[edge], uses[edge]) for edge in edges}
    names = [
        name_along(name, ground.lines[edge], widths[edge]) for name, edge in names_in(ground, edges, uses).items()
    ]
    x, y = ground.points[ground.depot - 1]
    parts = [
        *(path(ground.lines[edge], f'stroke="#ddd" stroke-width="{widths[edge]}" {ROUND}') for edge in edges),
        *(part for edge in edges for part in moves_along(ground.lines[edge], uses[edge])),
        *(f'<circle cx="{x:.1f}" cy="{y:.1f}" r="2.5"/>' for x, y in ground.points if is_in(frame, (x, y))),
        f'<rect x="{x - 5:.1f}" y="{y - 5:.1f}" width="10" height="10"/>',
        *(text for text, _ in names),
    ]
    return parts, box_of([frame[:2], frame[2:], *(corner for _, corners in names for corner in corners)])


def svg(ground: Ground, tours: Sequence[Tour], is_close: bool = False, has_legend: bool = False) -> str:
    """Returns the drawing of tours, on all streets or those near the tours; a legend needs a ground with a scale."""
    uses = uses_of(tours, len(ground.lines))
    shown = [line for line, each in zip(ground.lines, uses) if each or not is_close]
    points = [ground.points[ground.depot - 1]] if is_close else ground.points
    frame = box_of([*points, *(point for line in shown for point in line)], MARGIN)
    parts, box = drawn(ground, uses, frame)
    if has_legend and ground.scale:
        lines, box = legend(tours, ground.scale, box)
        parts.extend(lines)
    left, top, width, height = box[0], box[1], box[2] - box[0], box[3] - box[1]
    size = f'width="{width:.0f}" height="{height:.0f}" viewBox="{left:.1f} {top:.1f} {width:.1f} {height:.1f}"'
    return "\n".join([
        f'<svg xmlns="http://www.w3.org/2000/svg" {size}>',
        f"<style>{STYLE}</style>",
        *parts,
        "</svg>\n",
    ])


def geojson(number: int, steps: Sequence[Step], tint: str, depot: Place) -> str:
    """Returns a tour as GeoJSON: a point for the depot, and a line for each step."""
    features = [feature("Point", depot[::-1], {"tour": number, "depot": True})]
    for place, step in enumerate(steps, 1):
        features.append(feature("LineString", [point[::-1] for point in step.line], {
            "tour": number, "step": place, "street": step.move.edge, "name": step.street.name,
            "from": step.ends[0], "to": step.ends[1], "served": step.move.serves, "against_oneway": step.is_against,
            "cost": step.cost, "length": step.street.metres, "load": step.load,
            "stroke": tint, "stroke-width": 4 if step.move.serves else 2,
        }))
    lines = ",\n".join(json.dumps(each, ensure_ascii=False) for each in features)
    return f'{{"type": "FeatureCollection", "features": [\n{lines}\n]}}\n'


def feature(kind: str, coordinates: Sequence[object], properties: dict[str, object]) -> dict[str, object]:
    """Returns a feature of GeoJSON."""
    return {"type": "Feature", "properties": properties, "geometry": {"type": kind, "coordinates": coordinates}}


def gpx(title: str, steps: Sequence[Step], ways: Sequence[str], depot: Place) -> str:
    """Returns a tour as GPX: the depot, a route with the words of each step, and the track along the streets."""
    track = [place for step in steps for place in step.line]
    track = [place for before, place in zip([None, *track], track) if place != before]
    lines = [
        '<?xml version="1.0" encoding="UTF-8"?>',
        '<gpx version="1.1" creator="carp" xmlns="http://www.topografix.com/GPX/1/1">',
        f"{spot('wpt', depot)}<name>depot</name></wpt>",
        f"<rte><name>{escape(title)}</name>",
        *(
            f"{spot('rtept', step.line[0])}<name>{escape(where)}</name><cmt>{step.do}</cmt></rtept>"
            for step, where in zip(steps, ways)
        ),
        f"{spot('rtept', depot)}<name>depot</name></rtept></rte>",
        f"<trk><name>{escape(title)}</name><trkseg>",
        *(f"{spot('trkpt', place)}</trkpt>" for place in track),
        "</trkseg></trk>\n</gpx>\n",
    ]
    return "\n".join(lines)


def spot(tag: str, place: Place) -> str:
    """Returns the start of an element of GPX at a place."""
    return f'<{tag} lat="{place[0]:.7f}" lon="{place[1]:.7f}">'
