"""Writes what comes out of a run: the plan, sheets, tracks and maps of its tours, and the summary."""
import json
import os
import shutil
from collections.abc import Iterable, Iterator, Sequence

import numpy

from carp_city.borders import Rest, Standing
from carp_city.judge import Unlawful, judge
from carp_city.plan import Tours, cost_of, load_of
from carp_city.state import Folder, beside
from carp_city.summary import Pace, claims, summary
from carp_map import key as keys
from carp_map import maps, sheets
from carp_run import Instance, Move, Refusal

# The exit code of a plan that the judge refuses: as `carp check` has it for a certificate.
REFUSED = 3


def plan_text(city: Instance, town: keys.Key | None, tours: Tours) -> str:
    """Returns the plan as JSON, with a tour on each line: the number, the name, the deed and the ends of each step."""
    rows = []
    for number, moves in enumerate(tours, 1):
        steps = []
        for move in moves:
            start, end = city.edges[move.edge - 1].ends[:: 1 if move.forward else -1]
            name = town.streets[move.edge - 1].name if town else None
            steps.append([move.edge, name, "serve" if move.serves else "drive", start, end])
        row = {"tour": number, "load": load_of(city, moves), "cost": cost_of(city, moves), "steps": steps}
        rows.append(json.dumps(row, ensure_ascii=False))
    total = sum(cost_of(city, moves) for moves in tours)
    return f'{{"version": 1, "cost": {total}, "tours": [\n' + ",\n".join(rows) + "\n]}\n"


def tour_files(city: Instance, town: keys.Key, tours: Tours) -> Iterator[tuple[str, str]]:
    """Returns the name and the text of each sheet, track and map."""
    ground = maps.ground_of(city, town)
    boxes = numpy.array([maps.box_of(line) for line in ground.lines])
    depot = town.places[city.depot - 1]
    digits = len(str(len(tours)))
    drawn = []
    for number, moves in enumerate(tours, 1):
        steps = keys.steps_of(list(moves), city, town)
        title, tint, name = f"Tour {number} of {len(tours)}", maps.colour(number), f"tour-{number:0{digits}}"
        drawn.append(maps.Tour(tint, moves, f"tour {number}: {sheets.kilometres(steps)}"))
        yield f"{name}.txt", sheets.text_sheet(title, steps, city.capacity)
        yield f"{name}.html", sheets.html_sheet(title, steps, city.capacity, close_map(ground, boxes, drawn[-1]))
        yield f"{name}.geojson", maps.geojson(number, steps, tint, depot)
        yield f"{name}.gpx", maps.gpx(title, steps, sheets.ways(steps), depot)
    yield "map.svg", maps.svg(ground, drawn, has_legend=True)
    yield "overview.svg", overview(ground, drawn)


def close_map(ground: maps.Ground, boxes: numpy.ndarray, tour: maps.Tour) -> str:
    """Returns the map of a tour, drawn on the streets near it only, since a city has many."""
    own = sorted({move.edge - 1 for move in tour.moves})
    x, y = ground.points[ground.depot - 1]
    low = numpy.minimum(boxes[own, :2].min(axis=0), (x, y)) - maps.MARGIN
    high = numpy.maximum(boxes[own, 2:].max(axis=0), (x, y)) + maps.MARGIN
    near = numpy.flatnonzero((boxes[:, :2] <= high).all(axis=1) & (boxes[:, 2:] >= low).all(axis=1)).tolist()
    numbers = {edge: at for at, edge in enumerate(near, 1)}
    points = [(x, y), *{end for edge in near for end in (ground.lines[edge][0], ground.lines[edge][-1])}]
    part = maps.Ground([ground.lines[edge] for edge in near], points, 1, [ground.names[edge] for edge in near])
    moves = [Move(numbers[move.edge - 1], move.forward, move.serves) for move in tour.moves]
    return maps.svg(part, [maps.Tour(tour.colour, moves)], is_close=True)


def overview(ground: maps.Ground, tours: Sequence[maps.Tour], size: float = 900.0) -> str:
    """Returns a small picture of a plan: the streets in grey, and the services of each tour as one path."""
    left, top, right, bottom = maps.box_of(point for line in ground.lines for point in line)
    scale = size / max(right - left, bottom - top, 1.0)
    lines = [[((x - left) * scale, (y - top) * scale) for x, y in line] for line in ground.lines]
    width, height = (right - left) * scale, (bottom - top) * scale
    x, y = ground.points[ground.depot - 1]
    x, y = (x - left) * scale, (y - top) * scale
    served = [
        f'<path stroke="{tour.colour}" d="{joined(lines[move.edge - 1] for move in tour.moves if move.serves)}"/>'
        for tour in tours
    ]
    return "\n".join([
        f'<svg xmlns="http://www.w3.org/2000/svg" viewBox="-8 -8 {width + 16:.0f} {height + 16:.0f}" '
        f'width="{width + 16:.0f}">',
        '<rect x="-8" y="-8" width="100%" height="100%" fill="white"/>',
        '<g fill="none" stroke-linecap="round">',
        f'<path stroke="#ccc" d="{joined(lines)}"/>',
        '<g stroke-width="2.2">', *served, "</g>", "</g>",
        f'<rect x="{x - 5:.0f}" y="{y - 5:.0f}" width="10" height="10"/>',
        "</svg>\n",
    ])


def joined(lines: Iterable[Sequence[maps.Point]]) -> str:
    """Returns lines as one path, with relative steps of tenths of a pixel."""
    return "".join(
        f"M{line[0][0]:.1f} {line[0][1]:.1f}"
        + "".join(f"l{b[0] - a[0]:.1f} {b[1] - a[1]:.1f}" for a, b in zip(line, line[1:]))
        for line in lines
    )


def write(
    folder: Folder, city: Instance, town: keys.Key | None, standing: Standing, facts: Sequence[str], pace: Pace
) -> str:
    """Writes the routes of a plan below the folder if the judge accepts what is written; returns the summary."""
    tours = [tour.moves for tour in standing.tours.values()]
    new = beside(folder.at("routes"), "new")
    try:
        put(new, "plan.json", plan_text(city, town, tours))
        try:
            judge(folder.at("city.dat"), os.path.join(new, "plan.json"))
        except Unlawful as fault:
            raise Refusal(f"the judge refuses the plan: {fault}", REFUSED) from None
        found = claims(standing)
        keep_claims(folder, new, found)
        for name, text in tour_files(city, town, tours) if town else ():
            put(new, name, text)
        told = summary(city, town, tours, found, facts, pace)
        put(new, "summary.txt", told)
        replace(new, folder.at("routes"))
    except OSError as error:
        raise Refusal(f"{folder.at('routes')} cannot be written: {error.strerror}", 7) from error
    finally:
        shutil.rmtree(new, ignore_errors=True)
    return told


def put(folder: str, name: str, text: str) -> None:
    """Writes a file of a new folder."""
    with open(os.path.join(folder, name), "w", encoding="utf-8", newline="\n") as file:
        file.write(text)


def keep_claims(folder: Folder, new: str, found: Sequence[tuple[list[int], Rest]]) -> None:
    """Copies the instance and the certificate of each neighbourhood of which something is claimed."""
    os.mkdir(os.path.join(new, "neighbourhoods"))
    for number, (_, rest) in enumerate(found, 1):
        for kind in ("dat", "cert"):
            name = os.path.join(new, "neighbourhoods", f"{number}.{kind}")
            shutil.copyfile(folder.at(f"state/rounds/{rest.name}.{kind}"), name)


def replace(new: str, old: str) -> None:
    """Gives a new folder the name of an old one, which goes."""
    if not os.path.lexists(old):
        os.rename(new, old)
        return
    away = beside(old, "old")
    os.rename(old, os.path.join(away, "routes"))
    os.rename(new, old)
    shutil.rmtree(away)
