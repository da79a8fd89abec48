"""Makes one HTML file of the tours of a certificate, which a browser shows as a map with a table of tours and their sheets.

The file needs no other: Leaflet, which draws the map, is packed into it. The tours stand in it as GeoJSON, and the
parts in the folder `page` show them. No text of a map or of a file is ever read as HTML: it stands in JSON without the
letters that could end it, and the browser runs no script but the two that were packed.
"""
import base64
import hashlib
import json
import os
import re
import shlex
import time
from collections.abc import Sequence
from dataclasses import dataclass
from pathlib import Path
from typing import Any

from carp_map import sheets
from carp_map.geometry import Place
from carp_map.key import Key, Step, Street, steps_of
from carp_map.maps import Ground, feature
from carp_run import Bounds, Instance, Move, Refusal, contents

PARTS = Path(__file__).parent / "page"
SCRIPTS = ("geometry.js", "model.js", "map.js", "print.js", "page.js")
DEBIAN_LEAFLET = "/usr/share/javascript/leaflet"


class NoLeaflet(Refusal):
    """Leaflet is not installed."""


@dataclass(frozen=True)
class Plan:
    """What a page shows: the names of both files, what is proved, and the tours along the streets of a key.

    If it is no map, then the places of the key are positions on a plane, upwards and to the right.
    """

    file: str
    certificate: str
    bounds: Bounds
    instance: Instance
    town: Key
    tours: list[list[Step]]
    is_map: bool = True


def plan_on_ground(
    file: str, certificate: str, bounds: Bounds, instance: Instance, ground: Ground, tours: Sequence[list[Move]]
) -> Plan:
    """Returns the plan of an instance without a map, whose vertices lie where a drawing has them."""
    lines: list[list[Place]] = [[(-y, x) for x, y in line] for line in ground.lines]
    streets = [Street(None, 0.0, 0, line) for line in lines]
    town = Key([(-y, x) for x, y in ground.points], streets)
    return Plan(file, certificate, bounds, instance, town, [steps_of(each, instance, town) for each in tours], False)


def leaflet() -> tuple[str, str]:
    """Returns the style sheet and the script of Leaflet, without the addresses of other files that they name."""
    folder = os.environ.get("LEAFLET") or DEBIAN_LEAFLET
    paths = [os.path.join(folder, name) for name in ("leaflet.min.js", "leaflet.js", "leaflet.css")]
    scripts = [path for path in paths[:2] if os.path.isfile(path)]
    if not scripts or not os.path.isfile(paths[2]):
        raise NoLeaflet(f"Leaflet is missing at {folder}: install Debian's package libjs-leaflet, or name its folder in LEAFLET")
    script, style = (contents(path).decode("utf-8", "replace") for path in (scripts[0], paths[2]))
    if re.search(r"</script|<!--", script, re.IGNORECASE) or re.search("</style", style, re.IGNORECASE):
        raise Refusal(f"{folder} cannot be packed into a page")
    style = re.sub(r"/\*# sourceMappingURL=.*?\*/", "", re.sub(r"url\([^)]*\)", "none", style))
    return style, re.sub(r"^//# sourceMappingURL=.*$", "", script, flags=re.MULTILINE)


def gap_in_words(bounds: Bounds) -> str:
    """Returns how near a cost is to the best possible one, in percent of the bound and rounded up."""
    least = f"no plan can cost less than {bounds.bound}"
    if bounds.gap == 0:
        return f"{least}, so that these tours are the best possible"
    if bounds.bound == 0:
        return f"{least} is all that is proved, so that it is not known how near these tours are to the best possible"
    thousandths = -(-1000 * bounds.gap // bounds.bound)
    return f"{least}: these tours are within {thousandths / 10} % of the best possible"


def today() -> str:
    """Returns the date, or that of SOURCE_DATE_EPOCH, by which a page can be made again as it was."""
    stated = os.environ.get("SOURCE_DATE_EPOCH", "")
    return time.strftime("%Y-%m-%d", time.gmtime(int(stated)) if stated.isdecimal() else time.localtime())


def coordinates(places: Sequence[Place]) -> list[list[float]]:
    """Returns places in the order of GeoJSON, rounded to seven places of a degree, which is a centimetre."""
    return [[round(place[1], 7), round(place[0], 7)] for place in places]


def street_feature(number: int, plan: Plan) -> dict[str, object]:
    """Returns an edge as a feature of GeoJSON."""
    edge, street = plan.instance.edges[number - 1], plan.town.streets[number - 1]
    return feature("LineString", coordinates(street.line), {
        "number": number, "name": street.name, "ends": edge.ends, "demand": edge.demand, "cost": edge.cost,
        "service": edge.service, "length": round(street.metres) if plan.is_map else None, "oneway": street.oneway,
    })


def step_record(step: Step, way: str, is_map: bool) -> dict[str, object]:
    """Returns what the page needs of a step."""
    return {
        "street": step.move.edge, "forward": step.move.forward, "serves": step.move.serves, "load": step.load,
        "size": round(step.street.metres) if is_map else step.cost, "against": step.is_against, "way": way,
    }


def share_of_deadheads(steps: Sequence[Step], is_map: bool) -> str:
    """Returns how much of the length of a tour, or of its cost without a map, is driven without service."""
    sizes = [(step.street.metres if is_map else step.cost, step.move.serves) for step in steps]
    whole = sum(size for size, _ in sizes)
    idle = sum(size for size, serves in sizes if not serves)
    return f"{round(100 * idle / whole) if whole else 0} %"


def tour_record(steps: Sequence[Step], plan: Plan) -> dict[str, object]:
    """Returns what the page needs of a tour."""
    cost, load = sum(step.cost for step in steps), steps[-1].load if steps else 0
    if plan.is_map:
        ways, facts, size = sheets.ways(steps), sheets.facts(steps, plan.instance.capacity), sheets.kilometres(steps)
    else:
        ways, size = [f"{step.ends[0]} to {step.ends[1]}" for step in steps], str(cost)
        facts = [f"load {load} of {plan.instance.capacity}, cost {cost}"]
    return {
        "load": load, "cost": cost, "size": size, "deadheads": share_of_deadheads(steps, plan.is_map), "facts": facts,
        "steps": [step_record(step, way, plan.is_map) for step, way in zip(steps, ways)],
    }


def data_of(plan: Plan) -> dict[str, object]:
    """Returns the plan as GeoJSON: its streets, the depot, and beside them what the page says of the tours."""
    file, certificate = (os.path.basename(name) for name in (plan.file, plan.certificate))
    (depot,) = coordinates([plan.town.places[plan.instance.depot - 1]])
    return {
        "type": "FeatureCollection",
        "features": [
            *(street_feature(number, plan) for number in range(1, len(plan.instance.edges) + 1)),
            feature("Point", depot, {"depot": True}),
        ],
        "plan": {
            "file": file, "isMap": plan.is_map, "unit": "metres" if plan.is_map else "cost",
            "cost": plan.bounds.cost, "bound": plan.bounds.bound, "capacity": plan.instance.capacity,
            "proof": gap_in_words(plan.bounds), "origin": f"Tours of {certificate} for {file}, page of {today()}",
            "check": shlex.join(["carp", "check", file, certificate]),
            "tours": [tour_record(steps, plan) for steps in plan.tours],
        },
    }


def embedded(value: Any) -> str:
    """Returns a value as JSON in ASCII that neither ends nor begins anything in HTML."""
    text = json.dumps(value, separators=(",", ":"))
    return re.sub("[<>&]", lambda found: f"\\u{ord(found[0]):04x}", text)


def policy(scripts: Sequence[str]) -> str:
    """Returns the policy by which a browser loads nothing from elsewhere, and runs these scripts only."""
    digests = (base64.b64encode(hashlib.sha256(script.encode("utf-8")).digest()).decode("ascii") for script in scripts)
    allowed = " ".join(f"'sha256-{digest}'" for digest in digests)
    return f"default-src 'none'; style-src 'unsafe-inline'; script-src {allowed}"


def part(name: str) -> str:
    """Returns a part of the page."""
    return (PARTS / name).read_text(encoding="utf-8")


def page_of(plan: Plan) -> str:
    """Returns the page of a plan."""
    style, script = leaflet()
    scripts = [part("leaflet_licence.txt") + script, '"use strict";\n' + "".join(part(name) for name in SCRIPTS)]
    parts = {
        "policy": policy(scripts), "leaflet.css": style, "page.css": part("page.css"), "data": embedded(data_of(plan)),
        "leaflet.js": scripts[0], "page.js": scripts[1],
    }
    # In one pass, so that what looks like the name of a part in a part stays as it is.
    return re.sub(r"\{\{([a-z.]+)\}\}", lambda found: parts[found[1]], part("page.html"))
