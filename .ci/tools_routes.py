#!/usr/bin/env python3
"""Tests `tools/routes`, and `tools/draw` with a key.

usage: .ci/tools_routes.py PROGRAM

They are tried on a small town with a plan made by hand, whose sheets are known, and on the sample town the whole way
from its map. The latter needs pyosmium for /usr/bin/python3. If it is missing, that is said, and it is left out.
"""
import json
import os
import re
import shutil
import subprocess
import sys
import tempfile
import unittest
import xml.etree.ElementTree as ElementTree
from html.parser import HTMLParser
from pathlib import Path
from typing import Any

TOP = Path(__file__).resolve().parent.parent
sys.path.insert(0, str(TOP / "tools"))

import carp_run  # noqa: E402
from carp_map import geometry, key, maps, sheets  # noqa: E402

PROGRAM = ""
PYTHON = "/usr/bin/python3"
ROUTES, DRAW, MAKE_STREETS = (str(TOP / "tools" / name) for name in ("routes", "draw", "streets"))
NAMES = ("town.dat", "town.cert", "town.key")
GPX = "{http://www.topografix.com/GPX/1/1}"
SVG = "{http://www.w3.org/2000/svg}"

# Where the vertices lie, in steps of 0.001 degrees to the north and to the east of the depot, which is vertex 1.
VERTICES = [(0, 0), (1, 0), (1, 1), (0, 1), (1, 2)]
# The ends of each edge, its name, demand and one-way direction, and where it bends.
STREETS = [
    (1, 2, "Nordstraße & <Söhne>", 2, 0, []),
    (2, 3, "Čapkova", 3, 1, []),
    (4, 3, "Čapkova", 1, -1, []),
    (3, 5, None, 4, 0, [(1.1, 1.5)]),
    (2, 3, "Bogen\n\"7\"", 1, 0, [(1.5, 0.3), (1.5, 0.7)]),
    (4, 1, "Südweg", 0, 0, []),
]
TOURS = ["+1 +2 +4 <4 -3 >6", ">1 +5 <2 <1"]
# What the sheets say of each step, without and with the mark of a street that is one-way the other way.
WAYS = [
    [
        "north along Nordstraße & <Söhne>",
        "right into Čapkova",
        "straight on into a street without a name",
        "back along a street without a name",
        "left into Čapkova",
        "right into Südweg",
    ],
    [
        "north along Nordstraße & <Söhne>",
        'straight on into Bogen "7"',
        "right into Čapkova AGAINST ONE-WAY",
        "left into Nordstraße & <Söhne>",
    ],
]


def place_of(point: tuple[float, float]) -> list[float]:
    """Returns the place of a point of the small town."""
    return [47 + 0.001 * point[0], 8 + 0.001 * point[1]]


def small_key() -> dict[str, Any]:
    """Returns the key of the small town."""
    edges = []
    for u, v, name, demand, oneway, between in STREETS:
        line = [place_of(point) for point in (VERTICES[u - 1], *between, VERTICES[v - 1])]
        metres = geometry.length(line)
        edges.append({
            "ends": [u, v], "name": name, "length": metres, "cost": round(metres), "demand": demand, "oneway": oneway,
            "geometry": line,
        })
    return {"version": 1, "depot": 1, "vertices": [place_of(point) for point in VERTICES], "edges": edges}


def small_instance(town: dict[str, Any]) -> str:
    """Returns the small town as an instance."""
    lines = ["VERTICES : 5", "ARISTAS_REQ : 5", "ARISTAS_NOREQ : 1", "CAPACIDAD : 10", "LISTA_ARISTAS_REQ :"]
    for edge in town["edges"]:
        if not edge["demand"]:
            lines.append("LISTA_ARISTAS_NOREQ :")
        u, v = edge["ends"]
        demand = f" demanda {edge['demand']}" if edge["demand"] else ""
        lines.append(f"( {u}, {v}) coste {edge['cost']}{demand}")
    return "\n".join([*lines, "DEPOSITO : 1", ""])


def small_certificate(town: dict[str, Any]) -> str:
    """Returns a certificate of the plan made by hand, with the bound 0."""
    cost = sum(town["edges"][int(step[1:]) - 1]["cost"] for tour in TOURS for step in tour.split())
    tours = "".join(f"tour {len(tour.split())} {tour}\n" for tour in TOURS)
    return (
        f"carp-certificate 1\ncost {cost}\nbound 0\ntours {len(TOURS)}\n{tours}shores 0\nsets 1\nprices 1 5 0 0 0 0 0\n"
        "weights 0\nnodes 1\nprice 1\nend\n"
    )


class Table(HTMLParser):
    """The cells of the tables of a page, row by row, and the class of each row."""

    def __init__(self, text: str) -> None:
        super().__init__()
        self.rows: list[tuple[str, list[str]]] = []
        self.inside = False
        self.feed(text)

    def handle_starttag(self, tag: str, attrs: list) -> None:
        if tag == "tr":
            self.rows.append((dict(attrs).get("class", ""), []))
        elif tag == "td":
            self.rows[-1][1].append("")
        self.inside = self.inside or tag == "td"

    def handle_endtag(self, tag: str) -> None:
        self.inside = self.inside and tag != "td"

    def handle_data(self, data: str) -> None:
        if self.inside:
            self.rows[-1][1][-1] += data


class FolderTest(unittest.TestCase):
    """A test that works in a new folder, with the small town, its certificate and its key."""

    def setUp(self) -> None:
        self.folder = Path(os.path.realpath(tempfile.mkdtemp()))
        self.addCleanup(shutil.rmtree, self.folder)
        self.key = small_key()
        self.write("town.dat", small_instance(self.key))
        self.write("town.cert", small_certificate(self.key))
        self.write("town.key", json.dumps(self.key))

    def write(self, name: str, text: str) -> None:
        """Writes a file."""
        (self.folder / name).write_text(text, encoding="utf-8")

    def listing(self) -> list[str]:
        """Returns the names of all files and folders."""
        return sorted(str(path.relative_to(self.folder)) for path in self.folder.rglob("*"))

    def call(self, *words: str, program: str | None = None) -> subprocess.CompletedProcess[str]:
        """Runs a command in the folder."""
        environment = {**os.environ, "CARP": program or PROGRAM}
        return subprocess.run(
            words, cwd=self.folder, env=environment, capture_output=True, encoding="utf-8", timeout=60
        )

    def routes(self, *names: str) -> Path:
        """Runs `tools/routes` on files that it takes, and returns the folder of the routes."""
        done = self.call(ROUTES, *(names or NAMES), "--out", "out", "--no-page")
        self.assertEqual((done.returncode, done.stderr), (0, ""))
        self.assertEqual(done.stdout, (self.folder / "out" / "summary.txt").read_text(encoding="utf-8"))
        self.assertFalse([name for name in self.listing() if name.endswith(".new")])
        return self.folder / "out"

    def refuse(self, message: str, *words: str, code: int = 1, program: str | None = None) -> None:
        """Runs `tools/routes`, which has to end with the code and a message, and to leave all as it was."""
        before = self.listing()
        done = self.call(ROUTES, *words, program=program)
        self.assertEqual((done.returncode, done.stdout), (code, ""), done.stderr)
        self.assertTrue(done.stderr.startswith(f"routes: {message}"), done.stderr)
        self.assertEqual(self.listing(), before)

    def hold_together(self, town: dict[str, Any]) -> None:
        """What is written of the tours agrees with `carp sheet` and with the key."""
        sheet = self.call(PROGRAM, "sheet", "town.dat", "town.cert").stdout
        count = int(re.search(r"^total tours (\d+)", sheet, re.M)[1])
        stems = [self.folder / "out" / f"tour-{number:0{len(str(count))}}" for number in range(1, count + 1)]
        names = {f"{stem.name}.{kind}" for stem in stems for kind in ("txt", "html", "geojson", "gpx")}
        self.assertEqual(set(os.listdir(self.folder / "out")), names | {"summary.txt", "map.svg"})
        tours = [self.steps_of(stem.with_suffix(".geojson")) for stem in stems]
        for stem, steps in zip(stems, tours):
            self.steps_lie(steps, town)
            self.sheets_agree(stem, steps)
            self.track_lies(stem.with_suffix(".gpx"), steps)
        every = [step["properties"] for steps in tours for step in steps]
        lines = [line for steps in tours for line in self.lines_of(steps)]
        total = f"total tours {count} cost {sum(step['cost'] for step in every)}"
        self.assertEqual("\n".join([*lines, total, ""]), sheet)
        required = [number for number, edge in enumerate(town["edges"], 1) if edge["demand"]]
        self.assertEqual(sorted(step["street"] for step in every if step["served"]), required)
        self.picture_holds((self.folder / "out" / "map.svg").read_text(encoding="utf-8"), town, len(every))

    def steps_of(self, path: Path) -> list[dict[str, Any]]:
        """Returns the steps of a tour in GeoJSON."""
        features = json.loads(path.read_text(encoding="utf-8"))["features"]
        return [feature for feature in features if feature["geometry"]["type"] == "LineString"]

    def lines_of(self, steps: list[dict[str, Any]]) -> list[str]:
        """Returns what `carp sheet` writes of a tour."""
        parts = [step["properties"] for step in steps]
        lines = [f"tour {parts[0]['tour']} load {parts[-1]['load']} cost {sum(part['cost'] for part in parts)}"]
        for part in parts:
            do, load = ("serve", f" load {part['load']}") if part["served"] else ("drive", "")
            lines.append(f"{part['step']} {do} {part['from']} {part['to']} cost {part['cost']}{load}")
        return lines

    def steps_lie(self, steps: list[dict[str, Any]], town: dict[str, Any]) -> None:
        """The steps lead from the depot to the depot along the streets of the key, and are as long as they say."""
        depot = town["vertices"][town["depot"] - 1][::-1]
        ends = [(step["geometry"]["coordinates"][0], step["geometry"]["coordinates"][-1]) for step in steps]
        self.assertEqual([depot, *(end for _, end in ends)], [*(start for start, _ in ends), depot])
        for step in steps:
            part, line = step["properties"], [tuple(point[::-1]) for point in step["geometry"]["coordinates"]]
            edge = town["edges"][part["street"] - 1]
            street = [tuple(point) for point in edge["geometry"]]
            self.assertIn(line, (street, street[::-1]))
            self.assertAlmostEqual(geometry.length(line), part["length"], delta=0.1)
            self.assertEqual(part["against_oneway"], edge["oneway"] == (-1 if line == street else 1))

    def sheets_agree(self, stem: Path, steps: list[dict[str, Any]]) -> None:
        """Both sheets of a tour have its steps, with the streets and the marks."""
        parts = [step["properties"] for step in steps]
        wanted = [
            ("serve" if part["served"] else "drive", str(part["street"]), part["against_oneway"]) for part in parts
        ]
        text = stem.with_suffix(".txt").read_text(encoding="utf-8")
        found = re.findall(r"^ *\d+  (serve|drive) +(\d+) +\d+ .*?(AGAINST ONE-WAY)?$", text, re.M)
        self.assertEqual([(do, street, bool(mark)) for do, street, mark in found], wanted)
        table = Table(stem.with_suffix(".html").read_text(encoding="utf-8")).rows
        self.assertEqual([(do, cells[3], sheets.AGAINST in cells[2]) for do, cells in table if cells], wanted)

    def track_lies(self, path: Path, steps: list[dict[str, Any]]) -> None:
        """The track of a tour is as long as its steps, and its route has a point for each of them and the end."""
        tree = ElementTree.parse(path).getroot()
        track = [(float(point.get("lat")), float(point.get("lon"))) for point in tree.iter(f"{GPX}trkpt")]
        metres = sum(step["properties"]["length"] for step in steps)
        self.assertAlmostEqual(geometry.length(track), metres, delta=0.1 + 0.001 * metres)
        self.assertTrue(all(a != b for a, b in zip(track, track[1:])))
        self.assertEqual(len(list(tree.iter(f"{GPX}rtept"))), len(steps) + 1)
        self.assertEqual([child.tag for child in tree], [GPX + tag for tag in ("wpt", "rte", "trk")])

    def picture_holds(self, text: str, town: dict[str, Any], steps: int) -> None:
        """A drawing has a line for each street and each step, in its frame, and the depot as a square."""
        tree = ElementTree.fromstring(text)
        left, top, width, height = (float(number) for number in tree.get("viewBox").split())
        paths = list(tree.iter(f"{SVG}path"))
        grey = sum(path.get("stroke") == "#ddd" for path in paths)
        self.assertEqual(grey, len(town["edges"]))
        self.assertGreaterEqual(len(paths), grey + steps)
        self.assertEqual(len(list(tree.iter(f"{SVG}rect"))), 1)
        for path in paths:
            for x, y in re.findall(r"([-\d.]+) ([-\d.]+)", path.get("d")):
                self.assertTrue(left <= float(x) <= left + width and top <= float(y) <= top + height)


class SmallTown(FolderTest):
    """The small town, whose plan and sheets are known."""

    def test_all_files_agree(self) -> None:
        self.routes()
        self.hold_together(self.key)

    def test_the_sheets_have_names_turns_and_marks(self) -> None:
        out = self.routes()
        for number, ways in enumerate(WAYS, 1):
            text = (out / f"tour-{number}.txt").read_text(encoding="utf-8")
            found = re.findall(r"^ *\d+  (?:serve|drive).{25}(.*)$", text, re.M)
            self.assertEqual([way.replace("  ", " ") for way in found], ways)
            table = Table((out / f"tour-{number}.html").read_text(encoding="utf-8")).rows
            self.assertEqual([cells[2] for _, cells in table if cells], ways)

    def test_the_summary_counts(self) -> None:
        text = (self.routes() / "summary.txt").read_text(encoding="utf-8")
        cost = sum(self.key["edges"][int(step[1:]) - 1]["cost"] for tour in TOURS for step in tour.split())
        self.assertIn(f"2 tours, cost {cost}; every plan costs at least 0\n", text)
        self.assertIn("\n1 step against a one-way street, 0.08 km\n", text)
        self.assertIn(sheets.NO_ONEWAYS, text)
        self.assertRegex(text, r"\ntour 1: load 10 of 10, cost \d+, 0\.53 km, 0 steps against a one-way street\n")
        self.assertRegex(text, r"\ntour 2: load 1 of 10, cost \d+, 0\.45 km, 1 step against a one-way street\n")

    def test_nothing_is_marked_without_one_way_streets(self) -> None:
        for edge in self.key["edges"]:
            edge["oneway"] = 0
        self.write("town.key", json.dumps(self.key))
        for path in self.routes().iterdir():
            self.assertNotIn(sheets.AGAINST, path.read_text(encoding="utf-8"))
            self.assertNotIn(sheets.NO_ONEWAYS, path.read_text(encoding="utf-8"))

    def test_a_service_cost_of_its_own(self) -> None:
        self.write("town.dat", small_instance(self.key).replace("demanda 4", "DEMANDA 4 servicio 1000"))
        text = small_certificate(self.key)
        cost = int(re.search(r"cost (\d+)", text)[1]) + 1000 - self.key["edges"][3]["cost"]
        self.write("town.cert", re.sub(r"cost \d+", f"cost {cost}", text))
        self.routes()
        self.hold_together(self.key)

    def test_an_empty_folder_is_filled_with_the_same(self) -> None:
        first = {path.name: path.read_bytes() for path in self.routes().iterdir()}
        for name in first:
            (self.folder / "out" / name).unlink()
        self.assertEqual({path.name: path.read_bytes() for path in self.routes().iterdir()}, first)


class Sample(FolderTest):
    """The sample town, the whole way from its map."""

    def test_from_the_map_to_routes(self) -> None:
        if not os.path.exists(PYTHON) or self.call(PYTHON, "-c", "import osmium").returncode:
            print("tools_routes: pyosmium is missing, so that the sample town is left out", file=sys.stderr)
            self.skipTest("pyosmium is missing")
        town = str(TOP / "tools" / "samples" / "town.osm")
        done = self.call(MAKE_STREETS, town, "--depot", "45,-30", "--capacity", "20", "town.dat", "town.key")
        self.assertEqual((done.returncode, done.stderr), (0, ""))
        self.assertIn(self.call(PROGRAM, "solve", "town.dat", "town.cert", "--turns", "1").returncode, (0, 1))
        out = self.routes()
        made = json.loads((self.folder / "town.key").read_text(encoding="utf-8"))
        self.hold_together(made)
        steps = [step for path in out.glob("*.geojson") for step in self.steps_of(path)]
        for step in steps:
            line = [tuple(point[::-1]) for point in step["geometry"]["coordinates"]]
            self.assertLessEqual(abs(geometry.length(line) - step["properties"]["cost"]), 0.6)
        text = "".join(path.read_text(encoding="utf-8") for path in out.glob("*.txt"))
        for name in {edge["name"] for edge in made["edges"] if edge["name"] and edge["demand"]}:
            self.assertIn(name, text)


class Refusals(FolderTest):
    """What `tools/routes` refuses: each with a message and a code, and nothing is written."""

    def key_with(self, **changes: object) -> None:
        self.write("bad.key", json.dumps({**self.key, **changes}))

    def edge_with(self, number: int, **changes: object) -> None:
        edges = [dict(edge) for edge in self.key["edges"]]
        edges[number - 1].update(changes)
        self.key_with(edges=edges)

    def refuse_key(self, message: str) -> None:
        instance = carp_run.read_instance(str(self.folder / "town.dat"))
        with self.assertRaises(carp_run.Refusal) as refused:
            key.read_key(str(self.folder / "bad.key"), instance)
        self.assertIn(f"bad.key: {message}", str(refused.exception))

    def test_wrong_words(self) -> None:
        for words in [], [*NAMES], [*NAMES[:2], "--out", "out"], [*NAMES, "more", "--out", "out"], ["--help-me"]:
            self.refuse("", *words, code=2)
        for words in [], NAMES[:1], [*NAMES, "more"], [*NAMES, "--pages"], [*NAMES, "--pag"]:
            done = self.call(DRAW, *words)
            self.assertEqual((done.returncode, done.stdout), (2, ""))
            self.assertTrue(done.stderr.startswith("draw: "), done.stderr)

    def test_a_certificate_that_is_not_good(self) -> None:
        self.write("town.cert", re.sub(r"cost \d+", "cost 1", small_certificate(self.key)))
        self.refuse("carp check: rejected: cost 1 is stated", *NAMES, "--out", "out")
        self.write("town.cert", "no certificate\n")
        self.refuse("carp check: bad certificate: line 1", *NAMES, "--out", "out")

    def test_a_cost_that_the_steps_do_not_have(self) -> None:
        """Files that change while they are read do not lead to routes."""
        self.write("other", "#!/bin/sh\nprintf 'accepted\\ncost 1\\nbound 0\\n'\n")
        (self.folder / "other").chmod(0o755)
        self.refuse("the steps of town.cert cost 980, and carp check says 1", *NAMES, "--out", "out", program="other")
        self.write("town.dat", "")
        self.refuse("town.dat is no instance any more", *NAMES, "--out", "out", program="other")

    def test_files_that_are_not_there(self) -> None:
        self.refuse("carp check: read fault", "none", *NAMES[1:], "--out", "out")
        self.refuse("none cannot be read", *NAMES[:2], "none", "--out", "out")
        self.refuse(f"no program at {self.folder / 'none'}", *NAMES, "--out", "out", program="none")
        self.refuse(f"{self.folder / 'town.dat'} cannot be run", *NAMES, "--out", "out", program="town.dat")

    def test_a_folder_that_cannot_be_written(self) -> None:
        self.refuse("town.key is there already", *NAMES, "--out", "town.key")
        self.refuse("none/out cannot be written: No such file", *NAMES, "--out", "none/out")
        (self.folder / "full").mkdir()
        self.write("full/notes", "")
        self.refuse("full is there already", *NAMES, "--out", "full/")

    def test_a_disk_that_is_full(self) -> None:
        """A file that grows above its limit cannot be written, and what was written before is removed."""
        before = self.listing()
        done = self.call("bash", "-c", "ulimit -f 4; trap '' XFSZ; exec \"$@\"", "bash", ROUTES, *NAMES, "--out", "out")
        self.assertEqual((done.returncode, done.stderr), (1, "routes: out cannot be written: File too large\n"))
        self.assertEqual(self.listing(), before)

    def test_a_key_that_cannot_be_read(self) -> None:
        for text in b"", b"{", b'{"version": 1', b"[" * 100000, b'"\xff"':
            (self.folder / "bad.key").write_bytes(text)
            self.refuse_key("it is no JSON")
        self.write("bad.key", "[]")
        self.refuse_key("it is no key of version 1")
        self.refuse("bad.key: it is no key of version 1", *NAMES[:2], "bad.key", "--out", "out")

    def test_a_key_of_another_instance(self) -> None:
        self.key_with(version=2)
        self.refuse_key("it is no key of version 1")
        self.key_with(depot=2)
        self.refuse_key("its depot is 2, and that of the instance is 1")
        self.key_with(vertices=self.key["vertices"][:-1])
        self.refuse_key("it has 4 vertices, and the instance has 5")
        self.key_with(edges=self.key["edges"][:-1])
        self.refuse_key("it has 5 edges, and the instance has 6")
        self.key_with(edges=None)
        self.refuse_key("it has no list of edges")
        self.edge_with(2, ends=[3, 2])
        self.refuse_key("edge 2 has the ends [3, 2], and [2, 3] in the instance")
        self.edge_with(6, cost=1)
        self.refuse_key("edge 6 has the cost 1, and ")
        self.edge_with(6, demand=1)
        self.refuse_key("edge 6 has the demand 1, and 0 in the instance")

    def test_a_key_with_a_part_that_is_wrong(self) -> None:
        self.edge_with(4, geometry=self.key["edges"][0]["geometry"])
        self.refuse_key("the geometry of edge 4 does not lead from the place of one end to that of the other")
        self.edge_with(4, geometry=[[47, 8]])
        self.refuse_key("edge 4 has no geometry of two places or more")
        for place in [91, 8], [47, 181], [47], ["47", "8"], None, [float("nan"), 8], [10**400, 8], [True, 8]:
            self.edge_with(4, geometry=[self.key["edges"][3]["geometry"][0], place])
            self.refuse_key("the geometry of edge 4 has no place [latitude, longitude]")
        self.edge_with(1, name=7)
        self.refuse_key("edge 1 has a name that is no text")
        for length in -1, "1", True, float("nan"), float("inf"), 10**400:
            self.edge_with(1, length=length)
            self.refuse_key("edge 1 has no length")
        self.edge_with(1, oneway=2)
        self.refuse_key("edge 1 has no oneway of -1, 0 or 1")
        self.key_with(edges=[7] * 6)
        self.refuse_key("edge 1 is no object")


class Parts(unittest.TestCase):
    """Names and lines that no small town has."""

    def test_names_are_printable(self) -> None:
        for name, wanted in ("a\nb", "a b"), ("\x00", "?"), ("x\ud800y", "x y"), ("\ufffe a ", "a"), ("Šuška", "Šuška"):
            self.assertEqual(key.printable(name), wanted)

    def test_a_line_is_moved_to_its_right(self) -> None:
        self.assertEqual(maps.beside([(0, 0), (0, -10)], 2), [(2, 0), (2, -10)])
        self.assertEqual(maps.beside([(0, 0), (10, 0), (10, 0), (10, 10)], 1), [(0, 1), (9, 1), (9, 10)])
        self.assertEqual(maps.beside([(1, 1), (1, 1)], 2), [(1, 1)])

    def test_arrows_show_directions(self) -> None:
        """Moves to the east and back lie on their right, and the first corner of an arrow is its tip."""
        tour = maps.Tour("red", [carp_run.Move(1, forward, True) for forward in (True, False)])
        uses = maps.uses_of([tour], 1)[0]
        back, back_arrow, there, there_arrow = maps.moves_along([(0.0, 0.0), (100.0, 0.0)], uses)
        self.assertIn('d="M0.0 -1.8 L100.0 -1.8"', back)
        self.assertIn('d="M0.0 1.8 L100.0 1.8"', there)
        self.assertIn('points="64.0,1.8 57.2,', there_arrow)
        self.assertIn('points="36.0,-1.8 42.8,', back_arrow)

    def test_a_tour_that_stays(self) -> None:
        self.assertIn("load 0 of 3, cost 0", sheets.text_sheet("Tour 1 of 1", [], 3))
        self.assertIn("<tbody>\n</tbody>", sheets.html_sheet("Tour 1 of 1", [], 3, ""))
        ElementTree.fromstring(maps.gpx("Tour 1 of 1", [], [], (47.0, 8.0)))
        self.assertEqual(len(json.loads(maps.geojson(1, [], "red", (47.0, 8.0)))["features"]), 1)


class Drawing(FolderTest):
    """`tools/draw` with a key, and without one if neato is there."""

    def draw(self, *names: str) -> None:
        """Draws the small town."""
        done = self.call(DRAW, *names)
        self.assertEqual((done.returncode, done.stderr), (0, ""))
        self.picture_holds(done.stdout, self.key, sum(len(tour.split()) for tour in TOURS))

    def test_with_a_key(self) -> None:
        self.draw(*NAMES)

    def test_without_a_key(self) -> None:
        if shutil.which("neato") is None:
            print("tools_routes: neato is missing, so that drawing without a key is left out", file=sys.stderr)
            self.skipTest("neato is missing")
        self.draw(*NAMES[:2])

    def test_a_wrong_key(self) -> None:
        self.write("town.key", "[]")
        done = self.call(DRAW, *NAMES)
        self.assertEqual((done.returncode, done.stdout), (1, ""))
        self.assertEqual(done.stderr, "draw: town.key: it is no key of version 1\n")


def main() -> None:
    global PROGRAM
    if len(sys.argv) != 2:
        sys.exit("usage: .ci/tools_routes.py PROGRAM")
    PROGRAM = os.path.realpath(sys.argv[1])
    unittest.main(argv=sys.argv[:1])


if __name__ == "__main__":
    main()
