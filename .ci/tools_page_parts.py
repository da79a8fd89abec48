"""A town with hostile names for the tests of the page, and the tests that need no browser.

`.ci/tools_page.py` runs them with its own.
"""
import itertools
import json
import os
import re
import shutil
import subprocess
import sys
import tempfile
import unittest
from collections import Counter
from pathlib import Path
from typing import Any

TOP = Path(__file__).resolve().parent.parent
sys.path.insert(0, str(TOP / "tools"))

import carp_run  # noqa: E402
from carp_map import geometry, key, maps, page  # noqa: E402

ROUTES, DRAW = (str(TOP / "tools" / name) for name in ("routes", "draw"))
# Names that do harm if they are read as HTML, as JavaScript or as a part of the page.
HOSTILE = [
    "<script>window.harmed=1</script>", "</script><script>window.harmed=1</script>", "<img src=x onerror=harmed=1>",
    "\"><b onclick='harmed=1'>", "&lt;b&gt; &amp;", "<!-- <script>", "]]></svg><i>", "{{page.js}} ${harmed=1}`",
    "line\u2028and\u2029more", "</TITLE></style><h1>", "\\u003cb\\u003e\\", "Größe 大通り",
]
FILES = ("a<img src=x>&'\".dat", "b<script>&.cert", "town.key")
ROWS = 4


def has_leaflet() -> bool:
    """Tells if the page can be made."""
    try:
        page.leaflet()
    except page.NoLeaflet:
        return False
    return True


needs_leaflet = unittest.skipUnless(has_leaflet(), "Leaflet is missing")


def grid(rows: int, columns: int) -> list[tuple[int, int]]:
    """Returns the streets of a grid of junctions, from 1 on row by row."""
    across = [(row * columns + at, row * columns + at + 1) for row in range(rows) for at in range(1, columns)]
    down = [(at, at + columns) for at in range(1, (rows - 1) * columns + 1)]
    return across + down


def town_of(rows: int, columns: int, required: int, more: int = 0) -> tuple[carp_run.Instance, dict[str, Any]]:
    """Returns a town on a grid with so many required streets, and more streets beside the first ones, and its key."""
    places = [[47.1234567891 + row / 1000, 8 + at / 700] for row in range(rows) for at in range(columns)]
    ends = grid(rows, columns)
    edges, parts = [], []
    for at, (u, v) in enumerate(itertools.islice(itertools.cycle(ends), len(ends) + more)):
        aside = at // len(ends) * 0.0002
        bend = [[(a + b) / 2 + aside for a, b in zip(places[u - 1], places[v - 1])]] if aside else []
        line = [places[u - 1], *bend, places[v - 1]]
        metres = geometry.length(line)
        demand = at % 3 + 1 if at < required else 0
        edges.append(carp_run.Edge((u, v), round(metres), demand, round(metres)))
        name = None if at % 17 == 16 else f"{HOSTILE[at % len(HOSTILE)]} {at + 1}"
        oneway = (0, 0, 1, 0, -1)[at % 5]
        parts.append({
            "ends": [u, v], "name": name, "length": metres, "cost": round(metres), "demand": demand, "oneway": oneway,
            "geometry": line,
        })
    town = carp_run.Instance(rows * columns, 12, 1, edges)
    return town, {"version": 1, "depot": 1, "vertices": places, "edges": parts}


def large_plan() -> page.Plan:
    """Returns a plan of 30 tours on 4,000 streets, of which 600 are required."""
    instance, made = town_of(32, 31, 600, 4000 - len(grid(32, 31)))
    town = key.key_of(json.loads(json.dumps(made)), instance)
    down = {instance.edges[at].ends[0]: at + 1 for at in range(32 * 30, len(grid(32, 31)))}
    tours = []
    for row in range(20):
        way = [down[1 + 31 * above] for above in range(row)]
        along = range(30 * row + 1, 30 * row + 31)
        tours.append([
            *(carp_run.Move(edge, True, False) for edge in way), *(carp_run.Move(edge, True, True) for edge in along),
            *(carp_run.Move(edge, False, False) for edge in along[::-1]),
            *(carp_run.Move(edge, False, False) for edge in way[::-1]),
        ])
    steps = [key.steps_of(moves, instance, town) for moves in tours]
    return page.Plan("large.dat", "large.cert", carp_run.Bounds(9, 9), instance, town, steps)


class TownTest(unittest.TestCase):
    """A test in a folder with the town, its key, and a certificate that `carp solve` made."""

    folder: Path

    @classmethod
    def setUpClass(cls) -> None:
        cls.folder = Path(os.path.realpath(tempfile.mkdtemp()))
        cls.addClassCleanup(shutil.rmtree, cls.folder)
        instance, cls.key = town_of(ROWS, ROWS, 20, 3)
        cls.paths = [str(cls.folder / name) for name in FILES]
        Path(cls.paths[0]).write_bytes(instance.text())
        Path(cls.paths[2]).write_text(json.dumps(cls.key), encoding="utf-8")
        cls.report = carp_run.solve(cls.paths[0], cls.paths[1], turns=1)
        cls.sheet = carp_run.sheet(cls.paths[0], cls.paths[1])
        cls.crossings = Counter(frozenset(step.ends) for tour in cls.sheet for step in tour.steps)

    @classmethod
    def call(cls, *words: str, leaflet: str = "") -> subprocess.CompletedProcess[str]:
        """Runs a command, with Leaflet in another folder if one is named."""
        environment = {**os.environ, **({"LEAFLET": leaflet} if leaflet else {}), "SOURCE_DATE_EPOCH": "951782400"}
        return subprocess.run(
            words, cwd=cls.folder, env=environment, capture_output=True, encoding="utf-8", timeout=60
        )

    def new_folder(self, name: str) -> str:
        """Returns the name of a folder that is not there, and is removed after the test."""
        self.addCleanup(shutil.rmtree, self.folder / name, ignore_errors=True)
        return str(self.folder / name)

    def made(self) -> str:
        """Returns the page that `tools/routes` makes."""
        out = self.new_folder("out")
        done = self.call(ROUTES, *self.paths, "--out", out)
        self.assertEqual((done.returncode, done.stderr), (0, ""))
        text = Path(out, "index.html").read_text(encoding="utf-8")
        shutil.rmtree(out)
        return text


def data_in(text: str) -> Any:
    """Returns the JSON in a page."""
    (data,) = re.findall(r'<script type="application/json" id="data">(.*?)</script>', text, re.DOTALL)
    return json.loads(data)


@needs_leaflet
class Text(TownTest):
    """The page as a text."""

    def test_the_data_begin_and_end_nothing(self) -> None:
        text = self.made()
        (data,) = re.findall(r'id="data">(.*?)</script>', text, re.DOTALL)
        self.assertFalse(set("<>&\u2028\u2029\n") & set(data))
        self.assertTrue(data.isascii())
        names = [feature["properties"].get("name") for feature in data_in(text)["features"]]
        wanted = [part["name"] and key.printable(part["name"]) for part in self.key["edges"]]
        self.assertEqual(names, [*wanted, None])
        self.assertEqual(page.embedded({"a<": "</script>&\u2028"}), '{"a\\u003c":"\\u003c/script\\u003e\\u0026\\u2028"}')

    def test_the_streets_are_geojson(self) -> None:
        data = data_in(self.made())
        self.assertEqual(data["type"], "FeatureCollection")
        *streets, depot = data["features"]
        for feature, part in zip(streets, self.key["edges"], strict=True):
            wanted = [[round(east, 7), round(north, 7)] for north, east in part["geometry"]]
            self.assertEqual(feature["geometry"], {"type": "LineString", "coordinates": wanted})
            for field in ("demand", "cost", "oneway", "ends"):
                self.assertEqual(feature["properties"][field], part[field])
        self.assertEqual(depot["geometry"], {"type": "Point", "coordinates": [8, 47.1234568]})

    def test_tours_are_those_of_the_sheet(self) -> None:
        tours = data_in(self.made())["plan"]["tours"]
        lengths = {frozenset(part["ends"]): part["length"] for part in self.key["edges"][: len(grid(ROWS, ROWS))]}
        for tour, wanted in zip(tours, self.sheet, strict=True):
            self.assertEqual((tour["load"], tour["cost"]), (wanted.load, wanted.cost))
            found = [(step["serves"], step["load"]) for step in tour["steps"]]
            self.assertEqual([(serves, load if serves else None) for serves, load in found], [
                (step.serves, step.load) for step in wanted.steps
            ])
            metres = [(lengths[frozenset(step.ends)], step.serves) for step in wanted.steps]
            whole, idle = (sum(size for size, serves in metres if not serves or every) for every in (True, False))
            self.assertEqual((tour["size"], tour["deadheads"]), (f"{whole / 1000:.2f} km", f"{round(100 * idle / whole)} %"))

    def test_nothing_outside_is_named(self) -> None:
        text = self.made()
        markup = re.sub(r"<script\b.*?</script>", "", text, flags=re.DOTALL)
        self.assertFalse(re.findall(r"(?i)\b(?:src|href|action|srcset)\s*=|url\(|@import|sourceMappingURL|<link", markup))
        self.assertNotIn("sourceMappingURL", text)
        self.assertIn("default-src 'none'", markup)
        self.assertIn("Redistributions in binary form must reproduce the above copyright", text)

    def test_the_date_and_the_bytes(self) -> None:
        text = self.made()
        self.assertIn("page of 2000-02-29", data_in(text)["plan"]["origin"])
        self.assertEqual(self.made(), text)

    def test_the_command_is_one_of_the_shell(self) -> None:
        words = data_in(self.made())["plan"]["check"]
        done = self.call("bash", "-c", f"carp() {{ {os.environ['CARP']} \"$@\"; }}; {words}")
        self.assertRegex(done.stdout, r"^accepted\ncost \d+\nbound \d+\n$")


class Words(TownTest):
    """What `tools/routes` and `tools/draw` do with the words for a page, with and without Leaflet."""

    def test_without_leaflet(self) -> None:
        out = self.new_folder("out")
        done = self.call(ROUTES, *self.paths, "--out", out, leaflet="none")
        said = "routes: index.html is left out: Leaflet is missing at none: install Debian's package libjs-leaflet"
        self.assertEqual((done.returncode, done.stderr.split(",")[0]), (0, said))
        names = set(os.listdir(out))
        self.assertLessEqual({"summary.txt", "map.svg", "tour-1.html"}, names)
        self.assertNotIn("index.html", names)

    def test_a_page_that_is_named_is_not_left_out(self) -> None:
        for words in [ROUTES, *self.paths, "--out", self.new_folder("out"), "--page"], [DRAW, *self.paths, "--page"]:
            before = sorted(os.listdir(self.folder))
            done = self.call(*words, leaflet="none")
            self.assertEqual((done.returncode, done.stdout), (1, ""))
            self.assertRegex(done.stderr, r"^(routes|draw): Leaflet is missing at none: .*libjs-leaflet")
            self.assertEqual("--no-page" in done.stderr, words[0] == ROUTES)
            self.assertEqual(sorted(os.listdir(self.folder)), before)

    def test_no_page(self) -> None:
        out = self.new_folder("out")
        done = self.call(ROUTES, *self.paths, "--out", out, "--no-page", leaflet="none")
        self.assertEqual((done.returncode, done.stderr), (0, ""))
        self.assertNotIn("index.html", os.listdir(out))

    @needs_leaflet
    def test_a_disk_that_is_full(self) -> None:
        out = self.new_folder("out")
        before = sorted(os.listdir(self.folder))
        limit = 'ulimit -f 100; trap "" XFSZ; exec "$@"'
        done = self.call("bash", "-c", limit, "bash", ROUTES, *self.paths, "--out", out)
        self.assertEqual((done.returncode, done.stderr), (1, f"routes: {out} cannot be written: File too large\n"))
        self.assertEqual(sorted(os.listdir(self.folder)), before)

    def test_another_leaflet(self) -> None:
        folder = Path(self.new_folder("library"))
        folder.mkdir()
        (folder / "leaflet.js").write_text("// mine\n//# sourceMappingURL=x.map\n", encoding="utf-8")
        (folder / "leaflet.css").write_text("a { background: url(images/layers.png) }", encoding="utf-8")
        done = self.call(DRAW, *self.paths, "--page", leaflet=str(folder))
        self.assertEqual((done.returncode, done.stderr), (0, ""))
        self.assertIn("// mine", done.stdout)
        self.assertIn("a { background: none }", done.stdout)
        self.assertNotIn("x.map", done.stdout)
        (folder / "leaflet.js").write_text("'</SCRIPT>'", encoding="utf-8")
        done = self.call(DRAW, *self.paths, "--page", leaflet=str(folder))
        self.assertEqual((done.returncode, done.stdout), (1, ""))
        self.assertIn("cannot be packed", done.stderr)

    def test_a_bad_certificate_makes_no_page(self) -> None:
        for words in [self.paths[0], self.paths[2]], [str(self.folder / "none"), self.paths[1]]:
            done = self.call(DRAW, *words, "--page")
            self.assertEqual((done.returncode, done.stdout), (1, ""))
            self.assertTrue(done.stderr.startswith("draw: carp check: "), done.stderr)

    @needs_leaflet
    def test_an_output_that_is_full(self) -> None:
        done = self.call("bash", "-c", 'exec "$@" >/dev/full', "bash", DRAW, *self.paths, "--page")
        said = "draw: the output cannot be written: No space left on device\n"
        self.assertEqual((done.returncode, done.stderr), (1, said))

    @needs_leaflet
    def test_the_output_is_utf_8(self) -> None:
        done = self.call("env", "PYTHONIOENCODING=latin-1", DRAW, *self.paths)
        self.assertIn("Größe 大通り", done.stdout)


class Parts(unittest.TestCase):
    """The words and the colours of a page."""

    def test_the_gap_in_words(self) -> None:
        for cost, bound, said in (
            (6872, 6822, "no plan can cost less than 6822: these tours are within 0.8 % of the best possible"),
            (1100, 1000, "no plan can cost less than 1000: these tours are within 10.0 % of the best possible"),
            (100_001, 100_000, "no plan can cost less than 100000: these tours are within 0.1 % of the best possible"),
            (7, 7, "no plan can cost less than 7, so that these tours are the best possible"),
            (0, 0, "no plan can cost less than 0, so that these tours are the best possible"),
        ):
            self.assertEqual(page.gap_in_words(carp_run.Bounds(cost, bound)), said)
        self.assertNotIn("%", page.gap_in_words(carp_run.Bounds(7, 0)))

    def test_colours_can_be_told_apart(self) -> None:
        style = (TOP / "tools" / "carp_map" / "page" / "page.css").read_text(encoding="utf-8")
        found = re.findall(r"--(tour-\d|ground|street): (#[0-9a-f]{6})", style)
        half = len(found) // 2
        for palette in dict(found[:half]), dict(found[half:]):
            ground = luminance(palette.pop("ground"))
            palette.pop("street")
            self.assertEqual(len(palette), 7)
            for colour in palette.values():
                lighter, darker = sorted([luminance(colour), ground], reverse=True)
                self.assertGreaterEqual((lighter + 0.05) / (darker + 0.05), 3, colour)
            for (a, b), eye in itertools.product(itertools.combinations(palette.values(), 2), EYES):
                self.assertGreaterEqual(sum((x - y) ** 2 for x, y in zip(lab(a, eye), lab(b, eye))) ** 0.5, 30, (a, b))

    def test_a_tour_that_stays(self) -> None:
        instance, made = town_of(2, 2, 1)
        plan = page.Plan("a", "b", carp_run.Bounds(0, 0), instance, key.key_of(made, instance), [[]])
        (tour,) = page.data_of(plan)["plan"]["tours"]
        self.assertEqual((tour["load"], tour["deadheads"], tour["steps"]), (0, "0 %", []))

    def test_an_instance_without_a_map(self) -> None:
        instance, _ = town_of(2, 2, 1)
        ground = maps.Ground([[(0.0, 0.0), (30.0, 10.0)]] * 4, [(0.0, 0.0), (30.0, 10.0)] * 2, 1)
        moves = [carp_run.Move(1, True, True), carp_run.Move(1, False, False)]
        plan = page.plan_on_ground("a", "b", carp_run.Bounds(9, 9), instance, ground, [moves])
        data = page.data_of(plan)
        self.assertEqual(data["features"][0]["geometry"]["coordinates"], [[0, 0], [30, -10]])
        self.assertEqual(data["features"][0]["properties"]["length"], None)
        (tour,) = data["plan"]["tours"]
        self.assertEqual([step["way"] for step in tour["steps"]], ["1 to 2", "2 to 1"])
        self.assertEqual((tour["size"], tour["deadheads"]), (str(2 * instance.edges[0].cost), "50 %"))


# How eyes without one kind of cone see linear red, green and blue (Machado, Oliveira and Fernandes 2009).
EYES = [
    [[1, 0, 0], [0, 1, 0], [0, 0, 1]],
    [[0.152286, 1.052583, -0.204868], [0.114503, 0.786281, 0.099216], [-0.003882, -0.048116, 1.051998]],
    [[0.367322, 0.860646, -0.227968], [0.280085, 0.672501, 0.047413], [-0.011820, 0.042940, 0.968881]],
    [[1.255528, -0.076749, -0.178779], [-0.078411, 0.930809, 0.147602], [0.004733, 0.691367, 0.303900]],
]
XYZ = [[0.4124564, 0.3575761, 0.1804375], [0.2126729, 0.7151522, 0.0721750], [0.0193339, 0.1191920, 0.9503041]]
WHITE = [0.95047, 1.0, 1.08883]


def linear(colour: str) -> list[float]:
    """Returns the linear parts of a colour of sRGB."""
    parts = [int(colour[at : at + 2], 16) / 255 for at in (1, 3, 5)]
    return [part / 12.92 if part <= 0.04045 else ((part + 0.055) / 1.055) ** 2.4 for part in parts]


def times(matrix: list[list[float]], parts: list[float]) -> list[float]:
    """Returns a matrix times a column, between 0 and 1.1."""
    return [min(max(sum(a * b for a, b in zip(row, parts)), 0.0), 1.1) for row in matrix]


def luminance(colour: str) -> float:
    """Returns the relative luminance of a colour."""
    return times(XYZ, linear(colour))[1]


def lab(colour: str, eye: list[list[float]]) -> tuple[float, float, float]:
    """Returns a colour in the space of CIE 1976, as an eye sees it."""
    parts = [part / white for part, white in zip(times(XYZ, times(eye, linear(colour))), WHITE)]
    x, y, z = (part ** (1 / 3) if part > 0.008856 else 7.787 * part + 16 / 116 for part in parts)
    return 116 * y - 16, 500 * (x - y), 200 * (y - z)
