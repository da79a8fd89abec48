#!/usr/bin/env python3
"""Tests `tools/streets` and what it stands on, with the sample town.

usage: .ci/tools_streets.py PROGRAM

Tests that read a map need pyosmium for /usr/bin/python3. If it is missing, that is said, and they are left out. The
tests of the modules stand in `tools_parts.py`.
"""
import os
import re
import sys
import unittest
from collections import Counter

from tools_parts import (  # noqa: F401 (the tests of the modules are run too)
    HAS_OSMIUM, MAKE_TOWN, PYTHON, STREETS, TOOLS, TOP, TOWN,
    FolderTest, Geometry, Instances, Network, Reading, needs_osmium,
)

from carp_map import geometry  # noqa: E402


class Words(FolderTest):
    def test_wrong_words(self) -> None:
        good = [TOWN, "--depot", "45,-30", "--capacity", "20", "a.dat", "a.key"]
        for at, word, said in (
            (1, "--place", "required: --depot"),
            (2, "45", "'45' is not a latitude"),
            (2, "91,0", "'91,0' is not a latitude"),
            (2, "1,2,3", "'1,2,3' is not a latitude"),
            (2, "nan,0", "'nan,0' is not a latitude"),
            (4, "0", "'0' is not a whole number"),
            (4, "2.5", "'2.5' is not a whole number"),
            (4, "-3", "'-3' is not a whole number"),
            (5, TOWN, "a name of its own"),
            (6, "a.dat", "a name of its own"),
            (6, "", "a name of its own"),
            (6, "--costs", "expected one argument"),
        ):
            words = [*good[:at], word, *good[at + 1 :]]
            self.assertIn(said, self.refused(*words, status=2)[0])
        self.assertIn("unrecognized", self.refused(*good, "--speed", status=2)[0])
        self.assertIn("in place of", self.refused(*good, "--demands", "d.csv", "--require", "name", status=2)[0])
        self.assertIn("is not a list of tags", self.refused(*good, "--exclude", "=", status=2)[0])
        self.assertIn("is not a number above 0", self.refused(*good, "--demand-per-100m", "-1", status=2)[0])

    def test_without_pyosmium(self) -> None:
        # Without its site, Python has no packages but its own.
        words = [TOWN, "--depot", "45,-30", "--capacity", "20", "a.dat", "a.key"]
        done = self.call(sys.executable, "-S", STREETS, *words)
        self.assertEqual((done.returncode, os.listdir()), (1, []))
        self.assertRegex(done.stderr, "^streets: pyosmium is missing: install .*python3-pyosmium")

    def test_sample_is_made(self) -> None:
        self.assertEqual(self.call(MAKE_TOWN, "town.osm").returncode, 0)
        with open("town.osm", "rb") as made, open(TOWN, "rb") as kept:
            self.assertEqual(made.read(), kept.read())


# Copies a map to another form.
COPY_MAP = """
import osmium, sys
writer = osmium.SimpleWriter(sys.argv[2])
osmium.make_simple_handler(lambda it: writer.add_node(it), lambda it: writer.add_way(it)).apply_file(sys.argv[1])
writer.close()
"""


@needs_osmium
class Town(FolderTest):
    def test_whole_way(self) -> None:
        key = self.streets()
        self.accepts("town.dat")
        with open("town.dat", encoding="ascii") as file:
            rows = re.findall(r"^\( (\d+), (\d+)\) coste (\d+)(?: demanda (\d+))?$", file.read(), re.MULTILINE)
        found = [(*edge["ends"], edge["cost"], edge["demand"]) for edge in key["edges"]]
        self.assertEqual([tuple(int(word or 0) for word in row) for row in rows], found)
        self.assertEqual((key["version"], key["depot"]), (1, 1))
        for edge in key["edges"]:
            line = edge["geometry"]
            self.assertEqual([key["vertices"][end - 1] for end in edge["ends"]], [line[0], line[-1]])
            self.assertAlmostEqual(geometry.length(line), edge["length"], 2)
            self.assertLessEqual(abs(edge["length"] - edge["cost"]), 0.501)
            self.assertEqual(edge["demand"], max(1, int(edge["length"] / 100 + 0.5)))
        places = {tuple(place) for edge in key["edges"] for place in (edge["geometry"][0], edge["geometry"][-1])}
        self.assertEqual(places, {tuple(place) for place in key["vertices"]})
        self.assertEqual(len(places), len(key["vertices"]))

    def test_readme(self) -> None:
        with open(os.path.join(TOP, "README.md"), encoding="utf-8") as file:
            block, _city = re.findall(r"^```\n(tools/streets .*?)^```$", file.read(), re.MULTILINE | re.DOTALL)
        commands = block.splitlines()
        self.assertEqual([line.split()[0] for line in commands], ["tools/streets", "./carp", "tools/routes"])
        os.symlink(TOOLS, "tools")
        os.symlink(os.environ["CARP"], "carp")
        # The last command is tried if its tool is there.
        for line in (line for line in commands if os.path.exists(line.split()[0])):
            done = self.call(*line.split())
            self.assertIn(done.returncode, (0, 1), line)
            # Without Leaflet the page is left out, which is said.
            self.assertRegex(done.stderr, r"^(routes: index\.html is left out: Leaflet is missing .*\n)?$", line)

    def test_what_is_in_the_town(self) -> None:
        key = self.streets()
        edges = key["edges"]
        names = {edge["name"] for edge in edges}
        self.assertLessEqual({"Größe Straße", "Οδός Νίκης", "Улица Мира", "大通り", '"Smith & Sons" Lane'}, names)
        self.assertFalse({"Treppenweg", "Østervej", "Vestervej", "Møllevej"} & names)
        pairs = Counter(frozenset(edge["ends"]) for edge in edges)
        self.assertEqual([count for count in pairs.values() if count > 1], [2, 2])
        self.assertTrue(all(len(pair) == 2 for pair in pairs))
        # The roundabout has four parts, which all run one way around.
        parts = [edge for edge in edges if edge["name"] is None]
        ways = [edge["ends"][:: edge["oneway"]] for edge in parts]
        self.assertEqual(sorted(start for start, _ in ways), sorted(end for _, end in ways))
        self.assertEqual(len(parts), 4)
        # Streets that are one-way, in and against the order of their nodes.
        for name, angle in (("Rue de l’Église", 90), ("Žižkova", 0)):
            for edge in (edge for edge in edges if edge["name"] == name):
                start, end = (key["vertices"][vertex - 1] for vertex in edge["ends"][:: edge["oneway"]])
                self.assertLess(abs((geometry.bearing(start, end) - angle + 180) % 360 - 180), 45)
        self.assertEqual(sum(edge["oneway"] != 0 for edge in edges), 4 + 6 + 5)
        # The dead end: a house, a new name and a loop of two parts.
        ends = Counter(edge["name"] for edge in edges)
        wanted = {"Quai des Brumes": 2, "Quai d’Été": 1, "Am Wendehammer": 2, "Blindgasse": 1}
        self.assertEqual({name: ends[name] for name in wanted}, wanted)
        self.assertIn("one-way streets 15: tours may drive against them, the key marks them", self.said)
        self.assertIn("left out 260 m of streets that are not joined to the depot", self.said)
        self.assertIn("nodes that the map lacks 1: streets end there", self.said)

    def test_island(self) -> None:
        key = self.streets(depot="44.9973,-30.0116")
        self.assertEqual({edge["name"] for edge in key["edges"]}, {"Østervej", "Vestervej", "Møllevej"})

    def test_node_without_a_place(self) -> None:
        nodes = "".join(f'<node id="{at}" lat="{lat}" lon="-30"/>' for at, lat in ((1, 45), (2, 45.001), (3, 95)))
        way = '<way id="1"><nd ref="1"/><nd ref="2"/><nd ref="3"/><tag k="highway" v="road"/></way>'
        self.write("odd.osm", f'<osm version="0.6">{nodes}{way}</osm>')
        (edge,) = self.streets(town="odd.osm")["edges"]
        self.assertEqual((edge["cost"], edge["name"]), (111, None))
        self.assertIn("nodes that the map lacks 1: streets end there", self.said)

    def test_choices(self) -> None:
        whole = self.streets()
        some = self.streets("--require", "highway=tertiary,name=Am Wendehammer", "--demand-per-100m", "2.5")
        required = {edge["name"] for edge in some["edges"] if edge["demand"]}
        self.assertEqual(len(some["edges"]), len(whole["edges"]))
        for edge in (edge for edge in some["edges"] if edge["demand"]):
            self.assertEqual(edge["demand"], max(1, int(edge["length"] * 2.5 / 100 + 0.5)))
        self.assertLessEqual({"Mill Road", "Am Wendehammer"}, required)
        self.assertFalse({"Größe Straße", "Blindgasse", None} & required)
        self.accepts("town.dat")
        fewer = {edge["name"] for edge in self.streets("--exclude", "highway=tertiary,highway=service")["edges"]}
        self.assertFalse({"Mill Road", "Blindgasse"} & fewer)
        near = self.streets("--within", "200")["edges"]
        depot = whole["vertices"][0]
        self.assertTrue(near)
        self.assertTrue(all(geometry.haversine(depot, place) <= 200 for edge in near for place in edge["geometry"]))

    def test_times(self) -> None:
        speeds = {"Am Wendehammer": 10, "Blindgasse": 15, "Mill Road": 50, "Größe Straße": 30}
        edges = [edge for edge in self.streets("--costs", "seconds")["edges"] if edge["name"] in speeds]
        for edge in edges:
            self.assertEqual(edge["cost"], int(edge["length"] * 3.6 / speeds[edge["name"]] + 0.5))

    def test_demands_of_a_file(self) -> None:
        self.write("demands.csv", 'street,demand\n"""Smith & Sons"" Lane",17\nQuai des Brumes,2\nMill Road,0\n')
        key = self.streets("--demands", "demands.csv")
        self.accepts("town.dat")
        demands: Counter[str] = Counter()
        for edge in key["edges"]:
            demands[edge["name"]] += edge["demand"]
        self.assertEqual(+demands, {'"Smith & Sons" Lane': 17, "Quai des Brumes": 2})
        flags = [edge["demand"] > 0 for edge in key["edges"]]
        self.assertEqual(flags, sorted(flags, reverse=True))

    def test_other_forms(self) -> None:
        key = self.streets()
        self.assertEqual(self.call(PYTHON, "-c", COPY_MAP, TOWN, "town.osm.pbf").stderr, "")
        self.assertEqual(self.streets(town="town.osm.pbf"), key)
        with open("town.osm.pbf", "rb") as whole, open("cut.osm.pbf", "wb") as cut:
            cut.write(whole.read()[:-100])
        self.refused("cut.osm.pbf", "--depot", "45,-30", "--capacity", "20", "a.dat", "a.key")
        # Ways before their nodes, and the negative numbers of objects that are not uploaded.
        with open(TOWN, encoding="utf-8") as file:
            text = file.read().replace('id="', 'id="-').replace('ref="', 'ref="-')
        head, nodes, ways = re.split(r"(?=  <node id=\"-1\" |  <way id=\"-1\" )", text)
        self.write("turned.osm", head + ways.replace("</osm>\n", "") + nodes + "</osm>\n")
        turned = self.streets(town="turned.osm")
        self.assertEqual(len(turned["edges"]), len(key["edges"]))


@needs_osmium
class Refusals(FolderTest):
    def refused_map(self, path: str, depot: str = "45,-30", capacity: str = "20", *more: str) -> list[str]:
        """Runs `tools/streets` on a map that it refuses."""
        return self.refused(path, "--depot", depot, "--capacity", capacity, *more, "a.dat", "a.key")

    def test_broken_maps(self) -> None:
        head = '<osm version="0.6">'
        node = '<node id="1" lat="45" lon="-30"/>'
        way = '<way id="1"><nd ref="1"/><nd ref="2"/><tag k="highway" v="road"/></way>'
        with open(TOWN, encoding="utf-8") as file:
            whole = file.read()
        for path, text, said in (
            ("cut.osm", whole[: len(whole) // 2], "cut.osm cannot be read as a map: XML parsing error"),
            ("empty.osm", "", "empty.osm cannot be read as a map: XML parsing error"),
            ("empty.osm.pbf", "", "empty.osm.pbf cannot be read as a map"),
            ("words.osm.pbf", "no map\n" * 100, "words.osm.pbf cannot be read as a map: PBF error"),
            ("words.txt", "no map", "words.txt cannot be read as a map: Could not detect file format"),
            ("nothing.osm", f"{head}</osm>", "nothing.osm has no street that can be driven"),
            ("foot.osm", whole.replace("highway", "railway"), "foot.osm has no street that can be driven"),
            ("apart.osm", f"{head}{way}</osm>", "apart.osm has no street that can be driven"),
            ("point.osm", f"{head}{node}{way}</osm>", "the map has no street that can be driven"),
        ):
            (line,) = self.refused_map(self.write(path, text))
            self.assertTrue(line.startswith(said), line)
        self.assertEqual(self.refused_map("none.osm"), ["none.osm is not a file"])
        self.assertEqual(self.refused_map("."), [". is not a file"])

    def test_depot_off_the_map(self) -> None:
        words = r"^the depot is off the map: the nearest street is [0-9,]+ m away, and 1,000 m is the most$"
        for depot in ("45.1,-30", "-45,30", "-45.5,-30"):
            (line,) = self.refused_map(TOWN, depot)
            self.assertRegex(line, words)

    def test_nothing_to_serve(self) -> None:
        wanted = ["no street that is joined to the depot needs service"]
        self.assertEqual(self.refused_map(TOWN, "45,-30", "20", "--require", "highway=road"), wanted)
        self.write("demands.csv", "Mill Road,0\n")
        self.assertEqual(self.refused_map(TOWN, "45,-30", "20", "--demands", "demands.csv"), wanted)
        self.write("demands.csv", "Mill Raod,3\nMøllevej,1\n")
        (line,) = self.refused_map(TOWN, "45,-30", "20", "--demands", "demands.csv")
        self.assertEqual(line, "demands of streets that are not joined to the depot: Mill Raod, Møllevej")

    def test_capacity_below_a_demand(self) -> None:
        lines = self.refused_map(TOWN, "45,-30", "1")
        self.assertRegex(lines[0], r"^demand 2 of .* \(\d+ m\): 1 above the capacity of 1; \d+ streets are above it$")
        self.assertRegex(lines[1], r"^the largest cut-out around the depot that fits is --within \d+: vertices \d+")
        self.assertEqual(len(lines), 2)

    def test_large_town(self) -> None:
        self.assertEqual(self.call(MAKE_TOWN, "large.osm", "--rows", "40", "--columns", "40").returncode, 0)
        lines = self.refused_map("large.osm", "45,-30", "25000")
        self.assertRegex(lines[0], r"^vertices 1,\d\d\d: \d\d\d above the limit of 1,000$")
        self.assertRegex(lines[1], r"^required edges 3,\d\d\d: 2,\d\d\d above the limit of 600$")
        self.assertRegex(lines[2], r"^states .* above the limit of 24,000,000$")
        words = r"^the largest cut-out .* is --within (\d+): (vertices \d+ edges \d+ required (\d+))$"
        advice = re.match(words, lines[3])
        assert advice is not None, lines
        self.streets("--within", advice[1], town="large.osm", capacity=25000)
        self.assertIn(advice[2], self.said[0])
        self.assertLessEqual(int(advice[3]), 24_000_000 // (2 * 25_001))

    def test_places_that_cannot_be_written(self) -> None:
        os.mkdir("folder")
        words = [TOWN, "--depot", "45,-30", "--capacity", "20"]
        os.mkfifo("pipe")
        said = "cannot be written: it is not a plain file"
        self.assertEqual(self.refused(*words, "a.dat", "folder"), [f"folder {said}"])
        self.assertEqual(self.refused(*words, "pipe", "a.key"), [f"pipe {said}"])
        said = "none/a.key cannot be written: No such file or directory"
        self.assertEqual(self.refused(*words, "a.dat", "none/a.key"), [said])

    def test_full_disk(self) -> None:
        # Files may have 4,096 bytes, which the instance has and the key passes.
        limited = ["bash", "-c", 'ulimit -f 4; exec "$@"', "limited"]
        done = self.call(*limited, STREETS, TOWN, "--depot", "45,-30", "--capacity", "20", "a.dat", "a.key")
        self.assertEqual((done.returncode, done.stderr), (1, "streets: a.key cannot be written: File too large\n"))
        self.assertEqual(os.listdir(), [])


def main() -> None:
    if len(sys.argv) != 2:
        sys.exit("usage: .ci/tools_streets.py PROGRAM")
    program = os.path.realpath(sys.argv[1])
    if not (os.path.isfile(program) and os.access(program, os.X_OK)):
        sys.exit(f"tools_streets: no program at {program}")
    os.environ["CARP"] = program
    if not HAS_OSMIUM:
        print("tools_streets: pyosmium is missing, of Debian's package python3-pyosmium; no test reads a map")
    unittest.main(argv=sys.argv[:1])


if __name__ == "__main__":
    main()
