#!/usr/bin/env python3
"""Tests `tools/city` and what it stands on, with made cities.

usage: .ci/tools_city.py PROGRAM

What plans a city needs scipy and distributed for /usr/bin/python3, and what reads a map needs pyosmium. If one is
missing, that is said, and its tests are left out. The tests of the modules stand in `tools_city_parts.py` and
`tools_city_runs.py`.
"""
import json
import os
import pty
import re
import select
import signal
import subprocess
import sys
import time
import unittest
from contextlib import ExitStack
from pathlib import Path
from typing import Any

PYTHON = "/usr/bin/python3"


def has(package: str) -> bool:
    """Returns whether the Python that runs `tools/city` has a package."""
    words = [PYTHON, "-c", f"import {package}"]
    return os.path.exists(PYTHON) and subprocess.run(words, capture_output=True).returncode == 0


HAS = {package: has(package) for package in ("scipy", "distributed", "osmium")}
if HAS["scipy"] and sys.executable != PYTHON and __name__ == "__main__":
    os.execv(PYTHON, [PYTHON, *sys.argv])

from tools_city_parts import TOP, Districts, Large, Paths, make_city  # noqa: E402, F401 (these tests are run too)
from tools_city_runs import (  # noqa: E402, F401
    SQUARE, Courses, FolderTest, Judge, Plans, Rounds, carp_run, judge, square_plan,
)

CITY, STREETS, TOWN = (str(TOP / "tools" / name) for name in ("city", "streets", "samples/town.osm"))
needs_dask = unittest.skipUnless(HAS["scipy"] and HAS["distributed"], "scipy or distributed is missing")
needs_maps = unittest.skipUnless(all(HAS.values()), "scipy, distributed or pyosmium is missing")
SMALL = ["--most", "8", "--neighbourhood", "12"]

# A program that ends its worker the first time that it is to improve a certificate.
DEADLY = """#!/bin/sh
if [ "$1" = {verb} ] && mkdir {mark} 2>/dev/null; then kill -9 $PPID; sleep 30; exit 0; fi
exec {program} "$@"
"""
# A program whose certificates claim too much.
LIAR = """#!/bin/sh
{program} "$@"
code=$?
for last; do [ -f "$last" ] && case "$last" in *new.cert) sed -i 's/^bound /bound 9/' "$last";; esac; done
exit $code
"""

# An interrupt falls into the end of an object, where Python drops it.
DROPPED = """
import sys, time
sys.path.insert(0, sys.argv[1])
from carp_city import cluster
class Ending:
    def __del__(self):
        raise KeyboardInterrupt
cluster.silence_dask()
Ending()
try:
    time.sleep(20)
except KeyboardInterrupt:
    sys.exit(130)
"""


class CityTest(FolderTest):
    """A test of the command in a new folder, with a small city."""

    def setUp(self) -> None:
        super().setUp()
        text, key = make_city.files_of(24, 2, 40)
        Path("city.dat").write_bytes(text)
        Path("city.key").write_text(key, encoding="utf-8")
        self.stack = ExitStack()
        self.addCleanup(self.stack.close)

    def call(self, *words: str, **environment: str) -> subprocess.CompletedProcess[str]:
        """Runs `tools/city` in the folder."""
        return subprocess.run(
            [CITY, *words], capture_output=True, encoding="utf-8", timeout=300, env={**os.environ, **environment}
        )

    def planned(self, *words: str, **environment: str) -> str:
        """Runs `tools/city` on what it takes, and returns the plan; what it says is in `self.said`."""
        done = self.call(*words, "--minutes", "5", **environment)
        self.assertEqual((done.returncode, done.stderr), (0, ""))
        self.said = done.stdout
        folder = Path(words[words.index("--out" if "--out" in words else "--resume") + 1])
        self.assertEqual((folder / "routes" / "summary.txt").read_text(encoding="utf-8"), done.stdout)
        self.assertIn("all seeds are at rest", done.stdout)
        return (folder / "routes" / "plan.json").read_text(encoding="utf-8")

    def refused(self, said: str, code: int, *words: str, **environment: str) -> None:
        """Runs `tools/city` where it refuses, with a message; nothing may be written."""
        before = sorted(os.listdir())
        done = self.call(*words, **environment)
        self.assertEqual((done.returncode, done.stdout), (code, ""), done.stderr)
        self.assertRegex(done.stderr, rf"\Acity: {said}")
        self.assertEqual(sorted(os.listdir()), before)

    def program(self, name: str, text: str, **parts: str) -> str:
        """Writes a program that stands in for `carp`."""
        Path(name).write_text(text.format(program=os.environ["CARP"], **parts), encoding="utf-8")
        os.chmod(name, 0o755)
        return os.path.abspath(name)

    def started(self, *words: str, **environment: str) -> subprocess.Popen[str]:
        """Starts a process that ends with the test."""
        child = subprocess.Popen(
            words, stdout=subprocess.DEVNULL, stderr=subprocess.PIPE, text=True, env={**os.environ, **environment},
            start_new_session=True,
        )

        def end() -> None:
            child.terminate()
            child.communicate()

        self.stack.callback(end)
        return child

    def wait_for(self, what: Any, seconds: float = 60.0) -> None:
        """Waits until something is so."""
        end = time.monotonic() + seconds
        while not what():
            self.assertLess(time.monotonic(), end, "it took too long")
            time.sleep(0.02)


class Words(CityTest):
    def test_wrong_words(self) -> None:
        good = ["city.dat", "city.key", "--out", "run"]
        for words, said in (
            ([], "one of the arguments --out --resume --judge is required"),
            (["--out", "run"], "a run needs the file of a city"),
            ([*good, "more"], "a run needs the file of a city"),
            ([*good, "--minutes", "0"], "argument --minutes: '0' is not a number above 0"),
            ([*good, "--hours", "nan"], "argument --hours: 'nan' is not a number above 0"),
            ([*good, "--minutes", "1", "--hours", "1"], "argument --hours: not allowed with argument --minutes"),
            ([*good, "--most", "601"], "argument --most: '601' is not a whole number from 1 to 600"),
            ([*good, "--neighbourhood", "1"], "argument --neighbourhood: '1' is not a whole number from 2"),
            ([*good, "--turns", "1.5"], "argument --turns: '1.5' is not a whole number"),
            ([*good, "--seed", "-1"], "argument --seed: '-1' is not a whole number"),
            ([*good, "--sched", "a"], "unrecognized arguments"),
            ([*good, "--workers", "1", "--scheduler", "a"], "--workers is for this machine"),
            ([*good, "--depot", "-45,1"], "--depot is for a map, and city.dat is the file of a city"),
            (["town.osm", "city.key", "--out", "run"], "a map has no key beside it"),
            (["town.osm", "--depot", "1,1", "--out", "run"], "a map needs --depot and --capacity"),
            (["--resume", "run", "--seed", "0"], "--resume goes on with the words of the folder"),
            (["city.dat", "--resume", "run"], "--resume goes on with the words of the folder"),
            (["--judge", "run", "--turns", "1"], "--judge takes a folder"),
        ):
            self.refused(re.escape(said), 2, *words)

    def test_bad_cities(self) -> None:
        text, run = Path("city.dat").read_bytes(), ["--out", "run"]
        Path("far.dat").write_bytes(SQUARE.replace(b"( 1, 2)", b"( 1, 5)").replace(b"( 4, 1)", b"( 1, 5)"))
        Path("low.dat").write_bytes(SQUARE.replace(b"CAPACIDAD : 5", b"CAPACIDAD : 2"))
        names = [{"name": name} for name in ("Mill Road", "Quai", "Rue", "Žižkova", "Ring")]
        Path("square.key").write_text(json.dumps({"edges": names}), encoding="utf-8")
        Path("apart.dat").write_bytes(SQUARE.replace(b"VERTICES : 5", b"VERTICES : 7").replace(b"(3,4)", b"(6,7)"))
        Path("bad.dat").write_bytes(text.replace(b"coste", b"cost", 1))
        self.refused(r"apart.dat: edge 4 \(Žižkova\) cannot be reached", 10, "apart.dat", "square.key", *run)
        self.refused(r"low.dat: edge 4 \(Žižkova\) has a demand above the capacity", 4, "low.dat", "square.key", *run)
        self.refused("bad.dat: line 6 cannot be read", 4, "bad.dat", *run)
        self.refused("none.dat cannot be read: No such file", 6, "none.dat", *run)
        self.refused("square.key: it is no key of version 1", 1, "city.dat", "square.key", *run)
        os.mkdir("full")
        Path("full/file").touch()
        self.refused("full is there already", 7, "city.dat", "--out", "full")
        self.refused("none/run cannot be written: its folder is not there", 7, "city.dat", "--out", "none/run")
        self.refused("none has no run to go on with", 1, "--resume", "none")
        self.refused("no program at", 1, "city.dat", *run, CARP="none")

    def test_full_disk(self) -> None:
        # Files may have 4,096 bytes, which the city passes.
        run = ["--out", "run", "--workers", "1"]
        limited = ["bash", "-c", 'ulimit -f 4; exec "$@"', "limited", CITY, "city.dat", "city.key", *run]
        done = subprocess.run(limited, capture_output=True, encoding="utf-8", timeout=60)
        self.assertEqual(done.returncode, 7, done.stderr)
        self.assertRegex(done.stderr, r"^city: run\S* cannot be written: File too large\n$")
        self.assertEqual(sorted(os.listdir()), ["city.dat", "city.key"])

    def test_without_packages(self) -> None:
        # Without its site, Python has no packages but its own.
        words = [sys.executable, "-S", CITY, "city.dat", "--out", "run"]
        done = subprocess.run(words, capture_output=True, encoding="utf-8", timeout=60)
        self.assertEqual((done.returncode, done.stdout), (1, ""))
        self.assertRegex(done.stderr, r"^city: (\w+) is missing: install Debian's package python3-\1\n$")
        self.assertFalse(os.path.exists("run"))

    def test_judge(self) -> None:
        os.makedirs("run/routes")
        Path("run/city.dat").write_bytes(SQUARE)

        def judged(text: dict[str, Any], *more: str) -> tuple[int, str]:
            Path("run/routes/plan.json").write_text(json.dumps(text), encoding="utf-8")
            done = self.call("--judge", "run", *more)
            return done.returncode, done.stdout + done.stderr

        self.assertEqual(judged(square_plan()), (0, "lawful\ncost 39\n"))
        text = square_plan()
        text["tours"][1]["steps"][2][2] = "serve"
        self.assertEqual(judged(text)[0], 3)
        said = r"^city: the judge refuses the plan: tour 2 step 3, street 4 \(Žižkova\): .* twice"
        self.assertRegex(judged(text)[1], said)
        Path("other.dat").write_bytes(SQUARE.replace(b"CAPACIDAD : 5", b"CAPACIDAD : 4"))
        self.assertRegex(judged(square_plan(), "other.dat")[1], "tour 1 has a load of 5, above the capacity of 4")


@needs_dask
class Runs(CityTest):
    def test_workers_deaths_and_interrupts(self) -> None:
        """One worker and three, a worker that dies, and a run that is interrupted and resumed give the same plan."""
        one = self.planned("city.dat", "city.key", "--out", "one", *SMALL, "--workers", "1")
        self.assertRegex(self.said, r"(?m)^([4-9]|\d\d) districts, [2-9] rounds across borders: all seeds")
        self.claims_hold("one")
        deadly = self.program("deadly", DEADLY, verb="improve", mark=os.path.abspath("mark"))
        three = self.planned("city.dat", "city.key", "--out", "three", *SMALL, "--workers", "3", CARP=deadly)
        self.assertTrue(os.path.isdir("mark"))
        self.assertEqual(one, three)
        self.same_folders("one/routes", "three/routes")
        # It is interrupted, with all its processes as from a terminal, as soon as a round has an answer.
        child = self.started(CITY, "city.dat", "city.key", "--out", "parts", *SMALL, "--workers", "2")
        self.wait_for(lambda: list(Path().glob("parts/state/rounds/*.cert")) or child.poll() is not None)
        os.killpg(child.pid, signal.SIGINT)
        self.assertEqual((child.wait(30), child.stderr and child.stderr.read()), (
            130, "city: interrupted; go on with tools/city --resume parts\n"
        ))
        self.assertFalse(os.path.exists("parts/routes"))
        self.assertEqual(self.planned("--resume", "parts", "--workers", "2"), one)
        self.same_folders("one/routes", "parts/routes")

    def same_folders(self, one: str, other: str) -> None:
        """Two folders hold the same files."""
        done = subprocess.run(["diff", "-r", one, other], capture_output=True, text=True)
        self.assertEqual((done.returncode, done.stdout), (0, ""))

    def claims_hold(self, folder: str) -> None:
        """What the summary claims of neighbourhoods is what `carp check` accepts, of the services of their tours."""
        tours = json.loads(Path(folder, "routes/plan.json").read_text(encoding="utf-8"))["tours"]
        city = carp_run.read_instance("city.dat")
        found = re.findall(
            r"(?m)^neighbourhood (\d+), tours? ([\d, and]+): .* save more than ([\d.]+) % \(cost (\d+), bound (\d+);",
            self.said,
        )
        self.assertTrue(found)
        for number, named, percent, cost, bound in found:
            some = [tours[int(word) - 1] for word in re.findall(r"\d+", named)]
            paths = [f"{folder}/routes/neighbourhoods/{number}.{kind}" for kind in ("dat", "cert")]
            bounds = carp_run.check(*paths)
            self.assertEqual((bounds.cost, bounds.bound), (int(cost), int(bound)))
            self.assertEqual(bounds.cost, sum(tour["cost"] for tour in some))
            self.assertGreaterEqual(float(percent) / 100 * bounds.cost, bounds.gap - 1e-6)
            services = sorted(step[0] for tour in some for step in tour["steps"] if step[2] == "serve")
            wanted = [(city.edges[at - 1].demand, city.edges[at - 1].service) for at in services]
            edges = [(edge.demand, edge.service) for edge in carp_run.read_instance(paths[0]).edges if edge.demand]
            self.assertEqual(edges, wanted)
        self.assertIn("No bound of the whole city is claimed", self.said)

    def test_no_interrupt_is_lost(self) -> None:
        done = subprocess.run([PYTHON, "-c", DROPPED, str(TOP / "tools")], capture_output=True, text=True)
        self.assertEqual((done.returncode, done.stderr), (130, ""))

    def test_scheduler(self) -> None:
        """Workers of a scheduler, which have only the program on their path, give the plan that one here gives."""
        scheduler = self.scheduler()
        self.workers(scheduler, "honest", '#!/bin/sh\nexec {program} "$@"\n')
        there = self.planned("city.dat", "--out", "there", *SMALL, "--scheduler", scheduler)
        self.stack.close()
        self.assertNotIn("not used", self.said)
        scheduler = self.scheduler()
        self.workers(scheduler, "lying", LIAR)
        lied = self.planned("city.dat", "--out", "lied", *SMALL, "--scheduler", scheduler)
        self.assertRegex(self.said, r"(?m)^\d+ answers of workers were not used, and done here$")
        self.assertEqual(there, lied)
        self.refused("no Dask worker answers at", 1, "city.dat", "--out", "run", "--scheduler", "nonsense://")

    def scheduler(self) -> str:
        """Starts a scheduler on the loopback address, and returns its address."""
        Path("scheduler.json").unlink(missing_ok=True)
        words = ["--host", "127.0.0.1", "--port", "0", "--no-dashboard", "--scheduler-file", "scheduler.json"]
        self.started("dask", "scheduler", *words)
        self.wait_for(lambda: os.path.exists("scheduler.json") and Path("scheduler.json").read_text())
        return str(json.loads(Path("scheduler.json").read_text(encoding="utf-8"))["address"])

    def workers(self, scheduler: str, name: str, program: str) -> None:
        """Starts two workers that have a program on their path, and nothing else of this project."""
        os.makedirs(f"{name}/place")
        path = f"{os.path.dirname(self.program(f'{name}/carp', program))}:{os.environ['PATH']}"
        words = ["--nthreads", "1", "--no-dashboard", "--local-directory", f"{name}/place", "--host", "127.0.0.1"]
        for _ in range(2):
            self.started("dask", "worker", scheduler, *words, PATH=path, CARP="")

    def test_terminal_and_time(self) -> None:
        """A terminal is told how far a run is, and a run without time for a plan says so, and goes on later."""
        done = self.call("city.dat", "--out", "run", *SMALL, "--minutes", "0.0001", "--workers", "1")
        self.assertEqual((done.returncode, done.stdout), (1, ""))
        self.assertRegex(done.stderr, r"^city: the time is up with 0 of \d districts solved, .* --resume run\n$")
        terminal, end = pty.openpty()
        child = subprocess.Popen([CITY, "--resume", "run", "--workers", "2"], stdout=subprocess.DEVNULL, stderr=end)
        os.close(end)
        said = b""
        while select.select([terminal], [], [], 60)[0]:
            try:
                said += os.read(terminal, 4096)
            except OSError:
                break
        os.close(terminal)
        self.assertEqual(child.wait(60), 0)
        lines = said.decode("utf-8").split("\r")
        for form in r"districts", r"round \d  cost so far \d+":
            whole = rf"{form}  \d+ of \d+ done  time left 0:5\d:\d\d"
            self.assertTrue(any(re.match(whole, line) for line in lines), lines)
        self.assertEqual(lines[-1].strip(), "")


@needs_maps
class Maps(CityTest):
    def test_whole_way(self) -> None:
        """From the sample town to its routes, by `tools/city` and by `tools/streets --city` before it."""
        words = ["--depot", "45,-30", "--capacity", "20", "--require", "highway=tertiary"]
        self.planned(TOWN, *words, "--out", "map", "--most", "6", "--neighbourhood", "10", "--workers", "2")
        done = subprocess.run([STREETS, TOWN, *words, "--city", "town.dat", "town.key"], capture_output=True, text=True)
        self.assertEqual(done.returncode, 0, done.stderr)
        for name in "dat", "key":
            self.assertEqual(Path(f"town.{name}").read_bytes(), Path(f"map/city.{name}").read_bytes())
        plan = json.loads(Path("map/routes/plan.json").read_text(encoding="utf-8"))
        count = len(plan["tours"])
        stems = [f"tour-{at:0{len(str(count))}}" for at in range(1, count + 1)]
        names = {f"{stem}.{kind}" for stem in stems for kind in ("txt", "html", "geojson", "gpx")}
        wanted = names | {"summary.txt", "map.svg", "overview.svg", "plan.json", "neighbourhoods"}
        self.assertEqual(set(os.listdir("map/routes")), wanted)
        key = json.loads(Path("town.key").read_text(encoding="utf-8"))
        for stem, tour in zip(stems, plan["tours"]):
            lines = Path("map/routes", f"{stem}.geojson").read_text(encoding="utf-8")
            parts = [each["properties"] for each in json.loads(lines)["features"][1:]]
            found = [[part["street"], part["name"], part["served"], part["from"], part["to"]] for part in parts]
            self.assertEqual(found, [[*step[:2], step[2] == "serve", *step[3:]] for step in tour["steps"]])
            named = [key["edges"][step[0] - 1]["name"] for step in tour["steps"]]
            self.assertEqual(named, [step[1] for step in tour["steps"]])
        metres = sum(key["edges"][step[0] - 1]["length"] for tour in plan["tours"] for step in tour["steps"])
        self.assertIn(f"cost {plan['cost']}, {metres / 1000:.2f} km, {metres / 20_000:.2f} h\n", self.said)

    def test_refused_maps(self) -> None:
        for words, code, said in (
            (["--depot", "45.1,-30", "--capacity", "20"], 1, "streets: the depot is off the map"),
            (["--depot", "45,-30", "--capacity", "none"], 2, "streets: argument --capacity"),
            (["--depot", "45,-30", "--capacity", "1"], 1, "streets: demand 2 of "),
        ):
            done = self.call(TOWN, *words, "--out", "run")
            self.assertEqual((done.returncode, done.stdout, os.path.exists("run")), (code, "", False), done.stderr)
            self.assertTrue(done.stderr.startswith(said), done.stderr)

    def test_large_town(self) -> None:
        """`tools/streets --city` writes what it refuses without the word."""
        make_town = str(TOP / "tools" / "samples" / "make_town.py")
        subprocess.run([make_town, "large.osm", "--rows", "40", "--columns", "40"], check=True)
        words = [STREETS, "large.osm", "--depot", "45,-30", "--capacity", "25000", "large.dat", "large.key"]
        self.assertEqual(subprocess.run(words, capture_output=True).returncode, 1)
        done = subprocess.run([*words, "--city"], capture_output=True, text=True)
        self.assertEqual((done.returncode, done.stderr), (0, ""))
        counts = [int(number) for number in re.findall(r"\d+", done.stdout.splitlines()[0])]
        head = Path("large.dat").read_text(encoding="ascii").splitlines()
        self.assertEqual([f"VERTICES : {counts[0]}", f"ARISTAS_REQ : {counts[2]}"], head[2:4])
        self.assertGreater(counts[2], 3000)


def main() -> None:
    if len(sys.argv) != 2:
        sys.exit("usage: .ci/tools_city.py PROGRAM")
    program = os.path.realpath(sys.argv[1])
    if not (os.path.isfile(program) and os.access(program, os.X_OK)):
        sys.exit(f"tools_city: no program at {program}")
    os.environ["CARP"] = program
    # A shell that runs this in the background lets interrupts be ignored, and so would what is started here.
    signal.signal(signal.SIGINT, signal.default_int_handler)
    packages = {"scipy": "python3-scipy", "distributed": "python3-distributed", "osmium": "python3-pyosmium"}
    for name, package in packages.items():
        if not HAS[name]:
            print(f"tools_city: {name} is missing, of Debian's package {package}; the tests that need it are left out")
    unittest.main(argv=sys.argv[:1])


if __name__ == "__main__":
    main()
