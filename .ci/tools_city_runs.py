"""Tests of the plan, the judge, the rounds and the course of `tools/city`. `.ci/tools_city.py` runs them with its own.

Tasks are done here one after another, without Dask, so that a run can be stopped after any of them.
"""
import ast
import copy
import json
import os
import shutil
import sys
import tempfile
import unittest
from collections.abc import Callable, Iterator, Mapping
from pathlib import Path
from typing import Any
from unittest.mock import patch

from tools_city_parts import TOP, make_city_of, needs_scipy, path_city

import carp_run
import make_city
from carp_city import judge
from carp_run import Bounds, Instance, Move

try:
    from carp_city import borders, contraction, course, network, output, plan, progress, state, summary, tasks
except ModuleNotFoundError:
    pass

# A city of four streets around a square, and one that leads from its far corner to a dead end.
SQUARE = b"""VERTICES : 5
ARISTAS_REQ : 4
ARISTAS_NOREQ : 1
CAPACIDAD : 5
LISTA_ARISTAS_REQ :
( 1, 2) coste 3 demanda 2 servicio 4
( 2, 3) coste 5 demanda 2
( 3, 5) coste 1 demanda 1
(3,4)coste7demanda3servicio8
LISTA_ARISTAS_NOREQ :
( 4, 1) coste 2
DEPOSITO : 1
"""
NAMES = ["Mill Road", "Quai", None, "Žižkova", "Ring"]


def square_plan() -> dict[str, Any]:
    """Returns a lawful plan of the square."""
    first = [[1, "Mill Road", "serve", 1, 2], [2, "Quai", "serve", 2, 3], [3, None, "serve", 3, 5]]
    first += [[3, None, "drive", 5, 3], [4, "Žižkova", "drive", 3, 4], [5, "Ring", "drive", 4, 1]]
    second = [[5, "Ring", "drive", 1, 4], [4, "Žižkova", "serve", 4, 3], [4, "Žižkova", "drive", 3, 4]]
    second += [[5, "Ring", "drive", 4, 1]]
    tours = [
        {"tour": 1, "load": 5, "cost": 4 + 5 + 1 + 1 + 7 + 2, "steps": first},
        {"tour": 2, "load": 3, "cost": 2 + 8 + 7 + 2, "steps": second},
    ]
    return {"version": 1, "cost": 39, "tours": tours}


class FolderTest(unittest.TestCase):
    """A test that works in a new folder."""

    def setUp(self) -> None:
        folder = tempfile.TemporaryDirectory()
        self.addCleanup(folder.cleanup)
        self.addCleanup(os.chdir, os.getcwd())
        os.chdir(folder.name)


class Judge(FolderTest):
    def refused(self, change: Callable[[dict[str, Any]], object], said: str) -> None:
        """The judge refuses the plan of the square after a change, with some words."""
        text = square_plan()
        change(text)
        with self.assertRaisesRegex(judge.Unlawful, said):
            self.judged(text)

    def judged(self, text: object) -> int:
        """Returns what the judge says of a plan."""
        Path("city.dat").write_bytes(SQUARE)
        Path("plan.json").write_text(json.dumps(text), encoding="utf-8")
        return judge.judge("city.dat", "plan.json")

    def test_lawful(self) -> None:
        self.assertEqual(self.judged(square_plan()), 39)
        carp_run.checked(SQUARE, carp_run.solved(SQUARE, turns=1)[1])

    def test_refusals(self) -> None:
        def step(tour: int, at: int, place: int, value: object) -> Callable[[dict[str, Any]], None]:
            return lambda text: text["tours"][tour]["steps"][at].__setitem__(place, value)

        def twice(text: dict[str, Any]) -> None:
            text["tours"][1]["steps"][2][2] = "serve"

        def overloaded(text: dict[str, Any]) -> None:
            text["tours"][0]["steps"][4][2] = "serve"
            del text["tours"][1]

        self.refused(step(0, 2, 2, "drive"), "^tour 1 has a load of 4 and a cost of 20, and 5 and 20 are stated$")
        self.refused(lambda text: text["tours"].pop(), "^street 4 is not served$")
        self.refused(twice, r"^tour 2 step 3, street 4 \(Žižkova\): it is served twice, by tour 2 before$")
        self.refused(overloaded, "^tour 1 has a load of 8, above the capacity of 5$")
        self.refused(step(0, 5, 2, "serve"), r"^tour 1 step 6, street 5 \(Ring\): it is served and needs no service$")
        self.refused(step(0, 1, 4, 4), r"^tour 1 step 2, street 2 \(Quai\): it does not lead on")
        self.refused(lambda text: text["tours"][0]["steps"].pop(4), r"^tour 1 step 5, street 5 \(Ring\): it does not")
        self.refused(lambda text: text["tours"][1]["steps"].pop(), "^tour 2 does not end at the depot$")
        self.refused(lambda text: text["tours"][1]["steps"].pop(0), "^tour 2 step 1, .* does not lead on")
        self.refused(lambda text: text["tours"][0].update(cost=19), "^tour 1 has .* a cost of 20, and 5 and 19")
        self.refused(lambda text: text.update(cost=38), "^the tours cost 39, and 38 is stated$")
        self.refused(step(0, 0, 0, 6), "there is no such street$")
        self.refused(step(0, 0, 0, -1), "there is no such street$")
        self.refused(step(0, 0, 2, "skip"), "'skip' is neither serve nor drive$")
        self.refused(lambda text: text["tours"].reverse(), "^tour 2 stands where tour 1 has to stand$")
        self.refused(lambda text: text.clear(), "cannot be read")

    def test_left_out_in_a_tour_that_tells_no_lie(self) -> None:
        text = square_plan()
        text["tours"][0]["steps"][2][2] = "drive"
        text["tours"][0].update(load=4)
        self.assertRaisesRegex(judge.Unlawful, "^street 3 is not served$", self.judged, text)

    def test_it_shares_nothing(self) -> None:
        tree = ast.parse((TOP / "tools" / "carp_city" / "judge.py").read_text(encoding="utf-8"))
        found = [alias.name for node in ast.walk(tree) if isinstance(node, ast.Import) for alias in node.names]
        found += [str(node.module) for node in ast.walk(tree) if isinstance(node, ast.ImportFrom)]
        self.assertEqual(sorted(found), ["dataclasses", "json"])


@needs_scipy
class Plans(unittest.TestCase):
    def test_certificate_of_tours_as_they_are(self) -> None:
        square = carp_run.instance_from(SQUARE)
        orders = [[(2, False), (1, False)], [(4, True), (3, True)]]
        walks = plan.walks_of(square, orders)
        # By least paths: 1-2-3, 3=2, 2=1 and 1-2-3 (8 against 9 by 4), 3=4, 4-3 and so on.
        self.assertEqual([plan.words_of(walk) for walk in walks], [">1 >2 -2 -1", ">1 >2 +4 <4 +3 <3 <2 <1"])
        bounds = carp_run.checked(square.text(), plan.certificate_of(square, walks))
        self.assertEqual((bounds.cost, bounds.bound), (8 + 9 + 8 + 8 + 7 + 1 + 1 + 8, 4 + 5 + 1 + 8))
        self.assertEqual(plan.moves_of(plan.words_of(walks[1])), tuple(walks[1]))
        self.assertEqual(plan.reversed_tour(plan.moves_of("+1 >2 -3")), plan.moves_of("+3 <2 -1"))

    def test_start_of_a_neighbourhood(self) -> None:
        city = make_city_of(40)
        streets = network.Network(city)
        certificate = carp_run.solved(city.text(), turns=1)[1]
        tours = [plan.Tour(at, tuple(moves)) for at, moves in enumerate(carp_run.tours_of(certificate))]
        some = tours[:3]
        part = contraction.part_of(city, streets, [edge - 1 for tour in some for edge, _ in tour.services])
        start = plan.start_of(part, some)
        bounds = carp_run.checked(part.instance.text(), start)
        self.assertEqual(bounds.cost, sum(plan.cost_of(city, tour.moves) for tour in some))
        self.assertEqual(bounds.bound, sum(city.edges[edge - 1].service for tour in some for edge, _ in tour.services))
        back = [plan.Tour(0, part.in_city(tour)).services for tour in carp_run.tours_of(start)]
        self.assertEqual(back, [tour.services for tour in some])


def standing_of(groups: list[list[int]], city: Instance) -> "borders.Standing":
    """Returns the plan whose tours serve streets in a row, given from 1."""
    orders = [[(edge, True) for edge in group] for group in groups]
    return borders.first_standing([[tuple(walk) for walk in plan.walks_of(city, orders)]])


@needs_scipy
class Rounds(unittest.TestCase):
    def setUp(self) -> None:
        # Tour n serves two streets that are 10 * n away, and each tour is nearest to those before and behind it.
        self.city = path_city([5] * 20, range(1, 21), capacity=2)
        self.streets = network.Network(self.city)
        self.groups = [[at, at + 1] for at in range(1, 21, 2)]

    def borders(self, most: int = 6) -> "borders.Borders":
        """Returns the rounds over the row."""
        return borders.Borders(self.city, self.streets, most, 1, 1)

    def test_nearest_tours(self) -> None:
        away = borders.Distances(self.streets, standing_of(self.groups, self.city).tours)
        self.assertEqual(sorted(self.borders().around(away, 1)), [1, 2, 3])
        self.assertEqual(sorted(self.borders().around(away, 6)), [5, 6, 7])
        self.assertEqual(self.borders(7).around(away, 10), [10, 9, 8])
        # Two tours are a neighbourhood also if they are large.
        self.assertEqual(self.borders(3).around(away, 1), [1, 2])

    def test_seeds_of_a_round_share_no_tour(self) -> None:
        for round_number in range(5):
            standing = standing_of(self.groups, self.city)
            standing.round = round_number
            chosen = self.borders().chosen(standing)
            tours = [tour.number for _, each in chosen for tour in each.tours]
            self.assertEqual(len(tours), len(set(tours)))
            self.assertGreaterEqual(len(chosen), 2)
            for seed, each in chosen:
                self.assertIn(seed, each.numbers)
                away = borders.Distances(self.streets, standing.tours)
                self.assertEqual([tour.number for tour in each.tours], self.borders().around(away, seed))
                done = carp_run.checked(each.task.instance, each.task.start or b"")
                self.assertEqual(done.cost, sum(plan.cost_of(self.city, tour.moves) for tour in each.tours))
        first = self.borders().chosen(standing_of(self.groups, self.city))
        again = self.borders().chosen(standing_of(self.groups, self.city))
        self.assertEqual([(seed, each.task) for seed, each in first], [(seed, each.task) for seed, each in again])

    def test_rest(self) -> None:
        standing, rounds = standing_of(self.groups, self.city), self.borders()
        before = dict(standing.tours)
        # No plan of the row is better than one vehicle for each two streets: all come to rest, in a few rounds.
        counts = []
        while standing.seeds():
            chosen = rounds.chosen(standing)
            counts.append(len(chosen))
            answers = {
                at: (certificate, carp_run.checked(each.task.instance, certificate))
                for at, (_, each) in enumerate(chosen)
                for certificate in [tasks.answer(each.task.instance, each.task.start, 1, 1)]
            }
            self.assertEqual(set(rounds.took(standing, chosen, answers).values()) - {True}, set())
        self.assertEqual(standing.tours, before)
        self.assertEqual(set(standing.rest), set(range(1, 11)))
        self.assertEqual(standing.rest[5], frozenset({4, 5, 6}))
        # The neighbourhoods of both ends are those of their neighbours, and are planned once.
        self.assertEqual(sum(counts), len(standing.known))
        self.assertEqual(len(standing.known), 8)
        # A seed is at rest until one of its tours changes.
        moves = standing.tours.pop(5).moves
        standing.tours[11] = plan.Tour(11, moves)
        standing.keep_whole()
        self.assertEqual(sorted(standing.seeds()), [4, 6, 11])

    def test_a_cheaper_plan_is_taken(self) -> None:
        # Streets 1 and 20 in one tour cost more than those that lie side by side.
        groups = [[1, 20], [2, 19], *([at, at + 1] for at in range(3, 19, 2))]
        standing = standing_of(groups, self.city)
        rounds = self.borders(4)
        tours = [standing.tours[1], standing.tours[2]]
        near = rounds.fitting(tours)
        assert near is not None
        certificate = tasks.answer(near.task.instance, near.task.start, 1, 1)
        bounds = carp_run.checked(near.task.instance, certificate)
        standing.rest[3] = frozenset({3, 4})
        standing.rest[4] = frozenset({2, 4})
        self.assertEqual(rounds.took(standing, [(1, near)], {0: (certificate, bounds)}), {0: bounds.gap == 0})
        # The far one drives 200 for both ends, the near one 20: the saved way is 2 * 10 * 9 + ...
        services = sorted(sorted(edge for edge, _ in tour.services) for tour in standing.tours.values())
        self.assertEqual(services, self.groups[:1] + self.groups[1:-1] + [[19, 20]])
        self.assertEqual(standing.rest, {3: frozenset({3, 4})})
        self.assertEqual((standing.round, sorted(standing.tours)), (1, [3, 4, 5, 6, 7, 8, 9, 10, 11, 12]))

    def test_a_tour_that_stays_keeps_its_number(self) -> None:
        standing, rounds = standing_of(self.groups, self.city), self.borders()
        old = rounds.fitting([standing.tours[1], standing.tours[2]])
        assert old is not None
        new = [plan.reversed_tour(standing.tours[2].moves), plan.moves_of("+1 >2 <2 <1")]
        self.assertEqual(rounds.put(standing, old, new), frozenset({2, 11}))
        self.assertEqual(standing.next, 12)


class Here:
    """Does tasks one after another; the time is up after some."""

    def __init__(self, most: int = 10**9) -> None:
        self.left, self.refused = most, 0
        self.clock: Any = None

    def answers(
        self, given: Mapping[str, Any], clock: Any, tell: Callable[[int], None]
    ) -> Iterator[tuple[str, bytes, Bounds]]:
        # The last first: it does not matter who ends first.
        for name, task in reversed(list(given.items())):
            if self.left == 0:
                clock.seconds = 0.0
                return
            self.left -= 1
            certificate = tasks.answer(task.instance, task.start, task.turns, task.seed)
            yield name, certificate, carp_run.checked(task.instance, certificate)


@needs_scipy
class Courses(FolderTest):
    def setUp(self) -> None:
        super().setUp()
        self.text, self.key = make_city.files_of(28, 3, 40)
        self.city = carp_run.instance_from(self.text)
        self.words = state.Words(8, 12, 1, 1, 1, 20.0, state.digest_of(self.text))

    def begin(self, name: str) -> "state.Folder":
        """Makes the folder of a run."""
        return state.begin(name, self.words, {"city.dat": self.text, "city.key": self.key.encode("utf-8")})

    def course(self, folder: "state.Folder", most: int = 10**9) -> "course.Course":
        """Returns the course of a run, which may do so many tasks."""
        return course.Course(self.city, None, self.words, folder, Here(most), progress.Clock(600.0))

    def test_stopped_anywhere_and_resumed(self) -> None:
        whole = self.course(self.begin("whole"))
        standing = whole.run()
        self.assertFalse(standing.seeds())
        self.assertGreaterEqual(len(whole.folder.districts()), 4)
        text = state.standing_text(standing)
        self.assertEqual(state.standing_text(whole.folder.standing()), text)
        folder = self.begin("parts")
        said = r"^the time is up with 2 of \d districts solved.*--resume parts$"
        with self.assertRaisesRegex(carp_run.Refusal, said):
            self.course(folder, 2).run()
        stops = 0
        while True:
            part = self.course(state.Folder("parts"), 3)
            try:
                stopped = part.run()
            except carp_run.Refusal:
                continue
            self.judged(folder, stopped)
            if not stopped.seeds():
                break
            stops += 1
        self.assertGreater(stops, 2)
        self.assertEqual(state.standing_text(stopped), text)
        self.assertEqual(sorted(os.listdir("parts/state/rounds")), sorted(os.listdir("whole/state/rounds")))

    def judged(self, folder: "state.Folder", standing: "borders.Standing") -> str:
        """Writes the routes of a plan, and judges them again."""
        told = output.write(folder, self.city, None, standing, ["a fact"], summary.Pace(False, 20.0))
        cost = judge.judge(folder.at("city.dat"), folder.at("routes/plan.json"))
        self.assertEqual(told.splitlines()[0].split(", ")[1], f"cost {cost}")
        self.assertFalse([name for name in os.listdir(folder.path) if name.startswith("routes.")])
        return told

    def test_a_plan_that_the_judge_refuses_is_not_told(self) -> None:
        folder = self.begin("run")
        standing = self.course(folder).solve()
        self.judged(folder, standing)
        bad = copy.deepcopy(standing)
        bad.tours.popitem()
        said = r"^the judge refuses the plan: street \d+ is not served$"
        with self.assertRaisesRegex(carp_run.Refusal, said) as caught:
            output.write(folder, self.city, None, bad, [], summary.Pace(False, 20.0))
        self.assertEqual(caught.exception.code, 3)
        shutil.rmtree("run/routes")
        self.assertRaises(carp_run.Refusal, output.write, folder, self.city, None, bad, [], summary.Pace(False, 20.0))
        self.assertEqual(sorted(os.listdir("run")), ["city.dat", "city.key", "state"])

    def test_folders_of_others(self) -> None:
        folder = self.begin("run")
        self.assertRaisesRegex(carp_run.Refusal, "is there already", self.begin, "run")
        self.assertEqual(folder.words(), self.words)
        folder.keep_task("districts/0000", b"instance", b"certificate")
        self.assertEqual(folder.done_task("districts/0000", b"instance"), b"certificate")
        self.assertIsNone(folder.done_task("districts/0000", b"other"))
        self.assertIsNone(folder.done_task("districts/0001", b"instance"))
        folder.drop_task("districts/0000")
        self.assertEqual(os.listdir("run/state/districts"), [])
        Path("run/city.dat").write_bytes(self.text.replace(b"coste", b" coste", 1))
        self.assertRaisesRegex(carp_run.Refusal, "is not the city that the run began with$", folder.words)
        for text in ("[]", "{", '{"version": 2}', '{"version": 1, "most": 3}'):
            Path("run/state/run.json").write_text(text, encoding="utf-8")
            self.assertRaisesRegex(carp_run.Refusal, "does not hold what a run writes", folder.words)
        self.assertRaisesRegex(carp_run.Refusal, "has no run to go on with", state.Folder("none").words)

    def test_answers_that_are_not_used(self) -> None:
        square = carp_run.instance_from(SQUARE)
        start = plan.certificate_of(square, plan.walks_of(square, [[(1, True), (2, True), (3, True)], [(4, True)]]))
        good = tasks.answer(SQUARE, None, 1, 1)
        task, begun = tasks.Task(SQUARE, None, 1, 1), tasks.Task(SQUARE, start, 1, 1)
        self.assertEqual(tasks.judged(task, good), carp_run.checked(SQUARE, good))
        self.assertEqual(begun.most, carp_run.checked(SQUARE, start).cost)
        lines = good.decode("ascii").splitlines()
        for bad in (None, "text", b"", good[:-4], good.replace(b"\nbound ", b"\nbound 9")):
            self.assertIsNone(tasks.judged(task, bad), lines)
        with patch.object(tasks, "MOST_ANSWER", len(good) - 1):
            self.assertIsNone(tasks.judged(task, good))
            self.assertRaisesRegex(RuntimeError, "^a certificate of more than", tasks.answer, SQUARE, None, 1, 1)
        dear = plan.certificate_of(square, plan.walks_of(square, [[(1, False)], [(2, True)], [(3, True)], [(4, True)]]))
        self.assertIsNotNone(tasks.judged(task, dear))
        self.assertIsNone(tasks.judged(begun, dear))
        with self.assertRaisesRegex(RuntimeError, "^code 4: "):
            tasks.answer(b"", None, 1, 1)

    def test_claims(self) -> None:
        rest = borders.Rest("0001-0000", Bounds(1000, 994))
        self.assertIn(
            "neighbourhood 2, tours 1, 4 and 5: no re-planning of these 3 tours among themselves can save more than 0.6 "
            "% (cost 1000, bound 994;",
            summary.claim(2, [1, 4, 5], rest),
        )
        wanted = {(1000, 1000): "0.0", (3000, 2999): "0.1", (1000, 993): "0.7", (100_000, 99_299): "0.8", (0, 0): "0.0"}
        self.assertEqual({pair: summary.rounded_up(*pair) for pair in wanted}, wanted)
