"""Plans made cities, and prints what the plans cost beside path scanning, districts alone and one solve.

usage: city.py WORK [--minutes N] [--workers N] [--one-worker] [--seed N] REQUIRED ..

The processor seconds are those of all processes of a run, and the memory is that of its greatest process. One solve,
which a city of at most 600 required streets fits, has as many turns as take at least the processor time of the run.
With --one-worker the run is done again by one worker, for as long as its plan takes, which gives the speed-up.
"""
import argparse
import heapq
import os
import re
import resource
import shutil
import subprocess
import time
from collections.abc import Callable, Iterator
from dataclasses import dataclass

import make_city

import carp_run
from carp_map.sheets import counted

CITY = os.path.join(os.path.dirname(os.path.dirname(os.path.abspath(__file__))), "tools", "city")

# A service that may come next: the edge, the end where it begins, and the other end.
Next = tuple[int, int, int]
# What says which of the nearest streets comes next, by the room that is left.
Rule = Callable[[Next, int], float]


@dataclass(frozen=True)
class Measured:
    """What a run of `tools/city` gave and took."""

    said: str
    seconds: float
    processor: float
    memory: float


class Scan:
    """Path scanning (Golden, DeArmon and Baker 1983): a tour goes on with the nearest street that it can still load."""

    def __init__(self, city: carp_run.Instance) -> None:
        self.city = city
        self.beside: dict[int, list[tuple[int, int]]] = {}
        for at, edge in enumerate(city.edges):
            for end, other in (edge.ends, edge.ends[::-1]):
                self.beside.setdefault(end, []).append((at, other))
        self.home = self.distances(city.depot)

    def distances(self, source: int) -> dict[int, int]:
        """Returns the least distances from a vertex."""
        return {vertex: distance for distance, vertex in self.reached(source)}

    def reached(self, source: int) -> Iterator[tuple[int, int]]:
        """Returns the vertices with their least distances, the nearest first (Dijkstra 1959)."""
        found: set[int] = set()
        waiting = [(0, source)]
        while waiting:
            distance, vertex = heapq.heappop(waiting)
            if vertex not in found:
                found.add(vertex)
                yield distance, vertex
                for at, other in self.beside[vertex]:
                    heapq.heappush(waiting, (distance + self.city.edges[at].cost, other))

    def nearest(self, source: int, left: set[int], room: int) -> tuple[int, list[Next]]:
        """Returns the distance of the nearest streets that are left and fit, and these; none if there are none."""
        least, found = -1, []
        for distance, vertex in self.reached(source):
            if found and distance > least:
                break
            here = [
                (at, vertex, other) for at, other in self.beside[vertex]
                if at in left and self.city.edges[at].demand <= room
            ]
            least = distance if here else least
            found += here
        return least, found

    def cost(self, rule: Rule) -> int:
        """Returns what the plan of a rule costs; of streets that are as near the rule says the least one."""
        left = {at for at, edge in enumerate(self.city.edges) if edge.demand}
        total, at, room = 0, self.city.depot, self.city.capacity
        while left:
            distance, found = self.nearest(at, left, room) if room else (-1, [])
            if found:
                edge, _, at_next = min(found, key=lambda each: (rule(each, room), each))
                total += distance + self.city.edges[edge].service
                left.remove(edge)
                at, room = at_next, room - self.city.edges[edge].demand
            else:
                total += self.home[at]
                at, room = self.city.depot, self.city.capacity
        return total + self.home[at]

    def best(self) -> int:
        """Returns the least cost of the five rules."""
        edges, home, capacity = self.city.edges, self.home, self.city.capacity
        rules: list[Rule] = [
            lambda each, room: edges[each[0]].cost / edges[each[0]].demand,
            lambda each, room: -edges[each[0]].cost / edges[each[0]].demand,
            lambda each, room: home[each[2]],
            lambda each, room: -home[each[2]],
            lambda each, room: home[each[2]] * (-1 if 2 * room > capacity else 1),
        ]
        return min(self.cost(rule) for rule in rules)


def planned(words: list[str]) -> Measured:
    """Runs `tools/city`, and returns what it gave and took; this process has had no greater child before."""
    before = resource.getrusage(resource.RUSAGE_CHILDREN)
    start = time.monotonic()
    done = subprocess.run([CITY, *words], capture_output=True, text=True)
    if done.returncode:
        raise SystemExit(f"city: {done.stderr.strip()}")
    after = resource.getrusage(resource.RUSAGE_CHILDREN)
    processor = after.ru_utime + after.ru_stime - before.ru_utime - before.ru_stime
    return Measured(done.stdout, time.monotonic() - start, processor, after.ru_maxrss / 1024)


def districts_cost(folder: str) -> int:
    """Returns what the plans of all districts of a run cost."""
    names = [name for name in os.listdir(folder) if name.endswith(".cert")]
    heads = [carp_run.contents(os.path.join(folder, name))[:100] for name in names]
    return sum(int(re.findall(rb"(?m)^cost (\d+)$", head)[0]) for head in heads)


def solve_cost(path: str, certificate: str, seconds: float) -> str:
    """Returns what one solve costs that may take a processor time, with the turns that it needs for it."""
    report = carp_run.solve(path, certificate, 1)
    taken, turns = report.seconds, 1
    while taken < seconds and report.gap:
        turns *= 2
        report = carp_run.solve(path, certificate, turns)
        taken = report.seconds
    return f"{report.cost} ({counted(turns, 'turn')}, {taken:.0f} s)"


def row(work: str, required: int, options: argparse.Namespace) -> str:
    """Returns the row of a city."""
    path, key, folder = (os.path.join(work, f"city{required}{kind}") for kind in (".dat", ".key", ""))
    text, places = make_city.files_of(required, options.seed, 150)
    carp_run.write_whole(path, text)
    carp_run.write_whole(key, places)
    shutil.rmtree(folder, ignore_errors=True)
    words = [path, key, "--minutes", str(options.minutes)]
    run = planned([*words, "--out", folder, "--workers", str(options.workers)])
    cost = int(re.findall(r"cost (\d+)", run.said)[0])
    parts = districts_cost(os.path.join(folder, "state", "districts"))
    rounds = run.said.splitlines()[2]
    cells = [str(required), str(cost), str(parts), f"{100 * (parts - cost) / parts:.1f} %"]
    cells.append(str(Scan(carp_run.instance_from(text)).best()))
    cells.append(solve_cost(path, os.path.join(work, "one.cert"), run.processor) if required <= 600 else "")
    cells += [f"{run.seconds:.0f} s", f"{run.processor:.0f} s", f"{run.memory:.0f} MB"]
    if options.one_worker:
        alone = planned([*words[:2], "--minutes", str(60 * 24), "--out", f"{folder}.one", "--workers", "1"])
        cells.append(f"{alone.seconds / run.seconds:.1f}")
    return f"| {' | '.join([*cells, rounds])} |"


def main() -> None:
    parser = argparse.ArgumentParser(description=__doc__, formatter_class=argparse.RawDescriptionHelpFormatter)
    parser.add_argument("work")
    parser.add_argument("--minutes", type=float, default=60.0)
    parser.add_argument("--workers", type=int, default=4)
    parser.add_argument("--one-worker", action="store_true")
    parser.add_argument("--seed", type=int, default=1)
    parser.add_argument("required", type=int, nargs="+")
    options = parser.parse_args()
    heads = ["required", "cost", "districts alone", "saved", "path scanning", "one solve"]
    heads += ["time", "processor", "memory"]
    heads += [*(["speed-up"] if options.one_worker else []), "end"]
    print(f"| {' | '.join(heads)} |\n|{'---|' * len(heads)}")
    for required in options.required:
        print(row(options.work, required, options), flush=True)


if __name__ == "__main__":
    main()
