#!/usr/bin/env python3
"""Tries check.py beside slow answers to the same questions, on small instances and with groups, and on what docs/FORMATS.md shows.

usage: check_test.py [--seed N] [--count N]

The slow answers list all tours and all plans, one after another, and count bonds place by place. It prints how much was tried, and ends with 1 at a difference.
"""
import argparse
import itertools
import os
import random
import sys

sys.dont_write_bytecode = True
import check  # noqa: E402
from reading import Answer, Edge, Instance, PriceSet, read_certificate, read_instance  # noqa: E402

PAGE = os.path.join(os.path.dirname(os.path.abspath(__file__)), "..", "..", "docs", "FORMATS.md")

# ---- What the page shows ----

STREET = Instance(2, [Edge(1, 2, 5, 1, 5)], 1, 1, 1)
ROW = Instance(3, [Edge(1, 2, 3, 2, 3), Edge(2, 3, 4, 2, 4)], 2, 2, 1)


def shown():
    """The instances and certificates of the page: the streets of the first two certificates are in words there."""
    with open(PAGE, encoding="utf-8") as page:
        blocks = page.read().split("```")[1::2]
    *_, four = [block[1:].encode() for block in blocks if block.startswith("\nVERTICES")]
    certificates = [block[1:].encode() for block in blocks if block.startswith("\ncarp-certificate")]
    return list(zip([STREET, ROW, read_instance(four)], certificates, strict=True))


def said(instance, text):
    try:
        check.judge(instance, read_certificate(text))
        return "accepted"
    except Answer as answer:
        return answer.lines[0]


# Lines of groups in place of the line 13 of the third certificate, and what is said of them.
READ, LIMIT = "bad certificate: line 13 cannot be read", "bad certificate: line 13 passes a limit"
LINES = {
    "bonds 1 2 3 1 2 3": "accepted",
    "bonds 2 1 3 1 2 3 1 3 1 2 3": "accepted",
    "bonds 3 2 2 1 2 2 2 1 3 2 2 2 3": "rejected: node 1 has value 2, not above 5",
    "bonds 1 1 3 1 2 3": "rejected: set 1 at node 1 has a tour at -1",
    "bonds 2 2 3 1 2 3 1 2 1 4": "accepted",
    "bonds 2 2 3 1 2 3 1 2 5 600": "rejected: node 1 has value 4, not above 5",
    "bonds 2 2 3 1 2 3 1 2 4 600": "rejected: node 1 has value 5, not above 5",
    "bonds 1 -2 2 1 2": "rejected: set 1 at node 1 needs the pair 1 2",
    "bonds 3 2 3 1 2 3 -1 2 2 3 -1 2 1 2": "rejected: set 1 at node 1 needs the pair 2 3",
    "bonds 1 -2 2 599 600": "rejected: set 1 at node 1 needs the pair 599 600",
    "bonds 0": READ, "bonds": READ, "bonds 1": READ, "bonds 1 2": READ, "bonds 1 2 3": READ, "bonds 1 2 3 1 2": READ, "bonds 2 2 3 1 2 3": READ, "bonds 1 2 3 1 2 3 1": READ,
    "bonds 1 2 3 1 2 3 1 2 1 2": READ, "bonds 1 2 3 1 3 2": READ, "bonds 1 2 3 1 2 2": READ, "bonds 1 0 2 1 2": READ, "bonds 1 -1 3 1 2 3": READ, "bonds 1 2 -1 3": READ,
    "bonds 1 2 0 -1": LIMIT, "bonds 1 2 1 -1": READ, "bonds 1 2 2 1 -2": READ, "bonds 1 -0 2 1 2": READ, "bonds 1 2 02 1 2": READ, "bonds  1 2 2 1 2": READ, "bonds 1 2 2 1 2 ": READ,
    "bonds 1 2 0": LIMIT, "bonds 1 2 0 3": LIMIT, "bonds 1 2 1": LIMIT, "bonds 1 2 1 1": LIMIT, "bonds 1 2 601": LIMIT, "bonds 1 2 2 0": LIMIT, "bonds 1 2 2 1 601": LIMIT,
    "bonds 2001": LIMIT, "bonds 1 1000000000000001": LIMIT, "bonds 1 -1000000000000001 2 1 2": LIMIT, "bonds 0 7 2 1 601": LIMIT, "bonds 1 0 2 2 601": LIMIT, "weights 0": READ,
    "bonds 1 2 3 1 2 3 7 601": LIMIT, "bonds 1 2 3 1 2 3 1000000000000001": LIMIT, "bonds 100" + " 1 600" * 100: READ, "bonds 0" + " 1 2 1 2" * 30_000: READ, "bonds 0" + " 1 2 1 2" * 30_001: LIMIT,
}


def try_the_page():
    for instance, text in shown():
        certificate = read_certificate(text)
        yield said(instance, text), "accepted"
        yield said(instance, text.replace(b"bound %d" % certificate.bound, b"bound %d" % (certificate.bound + 1)))[:24], "rejected: node 1 has valu"[:24]
    instance, text = shown()[2]
    for line, words in LINES.items():
        yield said(instance, text.replace(b"bonds 1 2 3 1 2 3", line.encode())), words
    yield said(instance, text.replace(b"certificate 4", b"certificate 2")), READ
    yield said(instance, text.replace(b"certificate 4", b"certificate 3")), "bad certificate: line 1 cannot be read"
    yield said(instance, text[:text.index(b"sets")].replace(b"bonds", b"") + b"sets 0\nnodes 1\nvoid\nend\n"), "bad certificate: line 10 cannot be read"
    yield from try_halves(instance)


def try_halves(instance):
    """Half of three tours and one whole: what they serve, what they cost, and that they cross each shore often enough, all twice."""
    halves = [[1, 2], [2, 3], [1, 3], [4], [4]]
    yield sorted(sum(halves, [])), [1, 1, 2, 2, 3, 3, 4, 4]
    yield max(check.load_of(instance, tour) for tour in halves) <= instance.capacity, True
    yield sum(sum(instance.edges[edge - 1].service for edge in tour) + len(tour) % 2 for tour in halves), 2 * 5
    yield sum(len(tour) % 2 for tour in halves) >= 2 * check.least_crossings(instance, [2]), True


# ---- Slow answers ----


def draw(rng):
    vertices, required = rng.randint(2, 4), rng.randint(1, 4)
    capacity = rng.randint(2, 8)
    ends = [(rng.randint(1, vertex - 1), vertex) for vertex in range(2, vertices + 1)]
    ends += [tuple(rng.sample(range(1, vertices + 1), 2)) for _ in range(max(0, required - len(ends)) + rng.randint(0, 2))]
    rng.shuffle(ends)
    largest = rng.choice([capacity, capacity // 2 + 1])
    demands = [rng.randint((capacity + 3) // 4, largest) for _ in range(required)] + [0] * (len(ends) - required)
    edges = [Edge(u, v, rng.randint(0, 6), demand, rng.randint(0, 6)) for (u, v), demand in zip(ends, demands)]
    edges = edges[:required] + [edge._replace(service=edge.cost) for edge in edges[required:]]
    return Instance(vertices, edges, required, capacity, rng.randint(1, vertices))


def draw_branch(rng, instance):
    """Yes and no to some pairs, each open when it is decided."""
    branch = check.Branch(set(), set(), {}, {}, 0)
    for pair in itertools.combinations(range(1, instance.required + 1), 2):
        if rng.randrange(2) and check.is_open(instance, branch, *pair):
            branch = branch._replace(**rng.choice([{"yes": branch.yes | {pair}}, {"no": branch.no | {pair}}]))
    return branch


def draw_set(rng, instance, branch):
    edges = range(1, max(instance.required + 1, 2) + 1)
    groups = [(rng.randint(1, 9), sorted(rng.sample(edges, rng.randint(2, len(edges))))) for _ in range(rng.randint(0, 3))]
    groups += [(-rng.randint(1, 9), list(pair)) for pair in sorted(branch.yes) if rng.randrange(3)]
    denominator = rng.randint(1, 3)
    prices = [rng.randint(0, 20 * denominator) for _ in range(instance.required)]
    return PriceSet(denominator, prices, [], rng.sample(groups, len(groups)))


def deadhead(instance, begin, end):
    """The least cost of a list of steps, by lists of one more step again and again."""
    reached = {begin: 0}
    for _ in range(instance.vertices):
        for edge in instance.edges:
            for u, v in [(edge.u, edge.v), (edge.v, edge.u)]:
                if u in reached:
                    reached[v] = min(reached.get(v, reached[u] + edge.cost), reached[u] + edge.cost)
    return reached[end]


def bonds(group, edges):
    return sum(a in group and b in group for a, b in zip(edges, edges[1:]))


def may_follow(instance, branch, a, b):
    """Whether two edges may be served one directly after the other: by the chains of the yes pairs, which are joined anew."""
    pair = (min(a, b), max(a, b))
    if a == b or pair in branch.no:
        return False
    if pair in branch.yes:
        return True
    chains = [{edge} for edge in range(1, instance.required + 1)]
    for yes in branch.yes:
        joined = set().union(*(chain for chain in chains if set(yes) & chain))
        chains = [chain for chain in chains if not chain & joined] + [joined]
    both = set().union(*(chain for chain in chains if {a, b} & chain))
    ends = all(sum(edge in yes for yes in branch.yes) < 2 for edge in (a, b))
    return ends and not any({a, b} <= chain for chain in chains) and check.load_of(instance, both) <= instance.capacity


def all_tours(instance, allowed):
    """All lists of services, each an edge with where its service begins and ends, whose edges may follow each other and fit a vehicle."""
    tours = [[]]
    while tours:
        tours = [tour + [service] for tour in tours for service in services(instance) if fits(instance, allowed, tour, service[0])]
        yield from tours


def services(instance):
    for number, edge in enumerate(instance.edges[:instance.required], 1):
        yield number, edge.u, edge.v
        yield number, edge.v, edge.u


def fits(instance, allowed, tour, edge):
    follows = not tour or (tour[-1][0], edge) in allowed
    return follows and check.load_of(instance, [service[0] for service in tour] + [edge]) <= instance.capacity


def driven(instance, ways, tour):
    """The cost of a tour, without what its services cost."""
    places = [instance.depot, *(place for _, begin, end in tour for place in (begin, end)), instance.depot]
    return sum(ways[u, v] for u, v in zip(places[0::2], places[1::2]))


def value(instance, ways, prices, tour):
    """What a tour pays, less what it earns."""
    edges = [service[0] for service in tour]
    paid = prices.denominator * (driven(instance, ways, tour) + sum(instance.edges[edge - 1].service for edge in edges))
    paid += sum(weight * bonds(group, edges) for weight, group in prices.groups)
    return paid - sum(prices.prices[edge - 1] for edge in edges)


def all_plans(instance):
    """All ways to serve each required edge once: lists of lists of edges, by cutting each order of the edges."""
    for order in itertools.permutations(range(1, instance.required + 1)):
        for cuts in itertools.product([False, True], repeat=instance.required - 1):
            plan = [[order[0]]]
            for edge, cut in zip(order[1:], cuts):
                plan = plan + [[edge]] if cut else plan[:-1] + [plan[-1] + [edge]]
            if all(check.load_of(instance, tour) <= instance.capacity for tour in plan):
                yield plan


def plan_cost(instance, ways, plan):
    """The least cost of a plan that serves in these orders, by all directions."""
    cost = 0
    for tour in plan:
        found = itertools.product(*([service for service in services(instance) if service[0] == edge] for edge in tour))
        cost += min(driven(instance, ways, way) for way in found) + sum(instance.edges[edge - 1].service for edge in tour)
    return cost


def meets(plan, branch):
    followed = {(min(pair), max(pair)) for tour in plan for pair in zip(tour, tour[1:])}
    return branch.yes <= followed and not branch.no & followed


def room(instance, group):
    demand = check.load_of(instance, [edge for edge in group if edge <= instance.required])
    return len(group) - next(vehicles for vehicles in itertools.count() if vehicles * instance.capacity >= demand)


def one(rng, counts):
    instance = draw(rng)
    branch = draw_branch(rng, instance)
    prices = draw_set(rng, instance, branch)
    ways = {(u, v): deadhead(instance, u, v) for u in range(1, instance.vertices + 1) for v in range(1, instance.vertices + 1)}
    numbers = range(1, instance.required + 1)
    allowed = {(a, b) for a in numbers for b in numbers if may_follow(instance, branch, a, b)}
    tours = list(all_tours(instance, allowed))
    least = min([0] + [value(instance, ways, prices, tour) for tour in tours])
    yield check.least_tour(instance, [], branch, prices), least

    # Prices lowered until tours pay: the value is that of the terms, and no plan that meets the branch costs less.
    fitting = prices._replace(prices=[price + least for price in prices.prices])
    found = sum(fitting.prices) - sum(weight * room(instance, group) for weight, group in prices.groups if weight > 0) - sum(weight for weight, _ in prices.groups if weight < 0)
    yield check.set_value(instance, branch, fitting), found
    plans = list(all_plans(instance))
    for weight, group in prices.groups:
        yield weight < 0 or max(sum(bonds(group, tour) for tour in plan) for plan in plans) <= room(instance, group), True
    met = [plan_cost(instance, ways, plan) for plan in plans if meets(plan, branch)]
    yield all(found <= prices.denominator * cost for cost in met), True
    counts["tours"] += len(tours)
    counts["plans"] += len(met)
    counts["groups"] += sum(weight > 0 for weight, _ in prices.groups)
    counts["yes weights"] += sum(weight < 0 for weight, _ in prices.groups)
    counts["at a plan's cost"] += bool(met) and found == prices.denominator * min(met)


def main():
    parser = argparse.ArgumentParser(usage="check_test.py [--seed N] [--count N]")
    parser.add_argument("--seed", type=int, default=1)
    parser.add_argument("--count", type=int, default=1_000)
    words = parser.parse_args()
    rng = random.Random(words.seed)
    counts = dict.fromkeys(["texts", "instances", "tours", "plans", "groups", "yes weights", "at a plan's cost", "differences"], 0)
    for found, wanted in try_the_page():
        counts["texts"] += 1
        if found != wanted:
            counts["differences"] += 1
            print(f"the page: {found!r}, wanted {wanted!r}")
    for number in range(1, words.count + 1):
        counts["instances"] += 1
        for found, wanted in one(rng, counts):
            if found != wanted:
                counts["differences"] += 1
                print(f"instance {number}: {found}, wanted {wanted}")
    print(*(f"{what} {count}" for what, count in counts.items()), sep=", ")
    return 1 if counts["differences"] else 0


if __name__ == "__main__":
    sys.exit(main())
