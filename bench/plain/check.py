#!/usr/bin/env python3
"""Checks a certificate as `carp check FILE CERT` does: it prints the same lines, and ends with the same code.

usage: check.py FILE CERT

It was written from docs/FORMATS.md without a look at the code: reading.py reads the two texts, and here stands what makes a certificate good for an instance.
What that page left open then about the words on nodes was settled by what the program answers, and stands there now. Groups were added from the page alone,
before the program knew them. It is for small instances, and slow.
"""
import sys
from collections import Counter, namedtuple

from reading import LONGEST_CERTIFICATE, LONGEST_INSTANCE, USAGE, Answer, read_certificate, read_instance

# ---- A good certificate ----


def reject(words):
    raise Answer(2, f"rejected: {words}")


def judge(instance, certificate):
    judge_counts(instance, certificate.counts)
    judge_plan(instance, certificate.tours)
    judge_cost(instance, certificate)
    judge_shores(instance, certificate.shores)
    judge_sets(instance, certificate)
    judge_tree(instance, certificate)


def judge_counts(instance, counts):
    demand = sum(edge.demand for edge in instance.edges)
    true = [instance.vertices, len(instance.edges), instance.required, instance.capacity, demand]
    for place, (count, number) in enumerate(zip(counts or true, true), 1):
        if count != number:
            reject(f"count {place} is {count} and the instance has {number}")


def ends_of(instance, step):
    """Where a step begins and where it ends."""
    edge = instance.edges[step[1] - 1]
    return (edge.u, edge.v) if step[0] in "+>" else (edge.v, edge.u)


def judge_plan(instance, tours):
    for number, tour in enumerate(tours, 1):
        for place, step in enumerate(tour, 1):
            there = step[1] <= len(instance.edges)
            if not there or (place > 1 and ends_of(instance, tour[place - 2])[1] != ends_of(instance, step)[0]):
                reject(f"tour {number} step {place} is broken")
    for number, tour in enumerate(tours, 1):
        if tour and {ends_of(instance, tour[0])[0], ends_of(instance, tour[-1])[1]} != {instance.depot}:
            reject(f"tour {number} does not start and end at the depot")
    served = [edge for tour in tours for byte, edge in tour if byte in "+-"]
    for edge in sorted(served):
        if edge > instance.required:
            reject(f"edge {edge} is served and not required")
    for edge in sorted(served):
        if served.count(edge) > 1:
            reject(f"edge {edge} is served twice")
    for edge in range(1, instance.required + 1):
        if edge not in served:
            reject(f"edge {edge} is not served")
    for number, tour in enumerate(tours, 1):
        load = load_of(instance, [edge for byte, edge in tour if byte in "+-"])
        if load > instance.capacity:
            reject(f"tour {number} has load {load}")


def judge_cost(instance, certificate):
    cost = 0
    for tour in certificate.tours:
        for byte, edge in tour:
            cost += instance.edges[edge - 1].service if byte in "+-" else instance.edges[edge - 1].cost
    if certificate.cost != cost:
        reject(f"cost {certificate.cost} is stated and {cost} is true")


def judge_shores(instance, shores):
    for number, shore in enumerate(shores, 1):
        if instance.depot in shore or shore[-1] > instance.vertices:
            reject(f"shore {number} does not fit the instance")


def judge_sets(instance, certificate):
    for number, prices in enumerate(certificate.sets, 1):
        if len(prices.prices) != instance.required:
            reject(f"prices {number} do not fit the instance")
    for number, prices in enumerate(certificate.sets, 1):
        for edge, price in enumerate(deadhead_prices(instance, certificate.shores, prices), 1):
            if price < 0:
                reject(f"set {number} prices edge {edge} at {price}")


def crosses(edge, shore):
    return (edge.u in shore) != (edge.v in shore)


def deadhead_prices(instance, shores, prices):
    """What a crossing without service costs, for each edge: its cost without the weights of the shores that it crosses."""
    return [
        prices.denominator * edge.cost - sum(weight for shore, weight in prices.weights if crosses(edge, shores[shore - 1]))
        for edge in instance.edges
    ]


# The decisions on the way to a node: the pairs to which it said yes and no, how often each shore is crossed without service at least, and at most where a
# cut says so, and how many cuts there are.
Branch = namedtuple("Branch", "yes no lower upper cuts")


def judge_tree(instance, certificate):
    lower = {number: least_crossings(instance, shore) for number, shore in enumerate(certificate.shores, 1)}
    branches = [Branch(set(), set(), lower, {}, 0)]  # those of the nodes to come, that of the next one last
    for number, (kind, *numbers) in enumerate(certificate.nodes, 1):
        branch = branches.pop()
        if kind == "pair":
            branches += pair_children(instance, branch, number, tuple(numbers))
        elif kind == "cut":
            branches += cut_children(branch, number, *numbers)
        elif kind == "void":
            if not is_void(branch):
                reject(f"node {number} is not void")
        elif kind == "fixed":
            if is_void(branch) or has_open_pair(instance, branch):
                reject(f"node {number} is not fixed")
            judge_value(number, fixed_value(instance, branch), certificate.bound - 1)
        else:
            judge_price_leaf(instance, certificate, branch, number, numbers[0])


def judge_value(number, value, low):
    if value <= low:
        reject(f"node {number} has value {value}, not above {low}")


def least_crossings(instance, shore):
    """How often a shore is crossed without service at least: its vehicles cross it twice each, and an even number of times in all."""
    demand = sum(edge.demand for edge in instance.edges if edge.u in shore or edge.v in shore)
    vehicles = -(-demand // instance.capacity)
    services = sum(crosses(edge, shore) for edge in instance.edges[: instance.required])
    return max(2 * vehicles - services, services % 2)


def pair_children(instance, branch, number, pair):
    if pair[1] > instance.required:
        reject(f"node {number} does not fit the instance")
    if not is_open(instance, branch, *pair):
        reject(f"node {number} is not lean")
    return [branch._replace(no=branch.no | {pair}), branch._replace(yes=branch.yes | {pair})]


def cut_children(branch, number, shore, k):
    if k < branch.lower[shore] or k >= branch.upper.get(shore, k + 1) or branch.cuts == 4:
        reject(f"node {number} is not lean")
    return branches_of_cut(branch, shore, k)


def branches_of_cut(branch, shore, k):
    """The branch of the second child, and that of the first, which comes next."""
    branch = branch._replace(cuts=branch.cuts + 1)
    more = k + 1 + (k + 1 - branch.lower[shore]) % 2  # the least number above k that is even or odd as the lower number is
    return [branch._replace(lower={**branch.lower, shore: more}), branch._replace(upper={**branch.upper, shore: k})]


def partners(branch, edge):
    """The edges that are served directly before or after an edge, as far as the pairs say."""
    return {a + b - edge for a, b in branch.yes if edge in (a, b)}


def chain_of(branch, edge):
    """The edges of one tour with an edge, as far as the pairs say, in their order from one end of the chain."""
    chain = [edge]
    while True:
        more = partners(branch, chain[-1]) - set(chain)
        if more:
            chain.append(min(more))
        elif partners(branch, chain[0]) - set(chain):
            chain.reverse()
        else:
            return chain


def load_of(instance, edges):
    return sum(instance.edges[edge - 1].demand for edge in edges)


def is_open(instance, branch, a, b):
    """Whether a pair is not settled: its edges can be served directly one after the other, and need not.

    It is settled by a pair on the way, where one of the edges has both its partners, where a chain already has both edges, and where their chains
    are too much for one vehicle.
    """
    if {(a, b), (b, a)} & (branch.yes | branch.no) or len(partners(branch, a)) == 2 or len(partners(branch, b)) == 2:
        return False
    chains = [chain_of(branch, a), chain_of(branch, b)]
    return b not in chains[0] and load_of(instance, sum(chains, [])) <= instance.capacity


def has_open_pair(instance, branch):
    edges = range(1, instance.required + 1)
    return any(is_open(instance, branch, a, b) for a in edges for b in range(a + 1, instance.required + 1))


def is_void(branch):
    """Whether a shore has to be crossed more often than it is."""
    return any(branch.lower[shore] > most for shore, most in branch.upper.items())


def distances(instance, prices):
    """The least price of deadheads from each vertex to each, and a huge one where no streets lead. Vertices without streets are left out."""
    everywhere = {instance.depot}.union(*({edge.u, edge.v} for edge in instance.edges))
    table = {(u, v): 0 if u == v else 10**30 for u in everywhere for v in everywhere}
    for edge, price in zip(instance.edges, prices):
        table[edge.u, edge.v] = table[edge.v, edge.u] = min(price, table[edge.u, edge.v])
    for by in everywhere:
        for u in everywhere:
            for v in everywhere:
                table[u, v] = min(table[u, v], table[u, by] + table[by, v])
    return table


def ways(edge):
    return [(edge.u, edge.v), (edge.v, edge.u)]


def fixed_value(instance, branch):
    """What the chains cost at least, each as a tour of its own."""
    table = distances(instance, [edge.cost for edge in instance.edges])
    value = 0
    for first in range(1, instance.required + 1):
        chain = chain_of(branch, first)
        if first != min(chain):
            continue
        at = {instance.depot: 0}  # what it costs at least to be there with what is served
        for number in chain:
            edge = instance.edges[number - 1]
            at = {end: min(cost + table[place, begin] for place, cost in at.items()) + edge.service for begin, end in ways(edge)}
        value += min(cost + table[place, instance.depot] for place, cost in at.items())
    return value


def judge_price_leaf(instance, certificate, branch, number, named):
    prices = certificate.sets[named - 1]
    for shore, weight in prices.weights:
        if weight < 0 and shore not in branch.upper:
            reject(f"set {named} at node {number} has no upper number for shore {shore}")
    for weight, group in prices.groups:
        if weight < 0 and tuple(group) not in branch.yes:
            reject(f"set {named} at node {number} needs the pair {group[0]} {group[1]}")
    least = least_tour(instance, certificate.shores, branch, prices)
    if least < 0:
        reject(f"set {named} at node {number} has a tour at {least}")
    judge_value(number, set_value(instance, branch, prices), prices.denominator * (certificate.bound - 1))


def set_value(instance, branch, prices):
    value = sum(prices.prices)
    value += sum(weight * (branch.lower if weight > 0 else branch.upper)[shore] for shore, weight in prices.weights)
    return value - sum(weight * (room(instance, group) if weight > 0 else 1) for weight, group in prices.groups)


def room(instance, group):
    """How many bonds of a group a plan can have. An edge that is not required, or not in the instance, has no demand."""
    demand = load_of(instance, [edge for edge in group if edge <= instance.required])
    return len(group) - -(-demand // instance.capacity)


def bond_weights(instance, groups):
    """What it pays besides if two edges are served one directly after the other: the weights of the groups that both are of."""
    weights = Counter()
    for weight, group in groups:
        members = [edge for edge in group if edge <= instance.required]
        for a in members:
            for b in members:
                weights[a, b] += weight
    return weights


def least_tour(instance, shores, branch, prices):
    """The least that a tour pays less what it earns, or 0 where none is below. It is a closed walk from the depot whose services have the capacity
    as their demand at most; one edge is served directly after another only if their pair is open or said yes to, and so never directly after itself,
    but it may be served again later."""
    bonds = bond_weights(instance, prices.groups)
    table = distances(instance, deadhead_prices(instance, shores, prices))
    numbers = range(1, instance.required + 1)
    follows = {(a, b) for a in numbers for b in numbers if a != b and ((min(a, b), max(a, b)) in branch.yes or is_open(instance, branch, a, b))}
    # For each load, the least price of a way from the depot that ends with the service of an edge at one of its ends.
    at = [{} for _ in range(instance.capacity + 1)]
    least = 0
    for load in range(instance.capacity + 1):
        for number in numbers:
            edge = instance.edges[number - 1]
            before = load - edge.demand
            if before < 0:
                continue
            starts = {(None, instance.depot): 0} if before == 0 else at[before]
            for begin, end in ways(edge):
                reached = [
                    price + bonds[last, number] + table[place, begin]
                    for (last, place), price in starts.items()
                    if last is None or (last, number) in follows
                ]
                if reached:
                    price = min(reached) + prices.denominator * edge.service - prices.prices[number - 1]
                    at[load][number, end] = price
                    least = min(least, price + table[end, instance.depot])
    return least


# ---- The program ----


def read_file(path, longest):
    try:
        with open(path, "rb") as file:
            data = file.read(longest + 1)
    except OSError:
        raise Answer(6, "read fault") from None
    if len(data) > longest:
        raise Answer(9, f"too long: more than {longest} bytes")
    return data


def check(path, certificate_path):
    if path == certificate_path:
        raise Answer(3, USAGE)
    instance = read_instance(read_file(path, LONGEST_INSTANCE))
    certificate = read_certificate(read_file(certificate_path, LONGEST_CERTIFICATE))
    judge(instance, certificate)
    return Answer(0, "accepted", f"cost {certificate.cost}", f"bound {certificate.bound}")


def answer(path, certificate_path):
    try:
        return check(path, certificate_path)
    except Answer as given:
        return given


def main():
    if len(sys.argv) != 3:
        print(USAGE)
        return 3
    given = answer(*sys.argv[1:])
    print(*given.lines, sep="\n")
    return given.code


if __name__ == "__main__":
    sys.exit(main())
