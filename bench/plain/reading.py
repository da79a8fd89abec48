"""Reads the text of an instance and of a certificate, as docs/FORMATS.md describes them, in the order of that page."""
import re
import sys
from collections import namedtuple

sys.set_int_max_str_digits(0)  # a number of any length has its shape

USAGE = "usage: check.py FILE CERT"
LONGEST_INSTANCE = 4_194_304
LONGEST_CERTIFICATE = 268_435_456


class Answer(Exception):
    """What is printed, and the code."""

    def __init__(self, code, *lines):
        self.code, self.lines = code, lines


# ---- The text of an instance ----

Edge = namedtuple("Edge", "u v cost demand service")
Instance = namedtuple("Instance", "vertices edges required capacity depot")  # edge e is edges[e - 1]; so many of them are required

REQUIRED, OTHERS = "LISTA_ARISTAS_REQ", "LISTA_ARISTAS_NOREQ"
NUMBERS = ["VERTICES", "ARISTAS_REQ", "ARISTAS_NOREQ", "CAPACIDAD", "DEPOSITO"]


def spaced(pattern):
    """The pattern, in which each blank stands for any number of blanks, and N for a number."""
    blanks = rb"[\t\r\x1a ]*"
    return re.compile(pattern.encode().replace(b" ", blanks).replace(b"N", b"([0-9]+)"), re.IGNORECASE | re.DOTALL)


KEY = spaced(r" ([a-z0-9_]*)")
AFTER_KEY = spaced(r" :? N(?:[\t\r\x1a\x20].*)?")
EDGE_BEGIN = spaced(r" \(")
EDGE_SHAPE = {
    REQUIRED: spaced(r" \( N , N \) coste N demanda N (?:servicio N )?"),
    OTHERS: spaced(r" \( N , N \) coste N (?:demanda (0+) )?"),
}


def bad_instance(words):
    raise Answer(4, f"bad instance: {words}")


def numbers_of(found, line):
    """The numbers of a line that has its shape."""
    if not found:
        bad_instance(f"line {line} cannot be read")
    digits = [group for group in found.groups() if group is not None]
    if any(len(group) > 18 for group in digits):
        bad_instance(f"line {line} has a number of more than 18 digits")
    return [int(group) for group in digits]


def edge_of(numbers, kind):
    u, v, cost = numbers[:3]
    if kind == OTHERS:
        return Edge(u, v, cost, 0, cost)
    demand, service = (numbers[3:] + [cost])[:2]
    return Edge(u, v, cost, demand, service)


def read_lines(data):
    """The number after each key that stands, and the edges of both lists."""
    values, lists, kind = {}, {REQUIRED: [], OTHERS: []}, None
    for number, line in enumerate(data.split(b"\n"), 1):
        found = KEY.match(line)
        key = found[1].decode().upper()
        if key in NUMBERS or key in lists:
            value = None
            if key in NUMBERS:
                [value] = numbers_of(AFTER_KEY.fullmatch(line[found.end():]), number)
            else:
                kind = key
            if key in values:
                bad_instance(f"key {key} stands twice")
            values[key] = value
        elif EDGE_BEGIN.match(line):
            shaped = kind and EDGE_SHAPE[kind].fullmatch(line)
            lists[kind].append(edge_of(numbers_of(shaped, number), kind)) if shaped else numbers_of(None, number)
    return values, lists


def read_instance(data):
    values, lists = read_lines(data)
    for key in ["VERTICES", "ARISTAS_REQ", "CAPACIDAD", "DEPOSITO"]:
        if key not in values:
            bad_instance(f"key {key} is missing")
    for key, kind in [("ARISTAS_REQ", REQUIRED), ("ARISTAS_NOREQ", OTHERS)]:
        if values.get(key, len(lists[kind])) != len(lists[kind]):
            bad_instance(f"{key} states {values[key]} and the list has {len(lists[kind])}")
    edges = lists[REQUIRED] + lists[OTHERS]
    instance = Instance(values["VERTICES"], edges, len(lists[REQUIRED]), values["CAPACIDAD"], values["DEPOSITO"])
    judge_sizes(instance)
    judge_streets(instance)
    return instance


def judge_sizes(instance):
    vertices, edges, required = instance.vertices, len(instance.edges), instance.required
    if vertices > 1_000:
        bad_instance(f"{vertices} vertices are too many")
    if edges > 4_000:
        bad_instance(f"{edges} edges are too many")
    if required > 600:
        bad_instance(f"{required} required edges are too many")


def judge_edges(instance, is_bad, words):
    for number, edge in enumerate(instance.edges, 1):
        if is_bad(number, edge):
            bad_instance(words.format(number))


def judge_streets(instance):
    vertices, required, capacity = instance.vertices, instance.required, instance.capacity
    judge_edges(instance, lambda _, edge: not (1 <= edge.u <= vertices and 1 <= edge.v <= vertices), "edge {} has an end out of range")
    judge_edges(instance, lambda _, edge: edge.u == edge.v, "edge {} is a loop")
    judge_edges(instance, lambda _, edge: edge.cost > 1_000_000, "edge {} has too large a cost")
    if not 1 <= capacity <= 30_000:
        bad_instance(f"capacity {capacity} is out of range")
    judge_edges(instance, lambda number, edge: number <= required and edge.demand == 0, "required edge {} has demand 0")
    judge_edges(instance, lambda _, edge: edge.demand > capacity, "edge {} has a demand above the capacity")
    if not 1 <= instance.depot <= vertices:
        bad_instance(f"depot {instance.depot} is out of range")
    states = 2 * required * (capacity + 1)
    if states > 24_000_000:
        bad_instance(f"{states} states are too many")
    reached = reached_from(instance)
    judge_edges(instance, lambda number, edge: number <= required and edge.u not in reached, "edge {} cannot be reached")
    judge_edges(instance, lambda _, edge: edge.service > 1_000_000, "edge {} has too large a service cost")


def reached_from(instance):
    """The vertices to which streets lead from the depot."""
    reached, grown = set(), {instance.depot}
    while grown != reached:
        reached = grown
        grown = reached.union(*({edge.u, edge.v} for edge in instance.edges if edge.u in reached or edge.v in reached))
    return reached


# ---- The text of a certificate ----

Certificate = namedtuple("Certificate", "counts cost bound tours shores sets nodes")
PriceSet = namedtuple("PriceSet", "denominator prices weights groups")  # weights are pairs of a shore and a weight, groups of a weight and a list of edges


class Reader:
    """The lines of a certificate, one after another."""

    def __init__(self, data):
        *self.lines, self.rest = data.split(b"\n")
        self.number = 0

    def take(self, shape):
        """The words of the next line. The shape is a pattern in which NAT, INT and STEP stand for what they are."""
        self.number += 1
        if self.number > len(self.lines):
            raise Answer(5, f"bad certificate: ends before line {self.number} is complete")
        shape = shape.replace("STEP", "[-+<>]NAT").replace("INT", "(NAT|-[1-9][0-9]*)").replace("NAT", "(0|[1-9][0-9]*)")
        line = self.lines[self.number - 1]
        self.agree(re.fullmatch(shape.encode(), line))
        return line.decode().split(" ")

    def agree(self, holds):
        if not holds:
            raise Answer(5, f"bad certificate: line {self.number} cannot be read")

    def within(self, number, low, high):
        if not low <= number <= high:
            raise Answer(5, f"bad certificate: line {self.number} passes a limit")

    def number_of(self, name, low, high):
        """The number of a line that has a name and a number."""
        number = int(self.take(f"{name} NAT")[1])
        self.within(number, low, high)
        return number

    def finish(self):
        if self.number < len(self.lines) or self.rest:
            self.number += 1
            self.agree(False)


def read_certificate(data):
    reader = Reader(data)
    version = reader.take("carp-certificate (1|2|4)")[1]
    counts = read_counts(reader) if version != "1" else None
    cost = reader.number_of("cost", 0, 10**18 - 1)
    bound = reader.number_of("bound", 0, 10**18 - 1)
    tours = read_tours(reader)
    shores = read_shores(reader)
    sets = read_sets(reader, len(shores), version == "4")
    nodes = read_nodes(reader, len(shores), len(sets))
    reader.take("end")
    reader.finish()
    return Certificate(counts, cost, bound, tours, shores, sets, nodes)


def read_counts(reader):
    counts = [int(word) for word in reader.take("instance NAT NAT NAT NAT NAT")[1:]]
    ranges = [(1, 1_000), (0, 4_000), (0, 600), (1, 30_000), (0, 18_000_000)]
    for count, (low, high) in zip(counts, ranges):
        reader.within(count, low, high)
    return counts


def read_tours(reader):
    """For each tour its steps, which are pairs of a byte and an edge."""
    tours, stated = [], 0
    for _ in range(reader.number_of("tours", 0, 100_000)):
        words = reader.take("tour NAT( STEP)*")
        steps = [(word[0], int(word[1:])) for word in words[2:]]
        stated += int(words[1])
        reader.within(stated, 0, 2_000_000)
        for _, edge in steps:
            reader.within(edge, 1, 4_000)
        reader.agree(len(steps) == int(words[1]))
        tours.append(steps)
    return tours


def rising(numbers):
    return all(a < b for a, b in zip(numbers, numbers[1:]))


def read_shores(reader):
    shores = []
    for _ in range(reader.number_of("shores", 0, 2_000)):
        count, *vertices = [int(word) for word in reader.take("shore NAT( NAT)*")[1:]]
        reader.within(count, 1, 999)
        for vertex in vertices:
            reader.within(vertex, 1, 1_000)
        reader.agree(len(vertices) == count and rising(vertices) and vertices not in shores)
        shores.append(vertices)
    return shores


def read_sets(reader, shores, grouped):
    sets, count = [], reader.number_of("sets", 0, 256)
    for _ in range(count):
        denominator, prices = read_prices(reader)
        weights = read_weights(reader, shores)
        sets.append(PriceSet(denominator, prices, weights, read_groups(reader) if grouped else []))
    reader.agree(not grouped or any(prices.groups for prices in sets))  # the last line is that of the last set, or that of their number
    return sets


def read_prices(reader):
    denominator, count, *prices = [int(word) for word in reader.take("prices NAT NAT( INT)*")[1:]]
    reader.within(denominator, 1, 1_000_000)
    reader.within(count, 0, 600)
    for price in prices:
        reader.within(price, -10**15, 10**15)
    reader.agree(len(prices) == count)
    return denominator, prices


def read_weights(reader, shores):
    count, *numbers = [int(word) for word in reader.take("weights NAT( NAT INT)*")[1:]]
    weighted, weights = numbers[0::2], numbers[1::2]
    reader.within(count, 0, shores)
    for shore, weight in zip(weighted, weights):
        reader.within(shore, 1, shores)
        reader.within(weight, -10**15, 10**15)
    reader.agree(len(weights) == count and rising(weighted) and 0 not in weights)
    return list(zip(weighted, weights))


def read_groups(reader):
    """The groups of a set, each a weight and a list of edges."""
    count, *numbers = [int(word) for word in reader.take("bonds NAT( INT)*")[1:]]
    groups = split_groups(reader, numbers)
    reader.within(count, 0, 2_000)
    for weight, sizes, edges in groups:
        reader.within(weight, -10**15, 10**15)
        for size in sizes:
            reader.within(size, 2, 600)
        for edge in edges:
            reader.within(edge, 1, 600)
    reader.within(sum(sum(sizes) for _, sizes, _ in groups), 0, 60_000)
    reader.agree(len(groups) == count)
    for weight, sizes, edges in groups:
        reader.agree(sizes == [len(edges)] and rising(edges) and weight != 0 and (weight > 0 or len(edges) == 2))
    return [(weight, edges) for weight, _, edges in groups]


def split_groups(reader, numbers):
    """What stands of each group: its weight, a list of its size, and its edges. The last group may lack its size or edges."""
    groups, at = [], 0
    while at < len(numbers):
        sizes = numbers[at + 1:at + 2]
        end = at + 2 + sum(sizes)
        edges = numbers[at + 2:end] if sizes and sizes[0] >= 0 else []
        reader.agree(min(sizes + edges, default=0) >= 0)  # only a weight is an INT, and these are NATs
        groups.append((numbers[at], sizes, edges))
        at = end
    return groups


def read_nodes(reader, shores, sets):
    """The nodes, each a list of its kind and its numbers."""
    count = reader.number_of("nodes", 1, 2_097_153)
    nodes, missing = [], 1  # so many nodes are missing until the tree is whole
    ranges = {"pair": [(1, 600), (1, 600)], "cut": [(1, shores), (0, 1_000_000)], "price": [(1, sets)]}
    for place in range(1, count + 1):
        kind, *numbers = reader.take("pair NAT NAT|cut NAT NAT|price NAT|void|fixed")
        numbers = [int(word) for word in numbers]
        for number, (low, high) in zip(numbers, ranges.get(kind, [])):
            reader.within(number, low, high)
        reader.agree(kind != "pair" or numbers[0] < numbers[1])
        missing += 1 if kind in ("pair", "cut") else -1
        reader.agree((missing == 0) == (place == count))
        nodes.append([kind, *numbers])
    return nodes
