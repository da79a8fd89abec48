"""Changes certificates in many ways, and makes trees and prices by hand."""
import check
from check import Branch
from mutated_groups import change_groups, draw_group, draw_groups, draw_yes_weights, scaled
from mutated_texts import replaced
from reading import PriceSet

# ---- Certificates ----


def text_of(certificate):
    counts, cost, bound, tours, shores, sets, nodes = certificate
    grouped = any(prices.groups for prices in sets)  # without counts the text is then of no version
    out = [f"carp-certificate {4 if grouped else 1 if counts is None else 2}"]
    out += [] if counts is None else ["instance " + " ".join(map(str, counts))]
    out += [f"cost {cost}", f"bound {bound}", f"tours {len(tours)}"]
    out += [" ".join(["tour", str(len(tour)), *(f"{byte}{edge}" for byte, edge in tour)]) for tour in tours]
    out.append(f"shores {len(shores)}")
    out += [" ".join(map(str, ["shore", len(shore), *shore])) for shore in shores]
    out.append(f"sets {len(sets)}")
    for prices in sets:
        out.append(" ".join(map(str, ["prices", prices.denominator, len(prices.prices), *prices.prices])))
        out.append(" ".join(map(str, ["weights", len(prices.weights), *sum(map(list, prices.weights), [])])))
        if grouped:
            groups = [number for weight, edges in prices.groups for number in [weight, len(edges), *edges]]
            out.append(" ".join(map(str, ["bonds", len(prices.groups), *groups])))
    out.append(f"nodes {len(nodes)}")
    out += [" ".join(map(str, node)) for node in nodes]
    return "\n".join(out + ["end", ""]).encode()


def without_counts(certificate):
    """The certificate in version 1, and so without groups."""
    return certificate._replace(counts=None, sets=[prices._replace(groups=[]) for prices in certificate.sets])


def counts_of(instance):
    return [instance.vertices, len(instance.edges), instance.required, instance.capacity, sum(edge.demand for edge in instance.edges)]


def cost_of(instance, tours):
    steps = [step for tour in tours for step in tour if step[1] <= len(instance.edges)]
    return sum(instance.edges[edge - 1].service if byte in "+-" else instance.edges[edge - 1].cost for byte, edge in steps)


BACK = {"+": "-", "-": "+", ">": "<", "<": ">"}
DRIVE = {"+": ">", "-": "<", ">": "+", "<": "-"}


def change_step(rng, tour, edges):
    """The tour with a step changed, dropped or doubled, or a way there and back put in."""
    place = rng.randrange(len(tour) + 1)
    edge = rng.randint(1, edges + 1)
    kind = rng.randrange(6)
    if kind == 0 or place == len(tour):
        return tour[:place] + [(">", edge), ("<", edge)] + tour[place:]
    byte, old = tour[place]
    if kind == 1:
        return replaced(tour, place, (DRIVE[byte], old))
    if kind == 2:
        return replaced(tour, place, (BACK[byte], old))
    if kind == 3:
        return replaced(tour, place, (byte, edge))
    return tour[:place] + tour[place + 1:] if kind == 4 else tour[:place] + tour[place:place + 1] + tour[place:]


def change_tours(rng, instance, certificate):
    tours = list(certificate.tours)
    kind = rng.randrange(10)
    if kind == 0:
        rng.shuffle(tours)
    elif kind == 9:
        tours = [[(DRIVE[byte], edge) if byte in "<>" and rng.randrange(2) else (byte, edge) for byte, edge in tour] for tour in tours]
    elif kind == 1 or not tours:
        tours.insert(rng.randint(0, len(tours)), [])
    elif kind == 2:
        tours[:2] = [sum(tours[:2], [])]
    else:
        place = rng.randrange(len(tours))
        tour = tours[place]
        cut = rng.randint(0, len(tour))
        if kind == 3:
            tours[place:place + 1] = [tour[:cut], tour[cut:]]
        elif kind == 4:
            tours[place] = [(BACK[byte], edge) for byte, edge in reversed(tour)]
        elif kind == 5:
            tours[place] = tour[cut:] + tour[:cut]
        elif kind == 6:
            tours.pop(place) if rng.randrange(2) else tours.append(tour)
        else:
            tours[place] = change_step(rng, tour, len(instance.edges))
    return certificate._replace(tours=tours, cost=cost_of(instance, tours) if rng.randrange(4) else certificate.cost)


def draw_shore(rng, instance):
    others = [vertex for vertex in range(1, instance.vertices + 1) if vertex != instance.depot]
    return sorted(rng.sample(others, rng.randint(1, len(others)))) if others else [1]


def change_shores(rng, instance, certificate):
    shores = list(certificate.shores)
    kind = rng.randrange(4)
    if kind == 0 or not shores:
        shores.append(draw_shore(rng, instance))
    elif kind == 1:
        shores[rng.randrange(len(shores))] = draw_shore(rng, instance)
    else:
        place = rng.randrange(len(shores))
        more = rng.choice([instance.depot, instance.vertices + 1, rng.randint(1, instance.vertices)])
        shores[place] = sorted(set(shores[place]) ^ {more}) or [more]
    return certificate._replace(shores=shores)


def changed_prices(rng, certificate, prices):
    """The set with another price, weight or number, or with a weight more."""
    denominator, values, weights, groups = prices
    by = rng.choice([-1, 1, -1, 1, -denominator, denominator, rng.randint(-10, 10) * denominator, rng.choice([-1, 1]) * 10**rng.randint(2, 15)])
    kind = rng.randrange(7)
    if kind == 0 and values:
        place = rng.randrange(len(values))
        return prices._replace(prices=replaced(values, place, values[place] + by))
    if kind == 1:
        return prices._replace(prices=[value + by for value in values])
    if kind == 2 and weights:
        place = rng.randrange(len(weights))
        shore, weight = weights[place]
        return prices._replace(weights=replaced(weights, place, (shore, weight + by or -by)))
    if kind == 3:
        return prices._replace(denominator=max(1, denominator + by))
    if kind == 4:
        scale = rng.choice([1, 2, 3, 5, 1_000, 10**6, 10**9])
        values, weights = [value * scale for value in values], [(shore, weight * scale) for shore, weight in weights]
        return PriceSet(denominator * scale, values, weights, scaled(groups, scale))
    if kind == 5:
        return prices._replace(prices=values[:-1] if rng.randrange(2) else [*values, by])
    chosen = dict(weights)
    for shore in range(1, len(certificate.shores) + 1):
        if rng.randrange(2):
            chosen[shore] = by
    return prices._replace(weights=sorted(chosen.items()))


def change_sets(rng, instance, certificate):
    sets = list(certificate.sets)
    if not sets or rng.randrange(5) == 0:
        sets.insert(0, draw_prices(rng, instance, certificate.shores, certificate.sets))
        return certificate._replace(sets=sets)
    place = rng.randrange(len(sets))
    return certificate._replace(sets=replaced(sets, place, changed_prices(rng, certificate, sets[place])))


def draw_pair(rng, instance):
    most = instance.required + (rng.randrange(8) == 0)
    return ["pair", *sorted(rng.sample(range(1, most + 1), 2))] if most > 1 else ["pair", 1, 2]


def draw_cut(rng, certificate):
    shores = len(certificate.shores)
    return ["cut", rng.randint(1, shores), rng.choice([0, 1, 2, 3, 4, 5, 6, 999_999, 1_000_000])] if shores else ["void"]


def draw_leaf(rng, certificate):
    names = [["price", number] for number in range(1, len(certificate.sets) + 1)]
    return rng.choice(names + names + [["void"], ["fixed"]])


def change_tree(rng, instance, certificate):
    """Another leaf, pair or cut, or a tree grown at a leaf."""
    nodes = list(certificate.nodes)
    place = rng.randrange(len(nodes))
    inner = nodes[place][0] in ("pair", "cut")
    if inner and rng.randrange(2):
        nodes[place] = draw_pair(rng, instance) if rng.randrange(2) else draw_cut(rng, certificate)
    elif inner:
        number = 1 if rng.randrange(2) else 2
        nodes[place] = replaced(nodes[place], number, max(0, nodes[place][number] + rng.choice([-1, 1])))
    elif rng.randrange(2):
        nodes[place] = draw_leaf(rng, certificate)
    else:
        grown = draw_pair(rng, instance) if rng.randrange(2) else draw_cut(rng, certificate)
        nodes[place:place + 1] = [grown, nodes[place], nodes[place] if rng.randrange(2) else draw_leaf(rng, certificate)]
    return certificate._replace(nodes=nodes)


def change_head(rng, instance, certificate):
    kind = rng.randrange(5)
    if kind == 0:
        return certificate._replace(counts=counts_of(instance) if certificate.counts is None else None)
    if kind == 1:
        counts = counts_of(instance)
        place = rng.randrange(5)
        return certificate._replace(counts=replaced(counts, place, max(place in (0, 3), counts[place] + rng.choice([-1, 1]))))
    by = rng.choice([-1, 1, -1, 1, 10, 10**6])
    if kind == 2:
        return certificate._replace(cost=max(0, certificate.cost + by))
    return certificate._replace(bound=max(0, certificate.bound + by))


def mutated(rng, instance, certificate):
    changes = [change_tours, change_shores, change_sets, change_sets, change_groups, change_groups, change_tree, change_tree, change_head]
    if rng.randrange(5) == 0:
        changes = [rng.choice(changes)]  # of one sort, and more of them
    for _ in range(rng.choice([1, 1, 1, 2, 2, 3]) if len(changes) > 1 else rng.randint(2, 5)):
        change = rng.choice(changes)
        certificate = change(rng, instance, certificate)
    return tightened(rng, instance, certificate) if rng.randrange(3) == 0 else certificate


# ---- Trees and prices made by hand ----


def draw_prices(rng, instance, shores, sets):
    """Prices and weights from nothing, or those of a set of the certificate changed, made small enough that no tour earns more than it pays at the root."""
    named = [(number, rng.randint(1, 3)) for number in range(1, len(shores) + 1) if rng.randrange(2)]
    denominator = rng.choice([1, 1, 2, 3, 60])
    prices = PriceSet(denominator, [edge.service * denominator + rng.randint(-1, 5) for edge in instance.edges[:instance.required]], named, [])
    if sets and rng.randrange(3):
        prices = rng.choice(sets)
        if len(prices.prices) != instance.required or any(shore > len(shores) for shore, _ in prices.weights):
            return prices
    if rng.randrange(2):
        prices = prices._replace(weights=[(shore, -weight if rng.randrange(3) == 0 else weight) for shore, weight in prices.weights])
    prices = prices._replace(prices=[value + rng.randint(0, 2 * prices.denominator) for value in prices.prices])
    if rng.randrange(2):
        prices = prices._replace(groups=draw_groups(rng, instance, prices.denominator))
    prices = lowered(instance, shores, root(instance, shores), prices)
    if rng.randrange(10) == 0:
        prices = prices._replace(groups=prices.groups + [(-rng.randint(1, prices.denominator), draw_group(rng, instance)[:2])])
    if rng.randrange(6) == 0 and prices.prices:
        place = rng.randrange(instance.required)
        return prices._replace(prices=replaced(prices.prices, place, prices.prices[place] + 1))
    return prices


def raised(rng, instance, shores, branch, prices):
    """The set with prices raised as far as no tour of the branch earns more than it pays, and now and then one more."""
    values = list(prices.prices)
    table = check.distances(instance, check.deadhead_prices(instance, shores, prices))
    for place in rng.sample(range(len(values)), len(values)):
        edge = instance.edges[place]
        alone = prices.denominator * edge.service + table[instance.depot, edge.u] + table[edge.v, instance.depot]
        low, high = 0, max(0, alone - values[place])  # the tour of this edge alone pays at most so much more
        while low < high:
            middle = (low + high + 1) // 2
            more = prices._replace(prices=replaced(values, place, values[place] + middle))
            low, high = (middle, high) if check.least_tour(instance, shores, branch, more) == 0 else (low, middle - 1)
        values[place] += low
    if values and rng.randrange(4) == 0:
        values[rng.randrange(len(values))] += 1
    return prices._replace(prices=values)


def root(instance, shores):
    return Branch(set(), set(), {number: check.least_crossings(instance, shore) for number, shore in enumerate(shores, 1)}, {}, 0)


def lowered(instance, shores, branch, prices):
    """The set with weights that leave no price of a deadhead below 0, and prices such that the least tour of the branch is at 0 or more."""
    for _ in range(20):
        if min(check.deadhead_prices(instance, shores, prices), default=0) >= 0:
            break
        prices = prices._replace(weights=[(shore, weight - 1 or -1) for shore, weight in prices.weights if weight != 1])
    if min(check.deadhead_prices(instance, shores, prices), default=0) < 0:
        prices = prices._replace(weights=[])
    least = check.least_tour(instance, shores, branch, prices)
    return prices._replace(prices=[value + least for value in prices.prices])


def leaf_at(rng, instance, certificate, branch):
    """A leaf that is true at the branch as far as check.py knows, and now and then any."""
    if rng.randrange(40) == 0:
        return draw_leaf(rng, certificate)
    if check.is_void(branch):
        return ["void"]
    if certificate.sets and (rng.randrange(4) or check.has_open_pair(instance, branch)):
        return ["price", rng.randint(1, len(certificate.sets))]
    return ["fixed"]


def inner_at(rng, instance, certificate, branch):
    """A pair or a cut that is lean at the branch as far as check.py knows, and now and then any, or nothing."""
    if rng.randrange(60) == 0:
        return draw_pair(rng, instance) if rng.randrange(2) or not certificate.shores else draw_cut(rng, certificate)
    edges = range(1, instance.required + 1)
    settled = rng.randrange(30) == 0
    pairs = [["pair", a, b] for a in edges for b in range(a + 1, instance.required + 1) if check.is_open(instance, branch, a, b) != settled]
    cuts = []
    if branch.cuts < 4 or rng.randrange(8) == 0:
        for shore in branch.lower:
            low = branch.lower[shore]
            cuts += [["cut", shore, k] for k in range(low, branch.upper.get(shore, low + 4))]
    chosen = [rng.choice(kind) for kind in (pairs, pairs, cuts) if kind]
    return rng.choice(chosen) if chosen else None


def children_of(branch, node):
    """The branches below an inner node, whether or not it is lean."""
    kind, first, second = node
    if kind == "cut":
        return check.branches_of_cut(branch, first, second)
    return [branch._replace(no=branch.no | {(first, second)}), branch._replace(yes=branch.yes | {(first, second)})]


def branches_of(instance, certificate):
    """The branch of each node, in the order of the nodes."""
    branches, waiting = [], [root(instance, certificate.shores)]
    for node in certificate.nodes:
        branches.append(waiting.pop())
        if node[0] in ("pair", "cut"):
            waiting += children_of(branches[-1], node)
    return branches


def grown_tree(rng, instance, certificate, deep):
    """A tree from the root, of lean nodes for the most part. Below others stand any leaves."""
    nodes, branches = [], [(root(instance, certificate.shores), 0)]
    while branches:
        branch, depth = branches.pop()
        if branch is None:
            nodes.append(draw_leaf(rng, certificate))
            continue
        node = inner_at(rng, instance, certificate, branch)
        void = check.is_void(branch) and rng.randrange(8)
        if node is None or void or depth > deep or len(nodes) > 400 or rng.randrange(10) == 0:
            nodes.append(leaf_at(rng, instance, certificate, branch))
            continue
        nodes.append(node)
        lean = node[0] == "cut" or node[2] <= instance.required and check.is_open(instance, branch, *node[1:])
        branches += [(child if lean else None, depth + 1) for child in children_of(branch, node)]
    return nodes


def made_by_hand(rng, instance, certificate):
    """The plan of the certificate, and all else anew."""
    shores = []
    for _ in range(rng.randint(0, 3)):
        shore = draw_shore(rng, instance)
        if shore not in shores:
            shores.append(shore)
    sets = []
    for _ in range(rng.randint(0, 3)):
        sets.append(draw_prices(rng, instance, shores, certificate.sets))
    fitting = [prices for prices in sets if len(prices.prices) == instance.required and all(shore <= len(shores) for shore, _ in prices.weights)]
    certificate = certificate._replace(shores=shores, sets=fitting, bound=0)
    certificate = certificate._replace(nodes=grown_tree(rng, instance, certificate, rng.choice([1, 2, 4, 8, 30])))
    if rng.randrange(2):
        certificate = with_raised(rng, instance, certificate)
    if rng.randrange(4) == 0:
        certificate = mutated(rng, instance, certificate)
    return tightened(rng, instance, certificate) if rng.randrange(4) else certificate


def with_groups(rng, instance, certificate):
    """The certificate with weights on groups in its sets, and the bound that it shows with them. A weight only adds to what tours pay."""
    sets = [prices._replace(groups=prices.groups + draw_groups(rng, instance, prices.denominator)) for prices in certificate.sets]
    sets = [prices if rng.randrange(3) else old for prices, old in zip(sets, certificate.sets)]
    return tightened(rng, instance, certificate._replace(sets=sets))


def with_raised(rng, instance, certificate):
    """The certificate, in which one price leaf names a set of its own."""
    places = [place for place, node in enumerate(certificate.nodes) if node[0] == "price"]
    if not places or not certificate.sets or not has_known_pairs(instance, certificate):
        return certificate
    return with_own_set(rng, instance, certificate, rng.choice(places), rng.choice(certificate.sets))


def has_known_pairs(instance, certificate):
    return all(node[0] != "pair" or node[2] <= instance.required for node in certificate.nodes)


def with_own_set(rng, instance, certificate, place, prices):
    """The certificate, in which the price leaf at a place names a set of its own, perhaps with yes weights, raised as far as its branch lets it."""
    branch = branches_of(instance, certificate)[place]
    if rng.randrange(3):
        more = draw_yes_weights(rng, branch, prices.denominator)
        prices = lowered(instance, certificate.shores, branch, prices._replace(groups=prices.groups + more))
    own = raised(rng, instance, certificate.shores, branch, prices)
    nodes = replaced(certificate.nodes, place, ["price", len(certificate.sets) + 1])
    return certificate._replace(sets=[*certificate.sets, own], nodes=nodes)


def parted(rng, instance, certificate):
    """The plan of the certificate, a small tree of pairs whose price leaves name sets of their own, and the bound that it shows."""
    first = draw_prices(rng, instance, [], [])
    certificate = certificate._replace(shores=[], sets=[first], bound=0)
    certificate = certificate._replace(nodes=grown_tree(rng, instance, certificate, rng.choice([0, 0, 1])))
    if has_known_pairs(instance, certificate):
        for place, node in enumerate(certificate.nodes):
            if node[0] == "price":
                certificate = with_own_set(rng, instance, certificate, place, first)
    return tightened(rng, instance, certificate)


def tightened(rng, instance, certificate):
    """The certificate with the greatest bound that its leaves show, or one more."""
    low, high = 0, max(certificate.cost, 1) + 2
    while low < high:
        middle = (low + high + 1) // 2
        try:
            check.judge_tree(instance, certificate._replace(bound=middle))
            low = middle
        except check.Answer as answer:
            if "not above" not in answer.lines[0]:
                return certificate
            high = middle - 1
        except LookupError:  # a shore, an edge or a set that is not there
            return certificate
    return certificate._replace(bound=low + (rng.randrange(4) == 0))
