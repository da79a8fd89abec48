"""Draws small instances, and changes instances and texts of any kind in many ways."""
import re

from reading import Edge, Instance

# ---- Instances ----


def draw_instance(rng):
    vertices = rng.randint(2, 8)
    order = list(range(1, vertices + 1))
    rng.shuffle(order)
    ends = [(order[rng.randrange(i)], order[i]) for i in range(1, vertices)]
    ends += [tuple(rng.sample(order, 2)) for _ in range(rng.choice([0, 1, 1, 2, 4]))]
    rng.shuffle(ends)
    required = min(len(ends), rng.choice([0, 1, 2, 3, 3, 4, 4, 5, 6]))
    depot = rng.choice(order)
    if rng.randrange(8) == 0:  # a street that cannot be reached, and perhaps a vertex without streets
        ends.append((vertices + 1, vertices + 2))
        vertices += rng.choice([2, 3])
    capacity = rng.choice([1, 2, 3, 4, 5, 7, 10, 20, 30])
    least_demand = rng.choice([1, 1, 1, (capacity + 2) // 3, (capacity + 1) // 2])
    largest_demand = max(least_demand, rng.choice([capacity, capacity // 2, capacity // 5]))
    largest_cost = rng.choice([1, 10, 10, 10, 100, 1_000_000])
    edges = []
    for number, (u, v) in enumerate(ends):
        cost = rng.choice([0, 1, rng.randint(0, largest_cost), rng.randint(0, largest_cost), rng.randint(0, largest_cost)])
        service = cost if rng.randrange(4) or number >= required else rng.randint(0, largest_cost)
        demand = rng.randint(least_demand, largest_demand) if number < required else 0
        edges.append(Edge(u, v, cost, demand, service))
    return Instance(vertices, edges, required, capacity, depot)


def draw_far(rng):
    """An instance whose depot lies apart, with demands that fill vehicles badly, so that now and then a tree is needed."""
    vertices = rng.randint(5, 8)
    ends = [(rng.randint(2, vertex - 1), vertex) for vertex in range(3, vertices + 1)]
    ends += [tuple(rng.sample(range(2, vertices + 1), 2)) for _ in range(6 - len(ends))]
    capacity = rng.choice([5, 7, 10, 11, 20, 30])
    demands = rng.choice([[capacity // 2, capacity // 2 + 1], [capacity // 4 + 1, capacity // 3 + 1, capacity // 2 + 1], range(1, capacity + 1)])
    edges = [Edge(u, v, rng.randint(0, 10), rng.choice(demands), rng.randint(0, 10)) for u, v in ends]
    for _ in range(rng.choice([1, 1, 2])):
        cost = rng.randint(0, 30)
        edges.append(Edge(1, rng.randint(2, vertices), cost, 0, cost))
    return Instance(vertices, edges, 6, capacity, 1)


def text_of_instance(instance):
    """The file, in which no word depends on chance, so that an instance has one text."""
    edges, required = instance.edges, instance.required
    out = ["NOMBRE : mutant", f"VERTICES : {instance.vertices}", f"ARISTAS_REQ : {required}", f"ARISTAS_NOREQ : {len(edges) - required}"]
    out += ["VEHICULOS : 1", f"CAPACIDAD : {instance.capacity}", "LISTA_ARISTAS_REQ :"]
    for edge in edges[:required]:
        line = f"( {edge.u}, {edge.v}) coste {edge.cost} demanda {edge.demand}"
        out.append(line if edge.service == edge.cost else f"{line} servicio {edge.service}")
    out.append("LISTA_ARISTAS_NOREQ :")
    out += [f"( {edge.u}, {edge.v}) coste {edge.cost}" for edge in edges[required:]]
    return "\n".join(out + [f"DEPOSITO : {instance.depot}", ""]).encode()


def replaced(items, place, item):
    return [*items[:place], item, *items[place + 1:]]


def change_edge(rng, instance):
    if not instance.edges:
        return instance
    place = rng.randrange(len(instance.edges))
    edge = instance.edges[place]
    other = rng.randint(0, instance.vertices + 1)
    changes = [{"cost": edge.cost + 1}, {"cost": max(edge.cost - 1, 0)}, {"cost": 1_000_001}, {"u": other}, {"v": other}, {"u": edge.v}]
    if place < instance.required:
        demands = [0, edge.demand + 1, max(edge.demand - 1, 0), instance.capacity, instance.capacity + 1]
        changes += [{"service": edge.service + 1}, {"service": 1_000_001}] + [{"demand": demand} for demand in demands]
    return instance._replace(edges=replaced(instance.edges, place, edge._replace(**rng.choice(changes))))


def change_numbers(rng, instance):
    changes = [{"depot": depot} for depot in range(instance.vertices + 2)]
    changes += [{"vertices": instance.vertices + 1}, {"vertices": instance.vertices - 1}, {"vertices": 0}, {"vertices": 1_000}, {"vertices": 1_001}]
    changes += [{"capacity": capacity} for capacity in [0, instance.capacity + 1, max(instance.capacity - 1, 0), 30_000, 30_001]]
    return instance._replace(**rng.choice(changes))


def change_edges(rng, instance):
    """An edge dropped, doubled or exchanged with the next, or a required one that cannot be reached."""
    edges, required = instance.edges, instance.required
    kind = rng.randrange(4)
    if kind == 0 or not edges:
        far = Edge(instance.vertices + 1, instance.vertices + 2, 1, 1, 1)
        return instance._replace(vertices=instance.vertices + 2, edges=[far, *edges], required=required + 1)
    place = rng.randrange(len(edges))
    if kind == 1:
        return instance._replace(edges=edges[:place] + edges[place + 1:], required=required - (place < required))
    if kind == 2:
        return instance._replace(edges=edges[:place + 1] + edges[place:], required=required + (place < required))
    swapped = edges[:place] + edges[place:place + 2][::-1] + edges[place + 2:]
    return instance if place + 1 == required else instance._replace(edges=swapped)


def large_instance(rng, instance):
    """Beyond a limit of size, by copies of a street."""
    edge = Edge(1, 2, 1, 1, 1)
    if rng.randrange(3) == 0:
        return Instance(2, [edge] * 601, 601, 1, 1)
    if rng.randrange(2):
        return Instance(2, [edge._replace(demand=0)] * 4_001, 0, 1, 1)
    return Instance(2, [edge] * 400, 400, 30_000, 1)


ZEROS = [b"0", b"0000", b"0" * 16, b"0" * 17, b"0" * 18]


def layout(rng, text):
    """The same instance in another layout, or nearly so."""
    lines = text.split(b"\n")
    kind = rng.randrange(8)
    place = rng.randrange(len(lines))
    if kind == 0:
        return text.replace(b"\n", b"\r\n")
    if kind == 1:
        return text.lower() if rng.randrange(2) else text.replace(b" ", b"")
    if kind == 2:
        return text.replace(b" ", rng.choice([b"\t", b"  ", b"\x1a", b" \r", b"\x0b", b"\x00", b"\xa0"]))
    if kind == 3:
        return text.replace(b" :", rng.choice([b"", b":", b" ", b"::", b": ", b" =", b": :"]))
    if kind == 4:
        return text.replace(b"ARISTAS_NOREQ", rng.choice([b"ARISTAS_NO_REQ", b"aristas_noreq", b"LISTA_ARISTAS_NOREQ", b"ARISTAS_NOREQ2", b"XARISTAS_NOREQ"]))
    if kind == 5:
        added = [b"", b"# remark", b"COMENTARIO : ( 1, 2)", b"VERTICES_ : 3", b"\xff\x00", b"LISTA : 3", b"FIN", b" ( 1, 2) coste 3", b"(", b"VEHICULOS"]
        return b"\n".join([*lines[:place], rng.choice(added), *lines[place:]])
    if kind == 6:
        place = rng.choice([at for at, line in enumerate(lines) if line[:1] == b"("] or [place]) if rng.randrange(2) else place
        added = [b" ", b" 7", b"7", b" x", b"x", b"\t", b" demanda 0", b" demanda 00", b" demanda 1", b" demanda 0000000000000000000", b" servicio 3", b" servicio", b"."]
        return b"\n".join(replaced(lines, place, lines[place] + rng.choice(added)))
    return re.sub(rb"\d+", lambda found: rng.choice(ZEROS) + found[0] if rng.randrange(8) == 0 else found[0], text)


def change_key(rng, instance):
    """A key line dropped or doubled, perhaps with another number or in another place."""
    lines = text_of_instance(instance).split(b"\n")
    place = rng.choice([place for place, line in enumerate(lines) if line[:1].isalpha() and not line.startswith((b"NOMBRE", b"VEHICULOS"))])
    line = lines[place]
    kind = rng.randrange(6)
    if kind < 2:
        del lines[place]
        if kind == 1:
            lines.insert(rng.randint(0, len(lines)), line)
    elif kind == 2:
        lines.insert(rng.randint(0, len(lines)), rng.choice([line, line.lower(), line + b" 7"]))
    else:
        written = rng.choice([b"0", b"1", b"9" * 18, b"9" * 19, b"0" * 19, b"x", b"-1", b"", b"7x", b"7 x", b"601", b"4001"])
        lines.insert(place + rng.randrange(2), re.sub(rb"\d+", written, line))
        if rng.randrange(3):
            del lines[place + rng.randrange(2)]
    return b"\n".join(lines)


def mutated_instance(rng, instance):
    """The text of a changed instance."""
    changes = [change_edge, change_edge, change_numbers, change_edges, change_key, layout, mutated_text, large_instance]
    change = rng.choice(changes)
    if change is large_instance and rng.randrange(4):
        change = change_edge
    if change is change_key:
        return change_key(rng, instance)
    if change in (layout, mutated_text):
        return change(rng, text_of_instance(instance))
    return text_of_instance(change(rng, instance))


# ---- Mutations of any text ----

LARGE = [7, 100, 255, 600, 601, 999, 1_000, 1_001, 4_000, 4_001, 30_001, 100_001, 1_000_001, 2_097_154, 10**15, 10**15 + 1, 10**18, 2**63, 2**64, 10**40]


def change_number(rng, text):
    found = rng.choice(list(re.finditer(rb"-?\d+", text)) or [None])
    if found is None:
        return text
    number = int(found[0])
    written = rng.choice([str(number + 1), str(number - 1), str(number + 1), str(number - 1), "0", str(rng.choice(LARGE)), str(-number), str(10 * number), "0" + str(number), "-0", ""])
    return text[:found.start()] + written.encode() + text[found.end():]


# The limits of the numbers of a line, by its first word: of the first number, of the second, and of those behind.
LIMITS = {
    b"instance": [1_000, 4_000, 600, 30_000, 18_000_000], b"cost": [10**18 - 1], b"bound": [10**18 - 1], b"tours": [100_000], b"tour": [2_000_000, 4_000],
    b"shores": [2_000], b"shore": [999, 1_000], b"sets": [256], b"prices": [1_000_000, 600, 10**15], b"weights": [2_000, 2_000, 10**15],
    b"bonds": [2_000, 10**15, 600], b"nodes": [2_097_153], b"pair": [600], b"cut": [2_000, 1_000_000], b"price": [256],
}


def change_to_limits(rng, text):
    """Numbers of a line changed to a limit, or to one beyond."""
    lines = text.split(b"\n")
    place = rng.choice([place for place, line in enumerate(lines) if line.split(b" ")[0] in LIMITS] or [0])
    words = lines[place].split(b" ")
    limits = LIMITS.get(words[0], [600])
    for _ in range(rng.choice([1, 1, 2])):
        at = rng.randrange(1, max(2, min(len(words), 9)))
        limit = limits[min(at, len(limits)) - 1]
        number = rng.choice([limit, limit + 1, limit, limit + 1, -limit, -limit - 1, 0, rng.randint(1, 9)])
        sign = words[at][:1] if at < len(words) and words[at][:1] in b"+-<>" and words[0] == b"tour" else b""
        words[at:at + 1] = [sign + str(number).encode()]
    return b"\n".join(replaced(lines, place, b" ".join(words)))


def change_lines(rng, text):
    lines = text.split(b"\n")
    place = rng.randrange(len(lines))
    other = rng.randrange(len(lines))
    kind = rng.randrange(5)
    if kind == 0:
        del lines[place]
    elif kind == 1:
        lines.insert(place, lines[place])
    elif kind == 2:
        lines[place:place + 2] = lines[place:place + 2][::-1]
    elif kind == 3:
        lines.insert(place, lines[other])
    else:
        lines[place] = lines[other]
    return b"\n".join(lines)


def change_words(rng, text):
    lines = text.split(b"\n")
    place = rng.randrange(len(lines))
    words = lines[place].split(b" ")
    at = rng.randrange(len(words))
    kind = rng.randrange(4)
    if kind == 0:
        del words[at]
    elif kind == 1:
        words.insert(at, words[at])
    elif kind == 2:
        words[at:at + 2] = words[at:at + 2][::-1]
    else:
        words.insert(at, rng.choice([b"", b"0", b"1", b"-1", b"+1", b"x"]))
    return b"\n".join(replaced(lines, place, b" ".join(words)))


def change_bytes(rng, text):
    place = rng.randrange(len(text) + 1)
    kind = rng.randrange(6)
    byte = rng.choice([bytes([rng.randrange(256)]), rng.choice([b" ", b"\n", b"\r", b"\t", b"-", b"+", b"0", b"1", b"9", b"\x00"])])
    if kind == 0:
        return text[:place] + byte + text[place + 1:]
    if kind == 1:
        return text[:place] + byte + text[place:]
    if kind == 2:
        return text[:place] + text[place + 1:]
    if kind == 3:
        return text[:place]
    if kind == 4:
        return text[:len(text) - rng.randint(0, 12)]
    return text + rng.choice([b"\n", b" ", b"end", b"end\n", b"x", b"\r\n", b"\x00", b"0\n"])


def mutated_text(rng, text):
    for _ in range(rng.choice([1, 1, 1, 1, 2, 3])):
        text = rng.choice([change_number, change_number, change_number, change_to_limits, change_lines, change_words, change_bytes])(rng, text)
    return text
