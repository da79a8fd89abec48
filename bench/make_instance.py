#!/usr/bin/env python3
"""Prints a connected valid instance, always the same one for the same words.

usage: make_instance.py VERTICES EDGES REQUIRED CAPACITY SEED

A random tree joins all vertices, and random edges without loops follow, of which two may join the same vertices. Costs are from
0 to 1,000,000, one in twenty of them 0; demands from 1 to 100, or to the capacity where that is less. Every fourth required
edge or so has a service cost of its own. The required edges are any of them, and so is the depot.
"""
import random
import sys

MOST_VERTICES = 1_000
MOST_EDGES = 4_000
MOST_REQUIRED = 600
MOST_COST = 1_000_000
MOST_CAPACITY = 30_000
MOST_STATES = 24_000_000


def fault_of(vertices, edges, required, capacity):
    """Why there is no such instance, or None."""
    if not 1 <= vertices <= MOST_VERTICES:
        return "VERTICES is out of range"
    if not vertices - 1 <= edges <= MOST_EDGES or (vertices == 1 and edges > 0):
        return "EDGES is out of range, or cannot join the vertices"
    if not 0 <= required <= min(edges, MOST_REQUIRED):
        return "REQUIRED is out of range"
    if not 1 <= capacity <= MOST_CAPACITY:
        return "CAPACITY is out of range"
    if 2 * required * (capacity + 1) > MOST_STATES:
        return "2 * REQUIRED * (CAPACITY + 1) is too large"
    return None


def ends_of(rng, vertices, edges):
    """The ends of edges that join all vertices, in any order."""
    order = list(range(1, vertices + 1))
    rng.shuffle(order)
    ends = [(order[rng.randrange(i)], order[i]) for i in range(1, vertices)]
    while len(ends) < edges:
        u = rng.randint(1, vertices)
        v = rng.randint(1, vertices)
        if u != v:
            ends.append((u, v))
    rng.shuffle(ends)
    return ends


def cost_of(rng):
    return 0 if rng.randrange(20) == 0 else rng.randint(0, MOST_COST)


def make(vertices, edges, required, capacity, seed):
    """The lines of an instance: those before the lists, the required edges, the other edges, and the depot."""
    rng = random.Random(seed)
    served, others = [], []
    demands = services = 0
    for u, v in ends_of(rng, vertices, edges):
        cost = cost_of(rng)
        line = f"( {u}, {v}) coste {cost}"
        if len(served) == required:
            others.append(line)
            continue
        demand = rng.randint(1, min(100, capacity))
        service = cost_of(rng) if rng.randrange(4) == 0 else cost
        line += f" demanda {demand}"
        if service != cost:
            line += f" servicio {service}"
        served.append(line)
        demands += demand
        services += service
    head = [
        f"NOMBRE : made-{vertices}-{edges}-{required}-{capacity}-{seed}",
        "COMENTARIO : made by bench/make_instance.py",
        f"VERTICES : {vertices}",
        f"ARISTAS_REQ : {required}",
        f"ARISTAS_NOREQ : {edges - required}",
        f"VEHICULOS : {-(-demands // capacity)}",
        f"CAPACIDAD : {capacity}",
        "TIPO_COSTES_ARISTAS : EXPLICITOS",
        f"COSTE_TOTAL_REQ : {services}",
    ]
    return head, served, others, [f"DEPOSITO : {rng.randint(1, vertices)}"]


def main():
    try:
        vertices, edges, required, capacity, seed = map(int, sys.argv[1:])
    except ValueError:
        sys.exit("usage: make_instance.py VERTICES EDGES REQUIRED CAPACITY SEED")
    fault = fault_of(vertices, edges, required, capacity)
    if fault is not None:
        sys.exit(f"make_instance.py: {fault}")
    head, served, others, depot = make(vertices, edges, required, capacity, seed)
    lines = head + ["LISTA_ARISTAS_REQ :"] + served + ["LISTA_ARISTAS_NOREQ :"] + others + depot
    print("\n".join(lines))


if __name__ == "__main__":
    main()
