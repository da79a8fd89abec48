#!/usr/bin/env python3
"""Writes an instance and a certificate of version 4 at a limit of its groups, or beyond, and prints what `carp check FILE CERT` says of them.

usage: make_groups.py KIND FILE CERT

| kind | what | answer |
|---|---|---|
| sets | 256 sets of 60,000 edges in groups each, all of weight 10^15, where no tour has a bond and no group has room | accepted |
| rooms | the same, where the groups have room, so that the value passes 64 bits | the leaf has a low value |
| pairs | 2,000 groups of one pair, all of weight 10^15 | the leaf has a low value |
| yes | 2,000 yes weights of 10^15 on one pair that the branch says yes to | a tour earns more than it pays |
| no | the same at the root | the pair is needed |
| one | a group of one edge | a limit is passed |
| many | 2,001 groups | a limit is passed |
| edges | groups of 60,001 edges | a limit is passed |
"""
import sys

HUGE = 10**15


def instance_text(demands, capacity):
    """Streets of cost 1 side by side, all required."""
    out = ["VERTICES : 2", f"ARISTAS_REQ : {len(demands)}", f"CAPACIDAD : {capacity}", "LISTA_ARISTAS_REQ :"]
    return "\n".join([*out, *(f"( 1, 2) coste 1 demanda {demand}" for demand in demands), "DEPOSITO : 1", ""])


def groups_line(groups):
    """The line of groups, each a weight and its edges."""
    return " ".join(["bonds", str(len(groups)), *(" ".join(map(str, [weight, len(edges), *edges])) for weight, edges in groups)])


def certificate_text(demands, capacity, tours, shores, sets, nodes):
    """A certificate whose bound is its cost: one for each step. A set is its lines of prices, weights and groups."""
    cost = sum(len(tour.split()) for tour in tours)
    out = ["carp-certificate 4", f"instance 2 {len(demands)} {len(demands)} {capacity} {sum(demands)}", f"cost {cost}", f"bound {cost}"]
    out += [f"tours {len(tours)}", *(f"tour {len(tour.split())} {tour}" for tour in tours), f"shores {len(shores)}", *shores]
    out += [f"sets {len(sets)}", *(line for lines in sets for line in lines), f"nodes {len(nodes)}", *nodes, "end", ""]
    return "\n".join(out)


def many_sets(capacity):
    """600 streets of demand 1, and 256 sets of 100 groups of all of them."""
    demands, edges = [1] * 600, range(1, 601)
    alone = capacity == 1
    tours = [f"+{edge} <{edge}" for edge in edges] if alone else [f"+{edge} -{edge + 1}" for edge in edges[::2]]
    lines = ["prices 1 600" + " 1" * 600, "weights 1 1 1" if alone else "weights 0", groups_line([(HUGE, edges)] * 100)]
    text = certificate_text(demands, capacity, tours, ["shore 1 2"] if alone else [], [lines] * 256, ["price 256"])
    return instance_text(demands, capacity), text


def four_streets(groups, nodes):
    """The streets of the certificate of version 4 in docs/FORMATS.md, each at a price of 1, and these groups."""
    demands = [2, 2, 2, 4]
    lines = ["prices 1 4 1 1 1 1", "weights 0", groups_line(groups)]
    return instance_text(demands, 5), certificate_text(demands, 5, ["+1 -2", "+3 <3", "+4 <4"], [], [lines], nodes)


LEAF, PAIR = ["price 1"], ["pair 1 2", "price 1", "price 1"]
PASSED = "bad certificate: line 13 passes a limit"
KINDS = {
    # Each tour has one service and pays 1 and a deadhead of 1 - 1. The room is 600 - 600, and 600 deadheads are needed over the shore.
    "sets": lambda: (*many_sets(1), "accepted\ncost 1200\nbound 1200"),
    # The room is 600 - 300: 600 - 100 * 300 * 10^15.
    "rooms": lambda: (*many_sets(2), "rejected: node 1 has value -29999999999999999400, not above 599"),
    # The room is 2 - 1: 4 - 2000 * 10^15.
    "pairs": lambda: (*four_streets([(HUGE, [1, 2])] * 2_000, LEAF), "rejected: node 1 has value -1999999999999999996, not above 5"),
    # The tour of both streets pays 2, earns 2 and gains 2000 * 10^15.
    "yes": lambda: (*four_streets([(-HUGE, [1, 2])] * 2_000, PAIR), "rejected: set 1 at node 2 has a tour at -2000000000000000000"),
    "no": lambda: (*four_streets([(-HUGE, [1, 2])] * 2_000, LEAF), "rejected: set 1 at node 1 needs the pair 1 2"),
    "one": lambda: (*four_streets([(1, [1])], LEAF), PASSED),
    "many": lambda: (*four_streets([(1, [1, 2])] * 2_001, LEAF), PASSED),
    "edges": lambda: (*four_streets([(1, range(1, 601))] * 99 + [(1, range(1, 600)), (1, [1, 2])], LEAF), PASSED),
}


def main():
    if len(sys.argv) != 4 or sys.argv[1] not in KINDS:
        print(__doc__)
        return 3
    instance, certificate, answer = KINDS[sys.argv[1]]()
    for name, text in zip(sys.argv[2:], [instance, certificate]):
        with open(name, "w", encoding="ascii") as file:
            file.write(text)
    print(answer)
    return 0


if __name__ == "__main__":
    sys.exit(main())
