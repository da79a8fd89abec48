"""Solves instances with a budget of turns, and prints what the search found.

usage: search.py FOLDER WORK TURNS [NAME ..]
"""
import csv
import os
import sys

from solving import print_row, solved


def held(certificate):
    """The numbers of price sets and of nodes of a certificate."""
    counts = {}
    with open(certificate, encoding="ascii") as file:
        for line in file:
            words = line.split()
            if words[0] in ("sets", "nodes"):
                counts[words[0]] = int(words[1])
    return counts["sets"], counts["nodes"]


def main(folder, work, turns, names):
    with open(os.path.join(folder, "best.csv")) as file:
        known = [row["name"] for row in csv.DictReader(file)]
    certificate = os.path.join(work, "cert")
    gaps = []
    print_row("instance", "cost", "bound", "gap_percent", "turns", "sets", "nodes", "seconds", "memory_mb")
    for name in names or known:
        found = solved(os.path.join(folder, name + ".dat"), certificate, int(turns))
        sets, nodes = held(certificate)
        gaps.append(found.percent)
        numbers = (found.turns, sets, nodes, f"{found.seconds:.2f}", f"{found.memory:.0f}")
        print_row(name, found.cost, found.bound, f"{found.percent:.2f}", *numbers)
    print(f"# gap, mean of {len(gaps)}: {sum(gaps) / len(gaps):.2f} %")


main(sys.argv[1], sys.argv[2], sys.argv[3], sys.argv[4:])
