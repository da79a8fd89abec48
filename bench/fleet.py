"""Packs instances by a budget of turns, and prints a row for each of them, and one for each kind of made ones.

usage: fleet.py PROGRAM BENCH WORK TURNS
"""
import csv
import os
import subprocess
import sys

from solving import print_row

# kind, numbers of required edges, capacities, instances of each
MADE = [
    ("uniform", (50, 100, 200, 400, 600), (150, 100), 14),
    ("triplets", (60, 120, 249, 501), (1000,), 15),
]


def packed(program, turns, files):
    """For each file: groups, bound, turns, nodes, and microseconds."""
    lines = subprocess.run([program, turns, *files], check=True, capture_output=True, text=True).stdout.splitlines()
    return [tuple(map(int, line.split())) for line in lines]


def made(bench, work, kind, count, capacity, seeds):
    files = []
    for seed in range(1, seeds + 1):
        files.append(os.path.join(work, f"{kind}-{count}-{capacity}-{seed}.dat"))
        with open(files[-1], "w", encoding="ascii") as file:
            words = [kind, str(count), str(capacity), str(seed)]
            subprocess.run([sys.executable, os.path.join(bench, "make_packing.py"), *words], check=True, stdout=file)
    return files


def main(program, bench, work, turns):
    folder = os.path.join(bench, "instances")
    with open(os.path.join(folder, "best.csv"), encoding="ascii") as file:
        names = sorted(row["name"] + ".dat" for row in csv.DictReader(file))
    print_row("instance", "groups", "bound", "turns", "seconds")
    for name, row in zip(names, packed(program, turns, [os.path.join(folder, name) for name in names])):
        print_row(name[:-4], *row[:3], f"{row[4] / 1e6:.3f}")
    print_row("kind", "edges", "capacity", "instances", "shown", "sum_of_gaps", "longest_seconds")
    for kind, counts, capacities, seeds in MADE:
        for count in counts:
            for capacity in capacities:
                rows = packed(program, turns, made(bench, work, kind, count, capacity, seeds))
                shown = sum(row[0] == row[1] for row in rows)
                gap = sum(row[0] - row[1] for row in rows)
                print_row(kind, count, capacity, len(rows), shown, gap, f"{max(row[4] for row in rows) / 1e6:.3f}")


main(*sys.argv[1:])
