"""Solves instances by one turn, and prints their bounds beside the linear program over all shores and relaxed tours.

usage: bounds.py FLOORS FOLDER WORK [NAME ..]
"""
import csv
import os
import re
import subprocess
import sys

from solving import at_the_limits, print_row, solved


def floor(program, path):
    """The best floor, rounded up."""
    value, unit = map(int, subprocess.run([program, path], capture_output=True, text=True, check=True).stdout.split())
    return -(-value // unit)


def services(path):
    """What serving all required edges costs: those of the first list, each at its cost, or at its service cost where it has one."""
    total = 0
    required = False
    with open(path) as file:
        for line in file:
            key = line.strip().upper()
            if key.startswith("LISTA_ARISTAS"):
                required = key.startswith("LISTA_ARISTAS_REQ")
            edge = re.match(r"\s*\(.*\)\s*coste\s+(\d+)(?:\s+demanda\s+\d+)?(?:\s+servicio\s+(\d+))?", line, re.IGNORECASE)
            if edge and required:
                total += int(edge[2] or edge[1])
    return total


def costs_of(found):
    """Cost, gap, seconds and memory of a run."""
    return found.cost, f"{found.percent:.2f}", f"{found.seconds:.2f}", f"{found.memory:.0f}"


def main(floors, folder, work, names):
    with open(os.path.join(folder, "lp.csv")) as file:
        programs = {row["name"]: float(row["lp"]) for row in csv.DictReader(file)}
    reached = []
    columns = ("instance", "services", "floors", "bound", "program", "reached_percent", "cost", "gap_percent", "seconds", "memory_mb")
    print_row(*columns)
    for name in names or programs:
        path = os.path.join(folder, name + ".dat")
        found = solved(path, os.path.join(work, "cert"), 1)
        base, lp = services(path), programs[name]
        percent = 100 * (found.bound - base) / (lp - base) if lp > base else 100
        reached.append(percent)
        way = (f"{lp:.2f}", f"{percent:.1f}")
        print_row(name, base, floor(floors, path), found.bound, *way, *costs_of(found))
    for name, path in at_the_limits(work):
        found = solved(path, os.path.join(work, "cert"), 1)
        print_row(name, services(path), floor(floors, path), found.bound, "", "", *costs_of(found))
    print(f"# reached, mean of {len(reached)}: {sum(reached) / len(reached):.1f} %, least: {min(reached):.1f} %")


main(sys.argv[1], sys.argv[2], sys.argv[3], sys.argv[4:])
