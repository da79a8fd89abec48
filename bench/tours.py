"""Solves instances by one turn, and prints what their tours cost beside the best costs known.

usage: tours.py FOLDER WORK [NAME ..]
"""
import csv
import os
import sys

from solving import at_the_limits, print_row, solved


def main(folder, work, names):
    with open(os.path.join(folder, "best.csv")) as file:
        best = {row["name"]: int(row["cost"]) for row in csv.DictReader(file)}
    over = []
    print_row("instance", "cost", "best_known", "above_percent", "seconds")
    for name in names or best:
        found = solved(os.path.join(folder, name + ".dat"), os.path.join(work, "cert"), 1)
        percent = 100 * (found.cost - best[name]) / best[name]
        over.append(percent)
        print_row(name, found.cost, best[name], f"{percent:.2f}", f"{found.seconds:.2f}")
    for name, path in at_the_limits(work):
        found = solved(path, os.path.join(work, "cert"), 1)
        print_row(name, found.cost, "", "", f"{found.seconds:.2f}")
    print(f"# above, mean of {len(over)}: {sum(over) / len(over):.2f} %, greatest: {max(over):.2f} %")


main(sys.argv[1], sys.argv[2], sys.argv[3:])
