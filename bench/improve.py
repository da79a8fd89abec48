"""Improves certificates step by step, and edited ones beside solving anew, and prints what was found.

usage: improve.py FOLDER WORK [NAME ..]
"""
import csv
import os
import random
import sys

from solving import carp_run, improved, print_row, solved

SEEDS = range(2, 10)
TURNS = 8
TOWN = "town12"
EDITS = 20


def step_by_step(folder, work, name, best):
    """Prints the cost above the best one known, and the gap, after one turn and after each step from there."""
    path = os.path.join(folder, name + ".dat")
    old, new = os.path.join(work, "old.cert"), os.path.join(work, "new.cert")
    found = solved(path, old, 1)
    seconds = found.seconds
    print_row(name, 1, found.cost - best, f"{found.percent:.2f}", "")
    for seed in SEEDS:
        found = improved(path, old, new, TURNS, seed)
        seconds += found.seconds
        os.replace(new, old)
        print_row(name, seed, found.cost - best, f"{found.percent:.2f}", f"{seconds:.1f}" if seed == SEEDS[-1] else "")
    return found.cost, best, found.percent


def edit_text(draws, edges, required):
    """Some lines that add to costs, service costs and demands of drawn edges, and close one that is not required."""
    lines = [f"cost {draws.randint(1, edges)} {draws.randint(1, 40)}" for _ in range(3)]
    lines += [f"service {draws.randint(1, required)} {draws.randint(1, 10)}" for _ in range(2)]
    lines.append(f"demand {draws.randint(1, required)} 1")
    lines.append(f"close {draws.randint(required + 1, edges)}")
    return "".join(line + "\n" for line in lines)


def counts(path):
    """The numbers of required edges and of all edges of a file."""
    with open(path) as file:
        numbers = {line.split()[0]: int(line.split()[-1]) for line in file if line.startswith("ARISTAS")}
    return numbers["ARISTAS_REQ"], numbers["ARISTAS_REQ"] + numbers["ARISTAS_NOREQ"]


def edited(folder, work):
    """Prints what comes of edits of a town, carried over and improved, beside solving the edited town anew with as many turns."""
    names = ("old.cert", "edits", "town.dat", "carried.cert", "new.cert", "anew.cert")
    old, edits, town, carried, new, anew = (os.path.join(work, name) for name in names)
    path = os.path.join(folder, TOWN + ".dat")
    solved(path, old)
    required, edges = counts(path)
    draws = random.Random(1)
    print_row("edits", "cost", "bound", "seconds", "cost_anew", "bound_anew", "seconds_anew")
    for number in range(1, EDITS + 1):
        while True:
            with open(edits, "w") as file:
                file.write(edit_text(draws, edges, required))
            if carp_run.run("edit", path, old, edits, town, carried).code == 0:
                break
        better = improved(town, carried, new, TURNS)
        again = solved(town, anew, TURNS)
        print_row(number, better.cost, better.bound, f"{better.seconds:.2f}", again.cost, again.bound, f"{again.seconds:.2f}")


def main(folder, work, names):
    with open(os.path.join(folder, "best.csv")) as file:
        best = {row["name"]: int(row["cost"]) for row in csv.DictReader(file)}
    print_row("instance", "seed", "above_best", "gap_percent", "seconds_of_all")
    ends = [step_by_step(folder, work, name, best[name]) for name in names or best]
    over = sum(100 * (cost - least) / least for cost, least, _ in ends) / len(ends)
    print(f"# at the end, mean of {len(ends)}: {over:.4f} % above the best, gap {sum(gap for _, _, gap in ends) / len(ends):.2f} %")
    if not names:
        edited(folder, work)


main(sys.argv[1], sys.argv[2], sys.argv[3:])
