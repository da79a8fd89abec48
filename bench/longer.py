"""Runs `tools/longer` on instances, beside one `carp solve` of many turns, and prints a row for each.

usage: longer.py FOLDER WORK MINUTES TURNS NAME ..
"""
import csv
import os
import subprocess
import sys
import time

from solving import carp_run, solved

TOOL = os.path.join(os.path.dirname(os.path.dirname(os.path.abspath(__file__))), "tools", "longer")


def row(name, what, bounds, seconds, processor):
    """Prints what was found."""
    print(f"| {name} | {what} | {bounds.cost} | {bounds.bound} | {bounds.percent:.2f} % | {seconds:.1f} s | {processor:.1f} s |", flush=True)


def never_worse(log):
    """Ends the script if a step has a higher cost or a lower bound than the one before it."""
    with open(log, encoding="utf-8") as file:
        steps = [(int(step["cost"]), int(step["bound"])) for step in csv.DictReader(file)]
    if any(new[0] > old[0] or new[1] < old[1] for old, new in zip(steps, steps[1:])):
        sys.exit(f"{log}: a step is worse than the one before it")


def gone_on(path, name, work, minutes, jobs):
    """Runs `tools/longer` from nothing."""
    certificate, log = (os.path.join(work, f"{name}.{jobs}.{ending}") for ending in ("cert", "csv"))
    begin = time.monotonic()
    words = [TOOL, path, certificate, "--minutes", minutes, "--jobs", str(jobs), "--log", log]
    run = subprocess.run(words, stdout=subprocess.PIPE, text=True)
    if run.returncode not in (0, 1) or not run.stdout:
        sys.exit(f"{path}: ended with {run.returncode}")
    seconds = time.monotonic() - begin
    never_worse(log)
    processor = next(float(line.split()[1]) for line in run.stdout.splitlines() if line.startswith("processor "))
    row(name, f"{jobs} job" + "s" * (jobs > 1), carp_run.check(path, certificate), seconds, processor)


def main(folder, work, minutes, turns, names):
    for name in names:
        path = os.path.join(folder, name + ".dat")
        for jobs in (1, 4):
            gone_on(path, name, work, minutes, jobs)
        begin = time.monotonic()
        found = solved(path, os.path.join(work, "cert"), int(turns))
        row(name, f"{turns} turns", found, time.monotonic() - begin, found.seconds)


main(sys.argv[1], sys.argv[2], sys.argv[3], sys.argv[4], sys.argv[5:])
