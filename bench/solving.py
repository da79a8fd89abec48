"""What the scripts share that start `carp`, which `carp_run` does: the program is the one that CARP names, and the rows that they print."""
import csv
import os
import sys

sys.path.insert(0, os.path.join(os.path.dirname(os.path.dirname(os.path.abspath(__file__))), "tools"))
import carp_run  # noqa: E402


def print_row(*cells):
    """Prints a row of a CSV file."""
    csv.writer(sys.stdout, lineterminator="\n").writerow(cells)
    sys.stdout.flush()


def at_the_limits(work):
    """The name and the path of each instance at the limits that the folder holds, by rising capacity."""
    for capacity in (1000, 19999):
        path = os.path.join(work, f"limits-{capacity}.dat")
        if os.path.exists(path):
            yield f"at the limits, capacity {capacity:,}", path


def reported(call, path, *words):
    """The report of a call of `carp_run` on an instance; a refusal ends the script."""
    try:
        return call(path, *words)
    except carp_run.Refusal as refusal:
        sys.exit(f"{path}: ended with {refusal.code}: {refusal}")


def solved(path, certificate, turns=None):
    """The report of `carp solve`."""
    return reported(carp_run.solve, path, certificate, turns)


def improved(path, old, new, turns=None, seed=None):
    """The report of `carp improve`."""
    return reported(carp_run.improve, path, old, new, turns, seed)
