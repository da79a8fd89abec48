#!/usr/bin/env python3
"""Compares what carp and a plain program wrote, and prints a row of bench/results/measured.csv.

usage: row.py KIND NAME OURS PLAIN OUR_CLOCK PLAIN_CLOCK, where KIND is solve, read, certificate, flow, pricing, branch, cuts or matching, OURS and PLAIN
are the files of what was written, and the clocks are what bench/plain/clock.cpp prints. The scripts of bench/ call it.
"""
import datetime
import platform
import sys

from solving import print_row

COMPARED = {"solve": ["cost", "bound"], "read": ["vertices", "edges", "demand"], "flow": ["value"], "pricing": ["value"], "branch": ["value"], "certificate": ["nodes", "bytes"], "cuts": ["value"], "matching": ["cost"]}


def words_of(path):
    with open(path, encoding="ascii") as file:
        return [line.split() for line in file]


def facts_of_report(path):
    """The numbers of the first three lines of a report, by their names."""
    lines = words_of(path)
    if len(lines) < 3 or lines[0][:1] != ["instance"]:
        sys.exit("bench: carp wrote no report")
    named = lines[0][1:] + lines[1] + lines[2]
    return dict(zip(named[::2], named[1::2]))


def machine():
    try:
        with open("/proc/cpuinfo", encoding="utf-8") as file:
            for line in file:
                if line.startswith("model name"):
                    return line.split(":", 1)[1].strip()
    except OSError:
        pass
    return platform.machine()


def main():
    kind, name, ours, plain, our_clock, plain_clock = sys.argv[1:]
    report = dict(words_of(ours)) if kind not in ("solve", "read") else facts_of_report(ours)
    facts = dict(words_of(plain))
    for fact in COMPARED[kind]:
        if report.get(fact) != facts.get(fact):
            sys.exit(f"bench: {name}: {fact} is {report.get(fact)} by carp and {facts.get(fact)} by the plain program")

    our_seconds, our_peak = our_clock.split()
    plain_seconds = plain_clock.split()[0]
    ratio = float(our_seconds) / float(plain_seconds)
    memory = int(our_peak) * 1024 / 1e6
    cells = [f"{float(our_seconds):.4f}", f"{float(plain_seconds):.4f}", f"{ratio:.2f}", f"{memory:.1f}"]
    print_row(name, *cells, machine(), datetime.date.today().isoformat())


if __name__ == "__main__":
    main()
