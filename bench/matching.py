"""Prints rows of bench/results/measured.csv: the least times of two programs, each line of theirs a size, a sum, and microseconds.

usage: matching.py OURS PLAIN MACHINE [WHAT], where WHAT is what has the size: points matched, if it is left out
"""
import datetime
import sys

from solving import print_row


def least(name):
    sums, times = {}, {}
    for line in open(name):
        size, total, taken = map(int, line.split())
        if sums.setdefault(size, total) != total:
            sys.exit(f"{name}: two sums for the size {size}")
        times[size] = min(taken, times.get(size, taken))
    return sums, times


ours, plain, machine, what = (sys.argv[1:] + ["points matched"])[:4]
our_sums, our_times = least(ours)
plain_sums, plain_times = least(plain)
if our_sums != plain_sums:
    sys.exit(f"the sums differ: {our_sums} and {plain_sums}")
for size, taken in our_times.items():
    other = plain_times[size]
    print_row(f"{size:,} {what}", f"{taken / 1e6:.4f}", f"{other / 1e6:.4f}", f"{taken / max(other, 1):.2f}", "", machine, datetime.date.today())
