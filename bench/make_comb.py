#!/usr/bin/env python3
"""Prints a certificate with another tree: a comb of pairs, whose leaves all name price set 1.

usage: make_comb.py LEAVES CERT, where CERT has one price set that fits without decisions. The comb says no to one
pair after the other; each yes has three leaves, by two pairs that the comb does not reach.
"""
import itertools
import sys


def comb(leaves, required):
    spine = itertools.combinations(range(1, required - 2), 2)
    nodes = []
    for _ in range(leaves // 3):
        a, b = next(spine)
        nodes += [f"pair {a} {b}", f"pair {required - 1} {required}", "price 1", f"pair {required - 2} {required}", "price 1", "price 1"]
    return nodes + ["price 1"]


def main():
    leaves = int(sys.argv[1]) // 3 * 3 + 1
    with open(sys.argv[2], encoding="ascii") as file:
        lines = file.read().split("\n")
    at = next(i for i, line in enumerate(lines) if line.startswith("nodes "))
    prices = next(line for line in lines if line.startswith("prices "))
    nodes = comb(leaves, int(prices.split()[2]))
    print("\n".join(lines[:at] + [f"nodes {len(nodes)}"] + nodes + ["end"]))


main()
