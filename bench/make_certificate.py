#!/usr/bin/env python3
"""Prints a certificate of version 1 for reading and writing: one of many steps, or one of many nodes.

usage: make_certificate.py steps COUNT, or make_certificate.py nodes COUNT, where COUNT is odd
"""
import sys


def main():
    kind, count = sys.argv[1], int(sys.argv[2])
    out = ["carp-certificate 1", "cost 123456789", "bound 123456789"]
    tours = []
    if kind == "steps":
        each = 20000
        for start in range(0, count, each):
            size = min(each, count - start)
            steps = " ".join("+-><"[i % 4] + str(1 + (start + i) * 37 % 4000) for i in range(size))
            tours.append(f"tour {size} {steps}")
    out += [f"tours {len(tours)}", *tours, "shores 0", "sets 1", "prices 1000 3 -500 0 1000000", "weights 0"]
    if kind == "nodes":
        # A comb: each pair has a leaf and then the rest of the tree.
        pairs = count // 2
        out.append(f"nodes {2 * pairs + 1}")
        for i in range(pairs):
            out += [f"pair {1 + i % 300} {301 + i % 300}", "price 1"]
        out.append("price 1")
    else:
        out += ["nodes 1", "price 1"]
    out.append("end")
    sys.stdout.write("\n".join(out) + "\n")


main()
