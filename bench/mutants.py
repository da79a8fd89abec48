#!/usr/bin/env python3
"""Lets a program and bench/plain/check.py read many mutated certificates, and prints where they differ.

usage: mutants.py PROGRAM [--seed N] [--count N]

Small instances are drawn, the program solves them, and their certificates and files are changed in many ways; trees are made by hand
besides. Each certificate is read by `PROGRAM check` and by check.py, which must print the same lines and end with the same code. The
files of a difference are kept in a folder whose name is printed. At the end stands how often each kind of answer came.
"""
import argparse
import collections
import os
import random
import re
import shutil
import sys
import tempfile

sys.dont_write_bytecode = True
sys.path.insert(0, os.path.join(os.path.dirname(os.path.abspath(__file__)), "plain"))
import check  # noqa: E402
from mutated_certificates import made_by_hand, mutated, parted, text_of, with_groups, without_counts  # noqa: E402
from mutated_groups import lines_at_limits, mutated_lines, with_bonds  # noqa: E402
from mutated_texts import draw_far, draw_instance, mutated_instance, mutated_text, text_of_instance  # noqa: E402
from solving import carp_run  # noqa: E402
from reading import LONGEST_CERTIFICATE, LONGEST_INSTANCE, USAGE, PriceSet, read_certificate  # noqa: E402

EACH = 25  # mutants of an instance

# Every kind of answer of the page; X stands for a number.
KINDS = """
accepted
accepted with groups
accepted with yes weights
bad certificate: ends before line X is complete
bad certificate: line X cannot be read
bad certificate: line X passes a limit
bad instance: X edges are too many
bad instance: X required edges are too many
bad instance: X states are too many
bad instance: X vertices are too many
bad instance: ARISTAS_NOREQ states X and the list has X
bad instance: ARISTAS_REQ states X and the list has X
bad instance: capacity X is out of range
bad instance: depot X is out of range
bad instance: edge X cannot be reached
bad instance: edge X has a demand above the capacity
bad instance: edge X has an end out of range
bad instance: edge X has too large a cost
bad instance: edge X has too large a service cost
bad instance: edge X is a loop
bad instance: key ARISTAS_NOREQ stands twice
bad instance: key ARISTAS_REQ is missing
bad instance: key ARISTAS_REQ stands twice
bad instance: key CAPACIDAD is missing
bad instance: key CAPACIDAD stands twice
bad instance: key DEPOSITO is missing
bad instance: key DEPOSITO stands twice
bad instance: key LISTA_ARISTAS_NOREQ stands twice
bad instance: key LISTA_ARISTAS_REQ stands twice
bad instance: key VERTICES is missing
bad instance: key VERTICES stands twice
bad instance: line X cannot be read
bad instance: line X has a number of more than X digits
bad instance: required edge X has demand X
read fault
rejected: cost X is stated and X is true
rejected: count X is X and the instance has X
rejected: edge X is not served
rejected: edge X is served and not required
rejected: edge X is served twice
rejected: node X does not fit the instance
rejected: node X has value X, not above X
rejected: node X is not fixed
rejected: node X is not lean
rejected: node X is not void
rejected: prices X do not fit the instance
rejected: set X at node X has a tour at X
rejected: set X at node X has no upper number for shore X
rejected: set X at node X needs the pair X X
rejected: set X prices edge X at X
rejected: shore X does not fit the instance
rejected: tour X does not start and end at the depot
rejected: tour X has load X
rejected: tour X step X is broken
too long: more than X bytes
usage: check.py FILE CERT
""".split("\n")[1:-1]


# ---- Both readers ----


class Race:
    """Lets both read, and counts what they answer."""

    def __init__(self, folder):
        self.folder = folder
        self.file, self.certificate = os.path.join(folder, "file"), os.path.join(folder, "cert")
        self.codes, self.kinds, self.differences = collections.Counter(), collections.Counter(), 0

    def solve(self, text, turns):
        """The certificate that the program makes, or None."""
        write(self.file, text)
        run = carp_run.run("solve", self.file, self.certificate, "--turns", str(turns))
        if run.code not in (0, 1):
            print(f"solve ended with {run.code}: {run.text}", file=sys.stderr)
            self.keep("solve")
            return None
        with open(self.certificate, "rb") as file:
            return file.read()

    def judge(self, text, certificate):
        write(self.file, text)
        write(self.certificate, certificate)
        self.compare(self.file, self.certificate)

    def compare(self, file, certificate):
        run = carp_run.run("check", file, certificate)
        theirs = (run.code, run.text)
        if run.code == 3:  # its words name all calls of the program
            theirs = (3, USAGE + "\n")
        answer = check.answer(file, certificate)
        ours = (answer.code, "".join(line + "\n" for line in answer.lines))
        self.codes[ours[0]] += 1
        self.kinds[re.sub(r"-?\d+", "X", answer.lines[0]) + (groups_of(certificate) if answer.code == 0 else "")] += 1
        false = answer.code == 0 and int(answer.lines[2][6:]) > int(answer.lines[1][5:])  # no bound is above what a lawful plan costs
        if ours != theirs or run.errors or false:
            self.differences += 1
            kept = self.keep(f"difference{self.differences}")
            print(f"{kept}: the program says {theirs[1].strip()!r} and ends with {theirs[0]}; check.py says {ours[1].strip()!r} and ends with {ours[0]}", flush=True)

    def keep(self, name):
        """Keeps the files, and tells under which name."""
        kept = os.path.join(self.folder, name)
        for path, ending in [(self.file, ".dat"), (self.certificate, ".cert")]:
            if os.path.exists(path):
                shutil.copyfile(path, kept + ending)
        return kept

    def report(self):
        bad = sum(count for code, count in self.codes.items() if code not in (0, 2))
        total = sum(self.codes.values())
        for kind in sorted(set(KINDS) | set(self.kinds)):
            print(f"{self.kinds[kind]:7} {kind}" + ("" if kind in KINDS else " (of no known kind)"))
        print(f"mutants {total} accepted {self.codes[0]} rejected {self.codes[2]} bad {bad} differences {self.differences}")


def write(path, data):
    with open(path, "wb") as file:
        file.write(data)


def groups_of(path):
    """What weights a certificate has besides those of shores."""
    with open(path, "rb") as file:
        data = file.read()
    if re.search(rb"^bonds.* -", data, re.MULTILINE):
        return " with yes weights"
    return " with groups" if data.startswith(b"carp-certificate 4") else ""


def one(rng, race, instance, text, solved, other):
    """One mutant of an instance and its certificate, where the other certificate is that of another instance."""
    certificate = read_certificate(solved)
    if rng.randrange(3):
        certificate = with_groups(rng, instance, certificate)
    kind = rng.randrange(26)
    if kind < 4:
        race.judge(text, mutated_text(rng, text_of(certificate)))
    elif kind < 7:
        race.judge(text, mutated_lines(rng, text_of(certificate)))
    elif kind < 12:
        race.judge(text, text_of(mutated(rng, instance, certificate)))
    elif kind < 18:
        race.judge(text, text_of(made_by_hand(rng, instance, certificate)))
    elif kind < 20:
        race.judge(text, text_of(parted(rng, instance, certificate)))
    elif kind < 24:
        version = without_counts(certificate) if rng.randrange(2) else certificate
        race.judge(mutated_instance(rng, instance), text_of(version))
    elif kind == 24:
        foreign = read_certificate(other)
        race.judge(text, text_of(without_counts(foreign) if rng.randrange(3) else foreign))
    else:
        mixed = made_by_hand(rng, instance, certificate)
        race.judge(text, mutated_text(rng, text_of(mixed)))


def special(race, instance, text, solved):
    """Files beyond the limits of length, files that are not there, groups at their limits, and reasons of a leaf that come before others."""
    race.judge(text + b" " * (LONGEST_INSTANCE - len(text)), solved)
    race.judge(text + b" " * (LONGEST_INSTANCE + 1 - len(text)), solved)
    race.judge(b"(" + text + b" " * LONGEST_INSTANCE, b"x\n")
    race.judge(b"(" + text, b"x\n")
    race.judge(text, b"")
    race.judge(b"", solved)
    race.judge(text, solved)
    for file, certificate in [("none", "cert"), ("file", "none"), ("none", "nothing"), ("file", "file"), (".", "cert"), ("file", ".")]:
        race.compare(os.path.join(race.folder, file), os.path.join(race.folder, certificate))
    for nodes in [b"nodes 3\nprice 0\n", b"nodes 2\nprice 1\nprice 0\n", b"nodes 1\npair 0 1\n", b"nodes 1\npair 1 601\n"]:
        race.judge(text, solved[:solved.index(b"nodes")] + nodes)
    plain = read_certificate(solved)._replace(shores=[[vertex for vertex in range(1, instance.vertices + 1) if vertex != instance.depot]])
    sets = [PriceSet(1, [0] * instance.required, [(1, 10**9)], []), PriceSet(1, [0] * (instance.required + 1), [], [])]
    race.judge(text, text_of(plain._replace(sets=sets)))
    yes, other = (-1, [1, 2]), (-1, [2, 3])
    for weights, groups in [([(1, -1)], [yes]), ([], [yes]), ([], [yes, other]), ([], [other, yes]), ([], [(1, [1, 2]), other])]:
        dear = PriceSet(1, [10**9] * instance.required, weights, groups)  # no upper number, then a missing pair, then a tour that earns too much
        race.judge(text, text_of(plain._replace(sets=[dear], nodes=[["price", 1]])))
    for line in lines_at_limits():
        race.judge(text, with_bonds(solved, line))
    race.judge(text, with_bonds(text_of(plain._replace(sets=[])), b""))
    race.judge(b"(" + text, b"x\n")
    race.compare(race.file, os.path.join(race.folder, "none"))
    with open(race.certificate, "wb") as file:
        file.truncate(LONGEST_CERTIFICATE + 1)
    race.compare(race.file, race.certificate)
    write(race.file, text)
    race.compare(race.file, race.certificate)
    os.remove(race.certificate)


def main():
    parser = argparse.ArgumentParser(usage="mutants.py PROGRAM [--seed N] [--count N]")
    parser.add_argument("program")
    parser.add_argument("--seed", type=int, default=1)
    parser.add_argument("--count", type=int, default=10_000)
    words = parser.parse_args()
    rng = random.Random(words.seed)
    os.environ["CARP"] = words.program
    race = Race(tempfile.mkdtemp(prefix="mutants-"))
    other = None
    while sum(race.codes.values()) < words.count:
        instance = draw_far(rng) if rng.randrange(3) == 0 else draw_instance(rng)
        text = text_of_instance(instance)
        solved = race.solve(text, rng.choice([1, 2, 5, 20, rng.randint(1, 200)]))
        if solved is None:
            race.differences += 1
            continue
        if other is None:
            special(race, instance, text, solved)
            race.judge(text, solved)
        for _ in range(min(EACH, words.count - sum(race.codes.values()))):
            one(rng, race, instance, text, solved, other or solved)
        other = solved
    race.report()
    return 1 if race.differences else 0


if __name__ == "__main__":
    sys.exit(main())
