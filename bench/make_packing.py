"""Prints a valid instance whose required edges all leave the depot, so that only their demands matter.

usage: make_packing.py KIND COUNT CAPACITY SEED
KIND is `uniform`, demands from 1 to 100, or `triplets`, demands of which three times a third of COUNT fill a vehicle.
"""
import random
import sys


def uniform(draws, count):
    return [draws.randint(1, 100) for _ in range(count)]


def triplets(draws, count, capacity):
    """Three demands a vehicle, the first from 38 % to 49 % of the capacity, none below a quarter (Falkenauer 1996)."""
    demands = []
    for _ in range(count // 3):
        first = draws.randint(38 * capacity // 100, 49 * capacity // 100)
        rest = capacity - first
        second = draws.randint(max(rest - rest // 2, capacity // 4), rest - capacity // 4)
        demands += [first, second, rest - second]
    draws.shuffle(demands)
    return demands


def main(kind, count, capacity, seed):
    draws = random.Random(f"{kind} {count} {capacity} {seed}")
    demands = uniform(draws, count) if kind == "uniform" else triplets(draws, count, capacity)
    print(f"NOMBRE : {kind}{count}\nCOMENTARIO : made\nVERTICES : {len(demands) + 1}\nARISTAS_REQ : {len(demands)}\nARISTAS_NOREQ : 0")
    print(f"VEHICULOS : 1\nCAPACIDAD : {capacity}\nTIPO_COSTES_ARISTAS : EXPLICITOS\nCOSTE_TOTAL_REQ : {len(demands)}\nLISTA_ARISTAS_REQ :")
    for place, demand in enumerate(demands):
        print(f"( 1, {place + 2}) coste 1 demanda {demand}")
    print("DEPOSITO : 1")


main(sys.argv[1], int(sys.argv[2]), int(sys.argv[3]), int(sys.argv[4]))
