"""Judges the plan in a folder against the file of its city.

It reads both files by its own code, and shares nothing with what made them: neither a reader nor a search. It asks what
docs/DEFINITIONS.md asks of a lawful plan: each tour is a chain of streets from the depot to the depot, each required
street is served once and no other one is, no load is above the capacity, and each cost is as it is stated.
"""
import json
from dataclasses import dataclass

Street = tuple[int, int, int, int, int]


class Unlawful(Exception):
    """Why a plan is refused."""


@dataclass
class City:
    """A city: for each street its ends, its cost without service, its demand and its cost with service."""

    capacity: int
    depot: int
    streets: list[Street]


def read_city(path: str) -> City:
    """Returns the city in a file, word by word."""
    with open(path, encoding="latin-1", newline="\n") as file:
        rows = [spaced(line).split() for line in file.read().split("\n")]
    numbers: dict[str, int] = {}
    required: list[Street] = []
    others: list[Street] = []
    is_required = True
    for row in (row for row in rows if row):
        head = row[0].upper()
        if head == "(":
            (required if is_required else others).append(street_of(row))
        elif head in ("LISTA_ARISTAS_REQ", "LISTA_ARISTAS_NOREQ"):
            is_required = head == "LISTA_ARISTAS_REQ"
        elif head in ("CAPACIDAD", "DEPOSITO"):
            numbers[head] = int(next(word for word in row[1:] if word != ":"))
    return City(numbers["CAPACIDAD"], numbers["DEPOSITO"], required + others)


def spaced(line: str) -> str:
    """Returns a line with blanks around its marks, and between words and numbers if it is the line of a street."""
    for mark in "(),:\x1a":
        line = line.replace(mark, f" {mark} " if mark in "(:" else " ")
    if line.lstrip().startswith("("):
        line = line.lower()
        for word in ("coste", "demanda", "servicio"):
            line = line.replace(word, f" {word} ")
    return line


def street_of(row: list[str]) -> Street:
    """Returns the street of a row such as `( 1 2 coste 3 demanda 4 servicio 5`."""
    facts = {row[at]: int(row[at + 1]) for at in range(3, len(row) - 1, 2)}
    return int(row[1]), int(row[2]), facts["coste"], facts.get("demanda", 0), facts.get("servicio", facts["coste"])


def judge(city_path: str, plan_path: str) -> int:
    """Returns what the plan in a file costs, if it is lawful; raises an error that names what is wrong if it is not."""
    try:
        city = read_city(city_path)
        with open(plan_path, encoding="utf-8") as file:
            plan = json.load(file)
        return judge_plan(city, plan)
    except (OSError, ValueError, LookupError, TypeError, AttributeError) as error:
        raise Unlawful(f"the plan or its city cannot be read: {error!r}") from None


def judge_plan(city: City, plan: dict) -> int:
    """Returns what a plan costs, if it is lawful."""
    served: dict[int, int] = {}
    total = 0
    for number, tour in enumerate(plan["tours"], 1):
        if tour["tour"] != number:
            raise Unlawful(f"tour {tour['tour']} stands where tour {number} has to stand")
        total += judge_tour(city, number, tour, served)
    for number, (_, _, _, demand, _) in enumerate(city.streets, 1):
        if demand and number not in served:
            raise Unlawful(f"street {number} is not served")
    if total != plan["cost"]:
        raise Unlawful(f"the tours cost {total}, and {plan['cost']} is stated")
    return total


def judge_tour(city: City, number: int, tour: dict, served: dict[int, int]) -> int:
    """Returns what a tour costs, if it is lawful, and notes the streets that it serves."""
    at, load, cost = city.depot, 0, 0
    for place, (street, name, do, start, end) in enumerate(tour["steps"], 1):
        owner = f"tour {number} step {place}, street {street}" + (f" ({name})" if name else "")
        if type(street) is not int or not 1 <= street <= len(city.streets):
            raise Unlawful(f"{owner}: there is no such street")
        u, v, crossing, demand, service = city.streets[street - 1]
        if (start, end) not in ((u, v), (v, u)) or start != at:
            raise Unlawful(f"{owner}: it does not lead on from where the step before it ends")
        if do not in ("serve", "drive"):
            raise Unlawful(f"{owner}: {do!r} is neither serve nor drive")
        if do == "serve":
            judge_service(owner, street, number, demand, served)
        at = end
        load += demand if do == "serve" else 0
        cost += service if do == "serve" else crossing
    if at != city.depot:
        raise Unlawful(f"tour {number} does not end at the depot")
    if load > city.capacity:
        raise Unlawful(f"tour {number} has a load of {load}, above the capacity of {city.capacity}")
    if (load, cost) != (tour["load"], tour["cost"]):
        stated = f"{tour['load']} and {tour['cost']} are stated"
        raise Unlawful(f"tour {number} has a load of {load} and a cost of {cost}, and {stated}")
    return cost


def judge_service(owner: str, street: int, tour: int, demand: int, served: dict[int, int]) -> None:
    """Notes a service, if it is a lawful one."""
    if not demand:
        raise Unlawful(f"{owner}: it is served and needs no service")
    if street in served:
        raise Unlawful(f"{owner}: it is served twice, by tour {served[street]} before")
    served[street] = tour
