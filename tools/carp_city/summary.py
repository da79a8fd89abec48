"""Says what a plan is and what is proved of it."""
import math
from collections.abc import Sequence
from dataclasses import dataclass

from carp_city.borders import Rest, Standing
from carp_city.plan import Tours, cost_of, load_of
from carp_map import sheets
from carp_map.key import Key
from carp_run import Instance

NO_BOUND = "No bound of the whole city is claimed: what is proved is said of the named tours among themselves."
IS_SECONDS = b"COMENTARIO : costs are seconds"


@dataclass(frozen=True)
class Pace:
    """How long tours take: their costs are seconds, or they go by a speed in km/h."""

    is_seconds: bool
    speed: float

    def __str__(self) -> str:
        return "hours by costs in seconds" if self.is_seconds else f"hours at {self.speed:g} km/h"

    def hours(self, city: Instance, town: Key | None, tours: Tours) -> str:
        """Returns how long tours are in kilometres and in hours, as far as that is known."""
        moves = [move for tour in tours for move in tour]
        kilometres = math.fsum(town.streets[move.edge - 1].metres for move in moves) / 1000 if town else 0.0
        hours = cost_of(city, moves) / 3600 if self.is_seconds else kilometres / self.speed
        words = [f"{kilometres:.2f} km"] if town else []
        return ", ".join([*words, *([f"{hours:.2f} h"] if town or self.is_seconds else [])])


def claims(standing: Standing) -> list[tuple[list[int], Rest]]:
    """Returns what is proved of the plan: neighbourhoods whose tours all stand, by their places, each once."""
    places = {number: at for at, number in enumerate(standing.tours, 1)}
    found = [
        (sorted(places[number] for number in group), rest)
        for group, rest in standing.known.items()
        if group <= standing.tours.keys()
    ]
    return sorted(found, key=lambda each: each[0])


def rounded_up(cost: int, bound: int) -> str:
    """Returns the gap in percent of the cost, rounded up so that what is claimed holds."""
    tenths = -(-1000 * (cost - bound) // cost) if cost else 0
    return f"{tenths // 10}.{tenths % 10}"


def listed(numbers: Sequence[int]) -> str:
    """Returns numbers in words."""
    words = [str(number) for number in numbers]
    return words[0] if len(words) == 1 else f"{', '.join(words[:-1])} and {words[-1]}"


def claim(number: int, tours: Sequence[int], rest: Rest) -> str:
    """Returns what the certificate of a neighbourhood proves."""
    these = f"these {len(tours)} tours among themselves" if len(tours) > 1 else "this tour alone"
    return (
        f"neighbourhood {number}, {'tours' if len(tours) > 1 else 'tour'} {listed(tours)}: no re-planning of {these} "
        f"can save more than {rounded_up(rest.bounds.cost, rest.bounds.bound)} % (cost {rest.bounds.cost}, bound "
        f"{rest.bounds.bound}; carp check neighbourhoods/{number}.dat neighbourhoods/{number}.cert)"
    )


def summary(
    city: Instance, town: Key | None, tours: Tours, found: Sequence[tuple[list[int], Rest]], facts: Sequence[str],
    pace: Pace,
) -> str:
    """Returns what is said of a plan as a whole."""
    lines = [told(f"{sheets.counted(len(tours), 'tour')}, cost {cost_of_all(city, tours)}", city, town, tours, pace)]
    if town or pace.is_seconds:
        lines.append(str(pace))
    lines += facts
    for number, moves in enumerate(tours, 1):
        words = f"tour {number}: load {load_of(city, moves)} of {city.capacity}, cost {cost_of(city, moves)}"
        lines.append(told(words, city, town, [moves], pace))
    lines += [claim(number, *each) for number, each in enumerate(found, 1)]
    return "\n".join([*lines, NO_BOUND, ""])


def cost_of_all(city: Instance, tours: Tours) -> int:
    """Returns what tours cost."""
    return sum(cost_of(city, moves) for moves in tours)


def told(words: str, city: Instance, town: Key | None, tours: Tours, pace: Pace) -> str:
    """Returns words with how long tours are, if that is known."""
    length = pace.hours(city, town, tours)
    return f"{words}, {length}" if length else words
