"""Writes the street sheet of a tour, as text and as HTML to print, and the summary of a plan."""
from collections.abc import Sequence
from html import escape

from carp_map.geometry import arrival, departure, turn
from carp_map.key import Step

COMPASS = ("north", "north-east", "east", "south-east", "south", "south-west", "west", "north-west")
AGAINST = "AGAINST ONE-WAY"
NO_ONEWAYS = "The plan does not know one-way streets. Where a step is marked, the driver has to find another way."

STYLE = """
@page { size: A4; margin: 15mm }
body { font-family: sans-serif; font-size: 11pt; max-width: 60em; margin: 1em auto }
h1 { font-size: 16pt; margin: 0 }
svg { display: block; width: 100%; max-height: 12cm; margin: 1em 0 }
table { border-collapse: collapse; width: 100% }
thead { display: table-header-group }
tr { break-inside: avoid }
th, td { text-align: left; padding: 0.2em 0.5em; border-bottom: 1px solid #bbb }
.number { text-align: right; white-space: nowrap }
.serve td { font-weight: bold }
.against { border: 2px solid black; padding: 0 0.3em; white-space: nowrap }
"""


def kilometres(steps: Sequence[Step]) -> str:
    """Returns how long the steps are."""
    return f"{sum(step.street.metres for step in steps) / 1000:.2f} km"


def lengths(steps: Sequence[Step]) -> str:
    """Returns how long the steps are, and how much of them is served."""
    served = [step for step in steps if step.move.serves]
    driven = [step for step in steps if not step.move.serves]
    return f"{kilometres(steps)}: {kilometres(served)} served, {kilometres(driven)} driven without service"


def counted(count: int, what: str) -> str:
    """Returns a number of things in words."""
    return f"{count} {what}" if count == 1 else f"{count} {what}s"


def way(before: Step | None, step: Step) -> str:
    """Returns where a step goes: the turn at its start, and the name of its street."""
    name = step.street.name or "a street without a name"
    if before is None:
        return f"{COMPASS[round(departure(step.line) / 45) % 8]} along {name}"
    is_return = before.move.edge == step.move.edge
    word = "back" if is_return else turn(arrival(before.line), departure(step.line))
    is_same = before.street.name == step.street.name and (step.street.name is not None or word == "straight on")
    return f"{word} {'along' if is_same or is_return else 'into'} {name}"


def ways(steps: Sequence[Step]) -> list[str]:
    """Returns where each step of a tour goes."""
    return [way(before, step) for before, step in zip([None, *steps], steps)]


def facts(steps: Sequence[Step], capacity: int) -> list[str]:
    """Returns what is said of a tour above its steps."""
    against = [step for step in steps if step.is_against]
    load = steps[-1].load if steps else 0
    lines = [f"load {load} of {capacity}, cost {sum(step.cost for step in steps)}", lengths(steps)]
    if against:
        lines += [f"{counted(len(against), 'step')} against a one-way street, {kilometres(against)}", NO_ONEWAYS]
    return lines


def text_sheet(title: str, steps: Sequence[Step], capacity: int) -> str:
    """Returns the street sheet of a tour as text."""
    lines = [title, *facts(steps, capacity), "", " step  do     street  metres   load  way"]
    for number, (step, where) in enumerate(zip(steps, ways(steps)), 1):
        load = step.load if step.move.serves else ""
        mark = f"  {AGAINST}" if step.is_against else ""
        lines.append(f"{number:5}  {step.do}  {step.move.edge:6}  {step.street.metres:6.0f} {load:>6}  {where}{mark}")
    return "\n".join([*lines, " " * 37 + "the depot", ""])


def row(number: int, step: Step, where: str) -> str:
    """Returns the row of a step in the table of a sheet."""
    load, box = (step.load, "&#9744;") if step.move.serves else ("", "")
    mark = f' <span class="against">{AGAINST}</span>' if step.is_against else ""
    numbers = (f'<td class="number">{value}</td>' for value in (step.move.edge, f"{step.street.metres:.0f}", load))
    return (
        f'<tr class="{step.do}"><td class="number">{number}</td><td>{step.do}</td><td>{escape(where)}{mark}</td>'
        f'{"".join(numbers)}<td>{box}</td></tr>'
    )


def html_sheet(title: str, steps: Sequence[Step], capacity: int, picture: str) -> str:
    """Returns the street sheet of a tour as HTML to print, with a picture in SVG."""
    numbers = {"step", "street", "metres", "load"}
    heads = "".join(
        f'<th class="{"number" if name in numbers else "word"}">{name}</th>'
        for name in ("step", "do", "way", "street", "metres", "load", "done")
    )
    return "\n".join([
        '<!DOCTYPE html>\n<html lang="en">\n<head>\n<meta charset="utf-8">',
        f"<title>{escape(title)}</title>\n<style>{STYLE}</style>\n</head>\n<body>\n<h1>{escape(title)}</h1>",
        *(f"<p>{escape(line)}</p>" for line in facts(steps, capacity)),
        picture,
        f"<table>\n<thead><tr>{heads}</tr></thead>\n<tbody>",
        *(row(number, step, where) for number, (step, where) in enumerate(zip(steps, ways(steps)), 1)),
        "</tbody>\n</table>\n<p>The last step ends at the depot.</p>\n</body>\n</html>\n",
    ])


def summary(tours: Sequence[Sequence[Step]], capacity: int, cost: int, bound: int) -> str:
    """Returns what is said of a plan as a whole."""
    steps = [step for tour in tours for step in tour]
    against = [step for step in steps if step.is_against]
    lines = [
        f"{counted(len(tours), 'tour')}, cost {cost}; every plan costs at least {bound}",
        lengths(steps),
        f"{counted(len(against), 'step')} against a one-way street, {kilometres(against)}",
    ]
    for number, tour in enumerate(tours, 1):
        load = tour[-1].load if tour else 0
        wrong = sum(step.is_against for step in tour)
        lines.append(
            f"tour {number}: load {load} of {capacity}, cost {sum(step.cost for step in tour)}, {kilometres(tour)}, "
            f"{counted(wrong, 'step')} against a one-way street"
        )
    return "\n".join([*lines, *([NO_ONEWAYS] if against else []), ""])
