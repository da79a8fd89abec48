"""The course of a run: the city is cut into districts, each is solved, and rounds across borders improve the plan."""
import json
from collections.abc import Mapping
from dataclasses import dataclass

from carp_city.borders import Borders, Standing, first_standing, task_name
from carp_city.cluster import Cluster
from carp_city.contraction import MOST_STATES, Part, part_of
from carp_city.districts import Bisection
from carp_city.network import Network
from carp_city.progress import Clock, Progress
from carp_city.state import Folder, Words, checked_again
from carp_city.tasks import Task
from carp_map.geometry import Projection
from carp_map.key import Key
from carp_map.sheets import counted
from carp_run import Bounds, Instance, Refusal, tours_of

Answers = dict[int, tuple[bytes, Bounds]]


@dataclass
class Course:
    """A run over a city, with the folder that holds how far it is."""

    city: Instance
    key: Key | None
    words: Words
    folder: Folder
    cluster: Cluster
    clock: Clock

    def __post_init__(self) -> None:
        self.network = Network(self.city)
        self.borders = Borders(
            self.city, self.network, self.words.neighbourhood, self.words.border_turns, self.words.seed
        )
        self.progress = Progress(self.clock)

    def run(self) -> Standing:
        """Returns the plan that stands when all seeds are at rest or the time is up."""
        try:
            standing = self.folder.standing() if self.folder.has("state/standing.json") else self.solve()
            while standing.seeds() and not self.clock.is_up:
                standing = self.round(standing)
            return standing
        finally:
            self.progress.clear()

    def facts(self, standing: Standing) -> list[str]:
        """Returns what is to be known of how a run ended."""
        seeds, refused = len(standing.seeds()), self.cluster.refused
        up = f"the time is up, and {seeds} of {len(standing.tours)} seeds are not at rest"
        made = f"{counted(len(self.folder.districts()), 'district')}, {counted(standing.round, 'round')} across borders"
        lines = [f"{made}: {up if seeds else 'all seeds are at rest'}"]
        return [*lines, *([f"{refused} answers of workers were not used, and done here"] if refused else [])]

    def parts(self) -> list[Part]:
        """Returns the part of each district; the districts are cut once for all."""
        if self.folder.has("state/districts.json"):
            return [part_of(self.city, self.network, streets) for streets in self.folder.districts()]
        self.progress.show("cutting the city into districts")
        # A district that does not fit is cut again, and one of its parts has the same first street.
        parts: dict[int, Part] = {}

        def fits(streets: list[int]) -> bool:
            parts[streets[0]] = part_of(self.city, self.network, streets)
            return parts[streets[0]].fits()

        most = max(1, min(self.words.most, MOST_STATES // (2 * (self.city.capacity + 1))))
        found = Bisection(self.network, most, self.points()).districts(fits)
        self.folder.write("state/districts.json", json.dumps(found))
        return [parts[streets[0]] for streets in found]

    def points(self) -> list[tuple[float, float]] | None:
        """Returns the flat places of all vertices, if they are known."""
        if self.key is None:
            return None
        projection = Projection(self.key.places)
        return [projection.flat(place) for place in self.key.places]

    def solve(self) -> Standing:
        """Solves all districts, and returns the plan that they make together."""
        parts = self.parts()
        given = [Task(part.instance.text(), None, self.words.turns, self.words.seed) for part in parts]
        answers = self.answers("districts", {f"districts/{at:04}": task for at, task in enumerate(given)})
        if len(answers) < len(parts):
            raise Refusal(
                f"the time is up with {len(answers)} of {len(parts)} districts solved, so that there is no plan yet; "
                f"go on with tools/city --resume {self.folder.path}"
            )
        plans = [[part.in_city(tour) for tour in tours_of(answers[at][0])] for at, part in enumerate(parts)]
        standing = first_standing(plans)
        self.folder.keep_standing(standing)
        return standing

    def round(self, standing: Standing) -> Standing:
        """Does a round; the plan is kept in the folder if the round is whole, so that a resumed run ends it first."""
        chosen = self.borders.chosen(standing)
        names = [f"rounds/{task_name(standing, at)}" for at in range(len(chosen))]
        given = {name: neighbourhood.task for name, (_, neighbourhood) in zip(names, chosen)}
        answers = self.answers(f"round {standing.round + 1}  cost so far {self.borders.cost(standing)}", given)
        results = self.borders.took(standing, chosen, answers)
        if len(answers) == len(chosen):
            self.folder.keep_standing(standing)
            for at in (at for at, is_kept in results.items() if not is_kept):
                self.folder.drop_task(names[at])
        return standing

    def answers(self, title: str, given: Mapping[str, Task]) -> Answers:
        """Returns the answers of tasks by their places: what the folder has, and what the workers find in time."""
        places = {name: at for at, name in enumerate(given)}
        found = self.kept(given)
        left = {name: task for name, task in given.items() if places[name] not in found}
        count = len(found)

        def tell(done: int) -> None:
            self.progress.show(f"{title}  {count + done} of {len(given)} done")

        for name, certificate, bounds in self.cluster.answers(left, self.clock, tell):
            self.folder.keep_task(name, given[name].instance, certificate)
            found[places[name]] = certificate, bounds
        return found

    def kept(self, given: Mapping[str, Task]) -> Answers:
        """Returns the answers that the folder has from before an interruption, if they are still good."""
        again = (checked_again(task, self.folder.done_task(name, task.instance)) for name, task in given.items())
        return {at: answer for at, answer in enumerate(again) if answer is not None}
