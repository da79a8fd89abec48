"""The folder of a run: the city, and all that a run needs to go on after it was interrupted.

Each file is written whole. FOLDER has city.dat and perhaps city.key, and below `state` the words of the run in
run.json, the required streets of each district in districts.json, the plan between two rounds in standing.json, and in
`districts` and `rounds` the instance and the certificate of each task that is done.
"""
import hashlib
import json
import os
import shutil
from collections.abc import Callable, Mapping
from dataclasses import asdict, dataclass
from typing import Any, TypeVar

from carp_city.borders import Rest, Standing
from carp_city.plan import Tour, moves_of, words_of
from carp_city.tasks import Task, judged
from carp_run import Bounds, Refusal, contents, write_whole

VERSION = 1
Value = TypeVar("Value")


@dataclass(frozen=True)
class Words:
    """The words of a call that decide its result, and the digest of its city."""

    most: int
    neighbourhood: int
    turns: int
    border_turns: int
    seed: int
    speed: float
    digest: str


def digest_of(data: bytes) -> str:
    """Returns what tells a city from another."""
    return hashlib.sha256(data).hexdigest()


class Folder:
    """The folder of a run."""

    def __init__(self, path: str) -> None:
        self.path = path

    def at(self, name: str) -> str:
        """Returns the path of a file in the folder."""
        return os.path.join(self.path, name)

    def has(self, name: str) -> bool:
        """Returns whether a file is there."""
        return os.path.exists(self.at(name))

    def write(self, name: str, data: bytes | str) -> None:
        """Writes a file whole."""
        write_whole(self.at(name), data)

    def keep_task(self, name: str, instance: bytes, certificate: bytes) -> None:
        """Writes the instance of a task and then its certificate, which tells that the task is done."""
        self.write(f"state/{name}.dat", instance)
        self.write(f"state/{name}.cert", certificate)

    def drop_task(self, name: str) -> None:
        """Removes what a task left."""
        for kind in ("dat", "cert"):
            if self.has(f"state/{name}.{kind}"):
                os.remove(self.at(f"state/{name}.{kind}"))

    def done_task(self, name: str, instance: bytes) -> bytes | None:
        """Returns the certificate of a task that is done, if it was for this instance."""
        if not self.has(f"state/{name}.cert") or contents(self.at(f"state/{name}.dat")) != instance:
            return None
        return contents(self.at(f"state/{name}.cert"))

    def read(self, name: str, form: Callable[[Any], Value]) -> Value:
        """Returns what a file of the state holds."""
        try:
            return form(json.loads(contents(self.at(f"state/{name}"))))
        except (ValueError, LookupError, TypeError, AttributeError) as error:
            raise Refusal(f"{self.at(f'state/{name}')} does not hold what a run writes: {error}") from None

    def words(self) -> Words:
        """Returns the words of the run, if its city is still the same."""
        if not self.has("state/run.json"):
            raise Refusal(f"{self.path} has no run to go on with")
        words = self.read("run.json", words_from)
        if digest_of(contents(self.at("city.dat"))) != words.digest:
            raise Refusal(f"{self.at('city.dat')} is not the city that the run began with")
        return words

    def districts(self) -> list[list[int]]:
        """Returns the required streets of each district, from 0."""
        return self.read("districts.json", lambda text: [[int(edge) for edge in streets] for streets in text])

    def standing(self) -> Standing:
        """Returns the plan after the last whole round."""
        return self.read("standing.json", standing_from)

    def keep_standing(self, standing: Standing) -> None:
        """Writes the plan after a whole round."""
        self.write("state/standing.json", json.dumps(standing_text(standing)))


def words_from(text: Any) -> Words:
    """Returns the words that JSON tells."""
    if text.pop("version") != VERSION:
        raise ValueError(f"it is not of version {VERSION}")
    return Words(**text)


def standing_text(standing: Standing) -> dict[str, Any]:
    """Returns a plan between two rounds as JSON."""
    return {
        "round": standing.round,
        "next": standing.next,
        "tours": [[tour.number, words_of(tour.moves)] for tour in standing.tours.values()],
        "rest": [[seed, sorted(group)] for seed, group in standing.rest.items()],
        "known": [
            [sorted(group), rest.name, rest.bounds.cost, rest.bounds.bound] for group, rest in standing.known.items()
        ],
    }


def standing_from(text: Any) -> Standing:
    """Returns the plan between two rounds that JSON tells."""
    return Standing(
        text["round"],
        text["next"],
        {number: Tour(number, moves_of(words)) for number, words in text["tours"]},
        {seed: frozenset(group) for seed, group in text["rest"]},
        {frozenset(group): Rest(name, Bounds(cost, bound)) for group, name, cost, bound in text["known"]},
    )


def beside(folder: str, kind: str) -> str:
    """Makes an empty folder beside a named one, and returns its name."""
    for number in range(1000):
        try:
            os.mkdir(f"{folder}.{number}.{kind}")
            return f"{folder}.{number}.{kind}"
        except FileExistsError:
            pass
    raise Refusal(f"{folder}.0.{kind} to {folder}.999.{kind} are there already", 7)


def is_free(folder: str) -> bool:
    """Returns whether a folder is not there, or empty."""
    return not os.path.lexists(folder) or (
        os.path.isdir(folder) and not os.path.islink(folder) and not os.listdir(folder)
    )


def begin(path: str, words: Words, files: Mapping[str, bytes]) -> Folder:
    """Makes the folder of a run with the files of its city; it gets its name when it is whole."""
    path = path.rstrip("/") or path
    if not is_free(path):
        raise Refusal(f"{path} is there already; go on with it by --resume, or name another folder", 7)
    new = beside(path, "new")
    try:
        folder = Folder(new)
        for name in ("state", "state/districts", "state/rounds"):
            os.mkdir(folder.at(name))
        for name, data in files.items():
            folder.write(name, data)
        folder.write("state/run.json", json.dumps({"version": VERSION, **asdict(words)}))
        os.rename(new, path)
    except BaseException:
        shutil.rmtree(new, ignore_errors=True)
        raise
    return Folder(path)


def checked_again(task: Task, certificate: bytes | None) -> tuple[bytes, Bounds] | None:
    """Returns a certificate that was kept with what it proves, or nothing if it is not good for its task any more."""
    bounds = None if certificate is None else judged(task, certificate)
    return None if certificate is None or bounds is None else (certificate, bounds)
