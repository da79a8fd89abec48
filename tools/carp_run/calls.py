"""The calls of `carp`, and what they give."""
import os
import re
import shutil
import signal
import subprocess
import tempfile
from dataclasses import dataclass
from typing import BinaryIO

from carp_run.files import Refusal, contents, write_whole

# What is said of exit codes for which `carp` itself writes little or nothing.
SILENT = {6: "a file cannot be read", 7: "a file or the output cannot be written", 8: "memory ran out"}


@dataclass(frozen=True)
class Bounds:
    """What a good certificate proves: a lawful plan of this cost, and that no lawful plan costs less than the bound."""

    cost: int
    bound: int

    @property
    def gap(self) -> int:
        """How far the bound lies below the cost."""
        return self.cost - self.bound

    @property
    def percent(self) -> float:
        """The gap in percent of the cost."""
        return 100 * self.gap / self.cost if self.cost else 0.0


@dataclass(frozen=True)
class Report(Bounds):
    """What `solve` or `improve` found and took: all turns of the tree, seconds of processor time, and memory in MB."""

    turns: int
    seconds: float
    memory: float


@dataclass(frozen=True)
class SheetStep:
    """A line of a street sheet; `load` is the load after a step that serves, and `None` after one that does not."""

    serves: bool
    ends: tuple[int, int]
    cost: int
    load: int | None


@dataclass(frozen=True)
class SheetTour:
    """A tour of a street sheet."""

    load: int
    cost: int
    steps: list[SheetStep]


@dataclass(frozen=True)
class Finished:
    """A run of `carp` that ended: its exit code and what it wrote, the seconds of processor time, and memory in MB.

    `errors` is what stands on its standard error.
    """

    code: int
    text: str
    seconds: float
    memory: float
    errors: str = ""


def program() -> str:
    """Returns the path of the program."""
    top = os.path.dirname(os.path.dirname(os.path.dirname(os.path.abspath(__file__))))
    built = os.path.join(top, "crates", "carp", "out", "carp")
    named = os.environ.get("CARP")
    path = os.path.abspath(named) if named else built if os.path.exists(built) else shutil.which("carp")
    if path is None or not os.path.exists(path):
        raise Refusal(f"no program at {path or built}; run ./carp once, which builds it, or name another in CARP")
    return path


class Started:
    """A run of `carp` at work. Whoever starts it waits for its end by `finished`, also after `kill`."""

    def __init__(self, *words: str) -> None:
        path = program()
        self.verb = words[0] if words else ""
        self.texts = [open(os.memfd_create(name), "w+b") for name in ("output", "errors")]
        try:
            self.child = subprocess.Popen(
                [path, *words], stdin=subprocess.DEVNULL, stdout=self.texts[0], stderr=self.texts[1]
            )
        except OSError as error:
            raise Refusal(f"{path} cannot be run: {error.strerror}") from error

    def ended(self) -> bool:
        """Tells if the run has ended; `finished` has not been called yet."""
        return os.waitid(os.P_PID, self.child.pid, os.WEXITED | os.WNOHANG | os.WNOWAIT) is not None

    def kill(self) -> None:
        """Kills the run if it is at work; `finished` still tells what it took."""
        if self.child.returncode is None:
            os.kill(self.child.pid, signal.SIGKILL)

    def finished(self) -> Finished:
        """Waits for the end, and returns what the run did, whatever its exit code; an interrupt kills it."""
        try:
            _, status, usage = os.wait4(self.child.pid, 0)
        except BaseException:
            self.child.kill()
            self.child.wait()
            raise
        self.child.returncode = os.waitstatus_to_exitcode(status)
        text, errors = (written_to(file) for file in self.texts)
        seconds = usage.ru_utime + usage.ru_stime
        return Finished(self.child.returncode, text, seconds, usage.ru_maxrss / 1024, errors)


def written_to(file: BinaryIO) -> str:
    """Returns what a run wrote to a file, and closes it."""
    with file:
        file.seek(0)
        return file.read().decode("utf-8", "replace")


def run(*words: str) -> Finished:
    """Runs `carp` with these words to its end, whatever its exit code; an interrupt kills it."""
    return Started(*words).finished()


def answer_of(verb: str, done: Finished) -> Finished:
    """Returns what a run of a verb did if the code is 0 or 1."""
    if done.code in (0, 1):
        return done
    if done.code < 0:
        raise Refusal(f"carp {verb} was ended by {signal.Signals(-done.code).name}", 128 - done.code)
    raise Refusal(f"carp {verb}: {done.text.strip() or SILENT.get(done.code, 'no answer')}", done.code)


def answered(verb: str, *words: str) -> Finished:
    """Runs a verb of `carp`, and returns what it did if the code is 0 or 1."""
    return answer_of(verb, run(verb, *words))


def options(turns: int | None, seed: int | None) -> list[str]:
    """Returns the words of the options that are given."""
    named = (("--turns", turns), ("--seed", seed))
    return [word for name, value in named if value is not None for word in (name, str(value))]


def report_of(done: Finished) -> Report:
    """Returns the report that `solve` or `improve` wrote."""
    found = re.search(r"^cost (\d+)\nbound (\d+)\nturns (\d+)$", done.text, re.MULTILINE)
    if not found:
        raise Refusal("carp wrote no report")
    cost, bound, turns = map(int, found.groups())
    return Report(cost, bound, turns, done.seconds, done.memory)


def start_solve(path: str, certificate: str, turns: int | None = None, seed: int | None = None) -> Started:
    """Starts to solve the instance of a file; `report_at_end` waits for it."""
    return Started("solve", path, certificate, *options(turns, seed))


def start_improve(path: str, old: str, new: str, turns: int | None = None, seed: int | None = None) -> Started:
    """Starts to go on from an old certificate; `report_at_end` waits for it."""
    return Started("improve", path, old, new, *options(turns, seed))


def report_at_end(started: Started) -> Report:
    """Waits for the end of what was started, and returns its report."""
    return report_of(answer_of(started.verb, started.finished()))


def solve(path: str, certificate: str, turns: int | None = None, seed: int | None = None) -> Report:
    """Solves the instance of a file, and keeps the certificate."""
    return report_at_end(start_solve(path, certificate, turns, seed))


def improve(path: str, old: str, new: str, turns: int | None = None, seed: int | None = None) -> Report:
    """Goes on from an old certificate, and keeps the new one: it costs no more, and its bound is no lower."""
    return report_at_end(start_improve(path, old, new, turns, seed))


def check(path: str, certificate: str) -> Bounds:
    """Returns what a certificate proves of the instance of a file, if `carp check` accepts it."""
    done = answered("check", path, certificate)
    found = re.fullmatch(r"accepted\ncost (\d+)\nbound (\d+)\n", done.text)
    if not found:
        raise Refusal(f"carp check: {done.text.strip() or 'no answer'}")
    return Bounds(int(found[1]), int(found[2]))


def sheet(path: str, certificate: str) -> list[SheetTour]:
    """Returns the street sheets of the tours, if `carp` accepts the certificate."""
    tours: list[SheetTour] = []
    for line in answered("sheet", path, certificate).text.splitlines():
        words = line.split()
        if words[0] == "tour":
            tours.append(SheetTour(int(words[3]), int(words[5]), []))
        elif words[0] != "total":
            load = int(words[7]) if len(words) > 7 else None
            step = SheetStep(words[1] == "serve", (int(words[2]), int(words[3])), int(words[5]), load)
            tours[-1].steps.append(step)
    return tours


def solved(
    text: bytes, start: bytes | None = None, turns: int | None = None, seed: int | None = None
) -> tuple[Report, bytes]:
    """Solves an instance in memory, or goes on from a certificate; returns the report and the new certificate."""
    with tempfile.TemporaryDirectory(prefix="carp-") as folder:
        path, old, new = (os.path.join(folder, name) for name in ("instance.dat", "old.cert", "new.cert"))
        write_whole(path, text)
        if start is None:
            report = solve(path, new, turns, seed)
        else:
            write_whole(old, start)
            report = improve(path, old, new, turns, seed)
        return report, contents(new)


def checked(text: bytes, certificate: bytes) -> Bounds:
    """Returns what a certificate proves of an instance, both in memory, if `carp check` accepts it."""
    with tempfile.TemporaryDirectory(prefix="carp-") as folder:
        path, kept = os.path.join(folder, "instance.dat"), os.path.join(folder, "kept.cert")
        write_whole(path, text)
        write_whole(kept, certificate)
        return check(path, kept)
