"""The steps: some seeds side by side, of which the best is taken."""
import signal
import time
from collections.abc import Callable
from dataclasses import dataclass

import carp_run
from carp_run import Bounds, Refusal, Report, Started

from carp_longer import places

# The seconds that a step aims at if there is time for them, since an interrupt loses a step.
LONGEST_STEP = 60.0
# The share of the time left that a step aims at, since turns become dearer.
SHARE = 0.8
MOST_TURNS = 1_048_576
SEEDS = 10**18
KILLED = 128 + signal.SIGKILL


@dataclass(frozen=True)
class Step:
    """A step that bettered a certificate or kept it as good: what was tried and taken, and seconds of both clocks."""

    turns: int
    seeds: list[int]
    taken: int
    bounds: Bounds
    seconds: float
    processor: float


@dataclass(frozen=True)
class Work:
    """What a run works on: the instance, the certificate, and when it ends; `show` is called again and again."""

    path: str
    target: str
    deadline: float
    show: Callable[[], None]


def next_turns(turns: int, seconds: float, left: float) -> int:
    """Returns how many turns fit the time left at the pace of the last step, and at most twice as many as it had."""
    fitting = SHARE * min(left, LONGEST_STEP) * turns / max(seconds, 0.001)
    return max(1, min(2 * turns, int(fitting), MOST_TURNS))


def started(work: Work, old: Bounds | None, seeds: list[int], turns: int, jobs: list[Started]) -> None:
    """Starts a job for each seed, and adds it to the jobs."""
    for job, seed in enumerate(seeds):
        new = places.trial(work.target, job)
        if old is None:
            jobs.append(carp_run.start_solve(work.path, new, turns, seed))
        else:
            jobs.append(carp_run.start_improve(work.path, work.target, new, turns, seed))


def wait(work: Work, jobs: list[Started]) -> None:
    """Waits until all jobs have ended, or the time is up."""
    while not all(job.ended() for job in jobs) and time.monotonic() < work.deadline:
        work.show()
        time.sleep(0.01)


def ends(work: Work, old: Bounds | None, seeds: list[int], turns: int) -> list[carp_run.Finished]:
    """Runs a job for each seed, and returns how each ended; none is at work after it, whatever happens."""
    jobs: list[Started] = []
    try:
        started(work, old, seeds, turns, jobs)
        wait(work, jobs)
    finally:
        for job in jobs:
            job.kill()
        done = [job.finished() for job in jobs]
    return done


def reports(verb: str, done: list[carp_run.Finished], is_late: bool) -> list[tuple[Report, int]]:
    """Returns the reports by (gap, cost), each with its job; if there is none, a refusal is raised."""
    found, refusals = [], []
    for job, finished in enumerate(done):
        try:
            found.append((carp_run.report_of(carp_run.answer_of(verb, finished)), job))
        except Refusal as refusal:
            refusals.append(refusal)
    meant = [refusal for refusal in refusals if not (is_late and refusal.code == KILLED)]
    if meant and not found:
        raise meant[0]
    return sorted(found, key=lambda one: (one[0].gap, one[0].cost, one[1]))


def is_no_worse(new: Bounds, old: Bounds | None) -> bool:
    """Tells if the cost is no higher and the bound no lower."""
    return old is None or (new.cost <= old.cost and new.bound >= old.bound)


def step(work: Work, old: Bounds | None, seeds: list[int], turns: int) -> Step | None:
    """Goes on from the certificate, or makes the first one; returns nothing if the time was up before any job ended."""
    begin = time.monotonic()
    verb = "solve" if old is None else "improve"
    done = ends(work, old, seeds, turns)
    found = reports(verb, done, time.monotonic() >= work.deadline)
    reason = Refusal(f"carp {verb} made the certificate worse", 2)
    for _, job in found:
        new = places.trial(work.target, job)
        try:
            bounds = carp_run.check(work.path, new)
        except Refusal as refusal:
            reason = refusal
            continue
        if is_no_worse(bounds, old):
            places.take(new, work.target)
            processor = sum(finished.seconds for finished in done)
            return Step(turns, seeds, seeds[job], bounds, time.monotonic() - begin, processor)
    if found:
        raise reason
    return None
