"""What a worker does: an instance and a certificate come in as bytes, and the new certificate goes out.

It needs only the standard library, `carp_run`, and the program `carp`. Errors are of a plain kind, which each Python
knows.
"""
import math
from dataclasses import dataclass

import carp_run

# What `carp` keeps has no more bytes; an answer that is longer is not read.
MOST_ANSWER = 64_000_000
# The exit codes of `carp check` that are due to the certificate itself.
NOT_GOOD, NO_CERTIFICATE = 2, 5


@dataclass(frozen=True)
class Task:
    """An instance to solve, or to go on with from a certificate; an answer costs no more than that."""

    instance: bytes
    start: bytes | None
    turns: int
    seed: int

    @property
    def most(self) -> float:
        """What an answer costs at most."""
        return math.inf if self.start is None else int(self.start.split(b"\n", 2)[1].split()[1])


def answer(instance: bytes, start: bytes | None, turns: int, seed: int) -> bytes:
    """Solves an instance, or goes on from a certificate, and returns the new certificate."""
    try:
        certificate = carp_run.solved(instance, start, turns, seed)[1]
    except carp_run.Refusal as refusal:
        raise RuntimeError(f"code {refusal.code}: {refusal}") from None
    if len(certificate) > MOST_ANSWER:
        raise RuntimeError(f"a certificate of more than {MOST_ANSWER} bytes")
    return certificate


def judged(task: Task, certificate: object) -> carp_run.Bounds | None:
    """Returns what an answer proves by `carp check`, or nothing if it is not to be used."""
    if not isinstance(certificate, bytes) or len(certificate) > MOST_ANSWER:
        return None
    try:
        bounds = carp_run.checked(task.instance, certificate)
    except carp_run.Refusal as refusal:
        if refusal.code not in (NOT_GOOD, NO_CERTIFICATE):
            raise
        return None
    return bounds if bounds.cost <= task.most else None
