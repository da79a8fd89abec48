"""The time that a run has, and the line that tells on a terminal how far it is."""
import sys
import time
from dataclasses import dataclass, field


@dataclass
class Clock:
    """The seconds of a run, from now on."""

    seconds: float
    start: float = field(default_factory=time.monotonic)

    @property
    def left(self) -> float:
        """How many seconds are left."""
        return max(0.0, self.seconds - (time.monotonic() - self.start))

    @property
    def is_up(self) -> bool:
        """Whether the time is over."""
        return self.left == 0.0


def spoken(seconds: float) -> str:
    """Returns seconds as hours, minutes and seconds."""
    whole = int(seconds)
    return f"{whole // 3600}:{whole // 60 % 60:02}:{whole % 60:02}"


class Progress:
    """One line on the standard error that is written over and over, if that is a terminal."""

    def __init__(self, clock: Clock) -> None:
        self.clock = clock
        self.is_shown = sys.stderr.isatty()
        self.width = 0

    def show(self, text: str) -> None:
        """Writes the line anew, with the time that is left."""
        if self.is_shown:
            line = f"{text}  time left {spoken(self.clock.left)}"
            self.put(f"{line:<{self.width}}")
            self.width = len(line)

    def clear(self) -> None:
        """Erases the line."""
        if self.width:
            self.put(" " * self.width + "\r")
            self.width = 0

    def put(self, text: str) -> None:
        """Writes over the line."""
        print(f"\r{text}", end="", file=sys.stderr, flush=True)
