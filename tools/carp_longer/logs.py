"""The log of the steps, one CSV line each, and its picture."""
import io
import os

from carp_run import Refusal, contents, write_whole

from carp_longer.places import refused
from carp_longer.steps import Step

HEAD = "step,seconds,turns,seeds,taken,cost,bound,gap,processor"


class Log:
    """A log to which lines are appended, each whole or not at all."""

    def __init__(self, path: str | None) -> None:
        self.path = path
        if path is None:
            return
        try:
            self.file = os.open(path, os.O_RDWR | os.O_CREAT | os.O_APPEND, 0o666)
            held = os.pread(self.file, len(HEAD) + 1, 0).decode("utf-8", "replace")
        except OSError as error:
            raise refused(path, error) from error
        if held and held != HEAD + "\n":
            raise Refusal(f"{path} is there and is no log of tools/longer")
        if not held:
            self.append(HEAD)

    def append(self, line: str) -> None:
        """Appends a line; if it does not fit, the log is as it was."""
        data, before = f"{line}\n".encode(), os.fstat(self.file).st_size
        try:
            written = os.write(self.file, data)
            if written < len(data):
                os.write(self.file, data[written:])
        except OSError as error:
            os.ftruncate(self.file, before)
            raise refused(str(self.path), error) from error

    def add(self, number: int, seconds: float, step: Step) -> None:
        """Appends the line of a step, which ended so many seconds after the start."""
        if self.path is None:
            return
        seeds, bounds = " ".join(map(str, step.seeds)), step.bounds
        self.append(
            f"{number},{seconds:.2f},{step.turns},{seeds},{step.taken},{bounds.cost},{bounds.bound},{bounds.gap},"
            f"{step.processor:.2f}"
        )


def rows(path: str) -> list[tuple[float, int, int]]:
    """Returns seconds, cost and bound of each step; a run that was appended goes on where the one before it ended."""
    head, *lines = contents(path).decode("utf-8", "replace").splitlines() or [""]
    if head != HEAD:
        raise Refusal(f"{path} is no log of tools/longer")
    found: list[tuple[float, int, int]] = []
    before = 0.0
    for number, line in enumerate(lines, 2):
        try:
            step, seconds, _, _, _, cost, bound, _, _ = line.split(",")
            if int(step) == 1 and found:
                before = found[-1][0]
            found.append((before + float(seconds), int(cost), int(bound)))
        except ValueError as error:
            raise Refusal(f"{path} line {number} cannot be read") from error
    if not found:
        raise Refusal(f"{path} has no step")
    return found


def plot(path: str, out: str) -> None:
    """Draws cost and bound over time."""
    found = rows(path)
    try:
        import matplotlib
    except ImportError as error:
        raise Refusal("matplotlib is missing: install Debian's package python3-matplotlib") from error
    matplotlib.use("svg")
    matplotlib.rcParams["svg.hashsalt"] = "carp"
    from matplotlib import pyplot

    figure, axes = pyplot.subplots(figsize=(8, 4))
    seconds, costs, bounds = zip(*found)
    axes.step(seconds, costs, where="post", marker="o", markersize=3, label="cost", gid="cost")
    axes.step(seconds, bounds, where="post", marker="o", markersize=3, label="bound", gid="bound")
    axes.set_xlabel("seconds")
    axes.legend()
    text = io.StringIO()
    figure.savefig(text, format="svg", metadata={"Date": None})
    write_whole(out, text.getvalue())
