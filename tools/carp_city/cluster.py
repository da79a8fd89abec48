"""Does tasks side by side by Dask, on the processors of this machine or on the workers of a scheduler.

Dask gives a task to another worker if its own dies. What comes back is used only if `carp check` accepts it here. What
no worker answers well is done here.
"""
import logging
import os
import shutil
import signal
import sys
import tempfile
import threading
import zipfile
from collections.abc import Callable, Iterator, Mapping
from contextlib import ExitStack, contextmanager, suppress
from multiprocessing import resource_tracker
from typing import Any

import carp_run
import dask
import distributed
from carp_city import tasks
from carp_city.progress import Clock
from carp_city.tasks import Task

# How often a task is given to another worker, and how long in seconds the first worker is waited for.
RETRIES, PATIENCE = 3, 30
TOOLS = os.path.dirname(os.path.dirname(os.path.abspath(__file__)))
WITH_PARENT = os.path.join(TOOLS, "carp_city", "with_parent")
# What a worker needs beside the program.
SENT = ("carp_run/__init__.py", "carp_run/calls.py", "carp_run/files.py", "carp_city/__init__.py", "carp_city/tasks.py")


@contextmanager
def silent_children() -> Iterator[None]:
    """Drops what processes that start in this context print as errors: a dying worker prints a trace. This process prints as before."""
    sys.stderr.flush()
    before, own = sys.stderr, os.dup(2)
    with open(os.devnull, "wb") as null, open(own, "w", encoding="utf-8", errors="replace", buffering=1) as printed:
        os.dup2(null.fileno(), 2)
        sys.stderr = printed
        try:
            yield
        finally:
            os.dup2(own, 2)
            sys.stderr = before


def silence_dask() -> None:
    """Drops what Dask says of workers that die, asyncio of messages that nobody waits for, and futures of a cluster that is gone."""
    for name in (name for name in logging.root.manager.loggerDict if name.startswith(("distributed", "asyncio"))):
        logging.getLogger(name).setLevel(logging.CRITICAL)
    tell = sys.unraisablehook

    def tell_others(found: Any) -> None:
        if issubclass(found.exc_type, KeyboardInterrupt):
            # An interrupt that falls into the end of an object is dropped there, so that it comes again.
            threading.Timer(0.1, os.kill, (os.getpid(), signal.SIGINT)).start()
        elif not str(getattr(found.object, "__module__", "")).startswith("distributed"):
            tell(found)

    sys.unraisablehook = tell_others


class Cluster:
    """Workers that do tasks; as a context it ends those that it started."""

    def __init__(self, address: str | None, workers: int) -> None:
        self.address, self.workers = address, workers
        self.refused = 0
        self.calls = 0
        self.stack = ExitStack()

    def __enter__(self) -> "Cluster":
        silence_dask()
        self.stack.enter_context(silent_children())
        scratch = self.stack.enter_context(tempfile.TemporaryDirectory(prefix="carp-city-"))
        # The workers that are started now block an interrupt of the terminal: this process takes it, and ends them.
        # What multiprocessing starts first would let interrupts through again, so that it is started before.
        resource_tracker.ensure_running()
        signal.pthread_sigmask(signal.SIG_BLOCK, [signal.SIGINT])
        try:
            self.stack.enter_context(dask.config.set({
                "temporary-directory": scratch, "distributed.scheduler.allowed-failures": RETRIES,
                "distributed.comm.timeouts.connect": f"{PATIENCE}s",
            }))
            self.client = self.distant(scratch) if self.address else self.local(scratch)
        except BaseException:
            self.stack.close()
            raise
        finally:
            signal.pthread_sigmask(signal.SIG_UNBLOCK, [signal.SIGINT])
        return self

    def __exit__(self, *error: object) -> None:
        self.stack.close()

    def local(self, scratch: str) -> distributed.Client:
        """Starts workers on this machine, whose programs end with them."""
        program = carp_run.program()
        guard = {"CARP": WITH_PARENT, "CARP_PROGRAM": program} if shutil.which("setpriv") else {"CARP": program}
        cluster = self.stack.enter_context(distributed.LocalCluster(
            n_workers=self.workers, threads_per_worker=1, processes=True, memory_limit=0,
            host="127.0.0.1", dashboard_address="127.0.0.1:0", silence_logs=logging.CRITICAL,
            env={**guard, "TMPDIR": scratch},
        ))
        return self.stack.enter_context(distributed.Client(cluster))

    def distant(self, scratch: str) -> distributed.Client:
        """Goes to the scheduler of an address, and sends its workers the code of a task."""
        try:
            client = self.stack.enter_context(distributed.Client(self.address))
            client.wait_for_workers(1, timeout=PATIENCE)
        except (OSError, ValueError, TimeoutError) as error:
            raise carp_run.Refusal(f"no Dask worker answers at {self.address}: {error}") from None
        sent = os.path.join(scratch, "carp_tasks.zip")
        with zipfile.ZipFile(sent, "w") as archive:
            for name in SENT:
                archive.write(os.path.join(TOOLS, name), name)
        client.upload_file(sent)
        return client

    def answers(
        self, given: Mapping[str, Task], clock: Clock, tell: Callable[[int], None]
    ) -> Iterator[tuple[str, bytes, carp_run.Bounds]]:
        """Returns the certificates of tasks with what they prove, as they come, until the time is up."""
        names = self.submitted(given)
        waiting = set(names)
        try:
            while waiting and not clock.is_up:
                tell(len(names) - len(waiting))
                done = self.ended(waiting, min(1.0, clock.left))
                waiting -= done
                for name, future in sorted(((names[each], each) for each in done), key=lambda pair: pair[0]):
                    yield self.used(name, given[name], future)
        finally:
            with suppress(OSError, distributed.client.CancelledError):
                self.client.cancel(list(waiting))

    def submitted(self, given: Mapping[str, Task]) -> dict[distributed.Future, str]:
        """Gives tasks to the workers."""
        self.calls += 1
        return {
            self.client.submit(
                tasks.answer, task.instance, task.start, task.turns, task.seed,
                key=f"{os.getpid()}-{self.calls}-{name}", retries=RETRIES, pure=False,
            ): name
            for name, task in given.items()
        }

    def ended(self, waiting: set[distributed.Future], seconds: float) -> set[distributed.Future]:
        """Returns the futures that ended, or nothing if none does within some seconds."""
        try:
            return set(distributed.wait(waiting, timeout=seconds, return_when="FIRST_COMPLETED").done)
        except TimeoutError:
            return set()
        except (OSError, distributed.client.CancelledError):
            raise carp_run.Refusal(f"the Dask scheduler at {self.address or 'this machine'} is gone") from None

    def used(self, name: str, task: Task, future: distributed.Future) -> tuple[str, bytes, carp_run.Bounds]:
        """Returns the answer of a worker if it is good; if not, the task is done here."""
        if future.status in ("cancelled", "lost"):
            raise carp_run.Refusal(f"the Dask scheduler at {self.address or 'this machine'} is gone")
        certificate = future.result() if future.status == "finished" else None
        bounds = tasks.judged(task, certificate)
        if bounds is None:
            self.refused += 1
            certificate = carp_run.solved(task.instance, task.start, task.turns, task.seed)[1]
            bounds = carp_run.checked(task.instance, certificate)
        return name, certificate, bounds
