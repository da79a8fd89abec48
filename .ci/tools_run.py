#!/usr/bin/env python3
"""Tests `carp_run`: reports, sheets and tours of a street, instances of graphs, refusals, and files written whole.

usage: .ci/tools_run.py PROGRAM
"""
import contextlib
import io
import os
import resource
import signal
import sys
import tempfile
import textwrap
import types
import unittest
from pathlib import Path
from typing import Any

TOP = Path(__file__).resolve().parent.parent
sys.path.insert(0, str(TOP / "tools"))

import carp_run  # noqa: E402

# The streets of the second certificate of docs/FORMATS.md, and its sheet.
STREETS = (
    b"VERTICES : 3\nARISTAS_REQ : 2\nCAPACIDAD : 2\nLISTA_ARISTAS_REQ :\n( 1, 2) coste 3 demanda 2\n"
    b"( 2, 3) coste 4 demanda 2\nDEPOSITO : 1\n"
)


class Graph:
    """What the example needs of a graph of networkx."""

    def __init__(self) -> None:
        self.held: list[tuple[str, str, dict[str, Any]]] = []

    def add_edge(self, u: str, v: str, **data: int) -> None:
        self.held.append((u, v, data))

    def edges(self, data: bool) -> list[tuple[str, str, dict[str, Any]]]:
        assert data
        return self.held


class Calls(unittest.TestCase):
    def setUp(self) -> None:
        folder = tempfile.TemporaryDirectory()
        self.addCleanup(folder.cleanup)
        self.folder = folder.name
        self.file, self.cert = os.path.join(self.folder, "town.dat"), os.path.join(self.folder, "town.cert")
        carp_run.write_whole(self.file, STREETS)

    def refused(self, code: int, message: str, call: Any, *words: Any) -> None:
        with self.assertRaises(carp_run.Refusal) as caught:
            call(*words)
        self.assertEqual(caught.exception.code, code)
        self.assertIn(message, str(caught.exception))

    def script(self, text: str) -> None:
        """Lets a script of the shell stand in the place of the program."""
        path, before = os.path.join(self.folder, "stub"), os.environ["CARP"]
        Path(path).write_text(f"#!/bin/sh\n{text}\n")
        os.chmod(path, 0o755)
        os.environ["CARP"] = path
        self.addCleanup(os.environ.__setitem__, "CARP", before)

    def test_report_sheet_and_tours(self) -> None:
        report = carp_run.solve(self.file, self.cert, 1)
        self.assertEqual((report.cost, report.bound, report.gap, report.percent), (20, 20, 0, 0.0))
        self.assertEqual(carp_run.check(self.file, self.cert), carp_run.Bounds(20, 20))
        sheet = carp_run.sheet(self.file, self.cert)
        self.assertEqual(sorted((tour.load, tour.cost, len(tour.steps)) for tour in sheet), [(2, 6, 2), (2, 14, 4)])
        tours = carp_run.tours_of(carp_run.contents(self.cert))
        self.assertEqual(sorted(move.edge for tour in tours for move in tour if move.serves), [1, 2])
        again, better = carp_run.solved(STREETS, carp_run.contents(self.cert), 1, 2)
        self.assertEqual((again.cost, carp_run.checked(STREETS, better).bound), (20, 20))

    def test_the_example_of_the_docstring(self) -> None:
        text = str(carp_run.__doc__)
        example = textwrap.dedent(text[text.index("    import carp_run") : text.index("The program is the one")])
        stub = types.ModuleType("networkx")
        stub.Graph = Graph  # type: ignore[attr-defined]
        sys.modules["networkx"] = stub
        self.addCleanup(sys.modules.pop, "networkx")
        with contextlib.redirect_stdout(io.StringIO()) as out:
            exec(example, {})
        first, *steps = out.getvalue().splitlines()
        self.assertEqual(len([step for step in steps if step.startswith("serve")]), 2)
        # A tour of 4 + 3 + 5, and one of 5 + 5.
        self.assertEqual(first, "cost 22, and no plan costs less than 22")

    def test_refusals(self) -> None:
        self.refused(6, "read fault", carp_run.check, self.file, self.cert)
        self.refused(4, "bad instance: line 1 cannot be read", carp_run.checked, b"(", b"")
        self.refused(5, "bad certificate: ends before line 1", carp_run.checked, STREETS, b"")
        self.refused(7, "", carp_run.solve, self.file, os.path.join(self.folder, "none", "cert"))
        self.refused(6, "cannot be read", carp_run.contents, os.path.join(self.folder, "none"))
        self.script("exit 8")
        self.refused(8, "memory ran out", carp_run.check, self.file, self.cert)
        self.script("kill -9 $$")
        self.refused(137, "SIGKILL", carp_run.check, self.file, self.cert)
        os.environ["CARP"] = os.path.join(self.folder, "none")
        self.refused(1, "no program at", carp_run.program)

    def test_a_run_that_is_killed(self) -> None:
        self.script("echo so far; echo fault >&2; exec sleep 60")
        run = carp_run.Started("solve")
        self.assertFalse(run.ended())
        run.kill()
        self.assertEqual(run.finished().code, -9)

    def test_a_disk_that_is_full(self) -> None:
        most, hard = resource.getrlimit(resource.RLIMIT_FSIZE)
        before = signal.signal(signal.SIGXFSZ, signal.SIG_IGN)
        resource.setrlimit(resource.RLIMIT_FSIZE, (50, hard))
        try:
            self.refused(7, "cannot be written", carp_run.write_whole, self.file, b"x" * 100)
        finally:
            resource.setrlimit(resource.RLIMIT_FSIZE, (most, hard))
            signal.signal(signal.SIGXFSZ, before)
        self.assertEqual((carp_run.contents(self.file), os.listdir(self.folder)), (STREETS, ["town.dat"]))


if __name__ == "__main__":
    if len(sys.argv) != 2:
        sys.exit(__doc__)
    os.environ["CARP"] = os.path.realpath(sys.argv.pop())
    unittest.main()
