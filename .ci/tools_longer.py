#!/usr/bin/env python3
"""Tests `tools/longer` with a stub in the place of `carp` that solves in no time, and with the program itself.

usage: .ci/tools_longer.py PROGRAM [TEST ..]
"""
import fcntl
import os
import resource
import signal
import subprocess
import sys
import tempfile
import time
import unittest
from pathlib import Path

TOP = Path(__file__).resolve().parent.parent
sys.path.insert(0, str(TOP / "tools"))

from carp_longer import steps  # noqa: E402

PROGRAM = ""
LONGER = str(TOP / "tools" / "longer")
STREET = (
    "VERTICES : 2\nARISTAS_REQ : 1\nCAPACIDAD : 1\nLISTA_ARISTAS_REQ :\n( 1, 2) coste 5 demanda 1\nDEPOSITO : 1\n"
)
WEAK = (
    "carp-certificate 1\ncost 10\nbound 0\ntours 1\ntour 2 +1 <1\nshores 0\nsets 1\nprices 1 1 0\nweights 0\n"
    "nodes 1\nprice 1\nend\n"
)
# A certificate of the stub is its cost and its bound. `improve` of the seed S finds what PLAN has for it.
STUB = """#!/usr/bin/env python3
import json, os, sys, time
plan = json.loads(os.environ["PLAN"])
words = sys.argv[1:]
with open(os.environ["CALLS"], "a") as file:
    file.write(" ".join(words) + "\\n")
def report(cost, bound, path):
    with open(path, "w") as file:
        file.write(written[0] if written else f"{cost} {bound}")
    print(f"instance\\ncost {cost}\\nbound {bound}\\nturns 1")
    sys.exit(cost != bound)
if words[0] == "check":
    cost, bound = open(words[2]).read().split()
    if bound == "bad":
        print("rejected: bound")
        sys.exit(2)
    print(f"accepted\\ncost {cost}\\nbound {bound}")
    sys.exit()
cost, bound, seconds, *written = plan.get(words[words.index("--seed") + 1], plan["other"])
end = time.monotonic() + seconds
while time.monotonic() < end:
    pass
report(cost, bound, words[2 if words[0] == "solve" else 3])
"""


class FolderTest(unittest.TestCase):
    """A test in a folder of its own."""

    def setUp(self) -> None:
        folder = tempfile.TemporaryDirectory()
        self.addCleanup(folder.cleanup)
        self.folder = Path(folder.name)
        self.file, self.cert = self.folder / "town.dat", self.folder / "town.cert"
        self.file.write_text(STREET)
        self.env = {**os.environ, "CARP": PROGRAM}

    def longer(self, *words: str) -> subprocess.CompletedProcess[str]:
        return subprocess.run(
            [LONGER, *words], env=self.env, capture_output=True, text=True, timeout=60, check=False
        )

    def on_town(self, *words: str) -> subprocess.CompletedProcess[str]:
        return self.longer(str(self.file), str(self.cert), *words)

    def refused(self, code: int, message: str, *words: str) -> None:
        """The run is refused, and what stands at CERT stays, alone."""
        before = self.cert.read_bytes() if self.cert.is_file() else None
        beside = sorted(os.listdir(self.folder))
        done = self.on_town(*words)
        self.assertEqual((done.returncode, done.stdout), (code, ""), done.stderr)
        self.assertTrue(done.stderr.startswith("longer: "), done.stderr)
        self.assertIn(message, done.stderr)
        self.assertEqual(self.cert.read_bytes() if self.cert.is_file() else None, before)
        self.assertEqual(sorted(os.listdir(self.folder)), beside)


class Stubbed(FolderTest):
    """Runs with the stub."""

    def setUp(self) -> None:
        super().setUp()
        stub = self.folder / "carp"
        stub.write_text(STUB)
        stub.chmod(0o755)
        self.calls = self.folder / "calls"
        self.calls.touch()
        self.env |= {"CARP": str(stub), "CALLS": str(self.calls)}

    def plan(self, text: str) -> None:
        self.env["PLAN"] = text

    def called(self, verb: str) -> list[list[str]]:
        return [line.split() for line in self.calls.read_text().splitlines() if line.startswith(verb)]

    def test_the_best_by_gap_and_cost_is_taken(self) -> None:
        self.plan('{"other": [10, 5, 0], "1": [10, 6, 0], "2": [9, 4, 0], "3": [12, 9, 0], "4": [11, 8, 0]}')
        done = self.on_town("--jobs", "4", "--until-gap", "40")
        self.assertEqual(self.cert.read_text(), "11 8")
        self.assertEqual(done.returncode, 0)
        self.assertIn("seeds tried 1 2 3 4\nseeds taken 4\n", done.stdout)
        self.assertIn("ended: the gap is at most 40 %", done.stdout)

    def test_seeds_rise_and_turns_grow(self) -> None:
        self.cert.write_text("20 0")
        self.plan('{"other": [10, 5, 0], "12": [10, 10, 0]}')
        done = self.on_town("--seed", "5", "--jobs", "2", "--log", str(self.folder / "log"))
        self.assertEqual((done.returncode, self.cert.read_text()), (0, "10 10"))
        seeds = sorted((int(words[7]), int(words[5])) for words in self.called("improve"))
        self.assertEqual(seeds, [(5, 1), (6, 1), (7, 2), (8, 2), (9, 4), (10, 4), (11, 8), (12, 8)])
        self.assertEqual(self.called("solve"), [])
        rows = [line.split(",") for line in (self.folder / "log").read_text().splitlines()[1:]]
        self.assertEqual([row[0] for row in rows], ["1", "2", "3", "4"])
        self.assertEqual(rows[-1][2:8], ["8", "11 12", "12", "10", "10", "0"])

    def test_the_first_certificate_has_one_turn(self) -> None:
        self.plan('{"other": [10, 10, 0]}')
        self.assertIn("proven\n", self.on_town().stdout)
        self.assertEqual([words[3:] for words in self.called("solve")], [["--turns", "1", "--seed", "1"]])

    def test_what_is_worse_or_refused_is_not_taken(self) -> None:
        self.cert.write_text("20 10")
        for found, message in (("21, 20, 0", "worse"), ("15, 9, 0", "worse"), ('15, 15, 0, "15 bad"', "rejected: bound")):
            self.plan('{"other": [' + found + "]}")
            self.refused(2, message)

    def test_a_certificate_that_check_rejects_is_not_taken(self) -> None:
        self.cert.write_text("20 bad")
        self.plan('{"other": [10, 10, 0]}')
        self.refused(2, "rejected: bound")

    def test_at_the_end_of_the_time_a_step_is_killed(self) -> None:
        self.cert.write_text("20 10")
        self.plan('{"other": [10, 10, 30]}')
        begin = time.monotonic()
        done = self.on_town("--minutes", "0.02", "--jobs", "2")
        self.assertLess(time.monotonic() - begin, 15)
        self.assertEqual((done.returncode, self.cert.read_text()), (1, "20 10"))
        self.assertIn("ended: the time is up", done.stdout)
        # What the step used is counted though nothing came of it.
        self.assertGreater(float(done.stdout.split("processor ")[1].split()[0]), 0.5)
        self.assertEqual(sorted(os.listdir(self.folder)), ["calls", "carp", "town.cert", "town.dat"])

    def test_what_ended_in_time_is_taken(self) -> None:
        self.cert.write_text("20 10")
        self.plan('{"other": [10, 10, 30], "2": [19, 11, 0]}')
        self.on_town("--minutes", "0.03", "--jobs", "2")
        self.assertEqual(self.cert.read_text(), "19 11")

    def test_an_interrupt_keeps_the_certificate(self) -> None:
        self.cert.write_text("20 10")
        self.plan('{"other": [10, 10, 30]}')
        for number in (signal.SIGINT, signal.SIGTERM):
            self.calls.write_text("")
            with subprocess.Popen(
                [LONGER, str(self.file), str(self.cert)], env=self.env, stdout=subprocess.PIPE, text=True
            ) as run:
                while not self.called("improve"):
                    time.sleep(0.02)
                run.send_signal(number)
                text, _ = run.communicate(timeout=20)
            self.assertIn("ended: it was interrupted", text)
            self.assertEqual((run.returncode, self.cert.read_text()), (1, "20 10"))
            self.assertFalse(list(self.folder.glob("town.cert.*")))

    def test_the_permissions_stay_and_a_link_is_followed(self) -> None:
        kept = self.folder / "kept"
        kept.write_text("20 10")
        kept.chmod(0o640)
        self.cert.symlink_to(kept)
        self.plan('{"other": [10, 10, 0]}')
        self.on_town()
        self.assertTrue(self.cert.is_symlink())
        self.assertEqual((kept.read_text(), kept.stat().st_mode & 0o777), ("10 10", 0o640))

    def test_what_a_dead_run_left_is_removed(self) -> None:
        left = [self.folder / f"town.cert.{name}" for name in ("77-0.longer", "77-1.longer.0.new", "lock")]
        others = [self.folder / name for name in ("town.cert.0.new", "town.cert.77.longer", "other.cert.77-0.longer")]
        for path in left + others:
            path.touch()
        self.plan('{"other": [10, 10, 0]}')
        self.assertEqual(self.on_town().returncode, 0)
        self.assertFalse([path for path in left if path.exists()])
        self.assertTrue(all(path.exists() for path in others))

    def test_two_runs_on_one_certificate(self) -> None:
        self.cert.write_text("20 10")
        lock = self.folder / "town.cert.lock"
        self.plan('{"other": [10, 10, 0]}')
        with lock.open("w") as file:
            # Others may share this lock. So a run that asks for less than the lock alone is noticed, too.
            fcntl.flock(file, fcntl.LOCK_SH)
            self.refused(7, "another run of tools/longer holds")
        lock.write_text("mine")
        self.refused(7, "is no lock of tools/longer")


class Refusals(FolderTest):
    """What is wrong with files, with the program itself."""

    def test_bad_files(self) -> None:
        self.cert.write_text(WEAK.replace("tour 2 +1 <1", "tour 1 +1"))
        self.refused(2, "rejected: tour 1 does not start and end at the depot")
        self.cert.write_text("no certificate\n")
        self.refused(5, "bad certificate: line 1 cannot be read")
        self.cert.write_text(WEAK)
        self.file.write_text(STREET.replace("( 1, 2)", "( 1, 3)"))
        self.refused(4, "bad instance: edge 1 has an end out of range")
        self.file.unlink()
        self.refused(6, "town.dat cannot be read: No such file or directory")

    def test_a_certificate_of_another_instance(self) -> None:
        self.assertEqual(self.on_town().returncode, 0)
        self.file.write_text(STREET.replace("CAPACIDAD : 1", "CAPACIDAD : 2"))
        self.refused(2, "rejected: count 4 is 1 and the instance has 2")

    def test_places_that_cannot_be_written(self) -> None:
        done = self.longer(str(self.file), str(self.folder / "none" / "cert"))
        self.assertEqual((done.returncode, done.stdout), (7, ""))
        self.assertIn("cannot be written: No such file or directory", done.stderr)
        self.cert.write_text(WEAK)
        self.cert.chmod(0o444)
        self.refused(7, "town.cert cannot be written")
        self.cert.chmod(0o644)
        self.refused(7, "cannot be written", "--log", str(self.folder / "none" / "log"))

    def test_a_full_disk(self) -> None:
        self.cert.write_text(WEAK)
        most, hard = resource.getrlimit(resource.RLIMIT_FSIZE)
        resource.setrlimit(resource.RLIMIT_FSIZE, (50, hard))
        try:
            done = self.on_town()
        finally:
            resource.setrlimit(resource.RLIMIT_FSIZE, (most, hard))
        self.assertNotIn(done.returncode, (0, 1))
        self.assertEqual(self.cert.read_text(), WEAK)
        self.assertEqual(sorted(os.listdir(self.folder)), ["town.cert", "town.dat"])

    def test_no_program(self) -> None:
        self.env["CARP"] = str(self.folder / "none")
        self.refused(1, "no program at")

    def test_wrong_words(self) -> None:
        for words in ([], ["--jobs", "0"], ["--minutes", "-1"], ["--minutes", "nan"], ["--seed", "x"], ["--min", "1"]):
            done = self.longer(str(self.file), *([str(self.cert)] if words else []), *words)
            self.assertEqual((done.returncode, done.stdout), (2, ""), words)

    def test_a_weak_certificate_is_bettered(self) -> None:
        self.cert.write_text(WEAK)
        done = self.on_town()
        self.assertEqual(done.returncode, 0)
        self.assertTrue(done.stdout.startswith("cost 10\nbound 10\nproven\nsteps 1\n"), done.stdout)


class Parts(unittest.TestCase):
    """How many turns fit."""

    def test_turns_fit_the_time_left(self) -> None:
        self.assertEqual(steps.next_turns(8, 4.0, 1000), 16)
        self.assertEqual(steps.next_turns(8, 4.0, 5), 8)
        self.assertEqual(steps.next_turns(100, 50.0, 1000), 96)
        self.assertEqual(steps.next_turns(8, 4.0, 0.1), 1)


class Plot(FolderTest):
    """The picture of a log."""

    def test_a_log_is_drawn(self) -> None:
        log, out = self.folder / "log", self.folder / "out.svg"
        log.write_text("no log\n")
        done = self.longer("--plot", str(log), str(out))
        self.assertEqual((done.returncode, out.exists()), (1, False))
        log.write_text("step,seconds,turns,seeds,taken,cost,bound,gap,processor\n1,1.0,1,1,1,10,5,5,1.0\n")
        done = self.longer("--plot", str(log), str(out))
        if "matplotlib is missing" in done.stderr:
            self.skipTest("matplotlib is missing: the plot is left out")
        self.assertEqual(done.returncode, 0, done.stderr)
        self.assertIn('id="bound"', out.read_text())


if __name__ == "__main__":
    if len(sys.argv) < 2:
        sys.exit(__doc__)
    PROGRAM = os.path.realpath(sys.argv.pop(1))
    # A shell that runs this in the background lets interrupts be ignored, and so would what is started here.
    signal.signal(signal.SIGINT, signal.default_int_handler)
    unittest.main()
