"""Looks at how tests are chosen, run side by side and counted. The commands that test are stubs."""
import contextlib
import io
import subprocess
import tempfile
import unittest
from pathlib import Path
from unittest import mock

from building.crates import ROOT
from building.processes import members

from . import __main__ as testing
from . import counting, side_by_side
from .counting import Count
from .parts import REFERENCE, Job, Tested, jobs_of
from .side_by_side import run_all

PROGRAM = Tested("/a/program")
UNITS = "{told}\n----------------------------------------------------------------------\nRan {ran} tests in 1.234s\n\n{ended}\n"


class Counting(unittest.TestCase):
    def test_what_sessions_say(self):
        said = "FAILED x:\n  1 passed, 2 failed\n785 passed, 3 failed\n"
        self.assertEqual(counting.of_sessions(said), Count(785, 3))
        self.assertIsNone(counting.of_sessions("there is no program\n"))

    def test_what_unit_tests_say(self):
        ends = {"OK": Count(9), "OK (skipped=2)": Count(7, 0, 2), "FAILED (failures=1, errors=2, skipped=1)": Count(5, 3, 1),
                "FAILED (unexpected successes=1)": Count(8, 1), "FAILED (failures=12)": Count(0, 12), "OK (expected failures=1)": Count(9)}
        for ended, wanted in ends.items():
            self.assertEqual(counting.of_units(UNITS.format(told="errors=7", ran=9, ended=ended)), wanted, ended)
        self.assertEqual(counting.of_units("Ran 1 test in 0.001s\n\nOK\n"), Count(1))
        self.assertIsNone(counting.of_units("Traceback\n"))

    def test_what_a_comparison_says(self):
        self.assertEqual(counting.of_comparison("at 20\n31 sessions compared, 2 differ\n"), Count(29, 2))
        self.assertEqual(counting.of_comparison("31 sessions with 12 texts compared, 0 differ\n"), Count(31))

    def test_a_command_that_fails_without_a_count_has_failed(self):
        self.assertEqual(counting.counted(counting.of_sessions, "3 passed, 0 failed\n", 0), Count(3))
        self.assertEqual(counting.counted(counting.of_sessions, "3 passed, 1 failed\n", 1), Count(3, 1))
        self.assertEqual(counting.counted(counting.of_sessions, "3 passed, 0 failed\n", -9), Count(3, 1))
        self.assertEqual(counting.counted(counting.of_sessions, "", 0), Count(0, 1))

    def test_counts_are_told(self):
        self.assertEqual(str(Count(3, 1) + Count(2, 0, 4)), "5 passed, 1 failed, 4 skipped")


class Chosen(unittest.TestCase):
    def names(self, *words, tested=PROGRAM):
        return [job.name for job in jobs_of(tested, list(words))]

    def test_all_parts_without_words(self):
        names = self.names()
        self.assertLessEqual({"sessions", "building.test_building", "test_start", "reference.test_edges", "random alone"}, set(names))
        self.assertEqual(len(names), len(set(names)))
        self.assertEqual(names, self.names("random", "reference/", "companions", "sessions"))

    def test_parts_folders_and_names(self):
        self.assertEqual(self.names("random"), ["random alone", "random several"])
        self.assertIn("gate.test_gate", self.names("companions/gate/"))
        self.assertEqual(self.names("tests/undo", "mint", "README.md"), ["sessions tests/undo mint README.md"])
        self.assertEqual(self.names("companions/causes", "tests/undo"), ["causes.test_causes", "sessions tests/undo"])
        (job,) = jobs_of(PROGRAM, ["tests/undo"])
        self.assertEqual(job.words[-4:], ("sessions", "--program", "/a/program", "tests/undo"))

    def test_the_plain_interpreter_is_not_compared_with_itself(self):
        plain = Tested(str(REFERENCE / "answer"))
        self.assertFalse([name for name in self.names(tested=plain) if name.startswith("random")])
        self.assertEqual({str(job.variables) for job in jobs_of(plain, ["companions"])}, {"{}"})
        (job,) = jobs_of(PROGRAM, ["companions/causes"])
        self.assertEqual(job.variables, {"EVATS_PROGRAM": "/a/program"})


class SideBySide(unittest.TestCase):
    def setUp(self):
        folder = tempfile.TemporaryDirectory()
        self.addCleanup(folder.cleanup)
        self.folder = Path(folder.name)

    def job(self, name, text, **variables):
        return Job(name, ("sh", "-c", text), counting.of_sessions, variables)

    def run_jobs(self, *jobs, lanes=2):
        with io.StringIO() as out:
            return run_all(jobs, lanes, self.folder, out), out.getvalue()

    def test_each_is_run_and_counted(self):
        jobs = [self.job(f"job {number}", f"echo {number} passed, 0 failed") for number in range(5)]
        count, told = self.run_jobs(*jobs)
        self.assertEqual(count, Count(10))
        self.assertIn("job 4: 4 passed, 0 failed, in 0 s\n", told)
        self.assertTrue(told.startswith("0 passed, 0 failed so far; at work: job 0, job 1; 3 wait\n"), told)

    def test_what_failed_is_told_with_what_it_said(self):
        count, told = self.run_jobs(self.job("good", "echo fine; echo 1 passed, 0 failed"), self.job("bad", "echo why; echo $WHAT; exit 1", WHAT="so"))
        self.assertEqual(count, Count(1, 1))
        self.assertIn("why\nso\nFAILED bad: 0 passed, 1 failed, in 0 s\n", told)
        self.assertNotIn("fine", told)

    def test_so_many_at_a_time(self):
        counted_there = f"ls {self.folder}/at.* | wc -l >> {self.folder}/most"
        text = f"touch {self.folder}/at.$$; {counted_there}; sleep 0.3; rm {self.folder}/at.$$; echo 1 passed, 0 failed"
        self.run_jobs(*(self.job(f"{number}", text) for number in range(6)), lanes=3)
        self.assertEqual(max(map(int, (self.folder / "most").read_text().split())), 3)

    def test_one_that_hangs_is_ended_and_has_failed(self):
        with mock.patch.object(side_by_side, "MOST_SECONDS", 0.3):
            count, told = self.run_jobs(self.job("hanging", "echo at it; sleep 1000"))
        self.assertEqual(count, Count(0, 1))
        self.assertIn("at it\nFAILED hanging", told)

    def test_what_is_interrupted_leaves_no_process(self):
        path = self.folder / "session"

        def interrupt(line):
            if path.exists() and path.read_text():
                raise KeyboardInterrupt

        with mock.patch.object(side_by_side.Display, "show", lambda display, line: interrupt(line)), self.assertRaises(KeyboardInterrupt):
            self.run_jobs(self.job("long", f"sleep 1000 & echo $$ > {path}; wait"))
        self.assertEqual(members(int(path.read_text())), [])


class Command(unittest.TestCase):
    def ended(self, jobs):
        """What ./test prints of these jobs, and its status."""
        with mock.patch.object(testing, "jobs_of", lambda tested, words: jobs), contextlib.redirect_stdout(io.StringIO()) as out:
            status = testing.main(["--program", "/a/program"])
        return out.getvalue().splitlines()[-1], status

    def test_the_last_line_and_the_status(self):
        passing, failing = (Job(name, ("echo", f"3 passed, {name} failed"), counting.of_sessions) for name in "02")
        self.assertEqual(self.ended([passing]), ("3 passed, 0 failed", 0))
        self.assertEqual(self.ended([passing, failing]), ("6 passed, 2 failed", 1))

    def test_one_job_of_the_repository(self):
        words = [ROOT / "test", "--program", REFERENCE / "answer", "companions/gate"]
        ran = subprocess.run(words, capture_output=True, text=True, stdin=subprocess.DEVNULL, check=False)
        self.assertRegex(ran.stdout.splitlines()[-1], r"^\d+ passed, 0 failed$")
        self.assertEqual(ran.returncode, 0, ran.stderr)

    def test_nothing_to_test(self):
        with contextlib.redirect_stderr(io.StringIO()) as told:
            self.assertEqual(testing.main(["--program", "/a/program", "companions/workbench/page"]), 2)
        self.assertEqual(told.getvalue(), "test: there is nothing to test in companions/workbench/page\n")


if __name__ == "__main__":
    unittest.main()
