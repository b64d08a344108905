"""Changed texts are compared: each fault is told, and sessions that differ are made as short as may be."""
import time
import unittest
from unittest.mock import patch

import running
from mutating import MOST_STEPS, Mutated, Mutator, harmless, mutated
from running import bytes_of, shorter, smallest, text_of
from test_running import ALL, FAKE, WAITS, told

MUTATE = ["compare", "--mutate", "--seconds", "0.5"]


class Scripts(unittest.TestCase):
    def test_a_program_that_does_all_is_passed(self):
        for jobs in ("1", "2"):
            is_failed, said = told(MUTATE, "--jobs", jobs, FAKE)
            self.assertFalse(is_failed, said)
            self.assertRegex(said, "^[1-9][0-9]* sessions with [1-9][0-9]* texts compared, 0 differ\n$")

    def test_without_a_session_nothing_is_passed(self):
        self.assertEqual(told(MUTATE, "--seconds", "0", FAKE), (True, "0 sessions with 0 texts compared, 0 differ\n"))

    @patch.object(running, "SHORTENING", 0)
    def test_faults_are_told(self):
        for fault in ("dies 2", "mistakes end", "complains end", "adds end"):
            with self.subTest(fault=fault):
                is_failed, said = told(MUTATE, FAKE, fault=fault)
                self.assertTrue(is_failed)
                self.assertRegex(said, ALL[fault])

    @patch.object(running, "SHORTENING", 0)
    @patch.object(running, "SECONDS", 1)
    def test_a_program_that_hangs_is_stopped(self):
        is_failed, said = told(MUTATE, FAKE, fault="hangs end")
        self.assertTrue(is_failed)
        self.assertRegex(said, WAITS["hangs end"])


class Shortening(unittest.TestCase):
    def test_the_smallest_is_found(self):
        end = time.monotonic() + 60
        self.assertEqual(shorter("one two three", lambda it: "t" in it and "e" in it, end), "te")
        self.assertEqual(shorter([*range(100)], lambda it: {3, 90} <= {*it}, end), [3, 90])
        self.assertEqual(shorter("abc", lambda it: True, end), "")
        self.assertEqual(smallest(["show", "ask a 1 + x", "step"], lambda it: "x" in "".join(it[:1])), ["x"])

    def test_without_time_nothing_is_left_out(self):
        self.assertEqual(shorter("abc", lambda it: True, time.monotonic()), "abc")


class Changes(unittest.TestCase):
    def test_a_seed_gives_the_same_session_each_time(self):
        first, again, other = (mutated(seed).input for seed in ("1 3", "1 3", "1 4"))
        self.assertEqual(first, again)
        self.assertNotEqual(first, other)

    def test_each_change_gives_what_can_be_given(self):
        mutator = Mutator("changes")
        for way in ("byte", "token", "line", "number", "name", "cut", "repeat"):
            texts = ["", "x", "\n\n", "7", "\udcff", "vat a () 1\ndef x := 10\nask a x + 1\n"] * 20
            changed = [getattr(mutator, way)(text) for text in texts]
            self.assertNotEqual(changed, texts, way)
            for text in changed:
                self.assertEqual(bytes_of(text_of(bytes_of(text))), bytes_of(text))

    def test_no_session_goes_on_for_long(self):
        for line, given in (
            ("run 1000000", f"run {1_000_000 % MOST_STEPS}"),
            (" work 4 900 ", f" work 4 {900 % MOST_STEPS} "),
            ("run 60", "run 60"),
            ("run 1000001", "run 1000001"),
            ("ask a 900", "ask a 900"),
        ):
            self.assertEqual(harmless(line), given)

    def test_what_the_interpreter_cannot_do_is_told(self):
        with patch("commands.Engine.command", side_effect=ZeroDivisionError("oh")):
            self.assertIn("ZeroDivisionError('oh')", Mutated(10, ["show"]).replies[0])


if __name__ == "__main__":
    unittest.main()
