"""What `edges` tells of a program that does otherwise, and the limits that it sets."""
import subprocess
import sys
import unittest
from unittest.mock import patch

import running
from test_running import FAKE, HERE, told


class Limits(unittest.TestCase):
    def under(self, *limits, command):
        """What a command of a shell says under limits."""
        words = [sys.executable, "-S", HERE / "limiting.py", *limits, "--", "/bin/sh", "-c", command]
        return subprocess.run(words, capture_output=True, text=True, check=True).stdout

    def test_limits_are_set(self):
        self.assertEqual(self.under("STACK=65536", command="ulimit -s"), "64\n")
        self.assertEqual(self.under("FSIZE=1024", "AS=104857600", command="ulimit -f; ulimit -v"), "2\n102400\n")

    def test_the_signal_at_a_size_limit_is_ignored_where_that_is_asked(self):
        ignored = [self.under(*limits, command="grep SigIgn /proc/self/status") for limits in ([], ["IGNORED=1"])]
        self.assertEqual([int(it.split()[1], 16) >> 24 & 1 for it in ignored], [0, 1])


class Edges(unittest.TestCase):
    # Some of it would keep the interpreter for long.
    @patch.object(running, "SECONDS", 2)
    def test_a_program_that_does_otherwise_is_told(self):
        is_failed, said = told(["edges"], FAKE)
        self.assertTrue(is_failed)
        for wanted in ("the word", "a file whose name is no text", "--help on a full device", "a stack of 16 KiB", "no more threads",
                       "a list that settles to itself, sent many times",
                       "it is told that no thread can be started: False and not True"):
            self.assertIn(wanted, said)


if __name__ == "__main__":
    unittest.main()
