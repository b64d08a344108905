"""Each fault of a program is told by the scripts that run it, and a run with no session fails."""
import contextlib
import io
import os
import runpy
import subprocess
import sys
import threading
import time
import unittest
from pathlib import Path
from unittest.mock import patch

import running
from running import Conversation, Ended, ahead, run, side_by_side

HERE = Path(__file__).resolve().parent
FAKE = str(HERE / "fake")
COMPARE, SEVERAL, LOGS, WORKERS = ["compare"], ["compare", "--several"], ["compare", "--logs"], ["workers"]
TALK = ["talk"]

# What is told of a fault, in lines of a script or in the pairs of `talk`.
ALL = {
    "dies 2": "signal 9 ended it|status=-9",
    "dies end": "signal 9 ended it|status=-9",
    "fails end": "it ended with 3;|status=3",
    "mistakes end": "its status should be|status=0",
    "complains 2": "standard error: oh|err='oh",
    "complains end": "standard error: oh|err='oh",
    "adds end": r"got:    more \(and no line feed\)|more",
    "adds-line end": "got:    more|more",
}
# Where a reply is missing, a script that waits for it waits in vain.
WAITS = {"hangs 2": "it was stopped after 1 seconds", "hangs end": "it was stopped after 1 seconds"}
MISSES = {"omits end": r"got:    \(nothing\)", "cuts end": r"\(and no line feed\)", "stops 2": r"got:    \(nothing\)"}


def said_by(script, *words, fault="none end"):
    """Whether a script fails, what it prints, and what it says as errors."""
    said, errors = io.StringIO(), io.StringIO()
    with patch.dict(os.environ, FAULT=fault), patch("sys.argv", [*script, *words]), \
            contextlib.redirect_stdout(said), contextlib.redirect_stderr(errors):
        try:
            runpy.run_path(str(HERE / script[0]), run_name="__main__")
        except SystemExit as ended:
            return bool(ended.code), said.getvalue(), errors.getvalue()


def told(script, *words, fault="none end"):
    """Whether a script fails, and what it prints."""
    return said_by(script, *words, fault=fault)[:2]


class Scripts(unittest.TestCase):
    def expect(self, faults, *scripts):
        for script in scripts:
            seconds = [] if script == TALK else ["--seconds", "0.5"]
            for fault, wanted in faults.items():
                with self.subTest(script=script, fault=fault):
                    is_failed, said = told(script, *seconds, FAKE, fault=fault)
                    self.assertTrue(is_failed)
                    self.assertRegex(said, wanted)

    def test_a_program_that_does_all_is_passed(self):
        for script in (COMPARE, SEVERAL, LOGS, WORKERS):
            is_failed, said = told(script, "--seconds", "2", FAKE)
            self.assertFalse(is_failed, said)
            self.assertRegex(said, "^[1-9][0-9]* sessions compared, (0|none) differ")
        self.assertEqual(told(TALK, FAKE), (False, "\n0 differences\n"))
        self.assertFalse(told(["rerun"], "--seconds", "1")[0])

    def test_without_a_session_nothing_is_passed(self):
        for script in (COMPARE, SEVERAL, LOGS, WORKERS):
            self.assertTrue(told(script, "--seconds", "0", FAKE)[0], script)
        self.assertTrue(told(["rerun"], "--seconds", "0")[0])

    @patch.object(running, "SHORTENING", 0)
    def test_each_fault_is_told(self):
        self.expect(ALL, COMPARE, SEVERAL, LOGS, WORKERS)
        self.expect({fault: ALL[fault] for fault in ("dies 2", "mistakes end", "complains end", "adds end")}, TALK)

    @patch.object(running, "SHORTENING", 0)
    def test_replies_that_are_missing_are_told(self):
        self.expect(MISSES, COMPARE, SEVERAL, LOGS)
        self.expect({"stops 2": "is not whole"}, WORKERS)
        self.expect({"stops 2": "n := n .*: '' and not 'ok e3 e3.m0.n'"}, TALK)

    @patch.object(running, "SHORTENING", 0)
    @patch.object(running, "SECONDS", 1)
    def test_a_program_that_hangs_is_stopped(self):
        self.expect(WAITS, COMPARE, SEVERAL, LOGS, WORKERS, TALK)
        self.expect(dict.fromkeys(["omits end", "cuts end"], "it was stopped after 1 seconds"), WORKERS, TALK)

    def test_a_comparison_ends_behind_programs_that_never_answer(self):
        begin = "import running, runpy, sys; running.SECONDS = 1; del sys.argv[0]; runpy.run_path(sys.argv[0], run_name='__main__')"
        words = [sys.executable, "-c", begin, HERE / "compare", "--seconds", "0.5", "--jobs", "2", FAKE]
        for fault in ("hangs 0", "hangs end"):
            # Each program ignores SIGTERM besides. More than some seconds would be tries to make sessions short.
            ended = subprocess.run(words, cwd=HERE, env={**os.environ, "FAULT": fault}, capture_output=True, text=True, timeout=100, check=False)
            self.assertEqual((ended.returncode, ended.stderr), (1, ""))
            self.assertIn("it was stopped after 1 seconds", ended.stdout)
            self.assertRegex(ended.stdout, r"\n([1-9][0-9]*) sessions compared, \1 differ\n$")

    def test_what_is_under_way_is_told(self):
        with patch.object(running, "SHORTENING", 0):
            errors = said_by(COMPARE, "--seconds", "0.1", FAKE, fault="complains 2")[2]
        self.assertIn("a session differs; it is made short, for 0 seconds at most ..\n", errors)

    @patch.object(running, "SECONDS", 5)
    def test_what_a_program_had_said_is_told(self):
        self.expect({"hangs 2": "n := n .*: '' and not 'ok e3 e3.m0.n'(.|\n)*and had said 'ok e1 e1.m0.nok e2 value 2.n'"}, TALK)

    # On a machine with much else to do each try takes long.
    @patch.object(running, "SHORTENING", 1_000)
    def test_a_session_that_differs_is_made_short(self):
        said = told(COMPARE, "--seconds", "0.1", FAKE, fault="complains 2")[1]
        self.assertRegex(said, r"^\n--budget [0-9]+\n([^\n]*\n){2,9}\nstandard error: oh")


class Ahead(unittest.TestCase):
    def test_answers_come_in_order(self):
        self.assertEqual([*ahead(range(9), lambda it: time.sleep((9 - it) / 100) or -it)], [(it, -it) for it in range(9)])
        self.assertEqual([*ahead([], abs)], [])

    def test_work_is_under_way_while_the_next_is_made(self):
        is_made = threading.Event()
        items = (is_made.set() if it == 3 else it for it in range(4))
        self.assertEqual([answer for _, answer in ahead(items, lambda _: is_made.wait(60))], [True] * 4)


class SideBySide(unittest.TestCase):
    def told(self, seconds, *works):
        """What processes answer, each with a work of its own, and what is told meanwhile."""
        with contextlib.redirect_stderr(io.StringIO()) as said:
            return side_by_side(len(works), lambda number: works[number](), seconds), said.getvalue()

    def test_answers_come_in_order(self):
        self.assertEqual(self.told(60, lambda: time.sleep(0.2) or 1, lambda: 2), ([1, 2], ""))

    def test_a_process_without_an_answer_is_told(self):
        answers, said = self.told(60, lambda: os._exit(3), lambda: 2)
        self.assertEqual((answers, said), ([None, 2], "process 1 of 2 ended without an answer, with 3\n"))

    @patch.object(running, "MINUTE", 0.1)
    def test_one_that_does_not_end_is_told_and_stopped(self):
        answers, said = self.told(1, lambda: 1, lambda: time.sleep(1_000))
        self.assertEqual(answers, [1, None])
        self.assertRegex(said, "\n1 of 2 processes are at work, for [01] seconds at most\n(.|\n)*2 of 2 had not ended, and was stopped\n$")


class Runs(unittest.TestCase):
    def test_how_a_program_ends(self):
        for words, wanted in (
            (["cat"], (0, "a\n", "")),
            (["sh", "-c", "cat; echo b >&2; exit 3"], (3, "a\n", "b\n")),
            (["sh", "-c", "kill -6 $$"], (-6, "", "")),
        ):
            self.assertEqual(run(words, "a\n"), wanted)
            with Conversation(words) as conversation:
                conversation.give("a\n")
                self.assertEqual(conversation.end(), wanted)

    @patch.object(running, "SECONDS", 0.5)
    def test_a_program_is_stopped_with_what_it_started(self):
        words = ["sh", "-c", "echo a; sleep 1000; echo b"]
        self.assertEqual(run(words), (None, "a\n", ""))
        with Conversation(words) as conversation:
            self.assertEqual(conversation.hear(lambda said: said == b"a\n"), "a\n")
            self.assertEqual((conversation.end(), conversation.said), ((None, "", ""), "a\n"))

    @patch.object(running, "SECONDS", 0.5)
    def test_a_program_that_takes_nothing_is_stopped(self):
        with Conversation(["sleep", "1000"]) as conversation:
            conversation.give("x" * 1_000_000)
            self.assertEqual(conversation.end(), (None, "", ""))

    @patch.object(running, "MOST", 1_000_000)
    def test_a_program_that_does_not_end_its_reply_is_stopped(self):
        ended = run(["yes"])
        self.assertEqual((ended.status, ended.out[:4]), (None, "y\ny\n"))
        self.assertLess(len(ended.otherwise(["n"], 0)), 1_000)

    def test_what_is_no_text_differs(self):
        self.assertEqual(run(["printf", r"\377"]), (0, "(no text) b'\\xff'", ""))

    def test_what_is_otherwise(self):
        for ended, wanted in (
            (Ended(1, "a\nb\n", ""), ""),
            (Ended(1, "a\n", ""), "wanted: b\ngot:    (nothing)"),
            (Ended(1, "a\nb", ""), "wanted: b\ngot:    b (and no line feed)"),
            (Ended(1, "a\nb\n\n", ""), "wanted: (nothing)\ngot:    "),
            (Ended(1, "a\nc\nd\n", "e"), "wanted: b\ngot:    c\nstandard error: e"),
            (Ended(0, "a\nb\n", ""), "it ended with 0; its status should be 1"),
            (Ended(-9, "a\nb\n", ""), "signal 9 ended it: Killed; its status should be 1"),
            (Ended(None, "a\nb\n", ""), "it was stopped after 60 seconds or 16777216 bytes; its status should be 1"),
        ):
            self.assertEqual(ended.otherwise(["a", "b"], 1), wanted)
