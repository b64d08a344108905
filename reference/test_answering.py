"""How the plain interpreter runs in the program's place: its words, its streams, and how a run ends."""
import signal
import subprocess
import sys
import tempfile
import unittest
from unittest.mock import patch

import running
from running import Conversation
from standing import Built
from streams import lines_in
from test_running import FAKE, HERE, told
from texts import cases_of, companion
from words import NoText, Options, Shown, WrongWords, options_of, quoted, quoted_bytes

ANSWER = [sys.executable, "-I", "-S", str(HERE / "answer")]
run = companion("running").run
differences = companion("differences").differences
# Of two turns the first one takes long.
LONG = "vat a () 0\nvat b () 1\nwhile (true) { }\nrun 2\n"
LONG_BEGUN = "ok e1 e1.m0\nok e2 e2.m0\nok e3 value null\n"


class Words(unittest.TestCase):
    def test_what_they_ask_for(self):
        for words, options in (
            ("", Options()),
            ("--budget 3 --workers=64 a", Options(3, 64, "a")),
            ("- --budget +0007", Options(7)),
            ("--budget 1000000 -- --help", Options(1_000_000, 8, "--help")),
        ):
            self.assertEqual(options_of(words.split()), options)

    def test_what_is_wrong(self):
        for words, why in (
            ("--nonsense", "unexpected argument '--nonsense' found"),
            ("--budget --nonsense", "unexpected argument '--nonsense' found"),
            ("-xh", "unexpected argument '-x' found"),
            ("a b", "unexpected argument 'b' found"),
            ("--budget", "a value is required for '--budget <N>' but none was supplied"),
            ("--budget 3 --budget 3", "the argument '--budget <N>' cannot be used multiple times"),
            ("--budget 1_000", "invalid value '1_000' for '--budget <N>': invalid digit found in string"),
            ("--budget ٣", "invalid value '٣' for '--budget <N>': invalid digit found in string"),
            ("--workers 65", "invalid value '65' for '--workers <N>': 65 is not in 1..=64"),
            ("--help=3", "unexpected value '3' for '--help' found"),
        ):
            with self.subTest(words), self.assertRaises(WrongWords) as wrong:
                options_of(words.split())
            self.assertTrue(wrong.exception.told.startswith(f"error: {why}"), wrong.exception.told)

    def test_what_is_shown_in_place_of_a_run(self):
        with self.assertRaises(Shown) as shown:
            options_of(["--help", "--nonsense"])
        # Each command of the program's help is there.
        self.assertRegex(str(shown.exception), r"(?s)\nUsage: evats .*\n  exchange P +lets the entry .*\n  turn e3\.m0\n$")
        with self.assertRaises(Shown) as shown:
            options_of(["-V"])
        self.assertRegex(str(shown.exception), r"^evats [0-9.]+\n$")

    def test_words_that_are_no_text(self):
        with self.assertRaises(NoText) as fault:
            options_of(["--nonsense", "n\udcff'\n"])
        self.assertEqual(quoted_bytes(fault.exception.word), r"n\xff\'\n")
        self.assertEqual(quoted('häuser\n"\x1b\\\''), r'''"häuser\n\"\u{1b}\\'"''')


class Streams(unittest.TestCase):
    def test_lines_are_there_as_soon_as_they_are_whole(self):
        given, lines = [], lines_in(given.append(it) or it for it in (b"a", b"b\r\nc\n", b"", b"d\n\n", b"e\r"))
        self.assertEqual((next(lines), given), ((b"ab\r", b"ab"), [b"a", b"b\r\nc\n"]))
        self.assertEqual([*lines], [(b"c", b"c"), (b"d", b"d"), (b"", b""), (b"e\r", b"e\r")])

    def test_little_is_kept_of_a_long_line(self):
        lines = [*lines_in([b"x" * 60_000] * 9 + [b"\ny" + b"z" * 90_000])]
        self.assertEqual([len(line) for line, _ in lines], [65_537, 65_537])

    def test_each_command_is_answered_before_the_next_one_is_given(self):
        self.assertEqual(told(["talk"], str(HERE / "answer")), (False, "\n0 differences\n"))

    def test_each_step_of_a_run_is_answered_before_the_next(self):
        with Conversation([*ANSWER, "--budget", "1000000"]) as conversation:
            conversation.give(LONG)
            self.assertEqual(conversation.hear(lambda said: said.count(b"\n") >= 3), LONG_BEGUN)


class Ends(unittest.TestCase):
    def limited(self, limit, given, **streams):
        """How it ends under a limit of the system."""
        return running.run([sys.executable, "-S", HERE / "limiting.py", limit, "--", *ANSWER], given, **streams)

    def test_sessions(self):
        cases = cases_of(["tests/commands", "examples", "tests/language/calls_too_deep", "tests/workers"])
        self.assertGreater(len(cases), 20)
        for case in cases:
            ran = run(ANSWER[0], (*ANSWER[1:], *case.arguments), case.commands, 60)
            self.assertEqual(differences(case, ran, 60), [], case.name)

    def test_control_c_and_sigterm_end_it_at_once(self):
        for sent in (signal.SIGINT, signal.SIGTERM):
            with Conversation([*ANSWER, "--budget", "1000000"]) as conversation:
                conversation.give(LONG)
                conversation.hear(lambda said: said.count(b"\n") >= 3)
                conversation.process.send_signal(sent)
                self.assertEqual(conversation.end(), (-sent, "", ""))

    def test_a_fault_of_the_interpreter_is_no_refusal(self):
        ended = running.run([sys.executable, "-c", f"import sys; sys.path.insert(0, {str(HERE)!r}); "
                             "import answering; answering.Engine = None; answering.main([])"], "step\n")
        self.assertEqual((ended.status, ended.out), (2, ""))
        self.assertIn("TypeError", ended.err)

    def test_where_errors_cannot_be_written_the_status_tells_them(self):
        words = ["/bin/sh", "-c", 'exec "$0" "$@" --nonsense 2> /dev/full', *ANSWER]
        self.assertEqual(running.run(words), (2, "", ""))

    def test_what_fails_for_the_system(self):
        self.assertEqual(self.limited("AS=209715200", "step\n"), (2, "", "evats: no thread can be started\n"))
        with tempfile.TemporaryFile() as replies:
            self.assertEqual(self.limited("FSIZE=1024", "step\n" * 1_000, stdout=replies), (2, "", "evats: writing failed\n"))
            replies.seek(0)
            self.assertEqual(replies.read(), b"idle\n" * 204 + b"idle")


class Alike(unittest.TestCase):
    def test_a_program_that_does_all_is_passed(self):
        said = "1 sessions, 0 differ\n"
        self.assertEqual(told(["alike"], "--program", FAKE, "mint"), (False, said))
        self.assertEqual(told(["alike"], "--jobs", "2", "--program", FAKE, "mint"), (False, said))

    def test_each_fault_is_told(self):
        for fault, wanted in (
            ("dies 2", "ended with status [01], and wanted is -9"),
            ("omits end", "wanted: nothing"),
            ("mistakes end", "ended with status 0, and wanted is 1"),
            ("complains 2", "line 1 of standard error\n    wanted: oh\n    got:    nothing"),
        ):
            with self.subTest(fault):
                is_failed, said = told(["alike"], "--program", FAKE, "mint", fault=fault)
                self.assertTrue(is_failed)
                self.assertRegex(said, f"^FAILED examples/mint \\(whole\\):\n(.|\n)*{wanted}(.|\n)*\n1 sessions, 1 differ\n$")

    def test_a_program_that_hangs_is_stopped(self):
        with patch.object(Built, "seconds", 1):
            is_failed, said = told(["alike"], "--program", FAKE, "mint", fault="hangs 0")
        self.assertTrue(is_failed)
        self.assertRegex(said, "wanted: nothing\n(.|\n)*1 sessions, 1 differ\n$")

    def test_without_a_session_nothing_is_passed(self):
        self.assertEqual(told(["alike"], "--program", FAKE, "no_such_session"),
                         (True, "FAILED no_such_session (whole):\n  there is no such test\n1 sessions, 1 differ\n"))


if __name__ == "__main__":
    unittest.main()
