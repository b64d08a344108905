"""What a program does otherwise than it may without memory is told, and requests are refused as it is said."""
import re
import shutil
import subprocess
import tempfile
import unittest
from pathlib import Path
from unittest.mock import patch

import refused
import texts
from refused import Refuser, Waiting, compiled
from refusing import chosen, shifted
from running import run
from test_running import FAKE, told
from texts import commands_of, sessions_below

SESSION, SHORTEST = "vat a () 1\ndef x := 2\nrun 3\n", "vat a () 0\n"
# What is told of a fake that has a fault where it is refused memory.
FAULTS = {
    "changes refused": "want of memory, and then otherwise:\nwanted: no B12 NoEvent e4040404040\ngot:    vat a e1\n",
    "forgets refused": "want of memory, and then otherwise:\nwanted: vat a e1\ngot:    1 e1 undone birth a causes\n",
    "draws refused": "want of memory, and then otherwise:\nwanted: ok e1 e1.m0\ngot:    ok e2 e2.m0\n",
    "is-silent refused": "neither the usual one nor want of memory\nwanted: ok e1 e1.m0\ngot:    \n",
    "goes-on refused": "room for a line was refused, and the run did not end for want of memory\n",
    "ends refused": "the run ended though no room for a line was refused\n",
    "dies refused": "signal 9 ended it: Killed, and said \n",
    "fails refused": "it ended with 3, and said \n",
    "adds-line end": "without a refusal it ended with 1, and said .*\nmore\n",
    "dies end": "without a refusal signal 9 ended it",
}
# Keeps each byte that it reads in room of its own, and behind a line feed asks for more: how many requests it got is its reply.
PROGRAM = """
#include <stdlib.h>
#include <unistd.h>

int main(void) {
    char byte;
    for (int got = 0; read(0, &byte, 1) == 1;) {
        got += malloc(1) != NULL;
        if (byte != '\\n')
            continue;
        void *made = NULL;
        got += calloc(1, 1) != NULL;
        got += realloc(NULL, 1) != NULL;
        got += !posix_memalign(&made, 64, 1);
        write(1, (char[]){'0' + got, '\\n'}, 2);
        got = 0;
    }
}
"""


@unittest.skipUnless(shutil.which("gcc"), "there is no gcc")
class Refused(unittest.TestCase):
    @classmethod
    def setUpClass(cls):
        folder = tempfile.TemporaryDirectory()
        cls.addClassCleanup(folder.cleanup)
        cls.folder = Path(folder.name)
        cls.library = compiled(folder.name)

    def refuse(self, *words, fault="none end", session=SESSION):
        """Whether the script fails on a fake, and what it prints."""
        (self.folder / "few.evats").write_text(session)
        (self.folder / "few.replies").touch()
        with patch.object(refused, "compiled", return_value=self.library):
            return told(["refuse"], *words, "--program", FAKE, str(self.folder / "few.evats"), fault=fault)

    def test_a_program_that_does_all_is_passed(self):
        usual = "answered as ever: 4\nanswered by want of memory: 4\nended at a line: 6\n14 refusals, 0 failed\n"
        self.assertEqual(self.refuse(), (False, usual))
        self.assertEqual(self.refuse("--jobs", "2"), (False, usual))

    def test_a_session_may_ask_for_the_greatest_event(self):
        self.assertRegex(self.refuse(session="cone e4294967295\n")[1], "[1-9][0-9]* refusals, 0 failed\n$")

    def test_each_fault_is_told(self):
        for fault, wanted in FAULTS.items():
            with self.subTest(fault=fault):
                session = SESSION if fault == "forgets refused" else SHORTEST
                is_failed, said = self.refuse(fault=fault, session=session)
                self.assertTrue(is_failed)
                self.assertRegex(said, re.compile(f"FAILED .*{wanted}.*, [1-9][0-9]* failed\n$", re.S))

    def test_an_exchange_never_says_want_of_memory(self):
        is_failed, said = self.refuse(session="exchange 1\n")
        self.assertTrue(is_failed)
        self.assertRegex(said, "nor want of memory\nwanted: no B12 NoEvent 1\ngot:    no B20 Memory\n")

    def test_without_a_refusal_nothing_is_passed(self):
        self.assertEqual(self.refuse("--seconds", "0"), (True, "0 refusals, 0 failed\n"))
        self.assertEqual(told(["refuse"], "--program", FAKE), (True, "0 refusals, 0 failed\n"))
        is_failed, said = told(["refuse"], "--program", FAKE, "no_such_session")
        self.assertTrue(is_failed)
        self.assertEqual(said, "FAILED no_such_session: there is no such test\n0 refusals, 1 failed\n")

    def test_some_requests_are_chosen_of_many(self):
        self.assertEqual([*chosen(5, 5, 1)], [1, 2, 3, 4, 5])
        self.assertEqual(len(set(chosen(1_000, 7, 1)) & set(range(1, 1_001))), 7)
        self.assertRegex(self.refuse("--most", "2", session=SHORTEST)[1], "^left out: 2\n(.|\n)*\n4 refusals, 0 failed\n$")

    def test_sessions_that_were_written_by_hand_are_tried_whole(self):
        names = [str(self.folder / "few.evats"), *sessions_below("tests/random"), *sessions_below("tests/questions")]
        with patch.object(texts, "sessions_below", lambda folder: names if folder == "tests" else []):
            is_failed, said = self.refuse("--all", "--most", "1", "--seconds", "0")
        self.assertFalse(is_failed)
        self.assertRegex(said, "^14 refusals in 1 sessions that were written by hand: .*\n(.|\n)*\n14 refusals, 0 failed\n$")

    def test_what_the_library_refuses(self):
        source, program, refuser = self.folder / "program.c", self.folder / "program", Refuser(self.library)
        source.write_text(PROGRAM)
        subprocess.run(["gcc", "-o", program, source], check=True)
        # Of `cde` with its line feed, which are bytes 3 to 6 of the input, seven requests are made, four of them behind it.
        for first, is_on, replies, told_of in (
            (0, False, "6\n7\n5\n", (7, 0, 0)),
            (1, False, "6\n6\n5\n", (7, 1, 1)),
            (4, False, "6\n6\n5\n", (7, 1, 0)),
            (7, False, "6\n6\n5\n", (7, 1, 0)),
            (8, False, "6\n7\n5\n", (7, 0, 0)),
            (1, True, "6\n0\n5\n", (7, 7, 3)),
            (3, True, "6\n2\n5\n", (7, 5, 1)),
        ):
            refuser.watch(3, 7, first, is_on)
            ended = run([program], "ab\ncde\nf\n", environment=refuser.environment)
            self.assertEqual((ended, refuser.told()), ((0, replies, ""), told_of))

    def waiting(self, words, *commands):
        return Waiting(words, Refuser(self.library), commands)

    def test_how_a_program_goes_on_in_copies(self):
        source, program = self.folder / "copied.c", self.folder / "copied"
        source.write_text(PROGRAM)
        subprocess.run(["gcc", "-o", program, source], check=True)
        with self.waiting([program], "ab\n", "cde\n", "f\n") as waiting:
            for place in (3, 0, 7):
                if place:
                    waiting.go_to(place)
                for given, watched, first, is_on, replies, told_of in (
                    ("cde\nf\n", 4, 0, False, "7\n5\n", (7, 0, 0)),
                    ("cde\nf\n", 4, 4, False, "6\n5\n", (7, 1, 0)),
                    ("cde\nf\n", 4, 3, True, "2\n5\n", (7, 5, 1)),
                    ("f\n", 0, 1, True, "5\n", (0, 0, 0)),
                ):
                    ended = waiting.run(given, watched, first, is_on)
                    self.assertEqual((ended, waiting.refuser.told()), ((0, replies, ""), told_of))

    def test_how_a_copy_ends(self):
        with self.waiting(["sh", "-c", "read a; echo $a; exit 3"], "1\n") as waiting:
            self.assertEqual(waiting.run("2\n", 0), (3, "2\n", ""))
        with self.waiting(["sh", "-c", "read a; echo $a >&2; exec sh -c 'kill -6 $$'"], "1\n") as waiting:
            self.assertEqual(waiting.run("2\n", 0), (-6, "", "2\n"))

    def test_a_program_that_hangs_begins_anew(self):
        session = ["read a; read a; [ $a = hang ] && sleep 1000; echo $a", "1\n"]
        with patch.object(refused, "SECONDS", 0.5), self.waiting(["sh", "-c", session[0]], "1\n", "2\n") as waiting:
            waiting.go_to(2)
            self.assertEqual(waiting.run("hang\n", 0), (None, "", ""))
            self.assertEqual(waiting.run("3\n", 0), (0, "3\n", ""))

    def test_how_sessions_are_cut_into_commands(self):
        for text, commands in (
            (b"", []),
            (b"show", ["show\n"]),
            (b"vat a () 2\nx\ny\n\nshow\n", ["vat a () 2\nx\ny\n", "\n", "show\n"]),
            (b"vat a () 2\r\nx\ny\n", ["vat a () 2\r\nx\ny\n"]),
            (b"vat a ( ) 1\nshow\nvat a () 3\nx\n", ["vat a ( ) 1\n", "show\n"]),
            (b"ask a \xff\n", ["ask a \udcff\n"]),
        ):
            self.assertEqual(commands_of(text), commands)

    def test_how_names_are_shifted(self):
        self.assertEqual(shifted("ok e9 <e10.m0> e11 be10", 10, 1), "ok e9 <e11.m0> e12 be10")


if __name__ == "__main__":
    unittest.main()
