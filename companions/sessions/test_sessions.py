"""Looks at how sessions and tables are read and compared. The programs that are run here are small ones of the shell."""
import contextlib
import io
import re
import tempfile
import unittest
from pathlib import Path

from conversation.language import meanings, read_documents
from highlighting.language import command_words

from . import documents, tables
from .__main__ import main
from .cases import Broken, Case, case_of, status_of
from .differences import command_of, differences
from .finding import DOCUMENTS, ROOT, cases_of
from .running import Ran, run

# Refusals for want of memory or of threads, and of a full journal: no commands alone bring them about.
WITHOUT_A_CASE = {"B8", "B20", "L7", "S7"}
# A session whose replies are its commands: `cat` answers it rightly.
COMMANDS = "one\ntwo\nthree\n"


class Folder(unittest.TestCase):
    """A folder of tests for one test, and programs to run on it."""

    def setUp(self):
        room = tempfile.TemporaryDirectory()
        self.addCleanup(room.cleanup)
        self.folder = Path(room.name)

    def put(self, name, text):
        path = self.folder / name
        path.parent.mkdir(exist_ok=True)
        path.write_bytes(text if isinstance(text, bytes) else text.encode())
        return path

    def session(self, name="tests/talk", commands=COMMANDS, replies=COMMANDS):
        self.put(f"{name}.evats", commands)
        self.put(f"{name}.replies", replies)

    def program(self, text):
        path = self.put("program", f"#!/bin/sh\n{text}\n")
        path.chmod(0o755)
        return path

    def ran(self, program, *words, names=("tests",)):
        """What the runner prints and its status, for a program of the shell."""
        told = io.StringIO()
        options = ["--program", str(self.program(program)), *words]
        with contextlib.redirect_stdout(told):
            status = main([*options, *(str(self.folder / name) for name in names)])
        return told.getvalue(), status

    def fails(self, program, *words):
        """What is told of the session where this program fails it."""
        self.session()
        told, status = self.ran(program, *words)
        self.assertEqual((status, told.splitlines()[-1]), (1, "0 passed, 1 failed"), told)
        return told


class Programs(Folder):
    def test_a_right_one_passes(self):
        self.session()
        self.assertEqual(self.ran("exec cat"), ("1 passed, 0 failed\n", 0))

    def test_a_wrong_reply_fails(self):
        told = self.fails("exec sed s/two/ten/")
        for part in ("line 2 of the replies, to `two`", "wanted: two", "got:    ten"):
            self.assertIn(part, told)

    def test_a_missing_reply_fails(self):
        self.assertIn("wanted: three\n    got:    nothing", self.fails("exec sed 3d"))

    def test_a_surplus_reply_fails(self):
        told = self.fails("cat; echo four")
        self.assertIn("line 4 of the replies, after the last command\n    wanted: nothing\n    got:    four", told)

    def test_a_missing_line_feed_fails(self):
        self.assertIn("got:    three (and no line feed)", self.fails("cat > /dev/null; printf 'one\\ntwo\\nthree'"))

    def test_a_wrong_status_fails(self):
        self.assertIn("ended with status 3, and wanted is 0", self.fails("cat; exit 3"))

    def test_death_by_a_signal_fails(self):
        self.assertIn("died by signal 11, Segmentation fault", self.fails("cat; kill -SEGV $$"))

    def test_standard_error_fails(self):
        self.assertIn("line 1 of standard error\n    wanted: nothing\n    got:    trouble", self.fails("cat; echo trouble >&2"))

    def test_one_that_hangs_fails(self):
        self.assertIn("hangs: it had not ended after 0.2 seconds", self.fails("exec sleep 30", "--seconds", "0.2"))
        self.assertIn("hangs", self.fails("cat; exec sleep 30", "--seconds", "0.2"))

    def test_one_that_takes_its_first_read_for_all_fails_byte_by_byte(self):
        self.assertIn("(byte by byte)", self.fails("exec dd bs=64k count=1 status=none"))

    def test_one_that_reads_nothing_is_compared(self):
        self.session(commands="x" * 200_000, replies="")
        self.assertEqual(self.ran("exit 0"), ("1 passed, 0 failed\n", 0))

    def test_much_output_does_not_block(self):
        text = "".join(f"{number}\n" for number in range(50_000))
        self.session(commands=text, replies=text)
        self.assertEqual(self.ran("exec cat")[1], 0)

    def test_no_program(self):
        told = io.StringIO()
        with contextlib.redirect_stdout(told):
            self.assertEqual(main(["--program", str(self.folder / "none")]), 1)
        self.assertEqual(told.getvalue().splitlines()[-1], "0 passed, 1 failed")


class Files(Folder):
    def test_arguments_status_and_errors_stand_beside(self):
        self.session(commands="", replies="--budget 3\n")
        self.put("tests/talk.args", "--budget\n3\n")
        self.put("tests/talk.status", "2\n")
        self.put("tests/talk.errors", "trouble\n")
        self.assertEqual(self.ran('echo "$@"; echo trouble >&2; exit 2')[1], 0)

    def test_a_refusal_has_status_1(self):
        self.assertEqual((status_of(b"ok e1\nno B4 NotThere\n"), status_of(b"ok e1\n noun no = 1\n")), (1, 0))
        self.session(commands="no B4 NotThere\n", replies="no B4 NotThere\n")
        self.assertEqual(self.ran("cat; exit 1")[1], 0)
        self.assertEqual(self.ran("exec cat")[1], 1)

    def test_what_stands_alone_fails(self):
        for name in ("talk.evats", "talk.replies", "talk.args", "talk.status", "talk.errors", "talk.reply"):
            with self.subTest(name):
                self.put(f"tests/{name}", "")
                told, status = self.ran("exec cat")
                self.assertEqual((status, told.splitlines()[-1]), (1, "0 passed, 1 failed"))
                (self.folder / "tests" / name).unlink()

    def test_nothing_to_run_fails(self):
        (self.folder / "tests").mkdir()
        told, status = self.ran("exec cat")
        self.assertEqual((status, told.splitlines()[-1]), (1, "0 passed, 1 failed"))

    def test_what_is_named_is_run(self):
        self.session("tests/right")
        self.session("tests/wrong", replies="else\n")
        self.assertEqual(self.ran("exec cat")[0].splitlines()[-1], "1 passed, 1 failed")
        for name in ("tests/right", "tests/right.evats"):
            self.assertEqual(self.ran("exec cat", names=[name]), ("1 passed, 0 failed\n", 0))
        told, status = self.ran("exec cat", names=["tests/right", "tests/rihgt"])
        self.assertEqual((status, told.splitlines()[-1]), (1, "1 passed, 1 failed"))
        self.assertIn("there is no such test", told)

    def test_replies_are_accepted(self):
        self.put("tests/talk.evats", "one\n")
        told, status = self.ran("cat; echo trouble >&2; exit 2", "--accept")
        self.assertEqual((status, told.count("written: ")), (0, 3))
        self.assertEqual((self.folder / "tests/talk.replies").read_text(), "one\n")
        self.assertEqual(self.ran("cat; echo trouble >&2; exit 2")[1], 0)
        self.assertIn("written: ", self.ran("exec cat", "--accept")[0])
        self.assertFalse((self.folder / "tests/talk.status").exists())

    def test_replies_of_nothing_are_accepted(self):
        self.put("tests/talk.evats", "one\n")
        self.assertEqual(self.ran("exec cat > /dev/null", "--accept")[1], 0)
        self.assertEqual((self.folder / "tests/talk.replies").read_text(), "")

    def test_what_died_is_not_accepted(self):
        self.session()
        told, status = self.ran("kill -SEGV $$", "--accept")
        self.assertEqual((status, "written" in told), (1, False))

    def test_what_differs_byte_by_byte_is_not_accepted_quietly(self):
        self.session(replies="else\n")
        self.assertEqual(self.ran("exec dd bs=64k count=1 status=none", "--accept")[1], 1)


class Tables(Folder):
    # It takes `ask a TEXT` for right where TEXT is `1`.
    PROGRAM = (
        'while read -r line; do case $line in "vat a () 0") echo ok e1 e1.m0;; "turn e1.m0") echo ok e2 value null;;'
        ' "ask a 1") echo ok e3 e3.m0;; "ask a "*) echo no K1 Unbound; refused=1;; *) echo ok e4 value 1;; esac; done;'
        " exit ${refused:-0}"
    )

    def case(self, text, answer):
        (case,) = tables.cases_of("row", tables.Row(1, text, answer), tables.HEAD)
        return case

    def test_a_row_is_asked_in_a_vat(self):
        case = self.case("1 + 1", "value 2")
        self.assertEqual(case.commands, b"vat a () 0\nturn e1.m0\nask a 1 + 1\nturn e3.m0\n")
        self.assertEqual(case.replies, b"ok e1 e1.m0\nok e2 value null\nok e3 e3.m0\nok e4 value 2\n")

    def test_a_refusal_ends_it(self):
        case = self.case("x", "no K1 Unbound x")
        self.assertEqual(case.commands, b"vat a () 0\nturn e1.m0\nask a x\n")
        self.assertEqual((case.replies, case.status), (b"ok e1 e1.m0\nok e2 value null\nno K1 Unbound x\n", 1))

    def test_what_texts_mean(self):
        self.assertEqual(tables.Row(1, "(nothing)", "").meant, "")
        self.assertEqual(tables.Row(1, "«3×( »1«2×) »", "").meant, "( ( ( 1) ) ")
        self.assertEqual(tables.Row(1, "a␀␉␊␍", "").meant, "a\0\t\n\r")

    def test_steps_are_counted(self):
        enough, less = tables.cases_of("row", tables.Row(1, "1", "3 steps: value 1"), tables.HEAD)
        self.assertEqual((enough.arguments, less.arguments), (("--budget", "3"), ("--budget", "2")))
        self.assertIn(b"value 1", enough.replies)
        self.assertIn(b'abandoned "turn budget spent"', less.replies)

    def test_a_table_has_its_head(self):
        path = self.put("own.table", "# About.\n\n> vat v () 0\nok e1 e1.m0\n> ..\n..\n\n# More.\nstep => idle\nhop => no S1 X\n")
        cases = tables.cases_in(path, "own")
        self.assertEqual([case.name for case in cases], ["own:9", "own:10"])
        self.assertEqual(cases[0].commands, b"vat v () 0\nstep\n")
        self.assertEqual(cases[1].replies, b"ok e1 e1.m0\nno S1 X\n")

    def test_what_is_no_row(self):
        headless = ("> ..\nok\n\n1 => ok\n", "> step\n..\n\n1 => ok\n")
        for text in ("1 => \n", "1\n", " => value 1\n", "# Nothing.\n", "", *headless):
            with self.subTest(text):
                (broken,) = tables.cases_in(self.put("some.table", text), "some")
                self.assertIsInstance(broken, Broken)

    def test_each_row_is_a_case(self):
        self.put("tests/some.table", "1 => value 1\n1 => value 2\nx => no K1 Unbound\n1 => no K1 Unbound\n")
        told, status = self.ran(self.PROGRAM)
        self.assertEqual((status, told.splitlines()[-1]), (1, "2 passed, 2 failed"))
        for line in (2, 4):
            self.assertIn(f"tests/some.table:{line} (whole)", told)

    def test_answers_are_accepted(self):
        path = self.put("tests/some.table", "# Some.\n1 => value 2\nx => value 3\n1 => no K1 Unbound\n")
        self.assertEqual(self.ran(self.PROGRAM, "--accept")[1], 0)
        self.assertEqual(path.read_text(), "# Some.\n1 => value 1\nx => no K1 Unbound\n1 => value 1\n")

    def test_what_is_no_answer_is_not_accepted(self):
        path = self.put("tests/some.table", "1 => value 2\n")
        self.assertEqual(self.ran("echo ok e9", "--accept")[1], 1)
        self.assertEqual(path.read_text(), "1 => value 2\n")


class Differences(unittest.TestCase):
    COMMANDS = b"# one\nvat a () 1\nshow\nrun 2\nrun 9\nshow\n\nshow all\nenabled\njournal\nstep\n"
    REPLIES = (
        b"ok e1 e1.m0\nok e2 value 1\nok e3\nok e4\nidle\nvat a e1\n noun x = 1\nno S2 BadWord\nenabled 1\nturn e1.m0\n"
        b"base 1\n2 e2 live birth a causes\nidle\n"
    )

    def test_a_line_is_told_with_its_command(self):
        owners = ["vat a () 1", "run 2", "run 2", "run 9", "run 9", "show", "show", "show all", "enabled", "enabled"]
        for place, command in enumerate([*owners, "journal", "journal", "step"]):
            self.assertEqual(command_of(self.COMMANDS, self.REPLIES, place), f"to `{command}`")

    def test_a_long_line_is_cut(self):
        case = case_of("long", ["log a"], ["x" * 5_000 + "y" + "x" * 5_000])
        told = differences(case, Ran(case.replies.replace(b"y", b"z"), b"", 0), 1)
        self.assertIn("xyx", told[1])
        self.assertIn("xzx", told[2])
        self.assertLess(max(map(len, told)), 200)

    def test_bytes_that_are_no_text(self):
        told = differences(Case("bytes", b"\xff\n", b"\xff\r\n"), Ran(b"\xfe\n", b"", 0), 1)
        self.assertEqual(told[1:], ["  wanted: \\xff␍", "  got:    \\xfe"])


class Documents(unittest.TestCase):
    def test_sessions_and_rows_are_found(self):
        session = "```sh\n./run <<'END'\nshow\nstep\nEND\n```\n\nIt prints:\n\n```\nidle\n```\n"
        self.assertEqual(documents.sessions_of("D", session), [case_of("D:1", ["show", "step"], ["idle"])])
        (case,) = documents.sessions_of("D", session.replace("./run", "./run --budget 3"))
        self.assertEqual(case.arguments, ("--budget", "3"))
        self.assertIsInstance(documents.sessions_of("D", session.replace("It prints:", "So:"))[0], Broken)
        table = "# A\nIn a vat whose script is `def x := 6`:\n\n| `ask a ..` | Reply |\n|---|---|\n| `x \\|\\| x` | `value 6` |\n"
        (row,) = documents.rows_of("D", table)
        self.assertEqual(row.commands, b"vat a () 1\ndef x := 6\nturn e1.m0\nask a x || x\nturn e3.m0\n")
        self.assertEqual(row.replies.splitlines()[1], b"ok e2 value 6")
        lines = "| Line of commands | Reply |\n|---|---|\n| `# x` | none |\n| `hop` | `no S1 X` |\n"
        self.assertEqual([row.replies for row in documents.rows_of("D", lines)], [b"", b"no S1 X\n"])

    def test_what_the_documents_show(self):
        shown = {name: documents.cases_in(ROOT / name, name) for name in DOCUMENTS}
        self.assertGreater(len(shown["README.md"]), 2)
        self.assertGreater(len(shown["docs/LANGUAGE.md"]), 70)
        self.assertFalse([case for cases in shown.values() for case in cases if isinstance(case, Broken)])


class Repository(unittest.TestCase):
    def test_each_file_of_a_test_is_one(self):
        self.assertFalse([case for case in cases_of([]) if isinstance(case, Broken)])

    def test_each_refusal_and_each_command_comes_in_a_case(self):
        cases = cases_of([])
        told = {each.code for each in meanings(read_documents()) if each.of != "library"}
        replies = "".join(case.replies.decode(errors="replace") for case in cases)
        self.assertEqual(told - set(re.findall(r"^no ([A-Z]\d+) ", replies, re.MULTILINE)), WITHOUT_A_CASE)
        commands = "".join(case.commands.decode(errors="replace") for case in cases)
        self.assertEqual(command_words() - set(re.findall(r"^[ \t]*([a-z-]+)", commands, re.MULTILINE)), set())

    def test_a_stem_is_found(self):
        self.assertEqual([case.name for case in cases_of(["mint"])], ["examples/mint"])

    def test_bytes_come_one_by_one(self):
        ran = run("/bin/sh", ("-c", "dd bs=100 count=1 status=none"), b"abc", 10, is_bytewise=True)
        self.assertEqual(ran, Ran(b"a", b"", 0))
