"""Looks at what is known of a session. The program is the plain interpreter, or the one that EVATS_PROGRAM names."""
import itertools
import os
import random
import re
import signal
import stat
import sys
import tempfile
import time
import unittest
import unittest.mock
from pathlib import Path

from .advice import advice, pointed
from .again import Answered, Step, commands_again
from .commands import Command, commands_of, is_command, lines_of, script_length
from .completion import completions
from .files import FileFault
from .helping import help_on
from .history import NotKept, keep, kept_lines
from .journal import JournalFault, between, cone, origins, read_journal, undone_cone, with_causes
from .language import meanings, read_documents, told_of
from .program import Ended, Program, Stopped, TooMuch, help_of
from .questions import answer_to, cell_of, cells_in, way_by_causes, why_in
from .refusals import SENTENCES, in_words
from .replies import Refusal, ends_in, events_in, refusal_in
from .session import Session, UnknownLabel
from .telling import answer_in_words, event_told, message_told, thing_told
from .texts import Openness, on_one_line, openness, tokens_of, without_label
from .typed import TOO_LONG, NotTyped, typed, written
from .usages import usages_in
from .visible import for_stream, visible
from .world import read_world

PROGRAM = os.environ.get("EVATS_PROGRAM") or str(Path(__file__).with_name("stand_in"))
# One that does not know the commands why, event, message and object, and one that does, of one session.
UNASKED = [str(Path(__file__).with_name("stand_in")), "--unasked"]
RECORDED = [str(Path(__file__).with_name("recorded"))]
ASKED_OF_IT = """\
vat carol () 1
def _ { method x() { 1 } method w() { 2 } }
turn e1.m0
vat bob () 1
def _ { method y(c) { c <- w() } }
turn e3.m0
vat alice (carol bob) 0
turn e5.m0
ask alice carol <- x(); bob <- y(carol)
turn e7.m0
arrive e8.m1
turn e8.m1
arrive e10.m0
arrive e8.m0
turn e8.m0
turn e10.m0
"""
# Three vats: a message goes on from one to another, and what it caused is taken back and redone.
FORWARDED = """\
vat bank () 5
def bank {
  to open(balance) {
    return def _ { to plus(n) { return balance + n } }
  }
}
vat ann (bank) 2
def account := bank <- open(10)
def ann { to account() { return account } }
vat bob (ann) 1
(ann <- account()) <- plus(5)
run 100
"""
BANK, ANN, BOB = ["e1", "e4", "e7", "e8", "e13", "e14"], ["e2", "e5", "e9", "e10", "e11", "e12", "e15", "e16"], ["e3", "e6", "e17"]
JOURNAL = """\
1 e1 live birth a causes
2 e2 live turn e1.m0 causes e1
3 e3 undone ask a causes e1
4 e4 undone turn e3.m0 causes e1 e2 e3
5 e5 live ask a causes e1
6 e6 live turn e5.m0 causes e1 e2 e5
7 e7 live ask a causes e1
8 e8 live turn e7.m0 causes e1 e2 e6 e7
"""
SENDS = """\
1 e1 live birth alice causes
2 e2 live birth bob causes
3 e3 live turn e1.m0 causes e1
4 e4 live arrive e3.m0 causes e1 e3
5 e5 live turn e3.m0 causes e1 e2 e3 e4
6 e6 live forward e3.m1 causes e1 e3
7 e7 live learn bob e5.p0 causes e2 e5
"""
# The body of a program that takes its time for a reply.
SLOW = """\
for line in sys.stdin:
    if line.startswith("cone"):
        print("no B12 NoEvent", line[5:], end="", flush=True)
    else:
        time.sleep(0.4)
        print("done", flush=True)
"""
THREE_AT_WORK = FORWARDED.replace("run 100", """\
ask bob ann <- account()
ask ann [account <- plus(1), account <- plus(2)]
work 4 3
ask bob 1
work 4 100
""")
# One whose replies are long.
LONG = """\
for line in sys.stdin:
    print("no B12 NoEvent " + line[5:] if line[:4] == "cone" else "x\\n" * 9999 + "last\\n", end="", flush=True)
"""
VARIABLES = """\
vat a () 2
var red := 1
var blue := 1
turn e1.m0
ask a red := 10
turn e3.m0
ask a blue := 20
turn e5.m0
"""


def events_of(text):
    return read_journal(lines_of(text))


def stub(folder, body):
    """A program in Python that stands for the built one."""
    path = Path(folder, "program")
    path.write_text(f"#!{sys.executable}\nimport os, signal, sys, time\n{body}\n")
    path.chmod(0o755)
    return str(path)


class Lines(unittest.TestCase):
    def test_scripts_are_no_commands(self):
        script = "# vat b () 9\n\nvat a () 2\nask a 1\n# 2\n"
        others = "\tturn e1.m0\r\nvat if () 1\nvat b () 4097\nvat b (a) 1\n7\n"
        commands = commands_of(lines_of(script + others))
        self.assertEqual([command.word for command in commands], ["vat", "turn", "vat", "vat", "vat"])
        self.assertEqual([command.script for command in commands], [("ask a 1", "# 2"), (), (), (), ("7",)])

    def test_an_open_script_is_told(self):
        self.assertEqual([each.is_complete for each in commands_of(["show", "vat a () 2", "1"])], [True, False])
        self.assertEqual([each.is_complete for each in commands_of(["vat a () 1", "vat a () 2"])], [True])

    def test_what_is_answered(self):
        for line in ["show", "  x", "# \udcff", " " * 65_537]:
            self.assertTrue(is_command(line), line[:9])
        for line in ["", " \t", "# x", "\t#"]:
            self.assertFalse(is_command(line), line)

    def test_what_a_command_says(self):
        said = [command.text for command in commands_of(["vat a () 2", " var n := 1", "n", "ask a  n + 1", "ask a", "show"])]
        self.assertEqual(said, ["var n := 1; n", "n + 1", "", ""])

    def test_which_scripts_the_program_takes(self):
        for line in ["vat a () 3", "vat\ta\t()\t3 ", "vat a (b) 3", "vat a (b \t c) 0003", f"vat {'a' * 64} () 3"]:
            self.assertEqual(script_length(line), 3, line)
        strange = ["vat a ( b) 3", "vat a (b ) 3", "vat a ( ) 3", "vat a (b b) 3", "vat a (if) 3", "vat _ () 3", "vat 1a () 3"]
        strange += [f"vat {'a' * 65} () 3", "vat a () 4097", "vat a () 3 4", "vat a () +3", "vat a 3", "vat () 3", "Vat a () 3"]
        strange += ["vat a () \udcff3", f"vat a () {'0' * 65_536}3", "vat a () ٣", "vat a (b,c) 3", "vat a () 3\v"]
        for line in strange:
            self.assertEqual(script_length(line), 0, line)


class Replies(unittest.TestCase):
    def test_refusals(self):
        self.assertEqual(refusal_in(("no B15 NotClosed e1 e2",)), Refusal("B15", "NotClosed", ("e1", "e2")))
        self.assertEqual(refusal_in(("ok e1", "no B8 Full")), Refusal("B8", "Full", ()))
        for reply in [(), ('ok e1 value "no B1"',), ("cone e1",), ("no B1 NoVat a", "idle")]:
            self.assertIsNone(refusal_in(reply), reply)

    def test_events(self):
        reply = ("ok e1 e1.m0", "ok e2", 'ok e3 value "ok e9 value 1"', "ok undone 2", "ok exchanged e4 e5", "idle")
        self.assertEqual(events_in(reply), ["e1", "e2", "e3"])
        self.assertEqual(ends_in(reply), {"e3": 'value "ok e9 value 1"'})


class Journals(unittest.TestCase):
    def test_a_line_is_read(self):
        (event,) = read_journal(["1 e7 undone ask causes causes"])
        self.assertEqual((event.name, event.is_live, event.kind), ("e7", False, "ask"))
        self.assertEqual((event.arguments, event.causes), (("causes",), ()))

    def test_what_is_no_line(self):
        for line in ["ok e1 value 1", "e1 live birth a causes", "1 e1 gone birth a causes", "1 e1 live birth a causes e"]:
            with self.assertRaises(JournalFault, msg=line):
                read_journal([line])

    def test_a_cause_stands_before_or_is_settled(self):
        with self.assertRaises(JournalFault):
            read_journal(["1 e1 live birth a causes e2"])
        (event,) = read_journal(["base 2", "3 e3 live ask a causes e1"])
        self.assertEqual(event.causes, ("e1",))

    def test_where_a_message_was_before(self):
        self.assertEqual(origins(events_of(SENDS)), {"e3": "e1", "e4": "e3", "e5": "e4", "e6": "e3"})

    def test_an_undone_cone_has_undone_events(self):
        self.assertEqual(undone_cone(events_of(JOURNAL), "e3"), {"e3", "e4"})

    def test_a_cone_has_live_events(self):
        events = events_of(JOURNAL)
        self.assertEqual(cone(events, "e5"), {"e5", "e6", "e8"})
        self.assertEqual(cone(events, "e1"), {"e1", "e2", "e5", "e6", "e7", "e8"})

    def test_what_lies_between(self):
        self.assertEqual(between(events_of(JOURNAL), "e1", "e8"), ["e2", "e6", "e7"])
        self.assertEqual(between(events_of(JOURNAL), "e7", "e8"), [])

    def test_undone_causes_come_with_what_is_redone(self):
        self.assertEqual(with_causes(events_of(JOURNAL), ["e4"]), ["e3", "e4"])
        self.assertEqual(with_causes(events_of(JOURNAL), ["e3"]), ["e3"])


class Texts(unittest.TestCase):
    def test_what_goes_on(self):
        for text in ["{", "f(", "[1, {2}", "def o { # }", '("a)"']:
            self.assertTrue(openness(text).brackets, text)
        for text in ["", "{}", "f(])", '"{', '"a{b"', "# {", "}{}"]:
            self.assertFalse(openness(text).brackets, text)
        self.assertTrue(openness('"a').is_open)

    def test_line_feeds_end_items_as_in_a_script(self):
        lines = {
            "a\nb": "a; b", "a\n\n # c\n b": "a; b", "a\n+ b": "a + b", "a +\nb": "a + b", "f(\na,\nb\n)": "f( a, b )",
            "{\na\nb }": "{ a; b }", "[a\nb]": "[a b]", "def x := 1\n(x)": "def x := 1; (x)", "x\n.m()": "x .m()",
            "if (a) { b }\nelse { c }": "if (a) { b } else { c }", "try { a }\n catch _ { b }": "try { a } catch _ { b }",
            "return\n}": "return }", '"a\nb"\nc': '"a\\nb"; c', "a # b\n": "a", "1\n-2": "1; -2", "_\na": "_ a", "a\r\nb": "a; b",
        }
        for text, line in lines.items():
            self.assertEqual(on_one_line(text), line, text)

    def test_what_is_open_behind_each_line(self):
        chance = random.Random(11)
        for _ in range(3_000):
            text = "".join(chance.choices('"\\#\n(){}[]a \r', k=chance.randrange(12)))
            lines, tokens, brackets = Openness(), tokens_of(text), 0
            for line in text.split("\n"):
                lines.take(line)
            for token in tokens:
                brackets = max(0, brackets + (token.spelling in set("([{")) - (token.spelling in set(")]}")))
            wanted = brackets, any(token.kind == "open" for token in tokens)
            self.assertEqual((lines.brackets, lines.is_quoted), wanted, text)

    def test_labels(self):
        self.assertEqual(without_label("a b as q"), ("a b", "q"))
        self.assertEqual(without_label("as q "), ("", "q"))
        self.assertEqual(without_label('"x" as q'), ('"x"', "q"))
        for text in ["", "q", "as", "a as", '"x as q"', "1 # as q", "has q", "x.as q"]:
            self.assertEqual(without_label(text), (text, None), text)


class Visible(unittest.TestCase):
    def test_controls_are_spelled(self):
        seen = {
            "\x1b[31m": "\\u{1b}[31m", "\x1b]0;x\x07": "\\u{1b}]0;x\\u{7}", "\x9b\x7f\r\n\0": "\\u{9b}\\u{7f}\\u{d}\\u{a}\\u{0}",
            "\u202e\u2066\u200f\u2028\ufeff": "\\u{202e}\\u{2066}\\u{200f}\\u{2028}\\u{feff}", "\udc9b": "\\x9b",
            "a\tb": "a\tb", "Größe 日本 👩‍👩‍👧": "Größe 日本 👩‍👩‍👧", "": "",
        }
        self.assertEqual({text: visible(text) for text in seen}, seen)

    def test_as_they_are_where_there_is_no_terminal(self):
        with tempfile.TemporaryFile("w") as file:
            self.assertEqual(for_stream("\x1b[31m", file), "\x1b[31m")


class Typing(unittest.TestCase):
    def typed(self, *lines):
        rest = iter(lines[1:])
        given = typed(lines[0], lambda what: next(rest, None))
        return given.command.lines, given.label, list(rest)

    def test_scripts_are_counted(self):
        found = self.typed("vat a (b c) as v", "def o {", "", "}", "", "show")
        self.assertEqual(found, (("vat a (b c) 3", "def o {", "", "}"), "v", ["show"]))
        self.assertEqual(self.typed("vat a ()"), (("vat a () 0",), None, []))
        self.assertEqual(self.typed("vat if ()", "1", "", "show"), (("vat if () 1",), None, ["show"]))

    def test_scripts_that_were_counted(self):
        self.assertEqual(self.typed("vat a () 2 as v", "1", "", "3"), (("vat a () 2", "1", ""), "v", ["3"]))
        self.assertEqual(self.typed("vat a ( ) 2", "1"), (("vat a ( ) 2",), None, ["1"]))
        self.assertEqual(self.typed("vat a b 2", "1"), (("vat a b 2",), None, ["1"]))
        with self.assertRaises(NotTyped):
            self.typed("vat a () 2", "1")

    def test_asks(self):
        found = self.typed("ask a def f() {", "return 1", "}; f() as q", "show")
        self.assertEqual(found, (("ask a def f() { return 1 }; f()",), "q", ["show"]))
        self.assertEqual(self.typed("ask a f(", "1", "", "show"), (("ask a f( 1",), None, ["show"]))
        self.assertEqual(self.typed('ask a  "x', "y"), (('ask a "x',), None, ["y"]))
        self.assertEqual(self.typed("ask a", "y"), (("ask a",), None, ["y"]))
        self.assertEqual(self.typed("ask a x  as q"), (("ask a x",), "q", []))

    def test_a_text_on_many_lines_costs_by_its_length(self):
        texts = [["vat a ()", "{", *["x := 1", ""] * 6_000, "}", ""], ["ask a [", *["1,"] * 16_000, "]"]]
        before = time.process_time()
        for lines in texts:
            self.typed(*lines)
        self.assertLess(time.process_time() - before, 5)

    def test_a_text_that_is_too_long_is_left_out_to_its_end(self):
        for lines in (["vat a ()", *["1"] * 32_769, "", "show"], ["ask a {", *["1"] * 32_768, "}", "show"]):
            told, rest = [], iter(lines[1:])
            with self.assertRaises(NotTyped) as fault:
                typed(lines[0], lambda what: told.append(what) or next(rest, None))
            self.assertIn("and may have 65,536", str(fault.exception))
            self.assertEqual((list(rest), told[-1]), (["show"], TOO_LONG))
        self.assertEqual(self.typed("ask a {", *["1"] * 32_766, "}", "show")[2], ["show"])

    def test_others(self):
        self.assertEqual(self.typed("  turn $q.m0 as t"), (("turn $q.m0",), "t", []))
        self.assertEqual(self.typed("show # all"), (("show # all",), None, []))
        self.assertEqual(self.typed("  ask a \udcff {", "}"), (("  ask a \udcff {",), None, ["}"]))

    def test_files(self):
        with tempfile.NamedTemporaryFile("w") as file:
            file.write("var n := 1\n\nn\n")
            file.flush()
            self.assertEqual(self.typed(f"vat a () @{file.name} as v")[0], ("vat a () 3", "var n := 1", "", "n"))
            self.assertEqual(self.typed(f"ask a @{file.name} as q")[:2], (("ask a var n := 1; n",), "q"))
        with self.assertRaises(FileFault):
            self.typed("ask a @/none/such")

    def test_written(self):
        self.assertEqual(written(Command("vat a () 1", ("7",), 1)), "vat a () 1\n7\n")


class Programs(unittest.TestCase):
    def setUp(self):
        folder = tempfile.TemporaryDirectory()
        self.addCleanup(folder.cleanup)
        self.folder = folder.name

    def test_a_reply_is_whole_however_many_lines_it_has(self):
        with Program([PROGRAM]) as program:
            self.assertEqual(program.reply(["show"]), ())
            self.assertEqual(program.reply(["vat a () 1", "cone e4294967295"]), ("no L5 Unexpected 5",))
            self.assertEqual(program.reply(["cone e4294967295"]), ("no B12 NoEvent e4294967295",))
            self.assertEqual(program.reply(["vat a () 0"]), ("ok e1 e1.m0",))
            self.assertEqual(len(program.reply(["show"])), 2)
            self.assertEqual(program.reply(["ask a \udcff"]), ("no S2 BadWord",))

    def test_a_wait_ends_and_goes_on(self):
        with Program([stub(self.folder, SLOW)]) as program:
            with self.assertRaises(Stopped):
                program.reply(["slow"], seconds=0.05)
            self.assertTrue(program.is_busy)
            self.assertEqual(program.hear(), ("done",))
            reading, writing = os.pipe()
            os.write(writing, b".")
            with self.assertRaises(Stopped):
                program.reply(["slow"], stopper=reading)
            self.assertEqual(program.hear(), ("done",))
            os.close(reading)
            os.close(writing)

    def test_the_midst_of_a_reply_that_is_too_long_is_left_out(self):
        with unittest.mock.patch.multiple("conversation.program", MOST_KEPT=4_000, LAST_KEPT=1_000):
            with Program([stub(self.folder, LONG)]) as program:
                reply = program.reply(["long"])
                self.assertEqual((reply[0], reply[-1], program.left_out > 10_000, len(reply) < 4_000), ("x", "last", True, True))
                self.assertEqual((program.reply(["cone e7"]), program.left_out), (("no B12 NoEvent e7",), 0))
            with Session([program.words[0]]) as session:
                for _ in range(2):
                    with self.assertRaises(TooMuch):
                        session.ask("show")
                self.assertEqual(session.give(Command("long")).reply[-1], "last")

    def test_where_there_is_no_memory_for_a_reply_its_end_stays(self):
        with Program([PROGRAM]) as program:
            program.reply(["vat a () 0"])
            with unittest.mock.patch("conversation.program.lines_in", side_effect=[MemoryError, ("last",)]) as lines_in:
                self.assertEqual(program.reply(["show"]), ("last",))
            self.assertEqual((bytes(lines_in.call_args.args[0]), program.left_out), (b"msg e1.m0 at a\n", len("vat a e1\n")))
            self.assertEqual(program.reply(["enabled"])[0], "enabled 1")

    def test_how_a_program_ends(self):
        endings = {"sys.exit('no room')": "it ended with 1: no room", "sys.exit(2)": "it ended with 2",
                   "os.kill(os.getpid(), signal.SIGKILL)": "signal 9 ended it (Killed)"}
        for body, told in endings.items():
            with Program([stub(self.folder, body)]) as program, self.assertRaises(Ended) as ended:
                program.reply(["show"])
            self.assertEqual(str(ended.exception), told)
        with self.assertRaises(Ended):
            Program([self.folder])

    def test_a_program_that_is_stopped_is_gone(self):
        with Program([stub(self.folder, f"signal.signal({signal.SIGINT:d}, signal.SIG_IGN)\ntime.sleep(100)")]) as program:
            pass
        self.assertEqual(program.process.returncode, -signal.SIGKILL)


class Sessions(unittest.TestCase):
    def setUp(self):
        self.session = Session([PROGRAM])
        self.addCleanup(lambda: self.session.program.stop())

    def give(self, text):
        return [self.session.give(command) for command in commands_of(lines_of(text))]

    def test_what_was_said(self):
        self.give(VARIABLES + "ask b 1\nask a 1 + 1\nstep\nshow\n")
        self.assertEqual(self.session.refusals, 1)
        self.assertEqual(self.session.said()["e1"], "var red := 1; var blue := 1")
        self.assertEqual((self.session.said()["e7"], self.session.said()["e8"]), ("1 + 1", "value 2"))
        self.assertEqual("".join(map(written, self.session.accepted())), VARIABLES + "ask a 1 + 1\nstep\nshow\n")

    def test_questions_are_not_noted(self):
        self.give("vat a () 0\n")
        self.assertEqual(self.session.enabled(), ("turn e1.m0",))
        self.give("turn e1.m0\n")
        self.assertEqual(self.session.enabled(), ())
        self.assertEqual([event.kind for event in self.session.events()], ["birth", "turn"])
        self.assertEqual(len(self.session.answered), 2)

    def test_the_world(self):
        self.give("vat a () 2\nvar n := 1\ndef o { }\nvat b (a) 1\na <- run()\nrun 2\n")
        world = self.session.world()
        self.assertEqual((world.vats, world.nouns), ({"a": "e1", "b": "e2"}, {"a": ["n", "o"], "b": ["a"]}))
        self.assertEqual((world.messages["e1.m0"], world.messages["e4.m0"]), (("done", "e3"), ("flying", "a")))
        self.assertEqual((world.objects["a"], world.open["b"]), (["e3.o0"], ["e1.p0", "e4.p0"]))
        self.assertEqual(world.promises["e1.p0"], "<e3.o0>")

    def test_labels(self):
        made, turned, shown = self.give("vat a () 0\nturn e1.m0\nshow\n")
        self.assertTrue(self.session.label("v", made) and self.session.label("t", turned))
        self.assertFalse(self.session.label("s", shown))
        self.assertEqual(self.session.resolved("undo $t $v $v.m0"), "undo e2 e1 e1.m0")
        with self.assertRaises(UnknownLabel):
            self.session.resolved("undo $s")

    def test_it_begins_anew(self):
        self.give(VARIABLES)
        self.assertIsNone(self.session.begin_anew())
        self.assertEqual((len(self.session.answered), len(self.session.events())), (6, 6))
        before, self.session.answered[5] = self.session.answered[5], self.session.answered[4]
        self.session.answered[5] = type(before)(before.command, ("ok e6 value 21",))
        self.assertEqual(self.session.begin_anew(), before.command)

    def test_a_reply_that_comes_late_is_noted(self):
        self.give("vat a () 1\ndef go(n) { return n }\nturn e1.m0\n")
        self.session.program.give(["ask a go(1)"])
        self.session.under_way = Command("ask a go(1)")
        with self.assertRaises(Stopped):
            self.session.ask("journal")
        self.assertEqual(self.session.catch_up().reply, ("ok e3 e3.m0",))
        self.assertIsNone(self.session.catch_up())
        self.assertEqual(len(self.session.answered), 3)


class Again(unittest.TestCase):
    """What does a session again, also where workers did a part of it."""

    def again(self, *answered):
        return [command.line for command in commands_again(answered)]

    def worked(self, line, *steps):
        return Answered(Command(line), ("ok work 1",), tuple(Step(Command(each), (event,)) for each, event in steps))

    def test_what_was_refused_is_left_out(self):
        refused = Answered(Command("undo e9"), ("no B12 NoEvent e9",))
        run = Answered(Command("run 9"), ("ok e1", "ok e2 value 1", "no B20 NoMemory"))
        self.assertEqual(self.again(refused, run, Answered(Command("show"), ())), ["run 2", "show"])

    def test_events_have_the_names_that_they_have_then(self):
        made = Answered(Command("vat e4 () 0"), ("ok e1 e1.m0",))
        # Two workers: what has the name e2 came behind e3, and e4 was lost.
        worked = self.worked("work 2 9", ("turn e1.m0", "e3"), ("arrive e3.m0", "e2"), ("turn e3.m0", "e5"))
        others = ["redo e2 e05 e1", "learn e4 e5.p0", "why e3 e2", "log e4", "object e3.o1", "ask e4 e5"]
        found = self.again(made, worked, *(Answered(Command(line), ("ok",)) for line in others))
        self.assertEqual(found[1:4], ["turn e1.m0", "arrive e2.m0", "turn e2.m0"])
        self.assertEqual(found[4:], ["redo e3 e4 e1", "learn e4 e4.p0", "why e2 e3", "log e4", "object e2.o1", "ask e4 e5"])

    def seen(self, session):
        """The journal, with events called by their places."""
        lines = session.ask("journal")
        names = {line.split()[1]: f"event {place}" for place, line in enumerate(lines)}
        return [re.sub(r"\be\d+\b", lambda found: names[found[0]], line) for line in lines]

    def test_workers_are_done_again_by_their_turns(self):
        # What workers did is asked for at once in a short session, and in a long one where it is wanted.
        for most in (2_000, 0):
            with unittest.mock.patch("conversation.session.MOST_LOOKED_AT", most), Session([PROGRAM]) as session:
                for command in commands_of(lines_of(THREE_AT_WORK)):
                    session.give(command)
                session.give(Command(f"undo-cone {session.events()[9].name}"))
                session.give(Command("run 2"))
                before, commands = self.seen(session), session.accepted()
                self.assertNotIn("work", {command.word for command in commands})
                session.begin_anew()
                self.assertEqual(self.seen(session), before)
            with Session([PROGRAM]) as other:
                for command in commands:
                    self.assertIsNone(other.give(command).refusal, command)
                self.assertEqual(self.seen(other), before)


class Words(unittest.TestCase):
    def test_each_refusal_has_a_sentence(self):
        found = meanings(read_documents())
        self.assertGreater(len(found), 35)
        codes = {meaning.code for meaning in found}
        self.assertEqual(codes - set(SENTENCES), set())
        # A later version of the program has that one.
        self.assertEqual(set(SENTENCES) - codes - {"B23"}, set())
        for meaning in found:
            words = in_words(Refusal(meaning.code, meaning.name, meaning.arguments))
            self.assertTrue(words.endswith("."), meaning)
            named = sum(f"{{{place}}}" in SENTENCES[meaning.code] for place in range(3))
            self.assertEqual(named, len(meaning.arguments), meaning)

    def test_positions(self):
        self.assertIn("position 7", in_words(Refusal("B12", "NoEvent", ("7",))))
        self.assertIn("event e7", in_words(Refusal("B12", "NoEvent", ("e7",))))
        self.assertEqual(in_words(Refusal("X1", "Strange", ())), "")

    def test_the_help_of_the_program(self):
        usages = usages_in(help_of(PROGRAM))
        self.assertEqual(usages["vat"].arguments, ("NAME", "EARLIER..", "N"))
        self.assertEqual([usages["undo"].argument(place) for place in (0, 5)], ["E..", "E.."])
        self.assertEqual((usages["show"].arguments, usages["learn"].argument(1), usages["learn"].argument(2)), ((), "P", ""))
        self.assertGreater(len(usages), 18)
        self.assertNotIn("turn", usages_in("turn M   not in the list\n"))

    def test_each_command_of_the_help_is_in_the_document(self):
        for word in usages_in(help_of(PROGRAM)):
            self.assertTrue(told_of(read_documents(), word)[0], word)
        wants, replies, refused = told_of(read_documents(), "undo")
        self.assertEqual(told_of(read_documents(), "log")[0], ["just these words"])
        self.assertEqual((len(wants), len(replies), [each.code for each in refused]), (1, 1, ["B12", "B13", "B15", "B20", "B22"]))

    def test_what_is_so_for_all_commands_but_one(self):
        codes = {word: [each.code for each in told_of(read_documents(), word)[2]] for word in ("show", "exchange")}
        self.assertEqual(codes, {"show": ["B20"], "exchange": ["B12", "B13", "B18", "B22"]})

    def test_help_leaves_out_what_is_so_for_another_command(self):
        usages = usages_in(help_of(PROGRAM))
        self.assertIn("  no B12 NoEvent E: E is not in the journal; of several, the least by number", help_on("undo", usages))
        self.assertIn("E is undone; of several, the first in the journal, for settle the first up to the position", " ".join(help_on("settle", usages)))


class Helping(unittest.TestCase):
    def setUp(self):
        self.session = Session([PROGRAM])
        self.addCleanup(lambda: self.session.program.stop())

    def helps(self, text):
        """What helps behind the last of these commands."""
        for command in commands_of(lines_of(text)):
            answered = self.session.give(command)
        self.assertIsNotNone(answered.refusal, answered)
        return " ".join(advice(self.session, answered.command, answered.refusal))

    def completed(self, before, text=""):
        return [word.strip() for word in completions(self.session, self.session.usages, before, text)]

    def test_an_undo_takes_its_cone(self):
        self.assertIn("`undo-cone e1` would do: it takes back e1 e2 e3 e4 e5 e6.", self.helps(VARIABLES + "undo e1\n"))
        self.assertIn("`undo e3 e4 e5 e6` would do", self.helps("undo e3 e5\n"))

    def test_a_redo_takes_the_causes(self):
        self.assertIn("`redo e3 e4` has", self.helps(VARIABLES + "undo-cone e3\nredo e4\n"))
        self.assertIn("`redo e3` would", self.helps("undo e3\n"))
        self.assertIn("`redo e3` leaves out", self.helps("redo e3 e5\n"))

    def test_the_words_of_a_vat(self):
        self.assertIn("`vat a () 1`", self.helps("vat d\n"))
        self.assertNotIn("`vat a () 1`", self.helps("ask\n"))

    def test_a_script_whose_lines_were_counted_wrong(self):
        for text in ("vat d (a) 2\ndef x {\nto m() {\n", 'vat d (a) 2\n1\n"x\n'):
            self.assertIn("2 lines were taken for the script", self.helps(text))
            self.assertIn("`vat d (a)` without a number", self.helps(text))
        self.assertEqual(self.helps("vat d () 1\n1 )\n") + self.helps("ask a {\n"), "")

    def test_what_crosses_goes_first(self):
        text = "vat a () 1\nvar n := 0\nturn e1.m0\nask a n := 1\nask a n\nturn e3.m0\nundo e5\nturn e4.m0\nredo e5\n"
        self.assertIn("`undo-cone e6` first", self.helps(text))

    def test_the_program_says_why_where_it_can(self):
        self.session.usages = {**self.session.usages, "why": self.session.usages["cone"]}
        for command in commands_of(lines_of(VARIABLES)):
            self.session.give(command)
        self.session.told["why e1 e2"] = ("why e1 e2 1", " e1 e2 msg e1.m0")
        found = advice(self.session, Command("undo e1"), Refusal("B15", "NotClosed", ("e1", "e2")))
        self.assertEqual(found[1:], ["`why e1 e2` says:", "  e2 touched the message e1.m0, which e1 wrote"])

    def test_where_a_message_is(self):
        self.assertIn("e1.m0 is at a. May be done now: `turn e1.m0`.", self.helps("vat a () 0\narrive e1.m0\n"))
        self.assertIn("done: event e2", self.helps("turn e1.m0\nturn e1.m0\n"))
        self.assertIn("No message waits", self.helps("turn e9.m0\n"))

    def test_names(self):
        self.assertIn("There is none yet", self.helps("ask a 1\n"))
        self.assertIn("there: a b.", self.helps("vat a () 0\nvat b () 1\nvar nn := 1\nask c 1\n"))
        self.assertIn("`turn` is one", self.helps("turm e1.m0\n"))
        self.session.own_words = ("help",)
        self.assertIn("`help` is one", self.helps("hlep\n"))
        self.assertIn("It is `turn M`", self.helps("turn e1\n"))
        self.assertIn("nn", self.helps("run 2\nask b mm\n"))
        self.assertIn("outside of a function", self.helps("ask b return 1\n"))
        self.assertIn("positions 1 to 4", self.helps("settle 7\n"))

    def test_a_place_in_a_text(self):
        refusal = Refusal("L5", "Unexpected", ("6",))
        self.assertEqual(pointed(Command("ask a ä b c"), refusal), ["  ä b c", "       ^"])
        self.assertEqual(pointed(Command("vat a () 2", ("7 8", "\t) 9"), 2), refusal), ["  \t) 9", "  \t ^"])
        self.assertEqual(pointed(Command("ask a x"), Refusal("K1", "Unbound", ("x",))), [])

    def test_how_words_go_on(self):
        self.helps("vat bank () 1\nvar total := 0\nvat ann (bank) 1\nbank <- run()\nstep\nask bank total\nask c 1\n")
        self.assertEqual(self.completed("", "u"), ["undo", "undo-cone"])
        self.assertEqual(self.completed("ask ", "b"), ["bank"])
        self.assertEqual(self.completed("ask bank 1 + ", "to"), ["total"])
        self.assertEqual(self.completed("vat c ("), ["bank", "ann"])
        self.assertEqual(self.completed("vat c (bank) "), [])
        self.assertEqual(self.completed("turn "), ["e2.m0", "e4.m0"])
        self.assertEqual(self.completed("undo e1 ", "e"), ["e1", "e2", "e3", "e4"])
        self.assertEqual(self.completed("redo "), [])
        self.assertEqual(self.completed("settle "), [])
        self.session.labels["q"] = "e4"
        self.assertEqual((self.completed("cone ", "$"), self.completed("turn ", "$")), (["$q"], ["$q.m0"]))
        self.assertEqual(self.completed("nothing ", "e"), [])

    def test_what_a_vat_can_learn(self):
        self.helps("vat a () 0\nvat b (a) 0\nrun 2\nask c 1\n")
        self.assertEqual((self.completed("learn "), self.completed("learn b ")), (["a", "b"], ["e1.p0"]))

    def test_files(self):
        with tempfile.TemporaryDirectory() as folder:
            for name in ("bank.e", "bank\x1b[31m", "bank\x9b"):
                Path(folder, name).write_text("1\n")
            self.assertEqual(self.completed("vat a () ", f"@{folder}/b"), [f"@{folder}/bank.e"])


class Watched(unittest.TestCase):
    def session(self, text, words=(PROGRAM,)):
        session = Session(words, is_watched=True)
        self.addCleanup(session.__exit__)
        for command in commands_of(lines_of(text)):
            session.give(command)
        return session


class Homes(Watched):
    def expect_homes(self, session, bank=BANK, ann=ANN, bob=BOB):
        _, homes = session.look()
        wanted = {**dict.fromkeys(bank, "bank"), **dict.fromkeys(ann, "ann"), **dict.fromkeys(bob, "bob")}
        self.assertEqual({name: homes.get(name) for name in wanted}, wanted)
        return homes

    def test_each_event_has_its_vat(self):
        session = self.session(FORWARDED)
        before = session.ask("journal"), session.ask("show")
        homes = self.expect_homes(session)
        self.assertEqual((len(homes), session.places.lanes(homes)), (20, ["bank", "ann", "bob"]))
        # A forwarding was taken back to see where its message was, and redone.
        session.told.clear()
        self.assertEqual((session.ask("journal"), session.ask("show")), before)

    def test_undone_events_keep_their_vats(self):
        for text in ("undo-cone e8\n", "undo-cone e5\n", "undo-cone e1\nundo-cone e3\n"):
            self.expect_homes(self.session(FORWARDED + text))

    def test_settled_events_keep_their_vats(self):
        self.expect_homes(self.session(FORWARDED + "settle 13\n"), ["e14"], ["e15", "e16"], ["e17"])

    def test_what_was_seen_once_stays_where_the_program_is_begun_anew(self):
        session = self.session(FORWARDED + "undo-cone e5\n")
        session.begin_anew()
        self.expect_homes(session)

    def test_a_message_that_waits_tells_where_it_was_taken(self):
        session = self.session("vat a () 1\ndef o { method m() { 1 } }\nrun 1\nask a o <- m()\nrun 1\nturn e4.m0\n")
        session.places.count = 10_000
        session.give(Command("undo-cone e4"))
        session.give(Command("redo e4"))
        self.assertEqual(session.look()[1], dict.fromkeys(["e1", "e2", "e3", "e4", "e5"], "a"))
        self.assertEqual(session.places.vats.get("e5"), "a")

    def test_the_turn_that_published_what_is_learnt(self):
        session = self.session(FORWARDED)
        events, _ = session.look()
        by_name = {event.name: event for event in events}
        found = {event.arguments: session.places.publisher(event, by_name) for event in events if event.kind == "learn"}
        wanted = {("ann", "e1.p0"): "e4", ("ann", "e5.p0"): "e8", ("bob", "e2.p0"): "e5", ("bob", "e6.p0"): "e10"}
        wanted["bob", "e6.p1"] = "e14"
        self.assertEqual({each: found[each] for each in wanted}, wanted)

    def test_ends_of_turns_that_no_reply_told(self):
        session = self.session("vat a () 1\n1 + 2\nask a throw(\"no\")\nask a [1, \"x\"]\nwork 1 10\n")
        session.look()
        ends = {name: text for name, text in session.said().items() if text.startswith(("value", "problem"))}
        self.assertEqual(sorted(ends.values()), ['problem "no"', "value 3", 'value [1, "x"]'])

    def test_captions_of_a_run(self):
        self.assertEqual(self.session(FORWARDED).said()["e14"], "value 15")


class Questions(Watched):
    def setUp(self):
        self.asked = self.session(ASKED_OF_IT, RECORDED)
        self.plain = self.session(ASKED_OF_IT, UNASKED)

    def told(self, session, name):
        events, homes = session.look()
        return event_told(session, next(event for event in events if event.name == name), homes[name])

    def test_a_program_that_does_not_know_them(self):
        self.assertEqual(answer_to(self.plain, "why e1 e2"), (None, None))
        self.assertEqual(answer_to(self.plain, "cone e99")[1].code, "B12")

    def test_why(self):
        why = why_in(answer_to(self.asked, "why e7 e14")[0])
        self.assertEqual((why.kind, [(each.source, each.target, str(each.cell)) for each in why.steps]), ("chain", [
            ("e7", "e8", "msg e7.m0"), ("e8", "e12", "msg e8.m0"), ("e12", "e13", "msg e8.m0"), ("e13", "e14", "msg e8.m0"),
        ]))
        self.assertEqual(why_in(answer_to(self.asked, "why e4 e2")[0]).kind, "none")
        crossed = why_in(["why e17 e10 crossed", " e10 e17 view e3 e1.p0"])
        self.assertEqual((crossed.kind, str(crossed.steps[0].cell)), ("crossed", "view e3 e1.p0"))

    def test_answers_in_words(self):
        world = read_world(["vat a e1", " noun n = slot e2.s0"])
        for word, reply, told in (
            ("why", ["why e2 e4 1", " e2 e4 noun e1 n"], ["e4 touched the name n in a, which e2 wrote"]),
            ("why", ["why e6 e5 crossed", " e5 e6 slot e2.s0"],
             ["neither came of the other", "both e5 and e6 touched the variable e2.s0 (n in a), and one of them wrote it"]),
            ("why", ["why e1 e1 none"], ["neither came of the other"]),
            ("event", ["2 e2 live turn e1.m0 causes e1", " read vat a e1", " wrote board e1.p0 -"],
             ["it read the name a of a vat, which e1 had written",
              "it wrote what e1.p0 was published as, which nothing had written before"]),
            ("cone", ["cone e1 e2"], []),
        ):
            with unittest.mock.patch.object(self.asked, "world", return_value=world):
                self.assertEqual(answer_in_words(self.asked, word, reply), told)

    def test_a_way_by_causes(self):
        events = self.plain.events()
        for pair in (("e7", "e14"), ("e14", "e7")):
            why = way_by_causes(events, *pair)
            self.assertEqual((why.kind, why.steps[0].source, why.steps[-1].target), ("chain", "e7", "e14"))
            by_name = {event.name: event for event in events}
            for each in why.steps:
                self.assertIn(each.source, by_name[each.target].causes)
        self.assertEqual(str(way_by_causes(events, "e7", "e8").steps[0].cell), "msg e7.m0")
        for pair in (("e4", "e2"), ("e2", "e2")):
            self.assertEqual(way_by_causes(events, *pair).kind, "none")

    def test_cells_in_words(self):
        vats = {"e1": "carol"}
        words = {
            "noun e1 n": "the name n in carol", "slot e3.s0": "the variable e3.s0", "object e2.o0": "the object e2.o0",
            "view e1 e2.p0": "what carol knows of e2.p0", "msg e1.m0": "the message e1.m0",
            "board e1.p0": "what e1.p0 was published as",
            "fence e1 e2.o0": "what comes before the next message on e2.o0 from carol", "vat ann": "the name ann of a vat",
            "view e9 e2.p0": "what e9 knows of e2.p0", "other x": "other x", "noun": "noun",
        }
        self.assertEqual({text: cell_of(text).in_words(vats) for text in words}, words)
        reply = ["5 e5 live learn bob e1.p0 causes e3 e4", " wrote view e2 e1.p0 e4", " read fence e2 e1.p0 -", " strange"]
        found = [(str(cell), cell.is_written, cell.writer) for cell in cells_in(reply)]
        self.assertEqual(found, [("view e2 e1.p0", True, "e4"), ("fence e2 e1.p0", False, None)])

    def test_an_event_in_words(self):
        told = self.told(self.asked, "e14")
        took = "The vat carol took the message e10.m0 and ran it to its end."
        self.assertEqual(told["words"], [took, "e10 made that message.", "It ended with the value 2."])
        self.assertIn((True, "the message e10.m0", "msg e10.m0", "e11"), told["cells"])
        self.assertEqual((told["message"]["lines"][2], told["notes"]), (" sent <e1.p0> <- w()", []))
        self.assertEqual(told["log"], ["took the message e10.m0", "resolved the promise e10.p0"])

    def test_an_event_of_which_the_program_cannot_tell_more(self):
        told = self.told(self.plain, "e14")
        self.assertEqual((told["title"], told["position"], told["causes"][:2]), ("turn of carol", 14, ("e2", "e8")))
        self.assertEqual(told["words"], self.told(self.asked, "e14")["words"])
        self.assertEqual((told["cells"], told["log"]), ([], ["took the message e10.m0", "resolved the promise e10.p0"]))
        self.assertEqual(told["notes"], ["This program cannot tell more: it does not know the command `event`."])
        self.assertEqual(self.told(self.plain, "e1")["text"], ["def _ { method x() { 1 } method w() { 2 } }"])
        self.assertEqual(self.told(self.plain, "e7")["text"], ["carol <- x(); bob <- y(carol)"])

    def test_a_message_in_words(self):
        told = message_told(self.asked, "e8.m0")
        self.assertEqual((told["words"], told["lines"][1:]), (["e8 made it.", "e13 took it."], [" after", " sent <e1.p0> <- x()"]))
        cannot = "This program cannot tell more: it does not know the command `message`."
        self.assertEqual(message_told(self.plain, "e8.m0")["notes"], [cannot])
        self.assertEqual(message_told(self.plain, "e7.m0")["text"], ["carol <- x(); bob <- y(carol)"])
        self.assertEqual(message_told(self.plain, "e9.m0")["words"], ["e9 made it.", "It is not in the world now."])

    def test_other_things_in_words(self):
        self.assertEqual(thing_told(self.asked, "e4.o0")["lines"][1:], [" at bob", " method y(c) { c <- w() }"])
        self.assertEqual(thing_told(self.plain, "e4.o0")["shown"], [("bob", "object e4.o0 _"), (None, "board e3.p0 = <e4.o0>")])
        promise = thing_told(self.plain, "e8.p1")
        self.assertEqual((promise["words"], promise["notes"]), (["e8 made it.", "It was published as <e10.p0>."], []))


class History(unittest.TestCase):
    def setUp(self):
        folder = tempfile.TemporaryDirectory()
        self.addCleanup(folder.cleanup)
        patched = unittest.mock.patch.dict(os.environ, {"XDG_STATE_HOME": folder.name})
        patched.start()
        self.addCleanup(patched.stop)
        self.file = Path(folder.name, "evats", "history")

    def modes(self):
        return [stat.S_IMODE(path.stat().st_mode) for path in (self.file.parent, self.file)]

    def test_lines_are_kept(self):
        self.assertEqual(kept_lines(), [])
        keep("show\n\njournal")
        keep("step")
        self.assertEqual((kept_lines(), self.modes()), (["show", "journal", "step"], [0o700, 0o600]))

    def test_what_was_open_to_others_is_closed(self):
        for act in (kept_lines, lambda: keep("step")):
            self.file.parent.mkdir(exist_ok=True)
            self.file.write_text("show\n")
            self.file.parent.chmod(0o777)
            self.file.chmod(0o666)
            act()
            self.assertEqual(self.modes(), [0o700, 0o600])

    def test_a_file_that_grew_too_long_is_cut(self):
        keep("\n".join(f"undo e{place}" for place in range(200_000)))
        self.assertEqual(kept_lines(), [f"undo e{place}" for place in range(198_000, 200_000)])
        self.assertLess(self.file.stat().st_size, 50_000)

    def not_kept(self):
        for act in (kept_lines, lambda: keep("show")):
            with self.assertRaises(NotKept):
                act()

    def test_a_link_is_followed_to_a_file_of_ones_own_alone(self):
        own, other = (self.file.parent.parent / name for name in ("own", "other"))
        own.write_text("show\n")
        self.file.parent.mkdir()
        self.file.symlink_to(own)
        self.assertEqual(kept_lines(), ["show"])
        self.file.unlink()
        os.mkfifo(self.file)
        self.not_kept()
        self.file.unlink()
        # Root can make what is somebody else's; of others there is something everywhere.
        if os.geteuid() == 0:
            other.write_text("show\n")
            os.chown(other, 1, 1)
            self.file.symlink_to(own)
            os.chown(self.file, 1, 1, follow_symlinks=False)
            self.not_kept()
            self.file.unlink()
        self.file.symlink_to(other if other.exists() else "/etc/passwd")
        self.not_kept()

    def test_a_folder_of_somebody_else_is_left_as_it_is(self):
        other = self.file.parent.parent / "other"
        other.mkdir(mode=0o755)
        self.file.parent.symlink_to(other)
        with unittest.mock.patch.object(os, "geteuid", return_value=os.geteuid() + 1):
            self.not_kept()
        self.assertEqual((stat.S_IMODE(other.stat().st_mode), list(other.iterdir())), (0o755, []))

    def test_where_nothing_can_be_kept(self):
        os.environ["XDG_STATE_HOME"] = "/dev/null"
        self.not_kept()
        os.environ["XDG_STATE_HOME"] = ""
        with unittest.mock.patch.dict(os.environ), unittest.mock.patch("pwd.getpwuid", side_effect=KeyError):
            del os.environ["HOME"]
            self.not_kept()


class Random(unittest.TestCase):
    def test_the_program_takes_the_script_that_is_counted(self):
        chance = random.Random(7)
        earlier = ["()", "(a)", "(a b)", "( a)", "(a", "(a a)", "(b\tc)", "a"]
        numbers = ["0", "1", "2", "02", "x", "4097", "1 1", ""]
        parts = [["vat", "vat", " vat"], ["a", "b", "_", "if", "a1", "1a"], earlier, numbers, ["", "", " ", "\r"]]
        with Program([PROGRAM]) as program:
            for line in itertools.islice((" ".join(map(chance.choice, parts)) for _ in itertools.count()), 150):
                reply = program.reply([line, *["run 0"] * script_length(line.removesuffix("\r"))], seconds=60)
                self.assertEqual(len(reply), 1, line)


if __name__ == "__main__":
    unittest.main()
