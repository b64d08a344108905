"""Talks at a terminal of its own, and over pipes. The program is the plain interpreter, or the one that EVATS_PROGRAM names."""
import os
import re
import subprocess
import sys
import tempfile
import unittest
from pathlib import Path

import conversation

from .helping import help_on, own_usages
from .person import COMPANIONS, START, NotSeen, Person

PROGRAM = os.environ.get("EVATS_PROGRAM") or str(Path(conversation.__file__).with_name("stand_in"))
README = re.compile(r"at its prompt, or paste it:\n\n```\n(.*?)\n```\n\nIt shows:\n\n```\n(.*?)\n```", re.DOTALL)
ENDLESS = "vat a ()\ndef o { to go() { o <- go() } }\no <- go()\n\n"
# What is told where the turn of a vat's first script was taken back.
ANEW = "# May be done anew: `turn e1.m0`. What was undone there could not be redone beside that.\n"
CONTROL_A, CONTROL_D, CONTROL_K, CONTROL_P = "\x01", "\x04", "\x0b", "\x10"


class Case(unittest.TestCase):
    def setUp(self):
        folder = tempfile.TemporaryDirectory()
        self.addCleanup(folder.cleanup)
        self.folder = Path(folder.name)

    def file(self, name, text):
        (self.folder / name).write_text(text)
        return name

    def stub(self, cases, told=""):
        """A program that answers the mark, and else as these cases of a shell say, with a help that tells of commands."""
        mark = 'cone*) echo "no B12 NoEvent ${line#cone }";;'
        helping = f'test "$1" = --help && printf "Commands, one a line:\\n{told}" && exit\n'
        self.file("stub", f'#!/bin/sh\n{helping}while read line; do case "$line" in {mark} {cases} esac; done\n')
        (self.folder / "stub").chmod(0o755)
        return str(self.folder / "stub")


class Terminals(Case):
    def person(self, *words):
        person = Person(self.folder, "--program", PROGRAM, *words)
        self.addCleanup(person.__exit__)
        person.sees("> ")
        return person

    def with_a_vat(self):
        person = self.person()
        person.types("vat a () as v\nvar n := 1\n\n")
        person.sees("ok e1 e1.m0\n> ")
        return person

    def test_a_script_on_several_lines(self):
        person = self.person()
        person.types("vat a ()\ndef o {\n\n to get() { return 7 }\n}\n\n")
        person.sees("\n# the script: an empty line outside of brackets ends it\n. def o {\n. \n.  to get()")
        person.sees("{ return 7 }\n. }\n. \nok e1 e1.m0\n> ")
        person.says("turn e1.m0", "# 2 e2 live turn e1.m0 causes e1\n> ")
        person.types("ask a if (true) {\no.get() }\n")
        person.sees("ok e3 e3.m0\n> ")
        person.says("step", "ok e4 value 7\n# 4 e4 live turn e3.m0 causes e1 e2 e3\n> ")

    def test_what_the_readme_shows(self):
        typed, shown = README.search((COMPANIONS.parent / "README.md").read_text()).groups()
        person = Person(self.folder, "--program", PROGRAM)
        self.addCleanup(person.__exit__)
        seen = person.prompted()
        for line in typed.split("\n"):
            person.types(line + "\n")
            seen += person.sees(line + "\n") + person.prompted()
        self.assertEqual("\n".join(line.rstrip() for line in seen.split("\n")), shown + "\n>")

    def test_labels(self):
        person = self.with_a_vat()
        person.says("turn $v.m0 as t", "ok e2 value 1\n")
        person.says("undo $t", f"ok undone 1\n{ANEW}> ")
        person.says("undo $u", "# no event has the label $u\n> ")
        person.says("labels", "# $v e1\n# $t e2\n> ")
        person.says("show as s", "# $s stands for nothing")

    def test_a_refusal_in_words(self):
        person = self.with_a_vat()
        person.says("turn e1.m0", "> ")
        person.says("undo e1", "no B15 NotClosed e1 e2\n# e1 cannot be taken back alone: e2 came of it and is live.\n")
        person.sees("`undo-cone e1` would do: it takes back e1 e2.")
        person.says("ask a 1 ) 2", "no L5 Unexpected 2\n")
        person.sees("#   1 ) 2\n#     ^\n> ")

    def test_answers_in_words(self):
        person = self.with_a_vat()
        person.says("turn e1.m0", "> ")
        person.says("why e1 e2", "why e1 e2 1\n e1 e2 msg e1.m0\n# e2 touched the message e1.m0, which e1 wrote\n> ")
        person.says("event e1", "\n# it wrote the name a of a vat, which nothing had written before\n")

    def test_an_undo_tells_what_brings_it_back(self):
        person = self.with_a_vat()
        person.says("turn e1.m0", "> ")
        person.says("undo-cone $v", "ok undone 2\n# `redo e1 e2` would bring it back.\n> ")
        person.says("redo e1 e2", "ok redone 2\n> ")
        person.says("undo-cone e2", f"ok undone 1\n# `redo e2` would bring it back.\n{ANEW}> ")
        person.says("undo-cone e9", "no B12 NoEvent e9\n")

    def test_words_are_completed(self):
        person = self.with_a_vat()
        person.types("tu\t")
        person.sees("turn ")
        person.types("e\t")
        person.sees("e1.m0")
        person.types("\n")
        person.sees("ok e2 value 1\n")
        person.types("undo-\te\t\t")
        person.sees("undo-cone e")
        person.sees("e1  e2")
        person.sees("undo-cone e")
        person.interrupts("\n> ")
        person.types("cone $\t\n")
        person.sees("cone e1 e2\n> ")

    def test_where_no_lines_can_be_kept(self):
        person = Person(self.folder, "--program", PROGRAM, XDG_STATE_HOME="/dev/null")
        self.addCleanup(person.__exit__)
        person.sees("# what is typed is not kept: /dev/null/evats/history: Not a directory\n")
        person.says("labels", "# there is no label\n")

    def test_what_was_typed_is_kept(self):
        person = self.person()
        person.says("run 0", "> ")
        person.says("settle 7", "> ")
        person.types(CONTROL_P + CONTROL_P)
        person.sees("run 0")
        person.types("\n")
        person.sees("> ")
        person.types(CONTROL_D)
        self.assertEqual(person.ends()[1], 0)
        self.assertEqual((self.folder / "evats" / "history").read_text(), "run 0\nsettle 7\nrun 0\n")
        other = self.person()
        other.types(CONTROL_P + CONTROL_P)
        other.sees("settle 7")
        other.types(CONTROL_A + CONTROL_K + "run 0\n")
        other.sees("> ")

    def test_what_is_pasted_comes_at_once(self):
        person = self.person()
        person.types("\x1b[200~vat a () 1\r\tvar n := 1\rturn e1.m0\rundo-cone e2\rlabels\r\x1b[201~\n")
        person.sees("> vat a () 1\n. \tvar n := 1\nok e1 e1.m0\n> turn e1.m0\nok e2 value 1\n")
        person.sees(f"ok undone 1\n# `redo e2` would bring it back.\n{ANEW}> labels\n# there is no label\n> ")

    def test_what_was_pasted_answers_no_question(self):
        kept = self.folder / self.file("kept", "before")
        person = self.with_a_vat()
        for pasted in ("\x1b[200~save kept\ry\r\x1b[201~\n", "save kept\ny\nlab"):
            person.types(pasted)
            person.sees("# kept is there: write over it? [y/N] ")
            with self.assertRaises(NotSeen):
                person.sees("\n", 0.5)
            person.types("n\n")
            person.sees("# kept is there, and stays as it is\n> y\nno S1 UnknownCommand\n")
            self.assertEqual(kept.read_text(), "before")
        person.sees("> lab")
        person.types("els\n")
        person.sees("els\n# $v e1\n")
        person.says("save kept", "write over it? [y/N] ")
        person.types("y\n")
        person.sees("# 1 commands are in kept")
        self.assertEqual(kept.read_text(), "vat a () 1\nvar n := 1\n")

    def test_a_paste_is_no_answer(self):
        self.file("kept", "before")
        person = self.with_a_vat()
        person.says("save kept", "# kept is there: write over it? [y/N] ")
        person.types("\x1b[200~y\rlabels\r\x1b[201~\n")
        person.sees("# kept is there, and stays as it is\n> y\nno S1 UnknownCommand\n")
        person.sees("> labels\n# $v e1\n")

    def test_what_comes_while_a_command_is_at_work_is_not_lost(self):
        person = Person(self.folder, "--program", self.stub('slow) sleep 1; echo slept;; *) echo "heard ${#line} $line";;'))
        self.addCleanup(person.__exit__)
        person.prompted()
        person.types("slow\n")
        person.sees("slow\n")
        long = "x" * 6_000
        person.types(f"one\n{long}\n\tt\tab\nlast\n")
        person.sees("slept\n")
        person.sees("heard 3 one\n")
        person.sees("heard 6000 xxx")
        person.sees("heard 4 t\tab\n")
        person.sees("heard 4 last\n")

    def test_control_c_drops_what_was_pasted_behind_a_command(self):
        person = Person(self.folder, "--program", self.stub('slow) sleep 100;; *) echo "heard $line";;'))
        self.addCleanup(person.__exit__)
        person.prompted()
        person.types("\x1b[200~slow\rone\rtwo\x1b[201~\n")
        person.sees("> slow\n")
        person.interrupts("# the program is still at `slow`")
        person.sees("# what was pasted behind it is dropped: 2 lines\n> ")
        person.says("stop", "# `slow` was ended: all is as before it.\n> ")
        person.says("three", "heard three\n> ")

    def test_controls_can_be_seen(self):
        script = 'var n := "\x1b]0;t\x07\x9b"\nthrow("\u202e\x7f")\n'
        person = self.person(self.file("controls", f"vat a () 2\n{script}run 1\n\x1b[31m\n"))
        person.sees('. var n := "\\u{1b}]0;t\\u{7}\\u{9b}"\n. throw("\\u{202e}\\u{7f}")\n')
        person.sees('ok e2 problem "\\u{202e}\\u{7f}"\n')
        person.sees("> \\u{1b}[31m\nno S1 UnknownCommand\n")
        person.types("\x1b[200~ask a \xff\x1b[1m(\r\x1b[31m\r\x1b[201~\n")
        person.sees("> ask a \xff\\u{1b}[1m(\n. \\u{1b}[31m\n")
        person.sees("#   \xff\\u{1b}[1m(")
        person.types("load \x16\x1b[31m\n")
        person.sees("# cannot read \\u{1b}[31m: No such file")

    def test_control_c_drops_a_half_typed_line(self):
        person = self.with_a_vat()
        person.types("half")
        person.sees("half")
        person.interrupts("\n> ")
        person.types("vat b ()\ndef o {\n")
        person.sees("def o {\n. ")
        person.interrupts("\n> ")
        person.says("journal", "1 e1 live birth a causes\n> ")

    def test_control_c_ends_a_wait(self):
        person = self.person()
        person.types(ENDLESS)
        person.sees("ok e1 e1.m0\n> ")
        person.types("run 1000000\n")
        person.sees("run 1000000\n")
        person.interrupts("# the program is still at `run 1000000`; its reply comes before that of the next command, and `stop`")
        person.types("turn e1.m0\n")
        person.sees("turn e1.m0\n")
        person.interrupts("# the program is still at `run 1000000`")
        person.says("stop", "# `run 1000000` was ended: all is as before it.\n> ")
        person.says("turn e1.m0", "ok e2 value <e2.p0>\n")

    def test_a_reply_that_comes_late_is_shown(self):
        slow = self.stub('*) sleep 1; echo "late $line";;')
        person = Person(self.folder, "--program", slow)
        self.addCleanup(person.__exit__)
        person.sees("> ")
        person.types("one\n")
        person.sees("one\n")
        person.interrupts("# the program is still at `one`")
        person.says("two", "# the reply to `one`:\nlate one\nlate two\n> ")

    def test_the_end_of_the_input(self):
        person = self.person()
        person.types("vat a ()\n7\n" + CONTROL_D)
        person.sees("ok e1 e1.m0\n> ")
        person.types(CONTROL_D)
        self.assertEqual(person.ends()[1], 0)
        other = self.person()
        other.types("exit\n")
        self.assertEqual(other.ends()[1], 0)

    def test_a_session_is_saved_and_loaded(self):
        person = self.with_a_vat()
        person.types("ask a {\nn := n + 1\n} as q\nturn $v.m0\nundo e9\n")
        person.sees("no B12 NoEvent e9\n")
        person.says("save kept", "# 3 commands are in kept: `./run kept` does them again\n> ")
        self.assertEqual((self.folder / "kept").read_text(), "vat a () 1\nvar n := 1\nask a { n := n + 1 }\nturn e1.m0\n")
        person.says("save kept", "# kept is there: write over it? [y/N] ")
        person.types("\n")
        person.sees("> ")
        other = self.person("kept")
        other.sees("turn e1.m0\nok e3 value 1\n")
        other.says("load none", "No such file")

    def test_a_file_that_loads_itself(self):
        self.file("again", "vat a () 0\nundo-cone e1\nload again\n")
        person = self.person("again")
        person.sees("undo-cone e1\nok undone 1\n# `redo e1` would bring it back.\n")
        person.sees("> load again\n# again is being loaded already\n> ")

    def test_a_loaded_file_asks_before_it_writes_over_another(self):
        kept = self.folder / self.file("kept", "before")
        self.file("other", "save kept\ny\nlabels\n")
        person = Person(self.folder, "--program", PROGRAM, "other")
        self.addCleanup(person.__exit__)
        person.sees(f"> save kept\n# {kept} is there: write over it? [y/N] ")
        person.types("\n")
        person.sees(f"# {kept} is there, and stays as it is\n> y\nno S1 UnknownCommand\n")
        person.sees("> labels\n# there is no label\n> ")
        self.assertEqual(kept.read_text(), "before")

    def test_what_workers_did_is_saved(self):
        person = self.with_a_vat()
        person.says("ask a n := n + 1", "ok e2 e2.m0")
        person.says("work 1 9", "ok work 2\n")
        person.says("undo e4", "ok undone 1")
        person.says("save kept", "# 5 commands are in kept")
        kept = "vat a () 1\nvar n := 1\nask a n := n + 1\nturn e1.m0\nturn e2.m0\nundo e4\n"
        self.assertEqual((self.folder / "kept").read_text(), kept)

    def test_the_program_tells_of_an_event_where_it_can(self):
        cases = 'turn*) echo "ok e2 value 1";; event*) printf "2 e2 live turn e1.m0 causes e1\n wrote msg e1.m0 e1\n";;'
        person = Person(self.folder, "--program", self.stub(cases, "  event E  what an event is\\n"))
        self.addCleanup(person.__exit__)
        person.sees("> ")
        person.says("turn e1.m0", "ok e2 value 1\n# 2 e2 live turn e1.m0 causes e1\n> ")

    def test_the_program_is_started_again(self):
        person = Person(self.folder, "--program", self.stub('die) exit 3;; *) echo ok;;'))
        self.addCleanup(person.__exit__)
        person.sees("> ")
        person.says("one", "ok\n> ")
        person.says("die", "# The program has ended: it ended with 3.\n")
        person.sees("# It was started again, with the commands before this one.\n> ")
        person.says("two", "ok\n> ")

    def test_help(self):
        person = self.person()
        person.says("help", "#   undo-cone E               takes an event back with all its consequences\n")
        person.sees("#   save FILE")
        person.says("help undo-cone", "#   reply: ok undone C")
        person.says("help b15", "# E cannot be taken back alone: F came of it and is live.\n")
        person.says("help me", "# There is no command me")


class Pipes(Case):
    def run_talk(self, given, *words, **options):
        options = {"stdout": subprocess.PIPE, "env": {**os.environ, "XDG_STATE_HOME": str(self.folder)}, **options}
        return subprocess.run([*START, "talk", "--program", PROGRAM, *words], input=given, stderr=subprocess.PIPE, text=True,
                              cwd=self.folder, check=False, **options)

    def faults(self, ran):
        """What was said of faults, and that the talk went on behind them."""
        self.assertEqual((ran.stdout, ran.returncode), ("ok e1 e1.m0\n", 1), ran.stderr)
        return [line.removeprefix("talk: ") for line in ran.stderr.splitlines() if line.startswith("talk: ")]

    def nested(self):
        """A folder in which a file stands that is to be loaded, with others in it and outside of it."""
        inner = self.folder / "inner"
        (inner / "deeper").mkdir(parents=True)
        (self.folder / "outside").write_text("7\n")
        for name, target in (("link", "../outside"), ("away", ".."), ("same", "deeper")):
            (inner / name).symlink_to(target)
        return inner

    def test_only_replies_are_written(self):
        ran = self.run_talk("vat a () as v\n7\n\nturn $v.m0\nundo-cone $v\njournal\n")
        journal = "1 e1 undone birth a causes\n2 e2 undone turn e1.m0 causes e1\n"
        self.assertEqual((ran.stdout, ran.stderr, ran.returncode), (f"ok e1 e1.m0\nok e2 value 7\nok undone 2\n{journal}", "", 0))

    def test_a_file_comes_first(self):
        self.file("script", "7\n")
        ran = self.run_talk("turn $v.m0\nhop\n", self.file("first", "# a comment\nvat a () @script as v\n"))
        self.assertEqual((ran.stdout, ran.returncode), ("ok e1 e1.m0\nok e2 value 7\nno S1 UnknownCommand\n", 1))

    def test_options_go_to_the_program(self):
        ran = self.run_talk("vat a ()\nwhile (true) { }\n\nturn e1.m0\n", "--budget", "3")
        self.assertEqual(ran.stdout, 'ok e1 e1.m0\nok e2 abandoned "turn budget spent"\n')

    def test_a_loaded_file_names_nothing_outside_of_its_folder(self):
        inner = self.nested()
        named = ["../outside", str(self.folder / "outside"), "link", "away/outside", "deeper/../../outside", "~/outside"]
        lines = [f"{word}{name}" for name in named for word in ("save ", "load ", "vat a () @", "ask a @")]
        (inner / "session").write_text("\n".join([*lines, "vat a () 0", ""]))
        faults = self.faults(self.run_talk("", "inner/session", env={**os.environ, "HOME": str(self.folder)}))
        self.assertEqual(len(faults), len(lines))
        self.assertIn("../outside is left alone: it is outside of", faults[0])
        self.assertEqual((self.folder / "outside").read_text(), "7\n")
        self.assertEqual(sorted(path.name for path in self.folder.iterdir()), ["inner", "outside"])

    def test_a_loaded_file_names_what_is_in_its_folder(self):
        inner = self.nested()
        (inner / "deeper" / "script").write_text("7\n")
        (inner / "deeper" / "next").write_text("turn e1.m0\nask a @script\nsave ../../up\nsave made\n")
        (inner / "session").write_text("vat a () @same/script\nload same/next\nturn e3.m0\n")
        ran = self.run_talk("", "inner/session")
        self.assertEqual(ran.stdout, "ok e1 e1.m0\nok e2 value 7\nok e3 e3.m0\nok e4 value 7\n")
        self.assertIn("../../up is left alone", ran.stderr)
        self.assertEqual((inner / "deeper" / "made").read_text(), "vat a () 1\n7\nturn e1.m0\nask a 7\n")

    def test_a_loaded_file_makes_nothing_hidden(self):
        (self.folder / ".kept").mkdir()
        faults = self.faults(self.run_talk("", self.file("session", "save .profile\nsave .kept/made\nvat a () 0\n")))
        self.assertEqual([fault.rpartition(": ")[2] for fault in faults], ["a loaded file writes nothing that is hidden"] * 2)

    def test_nothing_is_written_over_without_a_person(self):
        kept = self.folder / self.file("kept", "before")
        text = "vat a () 0\nsave kept\n"
        for name, given, words in (("kept", text, ()), (kept, "", [self.file("session", text)])):
            self.assertEqual(self.faults(self.run_talk(given, *words)), [f"{name} is there, and stays as it is"])
            self.assertEqual(kept.read_text(), "before")

    def test_a_file_name_is_no_command(self):
        ran = self.run_talk("", "none\nsave made\n")
        self.assertEqual((ran.stdout, ran.returncode, list(self.folder.iterdir())), ("", 1, []))

    def test_files_that_load_each_other(self):
        self.file("one", "load two\nvat a () 0\n")
        self.file("two", "load one\n")
        self.assertEqual(self.faults(self.run_talk("", "one")), ["one is being loaded already"])
        for place in range(40):
            self.file(f"f{place}", f"load f{place + 1}\n")
        faults = self.faults(self.run_talk("vat a () 0\n", "f0"))
        self.assertEqual(faults, ["f16 is left alone: 16 files are being loaded, each out of the one before"])

    def test_what_is_no_plain_file_or_too_large(self):
        os.mkfifo(self.folder / "pipe")
        (self.folder / "large").touch()
        os.truncate(self.folder / "large", (64 << 20) + 1)
        given = "load /dev/zero\nvat a () @/dev/zero\nload pipe\nload .\nload large\nsave /dev/full\nsave pipe\nvat a () 0\n"
        faults = self.faults(self.run_talk(given))
        self.assertEqual(faults[:2] + faults[5:6], [f"cannot {word}: it is no plain file" for word in
                                                    ("read /dev/zero", "read /dev/zero", "write /dev/full")])
        self.assertEqual((len(faults), faults[4]), (7, "cannot read large: it has more than 64 MiB"))

    def test_names_of_no_file(self):
        given = "load ~nosuchuser/x\nsave ~nosuchuser/x\nload a\0b\nsave a\0b\nload \nsave none/x\nvat a () 0\n"
        self.assertEqual(len(self.faults(self.run_talk(given))), 6)

    def test_a_full_device(self):
        with open("/dev/full", "w") as full:
            ran = self.run_talk("vat a () 0\n", stdout=full)
        self.assertEqual((ran.stderr, ran.returncode), ("talk: reading or writing failed: No space left on device\n", 2))

    def test_a_text_that_is_too_long(self):
        lines = "1,\n" * 40_000
        faults = self.faults(self.run_talk(f"vat a ()\n[\n{lines}]\n\nask a [\n{lines}]\nvat a () 0\n"))
        self.assertEqual(faults, [f"the text has {size} bytes, and may have 65,536" for size in ("120,003", "120,003")])

    def test_a_line_without_end(self):
        ran = self.run_talk("show " + "x" * 500_000 + "\nvat a () 0\n")
        self.assertEqual(ran.stdout, "no S3 LineTooLong\nok e1 e1.m0\n")

    def test_controls_pass_where_there_is_no_terminal(self):
        ran = self.run_talk('vat a () 1\n"\x1b[31m\x9b"\nrun 1\n\x1b[31m as\n')
        self.assertIn('ok e2 value "\x1b[31m\x9b"\n', ran.stdout)

    def test_what_is_wrong(self):
        ran = self.run_talk("undo $x\nvat a () 2\n1\n")
        self.assertEqual((ran.stdout, ran.returncode), ("", 1))
        self.assertIn("no event has the label $x", ran.stderr)
        self.assertIn("the input ended behind 1 of the 2 lines", ran.stderr)
        self.assertEqual(self.run_talk("", "--program", "/none/such").returncode, 2)
        self.assertEqual(self.run_talk("", "none").returncode, 1)
        self.assertEqual(self.run_talk("", "--what").returncode, 2)


class Helps(unittest.TestCase):
    def test_each_own_command_is_told(self):
        self.assertEqual(set(own_usages()), {"help", "save", "load", "labels", "stop", "quit"})
        for word in own_usages():
            self.assertTrue(help_on(word, own_usages())[0].startswith(word))


if __name__ == "__main__":
    unittest.main()
