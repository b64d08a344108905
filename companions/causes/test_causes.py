"""Draws sessions. The program is a stub, or the plain interpreter where a session is needed."""
import contextlib
import io
import os
import pty
import re
import subprocess
import sys
import tempfile
import unittest
from pathlib import Path

import conversation
from picture.test_picture import JOURNAL, events_by_name, events_of, groups, text_of, tree_of

from .__main__ import Fault, checked_cone, drawn, main, read_input

STAND_IN = str(Path(conversation.__file__).with_name("stand_in"))
COMMANDS = """\
vat a () 2
var red := 1
var blue := 1
turn e1.m0
ask a red := 10
turn e3.m0
ask a blue := 20
turn e5.m0
undo-cone e3
ask a blue := blue + 1
turn e7.m0
journal
"""
COMPANIONS = Path(__file__).resolve().parents[1]
HANDOVER = Path(__file__).parents[2] / "examples" / "handover.evats"


class Runs(unittest.TestCase):
    def setUp(self):
        folder = tempfile.TemporaryDirectory()
        self.addCleanup(folder.cleanup)
        self.folder = Path(folder.name)

    def failing(self):
        """A program that ends at once, with a fault."""
        program = self.folder / "program"
        program.write_text("#!/bin/sh\necho no memory >&2\nexit 2\n")
        os.chmod(program, 0o755)
        return str(program)

    def run_main(self, *words):
        said_ = io.StringIO()
        with contextlib.redirect_stderr(said_):
            try:
                return main([str(word) for word in words]), said_.getvalue()
            except SystemExit as ended:
                return ended.code, said_.getvalue()

    def file(self, text):
        path = self.folder / "commands"
        path.write_text(text)
        return path

    def test_a_session_becomes_a_file(self):
        out = self.folder / "out.svg"
        words = "--program", STAND_IN, "--cone", "e05", "--out", out, self.file(COMMANDS)
        status, told = self.run_main(*words)
        self.assertEqual((status, told), (0, ""))
        boxes = events_by_name(tree_of(out.read_text(encoding="utf-8")))
        self.assertEqual([text_of(boxes[name], "caption") for name in ("e5", "e6")], ["blue := 20", "value 20"])
        self.assertIn("cone", boxes["e8"].get("class").split())

    def test_each_event_of_several_vats_is_in_the_lane_of_its_vat(self):
        svg, refused = drawn(STAND_IN, HANDOVER.read_bytes(), is_folded=False)
        lanes = {name: box.get("data-vat") for name, box in events_by_name(tree_of(svg)).items()}
        wanted = {"bob": ["e1", "e4", "e9", "e10", "e12", "e13", "e11", "e14"], "carol": ["e2", "e5", "e7", "e8", "e15", "e16"],
                  "alice": ["e3", "e6", *(f"e{number}" for number in range(17, 23))]}
        self.assertEqual((lanes, len(refused)), ({name: vat for vat, names in wanted.items() for name in names}, 1))

    def test_captions_behind_a_run(self):
        svg, _ = drawn(STAND_IN, HANDOVER.read_bytes())
        boxes = events_by_name(tree_of(svg))
        self.assertEqual([text_of(boxes[name], "caption") for name in ("e8", "e13")], ["value <e8.p0>", 'value ["put", "fr…'])
        self.assertLess(float(tree_of(svg).get("width")), 1200)

    def test_refused_commands_are_counted_and_the_rest_is_drawn(self):
        svg, refused = drawn(STAND_IN, COMMANDS.encode() + b"ask b 1\nask a \xff\nvat c () 3\n1\n2\n", None)
        self.assertEqual(([each.partition(":")[0] for each in refused], len(groups(tree_of(svg), "event"))),
                         (["`ask b 1`", "`ask a \udcff`", "`vat c () 3`"], 8))
        words = "--program", STAND_IN, "--out", self.folder / "out.svg", self.file("ask b 1\n")
        self.assertEqual(self.run_main(*words), (0, "causes: 1 command was refused, `ask b 1`: no B1 NoVat b\n"))

    def test_what_is_not_settled_is_drawn(self):
        svg, refused = drawn(STAND_IN, b"vat a () 0\nturn e1.m0\nsettle 2\nask a 7\nturn e3.m0\n", None)
        boxes = events_by_name(tree_of(svg))
        self.assertEqual((refused, [text_of(box, "caption") for box in boxes.values()]), ([], ["7", "value 7"]))

    def test_a_file_that_cannot_be_read(self):
        status, told = self.run_main("--program", STAND_IN, self.folder / "none")
        self.assertEqual(status, 2)
        self.assertIn("cannot read", told)
        with self.assertRaises(Fault):
            read_input(self.folder)

    def test_a_program_that_is_not_there(self):
        status, told = self.run_main("--program", self.folder / "none", self.file(COMMANDS))
        self.assertEqual(status, 2)
        self.assertIn("./run builds the program", told)

    def test_a_program_that_fails(self):
        with self.assertRaises(Fault):
            drawn(self.failing(), b"show\n", None)

    def test_a_picture_that_cannot_be_written(self):
        words = "--program", STAND_IN, "--out", self.folder / "none" / "out.svg", self.file(COMMANDS)
        status, told = self.run_main(*words)
        self.assertEqual(status, 2)
        self.assertIn("cannot write", told)

    def test_which_cones_there_are(self):
        events = events_of(JOURNAL)
        self.assertEqual((checked_cone(events, None), checked_cone(events, "e01")), (None, "e1"))
        for name in ["e3", "e9", "3", "e", "e1.m0"]:
            with self.assertRaises(Fault, msg=name):
                checked_cone(events, name)

    def run_at_a_terminal(self, *words):
        """What is written to a terminal of its own, and the status."""
        terminal, inner = pty.openpty()
        words = [sys.executable, "-I", "-S", COMPANIONS / "start.py", "causes", "--program", STAND_IN, *words]
        with subprocess.Popen(words, stdin=subprocess.DEVNULL, stdout=inner, stderr=inner) as process:
            os.close(inner)
            told = b""
            with contextlib.suppress(OSError), open(terminal, "rb", buffering=0) as stream:
                while piece := stream.read(1 << 16):
                    told += piece
        return told.decode(), process.returncode

    def test_controls_can_be_seen_at_a_terminal(self):
        out = self.folder / "out.svg"
        told, status = self.run_at_a_terminal("--out", out, self.file("\x1b[31m \x9b\u202e\n"))
        wanted = "causes: 1 command was refused, `\\u{1b}[31m \\u{9b}\\u{202e}`: no S1 UnknownCommand\r\n"
        self.assertEqual((told, status), (wanted, 0))
        self.assertIn("cannot read \\u{1b}[31m: No such", self.run_at_a_terminal("\x1b[31m")[0])
        self.assertIn("unrecognized arguments: \\u{1b}[31m", self.run_at_a_terminal("a", "\x1b[31m")[0])

    def test_no_control_is_in_a_picture(self):
        text = '"\x1b[31m\x07\x7f\x9b\u2028\u202e\u2066"'
        drawn_, status = self.run_at_a_terminal(self.file(f"vat a () 1\n{text}\nrun 1\n"))
        self.assertEqual((status, re.findall("[\0-\x08\x0b\x0c\x0e-\x1f\x7f-\x9f\u2028-\u202e\u2066]", drawn_)), (0, []))
        self.assertIn("\\u{1b}[31m\\u{7}\\u{7f}\\u{9b}\\u{2028}\\u{202e}\\u{2066}", drawn_)

    def test_what_has_no_end(self):
        status, told = self.run_main("--program", STAND_IN, "/dev/zero")
        self.assertEqual((status, told), (2, "causes: cannot read /dev/zero: it has more than 64 MiB\n"))

    def test_a_full_device(self):
        words = [sys.executable, "-I", "-S", COMPANIONS / "start.py", "causes", "--program", STAND_IN, self.file(COMMANDS)]
        with open("/dev/full", "w") as full:
            ran = subprocess.run(words, stdout=full, stderr=subprocess.PIPE, text=True, check=False)
        self.assertEqual((ran.returncode, ran.stderr), (2, "causes: cannot write standard output: No space left on device\n"))

    def test_wrong_words(self):
        self.assertEqual(self.run_main("--what")[0], 2)


if __name__ == "__main__":
    unittest.main()
