"""Looks at what is told of a run. No prover runs: processes are made up, or stubs."""
import os
import subprocess
import sys
import tempfile
import unittest
from pathlib import Path

from .__main__ import proved_in, told
from .processes import Process, processes, work_below

COMPANIONS = Path(__file__).resolve().parents[1]


def checking(parent, crate, *more, folder="/crates"):
    return Process(parent, ("rattle", "check", "--crate-name", crate, *more), folder, 1.0, 1)


class Works(unittest.TestCase):
    def test_kinds(self):
        self.assertEqual(checking("1", "heap").work, ("heap", "proof"))
        self.assertEqual(checking("1", "heap", "--test").work, ("heap", "tests"))
        self.assertEqual(checking("1", "heap", folder="/tmp/rt-edit-7-x").work, ("heap", "bodies"))
        self.assertIsNone(Process("1", ("clang",), "/", 1.0, 1).work)

    def test_what_is_below_and_what_is_not(self):
        running = {
            "2": Process("1", ("rt", "ci"), "/", 0.0, 1),
            "3": checking("2", "heap"),
            "4": Process("3", ("clang",), "/", 0.0, 1),
            "5": checking("1", "sends"),
            "6": Process("2", ("git",), "/", 0.0, 1),
        }
        self.assertEqual(work_below("2", running), {"3": ("heap", "proof"), "4": ("heap", "proof")})

    def test_this_process_is_found(self):
        here = processes()[str(os.getpid())]
        self.assertEqual(here.parent, str(os.getppid()))
        self.assertGreater(here.memory, 0)


class Telling(unittest.TestCase):
    def test_a_line(self):
        work = {("sends", "bodies"), ("heap", "proof")}
        self.assertEqual(told(3, 40, work), "gate: 3 of 40 crates proved; at work: heap sends (wrong bodies)")

    def test_what_was_proved(self):
        log = "rt: low proved\nrt: low: its tests are proved\nhigh is kept: an earlier run\nrt: mid NOT PROVED\nfn low::a: proved\n"
        self.assertEqual(proved_in(log), 2)

    def test_a_shell_is_watched_until_it_ends(self):
        said = "gate: 0 of 1 crates proved; at work: low"
        with tempfile.TemporaryDirectory() as folder:
            Path(folder, "crates.txt").write_text("low:\n")
            Path(folder, "log").write_text("")
            Path(folder, "at_work").touch()
            script = (
                "sh -c 'while [ -e at_work ]; do sleep 0.1; done' rattle check --crate-name low & "
                f"{sys.executable} -c 'import sys; from pathlib import Path; from gate.__main__ import watch; import os; "
                'watch(Path("log"), os.getppid(), lambda line: print(line, flush=True), 0.2)\' > said & '
                "until [ -s said ]; do sleep 0.1; done; kill $!; rm at_work; cat said"
            )
            ran = subprocess.run(
                ["sh", "-c", script], cwd=folder, capture_output=True, text=True, check=False, timeout=60,
                env={**os.environ, "PYTHONPATH": str(COMPANIONS)},
            )
        self.assertIn(said, ran.stdout.splitlines(), ran.stderr)


if __name__ == "__main__":
    unittest.main()
