"""Looks at what is asked of an older kit and of a newer one. No prover runs: a stub stands for each."""
import os
import subprocess
import tempfile
import unittest
from pathlib import Path

from .kits import Kit, kit_of

BENCH = Path(__file__).resolve().parents[2] / "bench" / "gate"
OLDER = """\
rt: proves, builds and tests the crates of a Rattle repository with the toolchain of this kit.

  rt ci                   the merge gate, at the top of the repository: removes each out/, proves each crate and its tests,
                          and runs each program
  rt must-fail [NAME..]   tries the edits alone; --anew tries all
  rt doc                  prints the path of the page to read first
"""
NEWER = """\
  rt ci                   the merge gate, at the top of the repository. What a run passed is kept beside the kit. The line
                          'rt: ok' says how much was done in this run. --anew proves and tries all
  rt ci NAME..            the same for these crates and those below them
  rt must-fail [NAME..]   tries the edits alone
"""
# Takes words behind `ci` where its help names them, as the kits do, and tells what it was started with.
RT = """\
#!/bin/sh
case $1 in
  version) echo a-kit ;;
  help) cat {help} >&2 ;;
  ci) shift
    [ $# = 0 ] || grep -q "rt ci NAME" {help} || {{ echo "0 passed, 1 failed"; exit 2; }}
    echo "started with: $*"
    echo "1 passed, 0 failed" ;;
esac
"""


class Kits(unittest.TestCase):
    def test_what_a_help_tells(self):
        self.assertEqual(kit_of("a-kit", OLDER), Kit("a-kit", False, False))
        self.assertEqual(kit_of("a-kit", NEWER), Kit("a-kit", True, True))
        self.assertEqual(kit_of("a-kit", ""), Kit("a-kit", False, False))


class Bench(unittest.TestCase):
    def run_on(self, told, *words):
        """What bench/gate says on these words where the kit's help tells this, and its status."""
        with tempfile.TemporaryDirectory() as folder:
            Path(folder, "help").write_text(told)
            rt = Path(folder, "rt")
            rt.write_text(RT.format(help=f"{folder}/help"))
            rt.chmod(0o755)
            variables = {**os.environ, "PATH": f"{folder}:{os.environ['PATH']}"}
            ran = subprocess.run([BENCH, *words], env=variables, capture_output=True, text=True, timeout=60, check=False)
        return ran.stdout + ran.stderr, ran.returncode

    def test_an_older_kit_is_asked_for_what_it_can(self):
        said, status = self.run_on(OLDER)
        self.assertIn("started with: \n", said)
        self.assertIn("no prover was seen at work", said)
        self.assertEqual(status, 0)

    def test_an_older_kit_takes_no_names(self):
        said, status = self.run_on(OLDER, "ids")
        why = "rt ci of a-kit takes no names of crates, as that of a later kit does: leave them out"
        self.assertEqual((said, status), (f"bench/gate: {why}\n", 1))

    def test_an_older_kit_keeps_nothing(self):
        self.assertIn("keeps nothing from one run to the next, so it proves all", self.run_on(OLDER, "--kept")[0])

    def test_a_newer_kit(self):
        self.assertIn("started with: --anew ids\n", self.run_on(NEWER, "ids")[0])
        said, _ = self.run_on(NEWER, "--kept")
        self.assertIn("started with: \n", said)
        self.assertIn("all is kept from an earlier run", said)


if __name__ == "__main__":
    unittest.main()
