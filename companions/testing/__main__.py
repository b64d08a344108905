"""Tests the program that ./run takes, and all that stands round it.

  sessions      sessions and tables of tests/ and examples/, and what the documents show
  companions    the companions, ./run, ./test, ./prove and ./install, and what editors know of the language
  reference     the plain interpreter, and the tools that compare
  random        a minute of random sessions, on the program and on the plain interpreter

A WORD is one of these; or the name of a session or a table, a folder of them, as tests/undo, or a document; or a folder of
companions, as companions/talk. Without one all is tested, side by side, in some minutes. What failed is told as it comes. The last
line is `N passed, M failed`; the status is 0 where none failed, else 1, and 2 where there is no program.
"""
import argparse
import sys
import tempfile
from pathlib import Path

from building.crates import Fault
from building.machine import processors
from building.place import USUAL
from building.processes import Interrupted, interruptions
from building.programs import named_or_built, say

from .parts import Tested, jobs_of
from .side_by_side import run_all


def words_of(words):
    parser = argparse.ArgumentParser(prog="./test", description=__doc__, formatter_class=argparse.RawDescriptionHelpFormatter)
    parser.add_argument("--program", help=f"the program; without it {USUAL}")
    parser.add_argument("words", metavar="WORD", nargs="*", help="what to test; without it everything")
    return parser.parse_args(words)


def main(words=None):
    arguments = words_of(words)
    try:
        with interruptions(), tempfile.TemporaryDirectory(prefix="evats-test-") as folder:
            jobs = jobs_of(Tested(named_or_built(arguments.program)), arguments.words)
            count = run_all(jobs, processors(), Path(folder), sys.stdout)
    except Fault as fault:
        say(f"test: {fault}")
        return 2
    except Interrupted as interrupted:
        return interrupted.status
    print(f"{count.passed} passed, {count.failed} failed")
    return 1 if count.failed else 0


if __name__ == "__main__":
    sys.exit(main())
