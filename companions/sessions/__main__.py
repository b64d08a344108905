"""Runs sessions and tables of texts on the built program, and compares what it replies.

A name is a file, a folder, or the name of a session or of a table without its ending; without one all tests are run, the
examples, and what README.md, docs/LANGUAGE.md and docs/COMMANDS.md show. Each session is run twice: with its commands at
once, and with one byte of them at a time. The last line is `N passed, M failed`. tests/README.md says what the files mean.
"""
import argparse
import os
import sys
from concurrent.futures import ThreadPoolExecutor
from dataclasses import dataclass
from functools import partial
from pathlib import Path

from building.programs import named_or_built

from .cases import Broken
from .differences import differences
from .finding import accept, cases_of
from .running import run

SECONDS = 60


@dataclass(frozen=True)
class Verdict:
    """What is told of a case; it passed where that is nothing."""

    name: str
    told: tuple = ()


def tried(program, seconds, case):
    """The verdict of a case, in each way that its commands can come."""
    if isinstance(case, Broken):
        return Verdict(case.name, (case.why,))
    for is_bytewise in (False, True):
        ran = run(program, case.arguments, case.commands, seconds, is_bytewise)
        told = differences(case, ran, seconds)
        if told:
            return Verdict(f"{case.name} ({'byte by byte' if is_bytewise else 'whole'})", tuple(told))
    return Verdict(case.name)


def report(verdicts):
    """Tells what differs, and gives how many passed and how many failed."""
    passed = failed = 0
    for verdict in verdicts:
        passed, failed = passed + (not verdict.told), failed + bool(verdict.told)
        if verdict.told:
            print(f"FAILED {verdict.name}:", *verdict.told, sep="\n  ", flush=True)
    return passed, failed


def words_of(words):
    parser = argparse.ArgumentParser(prog="tests/run", description=__doc__, formatter_class=argparse.RawDescriptionHelpFormatter)
    parser.add_argument("--program", help="the program; without it the proved one, else one without proofs")
    parser.add_argument("--accept", action="store_true", help="first write what the program replies into the files")
    parser.add_argument("--seconds", type=float, default=SECONDS, help=f"how long a run may take; {SECONDS} if not given")
    parser.add_argument("names", metavar="NAME", nargs="*", help="what to run; without it everything")
    return parser.parse_args(words)


def main(words=None):
    arguments = words_of(words)
    program = Path(named_or_built(arguments.program)).resolve()
    if not os.access(program, os.X_OK):
        print(f"there is no program {program}; ./run builds it", "0 passed, 1 failed", sep="\n")
        return 1
    if arguments.accept:
        for path in accept(arguments.names, partial(run, program, seconds=arguments.seconds)):
            print(f"written: {path}")
    cases = cases_of(arguments.names)
    with ThreadPoolExecutor(os.cpu_count()) as pool:
        passed, failed = report(pool.map(partial(tried, program, arguments.seconds), cases))
    print(f"{passed} passed, {failed} failed")
    return 1 if failed else 0


if __name__ == "__main__":
    sys.exit(main())
