"""Tries `./talk` on the built program: by its tests, at a terminal too, and over pipes, where its replies must be those of the
program.

usage: tests/talk [PROGRAM]     (without PROGRAM: the proved one, else one without proofs)

Over pipes the sessions of tests and of examples are run. The last line is `N passed, M failed`.
"""
import os
import subprocess
import sys
from concurrent.futures import ThreadPoolExecutor
from dataclasses import replace
from pathlib import Path

from building.programs import named_or_built
from conversation.commands import commands_of, lines_of
from conversation.files import FileFault
from conversation.typed import NotTyped, Typed, typed
from sessions.cases import Case
from sessions.differences import differences
from sessions.finding import ROOT, cases_of
from sessions.running import run

SECONDS = 120
FOLDERS = [str(ROOT / name) for name in ("tests", "examples")]
OPTIONS = {"--budget", "--workers"}
HELP = (["-h"], ["--help"])
TESTS = ("conversation.test_conversation", "talk.test_talk")


def is_read_alike(text):
    """Whether the talk reads these commands as the program does: none goes on where the program refuses it, or has a label."""
    for command in commands_of(lines_of(text.decode(errors="surrogateescape"))):
        script = iter(command.script)
        try:
            given = typed(command.line, lambda what: next(script))
        except (NotTyped, FileFault, StopIteration):
            return False
        if given != Typed(replace(command, start=0)):
            return False
    return True


def is_for_talk(case):
    """Whether a case is a session that the talk can have, by options which it has."""
    if ":" in case.name or not isinstance(case, Case) or case.errors:
        return False
    return OPTIONS.issuperset(word for word in case.arguments if word.startswith("-")) and is_read_alike(case.commands)


def tried(program, case):
    """What differs from the program's own replies over pipes."""
    return differences(case, run(ROOT / "talk", ["--program", program, *case.arguments], case.commands, SECONDS), SECONDS)


def main(words):
    if words in HELP:
        print(__doc__.strip())
        return 0
    program = str(Path(named_or_built(words[0] if words else None)).resolve())
    terminal = subprocess.run(
        [sys.executable, "-I", ROOT / "companions" / "start.py", "unittest", "-q", *TESTS],
        env={**os.environ, "EVATS_PROGRAM": program}, check=False,
    )
    cases = [case for case in cases_of(FOLDERS) if is_for_talk(case)]
    with ThreadPoolExecutor(os.cpu_count()) as pool:
        told = list(pool.map(lambda case: tried(program, case), cases))
    for case, each in zip(cases, told):
        if each:
            print(f"FAILED {case.name}:", *each, sep="\n  ")
    failed = sum(map(bool, told)) + bool(terminal.returncode)
    print(f"{len(cases) + 1 - failed} passed, {failed} failed")
    return 1 if failed else 0


if __name__ == "__main__":
    sys.exit(main(sys.argv[1:]))
