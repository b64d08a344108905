"""Which tests there are, in which parts: each a command of its own."""
import enum
import os
import sys
from collections.abc import Callable
from dataclasses import dataclass, field
from pathlib import Path

from building.crates import ROOT, Fault

from . import counting

COMPANIONS, REFERENCE = ROOT / "companions", ROOT / "reference"
PYTHON = (sys.executable, "-I", COMPANIONS / "start.py")
# Half of the random sessions are of vats that stand alone, half of such as know each other.
SECONDS = 30
RANDOM = {"alone": (), "several": ("--several", "--logs")}


class Part(enum.Enum):
    """What can be tested by itself."""

    SESSIONS = "sessions"
    COMPANIONS = "companions"
    REFERENCE = "reference"
    RANDOM = "random"


@dataclass(frozen=True)
class Job:
    """A command that tests, and how what it says is counted."""

    name: str
    words: tuple
    count_of: Callable
    variables: dict = field(default_factory=dict)


@dataclass(frozen=True)
class Tested:
    """The program that is tested, which may be the plain interpreter."""

    program: str

    @property
    def is_plain(self):
        return Path(self.program).resolve().is_relative_to(REFERENCE)


def sessions(tested, names=()):
    """Sessions and tables, of these names or all."""
    yield Job(" ".join(["sessions", *names]), (*PYTHON, "sessions", "--program", tested.program, *names), counting.of_sessions)


def longest_first(paths):
    """The files of tests by their lengths, since those that take long are to begin early."""
    return sorted(paths, key=lambda path: (-path.stat().st_size, path))


def companions(tested, folder=COMPANIONS):
    """The unit tests of the companions below a folder. Those that talk with a program talk with this one."""
    variables = {} if tested.is_plain else {"EVATS_PROGRAM": os.path.abspath(tested.program)}
    for path in longest_first(folder.rglob("test_*.py")):
        name = ".".join(path.relative_to(COMPANIONS).with_suffix("").parts)
        yield Job(name, (*PYTHON, "unittest", "-q", name), counting.of_units, variables=variables)


def reference(tested):
    """The unit tests of the plain interpreter and of the tools that compare."""
    for path in longest_first(REFERENCE.glob("test_*.py")):
        words = (sys.executable, "-I", "-m", "unittest", "discover", "-q", "-s", REFERENCE, "-t", REFERENCE, "-p", path.name)
        yield Job(f"reference.{path.stem}", words, counting.of_units)


def random(tested):
    """Random sessions on the program and on the plain interpreter; on the plain interpreter alone there is nothing to compare."""
    for name, words in RANDOM.items() if not tested.is_plain else ():
        words = (REFERENCE / "compare", "--seconds", str(SECONDS), *words, tested.program)
        yield Job(f"random {name}", words, counting.of_comparison)


# In the order in which they begin.
JOBS = {Part.RANDOM: random, Part.SESSIONS: sessions, Part.COMPANIONS: companions, Part.REFERENCE: reference}


def part_of(word):
    """The part that a word names, or None."""
    return next((part for part in Part if part.value == word.rstrip("/")), None)


def folder_of(word):
    """The folder of companions that a word names, or None."""
    folder = (ROOT / word).resolve()
    return folder if folder.is_dir() and folder.is_relative_to(COMPANIONS) else None


def jobs_of(tested, words):
    """The commands that these words ask for; without words all. What is no part and no folder of companions is a name that
    `tests/run` knows."""
    named = set(map(part_of, words))
    parts = [part for part in JOBS if part in named or not words]
    folders = [folder_of(word) for word in words if not part_of(word) and folder_of(word)]
    names = [word for word in words if not part_of(word) and not folder_of(word)]
    found = [job for part in parts for job in JOBS[part](tested)]
    found += [job for folder in folders for job in companions(tested, folder)]
    found += sessions(tested, names) if names else []
    if not found:
        raise Fault(f"there is nothing to test in {' '.join(words)}")
    return list({job.name: job for job in found}.values())
