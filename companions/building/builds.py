"""A built program, and the record beside it that tells which sources it was made from."""
import contextlib
import fcntl
import os
import shutil
from dataclasses import dataclass
from pathlib import Path

from .crates import PROGRAM, ROOT, lowest_first, read_crates
from .sums import CODE, CODE_AND_PROOFS, sum_of_file, sums_of


@dataclass(frozen=True)
class Build:
    """Where a program stands, and which parts of the crates it is made from."""

    root: Path
    program: Path
    parts: tuple
    is_proved: bool

    @property
    def record(self):
        return self.program.with_suffix(".sums")

    def crates(self):
        """The crates that the program is made from, the lowest first."""
        return lowest_first(read_crates(self.root), PROGRAM)

    def sources(self):
        """The sum of all that the program is made from, as it is now."""
        return sums_of(self.root, self.crates(), self.parts)[PROGRAM]

    def is_current(self):
        """Whether the program that stands was made from the sources as they are now."""
        made = sum_of_file(self.program)
        return made is not None and text_of(self.record) == recorded(self.sources(), made)

    def note(self, sources):
        """Notes that the program that stands was made from these sources."""
        write_whole(self.record, recorded(sources, sum_of_file(self.program)))

    def put(self, made, sources):
        """Puts a program that was made from these sources in place of the one that stands, at once, so that nobody starts half of
        it."""
        part = self.program.with_name(f"{self.program.name}.{os.getpid()}")
        try:
            shutil.copy(made, part)
            os.replace(part, self.program)
        finally:
            part.unlink(missing_ok=True)
        self.note(sources)


def recorded(sources, made):
    return f"sources {sources}\nprogram {made}\n"


def text_of(path):
    """What a file says, or None where there is none."""
    try:
        return path.read_text(encoding="utf-8")
    except OSError:
        return None


def write_whole(path, text):
    """Writes a file so that nobody meets half of it."""
    part = path.with_name(f"{path.name}.{os.getpid()}")
    part.write_text(text, encoding="utf-8")
    os.replace(part, path)


def proved_build(root=ROOT):
    """The program with its proofs."""
    return Build(root, root / "crates" / PROGRAM / "out" / PROGRAM, CODE_AND_PROOFS, True)


def unproved_build(root=ROOT):
    """The program without its proofs. It stands where `rt` removes nothing."""
    return Build(root, root / "out" / "unproved" / PROGRAM, CODE, False)


def quick_build(root=ROOT):
    """The program without its proofs as it was compiled quickly, which stands in until the other one is there."""
    return Build(root, root / "out" / "quick" / PROGRAM, CODE, False)


@contextlib.contextmanager
def locked(paths, waiting):
    """Holds these files or folders for this process alone; where another one holds one, `waiting` is called with it first."""
    held = []
    try:
        for path in sorted({os.path.realpath(path) for path in paths}):
            held.append(os.open(path, os.O_RDONLY))
            hold(held[-1], path, waiting)
        yield
    finally:
        for number in held:
            os.close(number)


def hold(number, path, waiting):
    # Some file systems have no locks.
    with contextlib.suppress(OSError):
        if not take_at_once(number):
            waiting(path)
            fcntl.flock(number, fcntl.LOCK_EX)


def take_at_once(number):
    """Takes the lock of an open file where nobody holds it, and tells whether that was so."""
    try:
        fcntl.flock(number, fcntl.LOCK_EX | fcntl.LOCK_NB)
    except BlockingIOError:
        return False
    return True
