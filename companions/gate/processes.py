"""What the processes of a run are at: for which crate, and whether they prove it, its tests, or its wrong bodies."""
import os
from dataclasses import dataclass
from pathlib import Path

KINDS = ("proof", "tests", "bodies")
TICKS = os.sysconf("SC_CLK_TCK")
PAGE = os.sysconf("SC_PAGE_SIZE")


@dataclass(frozen=True)
class Process:
    """A process: its parent, its words, its folder, the processor seconds that it took, and its memory in bytes."""

    parent: str
    words: tuple
    folder: str
    seconds: float
    memory: int

    @property
    def work(self):
        """The crate that this process checks or builds, and the kind of that work; nothing of any other process."""
        if "--crate-name" not in self.words:
            return None
        crate = self.words[self.words.index("--crate-name") + 1]
        return crate, "bodies" if "rt-edit-" in self.folder else "tests" if "--test" in self.words else "proof"


def processes(proc=Path("/proc")):
    """The processes that run, by their numbers."""
    found = {}
    for at in proc.iterdir():
        if not at.name.isdigit():
            continue
        try:
            words = tuple((at / "cmdline").read_bytes().decode(errors="replace").split("\0"))
            stat = (at / "stat").read_text().rpartition(")")[2].split()
            folder = os.readlink(at / "cwd")
        except OSError:
            # It has ended meanwhile.
            continue
        found[at.name] = Process(stat[1], words, folder, (int(stat[11]) + int(stat[12])) / TICKS, int(stat[21]) * PAGE)
    return found


def work_below(root, running):
    """The processes below one, by their numbers, each with its work or that of the nearest process above it that has any."""
    found = {}
    for number in running:
        above, work = number, None
        while above in running and above != root:
            work = work or running[above].work
            above = running[above].parent
        if above == root and work:
            found[number] = work
    return found
