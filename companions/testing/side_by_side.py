"""Runs commands that test side by side, tells how far they are, and counts what they say."""
import time
from dataclasses import dataclass
from pathlib import Path

from building.crates import ROOT
from building.processes import end, ending, start
from building.progress import Display, few

from .counting import Count, counted

PAUSE = 0.1
# A command that takes longer hangs.
MOST_SECONDS = 1800


@dataclass
class Work:
    """A command at work."""

    job: object
    process: object
    log: Path
    begun: float

    def seconds(self):
        return time.monotonic() - self.begun

    def said(self):
        return self.log.read_text(encoding="utf-8", errors="replace")

    def has_ended(self):
        """Whether it has ended; one that hangs is ended."""
        if self.seconds() > MOST_SECONDS:
            end(self.process)
        return self.process.poll() is not None


@dataclass
class Tests:
    """The jobs that wait, those at work, and what was counted so far."""

    waiting: list
    folder: Path
    display: Display
    at_work: list
    count: Count = Count()

    def begin(self, processes):
        """Begins the next one."""
        job = self.waiting.pop(0)
        log = self.folder / f"{len(processes)}.log"
        with open(log, "wb") as out:
            start(processes, job.words, ROOT, out, **job.variables)
        self.at_work.append(Work(job, processes[-1], log, time.monotonic()))

    def take(self, work):
        """Counts one that has ended, and tells what it said if anything failed."""
        self.at_work.remove(work)
        count = counted(work.job.count_of, work.said(), work.process.returncode)
        self.count += count
        self.display.clear()
        told = f"{work.job.name}: {count}, in {work.seconds():.0f} s"
        print(f"{work.said().rstrip()}\nFAILED {told}" if count.failed else told, file=self.display.out, flush=True)

    def line(self):
        """How far they are, in a line."""
        names = few([work.job.name for work in self.at_work])
        waiting = f"; {len(self.waiting)} wait" if self.waiting else ""
        return f"{self.count} so far; at work: {', '.join(names)}{waiting}"


def run_all(jobs, lanes, folder, out):
    """Runs jobs, so many at a time, and gives what was counted."""
    tests = Tests(list(jobs), folder, Display(out), [])
    with ending() as processes:
        try:
            while tests.waiting or tests.at_work:
                while tests.waiting and len(tests.at_work) < lanes:
                    tests.begin(processes)
                tests.display.show(tests.line())
                time.sleep(PAUSE)
                for work in [work for work in tests.at_work if work.has_ended()]:
                    tests.take(work)
        finally:
            tests.display.clear()
    return tests.count
