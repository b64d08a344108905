"""Tries the mutants of several crates side by side, as many as processors and memory allow."""
import resource
import tempfile
import time
from dataclasses import dataclass, field
from pathlib import Path

from building.crates import folder_of, kit_libraries, lowest_first
from building.machine import free_memory
from building.processes import ending, start
from building.proving import PLANNED, held_of_kit, memory_of, size_of
from building.rooms import remove

from .report import Ran
from .trial import Told, Trial, furnished

PAUSE = 0.1


def seconds_of_ended():
    """The processor seconds of all processes that this one started and that have ended."""
    used = resource.getrusage(resource.RUSAGE_CHILDREN)
    return used.ru_utime + used.ru_stime


@dataclass
class Work:
    """A crate at work: the steps of its trial, what it takes of the memory, and the command that is run now."""

    name: str
    folder: Path
    steps: object
    memory: int
    process: object = None
    log: object = None


@dataclass
class Crew:
    """Tries mutants of crates, and tells what comes of each."""

    root: Path
    crates: dict
    rooms: Path
    jobs: int
    tell: object
    rt: str = "rt"
    at_work: list = field(default_factory=list)

    def __post_init__(self):
        self.memory = free_memory()

    def memory_for(self, name):
        """What a check of a crate takes of the memory at most, in bytes."""
        crates = lowest_first(self.crates, name)
        *below, size = (size_of(folder_of(self.root, crate.name)) for crate in crates)
        return memory_of(size, below, held_of_kit(set(kit_libraries(crates)) - {"std"}), 1)

    def has_room(self, memory):
        """Whether a crate whose checks take so much memory may begin now; one may always be at work."""
        planned = memory + sum(work.memory for work in self.at_work)
        return not self.at_work or (planned <= PLANNED * self.memory and memory <= free_memory())

    def begin(self, name, mutants, memory):
        room = furnished(self.root, self.rooms / name, lowest_first(self.crates, name))
        self.at_work.append(Work(name, room.folder, Trial(name, room.crate_folder, mutants).steps(), memory))

    def go_on(self, work, processes, ran=None):
        """Goes on with a trial until it wants a command to be run, or is done."""
        try:
            step = work.steps.send(ran)
            while isinstance(step, Told):
                self.tell(work.name, step)
                step = next(work.steps)
        except StopIteration:
            self.at_work.remove(work)
            remove(work.folder)
            return
        work.log = tempfile.TemporaryFile("w+", errors="replace")
        start(processes, [self.rt, *step], folder_of(work.folder, work.name), work.log)
        work.process = processes[-1]

    def look(self, work, processes):
        """Goes on with a trial whose command has ended."""
        before = seconds_of_ended()
        status = work.process.poll()
        if status is not None:
            seconds = seconds_of_ended() - before
            processes.remove(work.process)
            with work.log as log:
                log.seek(0)
                said = log.read()
            self.go_on(work, processes, Ran(said, status, seconds))

    def try_all(self, wanted, show):
        """Tries the wanted mutants, by crate, and shows meanwhile which are at work."""
        waiting = {name: self.memory_for(name) for name in wanted}
        with ending() as processes:
            while waiting or self.at_work:
                for name, memory in list(waiting.items()):
                    if len(self.at_work) < self.jobs and self.has_room(memory):
                        del waiting[name]
                        self.begin(name, wanted[name], memory)
                        self.go_on(self.at_work[-1], processes)
                show([work.name for work in self.at_work])
                time.sleep(PAUSE)
                for work in list(self.at_work):
                    self.look(work, processes)
