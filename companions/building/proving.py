"""Proves the crates that the program stands on side by side, from the lowest up, and then the program."""
import shutil
import sys
import time
from dataclasses import dataclass, field
from pathlib import Path

from . import progress, schedule
from .builds import locked
from .crates import PROGRAM, Fault, folder_of, lowest_first, read_crates
from .kit import KIT
from .machine import free_memory, processors
from .processes import ending, start
from .rooms import Room, is_proved, place_of_rooms, remove
from .sums import CODE_AND_PROOFS, files_below, sums_of

PAUSE = 0.2
MOST_JOBS = 4
# What may be planned of the free memory: some checks take a fifth more than is reckoned.
PLANNED = 0.85


@dataclass(frozen=True)
class Size:
    """How many lines a crate has, of code and of definitions and proofs."""

    code: int
    proofs: int


def lines_of(folder, ending_of_names):
    """How many lines the files of a crate have whose names end so."""
    paths = [path for part in CODE_AND_PROOFS for path in files_below(folder / part) if path.endswith(ending_of_names)]
    return sum(Path(path).read_bytes().count(b"\n") for path in paths)


def size_of(folder):
    return Size(lines_of(folder, ".rt"), lines_of(folder, ".antt"))


def held_of_kit(libraries):
    """The memory that libraries of the kit take in a check, in bytes."""
    archives = [KIT / "rlibs" / f"{name}.rlib" / "toolchain" / "checked.a" for name in libraries]
    return min(5 * sum(path.stat().st_size for path in archives if path.is_file()), 2_500_000_000)


def memory_of(size, below, held, jobs):
    """What a check takes at most, in bytes, as `rt` reckons it: by the crate's size, those of the crates below it, and what
    libraries of the kit take."""
    alone = 1_000_000_000 + 1_000_000 * size.code + 200_000 * size.proofs + 80_000 * sum(it.code for it in below)
    return round((alone + held) * (1 + 0.6 * (jobs - 1)))


@dataclass
class Work:
    """A crate at work, with what it takes of the machine."""

    process: object
    log: Path
    begun: float
    jobs: int
    memory: int
    room: Room = None


@dataclass
class Plan:
    """What there is to prove: all crates lowest first, the sums of their sources, their sizes, which are left, and which of
    these are at work. Of those that are proved: what they took, and what was expected of them."""

    root: Path
    crates: list
    sums: dict
    sizes: dict
    left: list
    lanes: int
    memory: int
    at_work: dict = field(default_factory=dict)
    took: float = 0
    wanted: float = 0

    def below(self, name):
        """The crates below one, lowest first, and itself."""
        return lowest_first({crate.name: crate for crate in self.crates}, name)

    def libraries(self):
        """The libraries that are left."""
        return [crate for crate in self.left if crate.name != PROGRAM]

    def expected(self, name):
        size = self.sizes[name]
        return schedule.expected(size.code, size.proofs, name == PROGRAM)

    def seconds(self):
        """What each crate takes, at the pace so far."""
        pace = schedule.pace(self.took, self.wanted)
        return {crate.name: pace * self.expected(crate.name) for crate in self.crates}

    def memory_for(self, name, jobs):
        """The memory that a check of a crate takes."""
        crates = self.below(name)
        own = {crate.name for crate in crates}
        *below, size = (self.sizes[crate.name] for crate in crates)
        held = held_of_kit({use for crate in crates for use in crate.uses} - own)
        return memory_of(size, below, held, jobs)

    def ready(self):
        """The libraries that may be proved now, those with the longest chain behind them first."""
        left = {crate.name for crate in self.left}
        chains = schedule.longest_chains(self.left, self.seconds())
        ready = [it for it in self.libraries() if it.name not in self.at_work and schedule.is_ready(it, left)]
        return sorted(ready, key=lambda crate: -chains[crate.name])

    def has_room(self, memory):
        """Whether a check that takes so much memory may begin now; one may always be at work."""
        planned = memory + sum(work.memory for work in self.at_work.values())
        return not self.at_work or (planned <= PLANNED * self.memory and memory <= free_memory())

    def jobs_for(self, name, waiting):
        """How many jobs a crate gets, where so many wait: the processors that no other one waits for, as many as memory holds."""
        idle = self.lanes - sum(work.jobs for work in self.at_work.values())
        most = min(MOST_JOBS, max(idle // waiting, min(idle, 1)))
        return next((jobs for jobs in range(most, 0, -1) if self.has_room(self.memory_for(name, jobs))), 0)

    def line(self):
        """How far the proofs are, in a line."""
        now, seconds = time.monotonic(), self.seconds()
        rest = {name: max(seconds[name] - (now - work.begun), seconds[name] / 10) for name, work in self.at_work.items()}
        left = schedule.time_left(self.left, seconds, rest, self.lanes)
        return progress.line(len(self.crates) - len(self.left), len(self.crates), list(self.at_work), left)


def plan_of(root, crates, lanes):
    """What there is to prove of these crates, so many side by side at most."""
    sums = sums_of(root, crates, CODE_AND_PROOFS)
    sizes = {crate.name: size_of(folder_of(root, crate.name)) for crate in crates}
    left = [crate for crate in crates if crate.name == PROGRAM or not is_proved(root, crate.name, sums[crate.name])]
    return Plan(root, crates, sums, sizes, left, lanes, free_memory())


def rt():
    """The command of the kit that proves."""
    found = shutil.which("rt")
    if not found:
        raise Fault("there is no command rt on the PATH; a kit of Rattle has it, in its folder bin")
    return found


def stop_if_refused(plan, name):
    """Tells what `rt` said of a crate that it did not prove, with the paths of the repository."""
    work = plan.at_work[name]
    if work.process.returncode:
        said = work.log.read_text(encoding="utf-8", errors="replace").rstrip()
        said = said.replace(str(work.room.folder), str(plan.root)) if work.room else said
        raise Fault(f"rt said of crates/{name}:\n{said}\n{name} is not proved: rt ended with {work.process.returncode}")


def begin(plan, name, jobs, processes):
    """Has a crate proved in a room of its own."""
    room = Room(plan.root, place_of_rooms(plan.root) / name, tuple(plan.below(name)))
    room.furnish()
    log = room.folder / "log"
    with open(log, "wb") as out:
        start(processes, [rt(), "lib", "--jobs", str(jobs)], room.crate_folder, out)
    plan.at_work[name] = Work(processes[-1], log, time.monotonic(), jobs, plan.memory_for(name, jobs), room)


def begin_all(plan, processes):
    """Begins as many crates as processors and memory allow."""
    ready = plan.ready()
    for place, crate in enumerate(ready):
        jobs = plan.jobs_for(crate.name, len(ready) - place)
        if jobs:
            begin(plan, crate.name, jobs, processes)


def take(plan, name):
    """Takes the library of a crate whose process has ended."""
    stop_if_refused(plan, name)
    work = plan.at_work.pop(name)
    work.room.hand_over(plan.sums[name])
    plan.left = [crate for crate in plan.left if crate.name != name]
    plan.took += time.monotonic() - work.begun
    plan.wanted += plan.expected(name)


def prove_libraries(plan, display):
    """Proves all crates but the program."""
    with ending() as processes:
        while plan.libraries():
            begin_all(plan, processes)
            display.show(plan.line())
            time.sleep(PAUSE)
            for name, work in list(plan.at_work.items()):
                if work.process.poll() is not None:
                    take(plan, name)


def prove_program(plan, display):
    """Proves and links the program, whose libraries are all proved."""
    log = place_of_rooms(plan.root) / f"{PROGRAM}.log"
    log.parent.mkdir(parents=True, exist_ok=True)
    with open(log, "wb") as out, ending() as processes:
        start(processes, [rt(), "run"], folder_of(plan.root, PROGRAM), out)
        plan.at_work[PROGRAM] = work = Work(processes[0], log, time.monotonic(), plan.lanes, 0)
        while work.process.poll() is None:
            display.show(plan.line())
            time.sleep(PAUSE)
    stop_if_refused(plan, PROGRAM)


def prove_crates(root, crates, lanes, display):
    """Proves the libraries among these crates, which come lowest first, so many side by side at most, and gives the plan of it."""
    def tell(folder):
        display.clear()
        print(f"another command is at work in {folder}; waiting for it ..", file=display.out, flush=True)

    # As `rt` does, so that no other `rt` works in these folders meanwhile.
    with locked([folder_of(root, crate.name) for crate in crates], tell):
        plan = plan_of(root, crates, lanes)
        prove_libraries(plan, display)
    return plan


def prove_once(build, display):
    """Proves what is left, and notes the program where the sources are still the same."""
    plan = prove_crates(build.root, lowest_first(read_crates(build.root), PROGRAM), processors(), display)
    if build.sources() == plan.sums[PROGRAM]:
        prove_program(plan, display)
        if not build.program.exists():
            raise Fault(f"rt proved {PROGRAM} and left no program at {build.program}")
        if build.sources() == plan.sums[PROGRAM]:
            build.note(plan.sums[PROGRAM])


def prove(build):
    """Proves and builds the program; sources that change meanwhile are proved again."""
    rt()
    display = progress.Display(sys.stderr)
    try:
        while not build.is_current():
            prove_once(build, display)
    finally:
        display.clear()
    remove(place_of_rooms(build.root))
