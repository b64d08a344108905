"""What is told of a run: how far it is, and a table of what came of it."""
import time
from dataclasses import dataclass, field

from building.progress import counted, duration, few

from .edits import FILE


@dataclass
class Report:
    """What came of mutants, crate by crate, of so many that are to be tried in all."""

    whole: int
    clock: object = time.monotonic
    told: dict = field(default_factory=dict)
    begun: float = 0
    earlier: int = 0

    def __post_init__(self):
        self.begin()

    def begin(self):
        """Takes the time from now on."""
        self.begun = self.clock()

    def add(self, crate, told):
        """Adds what came of a mutant."""
        self.told.setdefault(crate, []).append(told)

    def add_earlier(self, crate, told):
        """Adds what an earlier run told."""
        self.add(crate, told)
        self.earlier += 1

    @property
    def tried(self):
        return sum(map(len, self.told.values()))

    def faults(self):
        """A line for each mutant that is to be mended."""
        return [fault_of(crate, it) for crate, of in self.told.items() for it in of if it.verdict.fault]

    def line(self, at_work):
        """How far a run is, in a line."""
        faults, now = len(self.faults()), self.tried - self.earlier
        left = (self.clock() - self.begun) * (self.whole - self.tried) / now if now else None
        parts = [
            f"tried {self.tried} of {self.whole}",
            f"{faults} to be mended" if faults else "",
            f"at work: {' '.join(few(at_work))}" if at_work else "",
            f"{duration(left)} left" if left is not None else "",
        ]
        return ", ".join(filter(None, parts))

    def table(self):
        """A table of the crates: how many mutants there are, how many were refused, and the processor seconds that they took."""
        rows = [("Crate", "Mutants", "Refused", "Seconds")]
        for crate, of in self.told.items():
            refused = sum(not it.verdict.fault for it in of)
            rows.append((crate, str(len(of)), str(refused), f"{sum(it.seconds for it in of):.0f}"))
        widths = [max(map(len, column)) for column in zip(*rows)]
        return "\n".join("  ".join([row[0].ljust(widths[0]), *map(str.rjust, row[1:], widths[1:])]) for row in rows)

    def total(self):
        """What came of all, and what it took."""
        faults, seconds = len(self.faults()), sum(it.seconds for of in self.told.values() for it in of)
        earlier = f", {self.earlier} of them tried by an earlier run" if self.earlier else ""
        return (
            f"{counted(self.tried, 'mutant')}{earlier}: {self.tried - faults} refused, {faults} to be mended\n"
            f"{duration(seconds)} of one core; this run took {duration(self.clock() - self.begun)}"
        )


def fault_of(crate, told):
    """What is to be mended of a mutant, with where it stands."""
    return f"crates/{crate}/{FILE}: {told.mutant.name}: {told.verdict.fault}: {told.verdict.said}"
