"""What the commands that test say at last: how many tests passed, and how many failed."""
import re
from dataclasses import dataclass

SESSIONS = re.compile(r"^(\d+) passed, (\d+) failed$", re.MULTILINE)
RAN = re.compile(r"^Ran (\d+) tests? in ", re.MULTILINE)
FAILURES = re.compile(r"\b(failures|errors|unexpected successes|skipped|expected failures)=(\d+)")
COMPARED = re.compile(r"^(\d+) sessions.* compared, (\d+) differ$", re.MULTILINE)


@dataclass(frozen=True)
class Count:
    """How many tests passed, failed, and were skipped."""

    passed: int = 0
    failed: int = 0
    skipped: int = 0

    def __add__(self, other):
        return Count(self.passed + other.passed, self.failed + other.failed, self.skipped + other.skipped)

    def __str__(self):
        return f"{self.passed} passed, {self.failed} failed" + (f", {self.skipped} skipped" if self.skipped else "")


def last(pattern, said):
    """The numbers of the last line that is so, or None."""
    found = pattern.findall(said)
    return tuple(map(int, found[-1] if isinstance(found[-1], tuple) else found[-1:])) if found else None


def of_sessions(said):
    """The count of `tests/run`."""
    found = last(SESSIONS, said)
    return found and Count(*found)


def of_units(said):
    """The count of Python's unit tests."""
    found = last(RAN, said)
    if not found:
        return None
    told = {kind: int(number) for kind, number in FAILURES.findall(said.rstrip().rpartition("\n")[2])}
    failed = sum(told.get(kind, 0) for kind in ("failures", "errors", "unexpected successes"))
    skipped = told.get("skipped", 0)
    # Several parts of one test may fail.
    return Count(max(0, found[0] - failed - skipped), failed, skipped)


def of_comparison(said):
    """The count of `reference/compare`."""
    found = last(COMPARED, said)
    return found and Count(found[0] - found[1], found[1])


def counted(count_of, said, status):
    """The count of a command that said this and ended so. One that does not say it, or fails beside, has failed itself."""
    count = count_of(said) or Count(failed=1)
    return count if not status or count.failed else count + Count(failed=1)
