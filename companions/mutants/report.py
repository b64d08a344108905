"""What a check says of wrong bodies."""
import re
from dataclasses import dataclass

SAID = re.compile(r"(?:fn|impl|struct|enum|trait) (\S+): (.*)")
AT = re.compile(r"(?:so far: )?(?:note: )?(?:\./)?(\S+?):(\d+):\d+: (.*)")
# The functions of a cycle of calls have one proof, each goal of which begins with the name of its function.
CYCLE = re.compile(r"proofs/(?:(.*)/)?\+[^/]+/\w+\.antt$")
GOAL = re.compile(r"error: `([\w:]+)-")
BROKEN = re.compile(r"error\[[\w-]+\]: (?:\./)?(\S+?):(\d+):\d+: ")
PROVED = ("proved", "no holes")
GOT_THROUGH = "got through"
NOT_COMPILED = "cannot be applied or compiled"
NOT_TRIED = "was not tried"
# The statuses with which a check ends that has looked at what it was asked for.
LOOKED = (0, 1, 3)
# What is said of a function only where a goal of its own is open.
OWN_GOAL = "`search` did not prove `"
# What is said of a refusal that says little of the contract, by what the check says first of it.
FAULTS = (
    (r"has no field|is not in scope|has no `|was not admitted|record `", "shows little: a proof names what it took away"),
    (r"`(?:\w+-)?overflow_", "shows little: it may wrap"),
)


@dataclass(frozen=True)
class Verdict:
    """What came of a wrong body: what is to be mended, or nothing where it was refused as it should be; and what the check said."""

    fault: str | None
    said: str = ""
    # A function of which nothing is complained may be refused for what it calls, or for another one of its cycle of calls.
    leans_on_others: bool = False

    @property
    def is_open(self):
        """Whether a check of this one alone may say more."""
        return self.leans_on_others or self.fault in (NOT_COMPILED, GOT_THROUGH, NOT_TRIED)


@dataclass(frozen=True)
class Ran:
    """How a command of `rt` ended: what it said, its status, and its processor seconds."""

    log: str
    status: int
    seconds: float = 0

    @property
    def last(self):
        """What it said last."""
        return (self.log.strip().splitlines() or [""])[-1][:200]


def functions_said(log):
    """What a log says of each function, by its path."""
    return {told[1]: told[2] for told in map(SAID.match, log.splitlines()) if told}


def is_of(said, crate, path):
    """Whether a path in a log is that of a function of the crate, or of a closure in it."""
    own = re.sub(r"\bfn::", "", said.removeprefix(f"{crate}::"))
    return own == path or own.startswith((f"{path}::", f"{path}+"))


def of_cycle(file, said):
    """The path of the function of a cycle of calls of which a proof's file complains; nothing where it is no such proof."""
    cycle, goal = CYCLE.match(file), GOAL.match(said)
    return "::".join([*(cycle[1] or "").split("/"), goal[1]]).lstrip(":") if cycle and goal else None


def is_complaint_of(edit, file, line, said):
    """Whether what is said there is said of a function of an edit, or of its proof."""
    if any(it.has(file, line) for it in edit.functions):
        return True
    return any(file.startswith(f"proofs/{path.replace('::', '/')}/") or of_cycle(file, said) == path for path in edit.paths)


def complaints(edit, log, is_alone):
    """What a log complains of in the functions of an edit, and in their proofs; all that it complains of where the edit was alone."""
    found = []
    for line in log.splitlines():
        at = AT.match(line)
        # A note on a definition is no complaint.
        if at and not at[3].startswith("note: ") and (is_alone or is_complaint_of(edit, at[1], int(at[2]), at[3])):
            found.append(line.removeprefix("so far: ")[:200])
    return found


def error_in(edit, log):
    """What a log tells of an error in what an edit changed, for which nothing was compiled; nothing where it tells none."""
    for line in log.splitlines():
        at = BROKEN.match(line)
        if at and any(function.has(at[1], int(at[2])) for function in edit.functions):
            return line[:200]
    return ""


def refusal(complaint, what):
    """The verdict on an edit that is refused, where this is complained of first, if anything is, and this is said of its functions."""
    said = complaint or what[0]
    fault = next((fault for words, fault in FAULTS if re.search(words, said)), None)
    return Verdict(fault, said[:200], not complaint and not any(OWN_GOAL in it for it in what))


def verdict_on(edit, crate, ran, is_alone):
    """What a check that ended so says of an edit that was in it, of this crate, alone or with others."""
    if ran.status not in LOOKED:
        return Verdict(NOT_TRIED, f"the check ended with {ran.status}: {ran.last}")
    said = functions_said(ran.log)
    what = [what for path, what in said.items() if not edit.functions or any(is_of(path, crate, own) for own in edit.paths)]
    refused = [it for it in what if it not in PROVED]
    if refused:
        return refusal(next(iter(complaints(edit, ran.log, is_alone)), None), refused)
    if what:
        return Verdict(GOT_THROUGH, "it is still proved")
    errors = [line for line in ran.log.splitlines() if "error" in line]
    return Verdict(NOT_COMPILED, (errors or [ran.last])[0][:200])
