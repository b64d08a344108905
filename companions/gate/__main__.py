"""Tells once a minute, on standard error, what the `rt ci` is at whose output goes into a file.

usage: companions/start.py gate LOG      beside that `rt ci`, from the same shell; it ends with it
"""
import os
import re
import sys
import time
from pathlib import Path

from building.crates import read_crates

from .processes import KINDS, processes, work_below

EVERY = 60
PROVED = re.compile(r"^(?:rt: )?(\w+) (?:proved$|is kept: )", re.MULTILINE)
NAMES = dict(zip(KINDS, ("", " (tests)", " (wrong bodies)")))


def proved_in(log):
    """How many crates the output of `rt ci` says are proved, now or by an earlier run."""
    return len(set(PROVED.findall(log)))


def told(proved, crates, work):
    """What a run is at, in a line."""
    at_work = " ".join(f"{crate}{NAMES[kind]}" for crate, kind in sorted(work))
    return f"gate: {proved} of {crates} crates proved; at work: {at_work or 'nothing that is proved'}"


def watch(log, shell, say, every=EVERY):
    """Says what the processes of a shell are at, until that shell has ended."""
    crates = len(read_crates(Path()))
    while os.getppid() == shell:
        time.sleep(every)
        work = set(work_below(str(shell), processes()).values())
        if work:
            say(told(proved_in(log.read_text(errors="replace")), crates, work))


def main(words):
    if len(words) != 1:
        raise SystemExit("usage: companions/start.py gate LOG")
    watch(Path(words[0]), os.getppid(), lambda line: print(line, file=sys.stderr, flush=True))


if __name__ == "__main__":
    main(sys.argv[1:])
