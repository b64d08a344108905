"""Keeps which program was chosen, with how all stood that the choice depends on: `./run` takes it again as long as that is so."""
import contextlib
import hashlib
import subprocess
import time
from pathlib import Path

from .builds import write_whole
from .kit import KIT
from .programs import choice

LISTING = Path(__file__).with_name("listing")
# How long ago a change must be, in seconds, so that another one behind it has another time; some file systems count whole seconds.
FINE, COARSE = 0.1, 2
# How often it is looked again where something changed meanwhile: as when the program was built.
TIMES = 2


def path_of(root):
    """Where the choice stands in four lines: the program, what is told of it, the process that makes a better one, and the sum of the
    listing as `sha256sum` tells it."""
    return root / "out" / "chosen"


def listing(root):
    """How all stands that the choice depends on."""
    return subprocess.run([LISTING, root, KIT], capture_output=True, check=False).stdout


def is_calm(listed, now):
    """Whether a change from now on will be seen in the next listing."""
    try:
        changes = [float(line.split(b" ", 3)[2]) for line in listed.splitlines()]
    except (IndexError, ValueError):
        return False
    return all(change < now - (COARSE if change.is_integer() else FINE) for change in changes)


def keep(root, chosen, listed):
    program, total = chosen.program.relative_to(root), hashlib.sha256(listed).hexdigest()
    # Who may not write here chooses anew each time.
    with contextlib.suppress(OSError):
        path_of(root).parent.mkdir(exist_ok=True)
        write_whole(path_of(root), f"{program}\n{chosen.line}\n{chosen.behind or ''}\n{total}  -\n")


def chosen_program(root):
    """The program to run, which is kept for the next time."""
    for _ in range(TIMES):
        begun, before = time.time(), listing(root)
        chosen = choice(root)
        if before == listing(root):
            # A process whose number is not known yet cannot be looked after.
            if is_calm(before, begun) and chosen.behind != 0:
                keep(root, chosen, before)
            break
        time.sleep(FINE)
    return chosen
