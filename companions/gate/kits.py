"""What the command `rt` of the kit on this machine can do, as its help tells: older kits can do less."""
import re
import subprocess
from dataclasses import dataclass

from building.proving import rt

# An entry of the help: the line that names the command, and those below it that are set in.
ENTRY = re.compile(r"^  rt ci\b.*\n(?:   .*\n)*", re.MULTILINE)


@dataclass(frozen=True)
class Kit:
    """A kit: what it is called, and whether its `rt ci` takes names of crates, and keeps what passed for the next run."""

    name: str
    takes_names: bool
    keeps: bool


def kit_of(name, told):
    """The kit of this name, whose help tells this."""
    entries = ENTRY.findall(f"{told}\n")
    return Kit(name, any(re.match(r"  rt ci \[?NAME", it) for it in entries), any("--anew" in it for it in entries))


def said(*words):
    """What a command of `rt` says."""
    how = {"stdin": subprocess.DEVNULL, "stdout": subprocess.PIPE, "stderr": subprocess.STDOUT, "errors": "replace"}
    return subprocess.run([rt(), *words], check=False, **how).stdout


def this_kit():
    """The kit whose `rt` is on the PATH."""
    return kit_of(said("version").strip(), said("help"))
