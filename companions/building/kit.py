"""Where the kit of Rattle is, and what it has."""
import os
import re
from pathlib import Path

from .crates import Fault

KIT = Path(os.environ.get("EVATS_KIT") or "/opt/rattle").absolute()


def is_there():
    """Whether there is a kit at all."""
    return (KIT / "KIT-ID").is_file()


def uses_of(library):
    """The libraries of the kit that one of them uses."""
    path = KIT / "rlibs" / f"{library}.rlib" / "format"
    if not path.is_file():
        raise Fault(f"{library} is no crate of crates.txt and no library of the kit at {KIT}")
    return re.findall(r"^dep (\w+)$", path.read_text(encoding="utf-8"), re.M)


def with_those_below(libraries):
    """These libraries of the kit and all that they use, each with what it uses."""
    found, waiting = {}, list(libraries)
    for library in waiting:
        if library not in found:
            found[library] = uses_of(library)
            waiting += found[library]
    return found
