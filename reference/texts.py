"""The sessions and tables of tests/, which the companion of that name reads, and the commands of sessions."""
import importlib
import importlib.util
import sys
from pathlib import Path

from commands import script_lines
from running import bytes_of, text_of

TOP = Path(__file__).resolve().parents[1]
COMPANION = TOP / "companions" / "sessions"
# What the companion takes from others. Behind this folder, which has a module of the name of one of them.
sys.path.append(str(COMPANION.parent))


def companion(part):
    """A part of the companion. It has the name of a file of this folder, and so is given another one here."""
    name = "companion_sessions"
    if name not in sys.modules:
        places = {"submodule_search_locations": [str(COMPANION)]}
        spec = importlib.util.spec_from_file_location(name, COMPANION / "__init__.py", **places)
        sys.modules[name] = importlib.util.module_from_spec(spec)
        spec.loader.exec_module(sys.modules[name])
    return importlib.import_module(f"{name}.{part}")


Broken = companion("cases").Broken
# The cases that names mean: sessions, rows of tables, what documents show.
cases_of = companion("finding").cases_of


def sessions_below(folder):
    """The names of the sessions that stand in a folder of the repository."""
    return sorted(str(path.relative_to(TOP)) for path in (TOP / folder).rglob("*.evats"))


def commands_of(data):
    """The commands of a session, each with the lines that it takes; not one at its end that lacks some of them."""
    lines, found = [f"{it}\n" for it in text_of(data).removesuffix("\n").split("\n")] if data else [], []
    while lines:
        count = 1 + script_lines(bytes_of(lines[0])[:-1])
        if count <= len(lines):
            found.append("".join(lines[:count]))
        del lines[:count]
    return found
