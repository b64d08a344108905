"""Where the companions stand: in the repository, or where `./install` put them, with the program near by."""
import json
from dataclasses import dataclass
from pathlib import Path, PurePosixPath

from .crates import PROGRAM, ROOT, Fault
from .sums import sum_of_file

# What was installed and how, in the folder that stands for the repository there.
NOTE = "installed.json"
IS_INSTALLED = (ROOT / NOTE).is_file()
# How the program is run on a file.
RUN = PROGRAM if IS_INSTALLED else "./run"
# What a companion takes where no program is named.
USUAL = "the installed one" if IS_INSTALLED else "the proved one, else one without proofs"


@dataclass(frozen=True)
class Installed:
    """A program that was installed."""

    program: Path
    is_proved: bool


def is_below(path):
    """Whether this is the path of something below a folder, as it is noted."""
    return isinstance(path, str) and not path.startswith("/") and ".." not in PurePosixPath(path).parts


def is_above(path):
    """Whether this is the path of a folder in which a folder is, as it is noted."""
    return isinstance(path, str) and set(PurePosixPath(path).parts) == {".."}


def is_note(note):
    """Whether this tells what was installed: files and folders below PREFIX, the folders in which it is, and what is proved."""
    if not (isinstance(note, dict) and isinstance(note.get("files"), dict) and isinstance(note.get("folders"), list)):
        return False
    return (
        isinstance(note.get("is_proved"), bool)
        and all(map(is_below, note["files"]))
        and all(is_below(path) or is_above(path) for path in note["folders"])
    )


def read_note(path):
    """What the note at a path tells was installed; None where there is none."""
    try:
        if path.exists() and not path.is_file():
            raise Fault(f"{path} is no plain file, so it does not tell what was installed")
        note = json.loads(path.read_text(encoding="utf-8"))
    except (FileNotFoundError, NotADirectoryError):
        return None
    except OSError as fault:
        raise Fault(f"cannot read {path}: {fault.strerror}") from fault
    except (ValueError, RecursionError):
        note = None
    if not is_note(note):
        raise Fault(f"{path} is not as ./install wrote it, so it does not tell what was installed: remove that by hand")
    return note


def installed(root=ROOT):
    """The program that was installed with what stands here; none in the repository. One that was changed since is not taken for
    proved."""
    note = read_note(root / NOTE)
    if note is None:
        return None
    program = root.parents[1] / "bin" / PROGRAM
    return Installed(program, note["is_proved"] and sum_of_file(program) == note["files"].get(f"bin/{PROGRAM}"))


def command(name):
    """What the command of a companion is called."""
    return f"{PROGRAM}-{name}" if IS_INSTALLED else name
