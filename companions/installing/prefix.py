"""Puts files below a folder, notes which, and takes just these away again."""
import contextlib
import hashlib
import json
import os
from dataclasses import dataclass
from pathlib import Path

from building.crates import Fault
from building.place import NOTE, read_note
from building.sums import sum_of_file

from .contents import LIBRARY, File


@dataclass(frozen=True)
class Prefix:
    """Where it is installed, as what is installed says it, and where that is written: below DESTDIR, if that is given."""

    path: Path
    written: Path

    @classmethod
    def of(cls, word):
        try:
            path = Path(os.path.abspath(Path(word).expanduser()))
        except RuntimeError as fault:
            raise Fault(f"{word} is no folder: there is no such user, or none who has a home") from fault
        below = os.environ.get("DESTDIR")
        return cls(path, Path(os.path.abspath(below) + str(path)) if below else path)

    @property
    def note(self):
        return self.written / LIBRARY / NOTE

    def read(self):
        """What was installed here, or None."""
        return read_note(self.note)


@contextlib.contextmanager
def writing():
    """Tells of what cannot be written."""
    try:
        yield
    except OSError as fault:
        raise Fault(f"cannot write {fault.filename}: {fault.strerror}") from fault


def make_folder(folder):
    """Makes a folder with those above it, and gives each that it made."""
    missing = [each for each in (folder, *folder.parents) if not os.path.lexists(each)]
    for each in reversed(missing):
        each.mkdir()
        yield each


def make_file(path, file):
    """Makes a file that was not there, whole or not at all. Who may read and run it is as the person has it for new files."""
    opener = lambda path, flags: os.open(path, flags, 0o777 if file.can_run else 0o666)
    with open(path, "xb", buffering=0, opener=opener) as out:
        try:
            left = memoryview(file.data)
            while left:
                left = left[out.write(left) :]
        except BaseException as fault:
            path.unlink()
            if isinstance(fault, OSError):
                raise OSError(fault.errno, fault.strerror, str(path)) from fault
            raise


def strangers(prefix, files):
    """Paths at which something else stands than what was installed here."""
    known = (prefix.read() or {"files": {}})["files"]
    there = [path for path in files if os.path.lexists(prefix.written / path)]
    return [path for path in there if path not in known or sum_of_file(prefix.written / path) != known[path]]


def put(prefix, files, facts):
    """Puts files below a folder, in place of those that were installed there. All of them come, or none stays."""
    strange = strangers(prefix, files)
    if strange:
        raise Fault(f"{prefix.written / strange[0]} is there, and not as ./install put it: move it away first")
    if prefix.read():
        take_away(prefix)
    note = {**facts, "folders": [], "files": {path: hashlib.sha256(file.data).hexdigest() for path, file in files.items()}}
    try:
        with writing():
            for path in sorted({prefix.note.parent, *((prefix.written / path).parent for path in files)}):
                for folder in make_folder(path):
                    note["folders"].append(os.path.relpath(folder, prefix.written))
            make_file(prefix.note, File(json.dumps(note, indent=1).encode()))
            for path, file in files.items():
                make_file(prefix.written / path, file)
    except BaseException:
        remove(prefix, note)
        raise


def remove(prefix, note):
    """Removes what a note names, if it is as it was put, with the note and the folders that hold nothing else. Gives the files
    that were changed, which stay."""
    changed = []
    for path, wanted in note["files"].items():
        found = sum_of_file(prefix.written / path)
        if found == wanted:
            (prefix.written / path).unlink()
        elif found:
            changed.append(path)
    if os.path.lexists(prefix.note):
        prefix.note.unlink()
    # A folder was noted behind the one that it is in.
    for folder in reversed(note["folders"]):
        with contextlib.suppress(OSError):
            os.rmdir(os.path.normpath(prefix.written / folder))
    return changed


def take_away(prefix):
    """Takes away what was installed here, and gives the files that stay since they were changed."""
    note = prefix.read()
    if not note:
        raise Fault(f"nothing was installed in {prefix.written} by ./install")
    with writing():
        return remove(prefix, note)
