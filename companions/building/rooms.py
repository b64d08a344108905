"""A room for each crate that is proved: a folder with its files, those of the crates below it, and their libraries.

While `rt` proves a crate, it keeps every other `rt` out of the folders of that crate and of those below it. So crates are
proved side by side only where each has folders of its own.
"""
import contextlib
import hashlib
import os
import shutil
import stat
import tempfile
from dataclasses import dataclass
from pathlib import Path

from .builds import text_of, write_whole
from .crates import Fault, folder_of
from .sums import CODE_AND_PROOFS, sums_of

# What `rt lib` leaves in out/ that is used again: the library, and what a later check begins with.
LEFT = ("rlib", "incremental")


def caches():
    """The folders below which the rooms may stand, and what theirs is called there."""
    # Who has no home has no folder for what is kept there.
    with contextlib.suppress(RuntimeError):
        yield Path(os.environ.get("XDG_CACHE_HOME") or Path.home() / ".cache"), "evats-proving"
    yield Path(tempfile.gettempdir()), f"evats-proving-{os.getuid()}"


def place_of_rooms(root):
    """Where the rooms of a repository stand: outside it, where no check of the whole finds them; if it may be on the same disk,
    so that libraries need no copies."""
    # `rt` tells paths without links.
    places = [Path(os.path.realpath(folder)) / name for folder, name in caches()]
    place = next((it for it in places if disk_of(it) == disk_of(root)), places[0])
    place.parent.mkdir(parents=True, exist_ok=True)
    with contextlib.suppress(FileExistsError):
        place.mkdir(mode=0o700)
    check_own(place)
    return place / hashlib.sha256(os.fsencode(root)).hexdigest()[:16]


def check_own(place):
    """Refuses a place at which somebody else could put libraries that count as proved."""
    found = os.lstat(place)
    why = (
        "is no folder" if not stat.S_ISDIR(found.st_mode)
        else "belongs to somebody else" if found.st_uid != os.getuid()
        else "can be written by others" if found.st_mode & (stat.S_IWGRP | stat.S_IWOTH)
        else None
    )
    if why:
        raise Fault(f"{place} {why}: move it away, or set XDG_CACHE_HOME to a folder of your own")


def disk_of(path):
    """The disk that a path is on, or will be."""
    return next(above for above in [path, *path.parents] if above.exists()).stat().st_dev


def remove(folder):
    shutil.rmtree(folder, ignore_errors=True)


def link_or_copy(source, target):
    """Gives a file of a library a second name; `rt` never writes into such a file, but makes it anew."""
    try:
        os.link(source, target)
    except OSError:
        shutil.copy2(source, target)


def move(source, target):
    """Moves a folder in place of another one, if it is there."""
    if source.is_dir():
        remove(target)
        target.parent.mkdir(parents=True, exist_ok=True)
        shutil.move(source, target)


@dataclass(frozen=True)
class Room:
    """The room of a crate, with the crates that stand there, lowest first and last the crate itself."""

    root: Path
    folder: Path
    crates: tuple

    @property
    def name(self):
        return self.crates[-1].name

    @property
    def crate_folder(self):
        return folder_of(self.folder, self.name)

    def furnish(self):
        """Makes the room, with what earlier checks of the crate left, also one that was interrupted in the room."""
        kept = self.folder.with_name(f"{self.name}.kept")
        for out in (folder_of(self.root, self.name) / "out", self.crate_folder / "out"):
            move(out / "incremental", kept)
        remove(self.folder)
        for crate in self.crates:
            self.bring(crate.name)
        move(kept, self.crate_folder / "out" / "incremental")
        lines = "".join(f"{crate.line}\n" for crate in self.crates)
        (self.folder / "crates.txt").write_text(lines, encoding="utf-8")

    def bring(self, name):
        """Brings the files of a crate, and its library where it has one."""
        source, target = folder_of(self.root, name), folder_of(self.folder, name)
        for part in CODE_AND_PROOFS:
            if (source / part).is_dir():
                shutil.copytree(source / part, target / part)
        if (source / "out" / "rlib").is_dir():
            shutil.copytree(source / "out" / "rlib", target / "out" / "rlib", copy_function=link_or_copy)

    def hand_over(self, wanted):
        """Gives the crate's folder what was made here, and notes that it is proved where the room had the wanted sources."""
        out = folder_of(self.root, self.name) / "out"
        forget(out)
        for part in LEFT:
            move(self.crate_folder / "out" / part, out / part)
        if sums_of(self.folder, self.crates, CODE_AND_PROOFS)[self.name] == wanted:
            write_whole(note_in(out), noted(out, wanted))
        remove(self.folder)


def note_in(out):
    return out / "proved"


def noted(out, wanted):
    """What the note of a proved crate says: the sum of its sources, and what `rt` wrote beside the library."""
    return f"{wanted}\n{text_of(out / 'rlib' / 'stamp')}\n"


def forget(out):
    with contextlib.suppress(FileNotFoundError):
        note_in(out).unlink()


def is_proved(root, name, wanted):
    """Whether a crate was proved with these sources, and its library stands."""
    out = folder_of(root, name) / "out"
    return (out / "rlib" / "stamp").is_file() and text_of(note_in(out)) == noted(out, wanted)
