"""Which files commands may name, and how these are read and written.

Whoever types may name any file. A file of commands may be a stranger's: what it names stands in its own folder, or is left alone.
"""
import contextlib
import os
import stat
from dataclasses import dataclass
from pathlib import Path

MOST_MEBIBYTES = 64
# How many files may be loaded out of one another.
MOST_NESTED = 16


class FileFault(Exception):
    """Why a file is neither read nor written, in words."""


def fault_of(act, word, fault):
    """What is said of a file that the system does not give."""
    return FileFault(f"cannot {act} {word}: {fault.strerror or fault}" if isinstance(fault, OSError) else f"{word} names no file")


def bytes_of(stream, word):
    """What a stream has, if that is not too much."""
    data = stream.read((MOST_MEBIBYTES << 20) + 1)
    if len(data) > MOST_MEBIBYTES << 20:
        raise FileFault(f"cannot read {word}: it has more than {MOST_MEBIBYTES} MiB")
    return data


def opened(act, path, word, flags):
    """A plain file. Another one, as a pipe or a device, may have no end, or never begin."""
    try:
        number = os.open(path, flags | os.O_NONBLOCK | os.O_CLOEXEC, 0o666)
    except (OSError, ValueError) as fault:
        raise fault_of(act, word, fault) from fault
    if not stat.S_ISREG(os.fstat(number).st_mode):
        os.close(number)
        raise FileFault(f"cannot {act} {word}: it is no plain file")
    return number


def bytes_in(path, word):
    """What a plain file has."""
    try:
        with open(opened("read", path, word, os.O_RDONLY), "rb") as file:
            return bytes_of(file, word)
    except OSError as fault:
        raise fault_of("read", word, fault) from fault


def write(path, word, data, is_over=False):
    """Makes a file of these bytes, or writes over one where that is agreed on. A new one that cannot be written whole goes."""
    number = opened("write", path, word, os.O_WRONLY | (0 if is_over else os.O_CREAT | os.O_EXCL))
    try:
        with open(number, "wb") as file:
            file.truncate()
            file.write(data)
    except OSError as fault:
        if not is_over:
            with contextlib.suppress(OSError):
                os.unlink(path)
        raise fault_of("write", word, fault) from fault


def real(path):
    """A path without symlinks."""
    return Path(os.path.realpath(path))


@dataclass(frozen=True)
class Reach:
    """Which files may be named: those in `bounds`, none where there is nothing of it; a name that begins at no root is looked for
    from `start` on. `loading` are the files that are being loaded, the innermost last."""

    bounds: Path | None
    start: Path = Path()
    loading: tuple = ()

    def path_of(self, word):
        """Where a file stands, with all symlinks followed, if it may be named."""
        try:
            path = real(self.start / Path(word).expanduser())
        except (OSError, RuntimeError, ValueError) as fault:
            raise FileFault(f"{word} names no file: {fault}") from fault
        if self.bounds is None:
            raise FileFault(f"{word} is left alone: commands that were sent to the workbench name no files")
        if not path.is_relative_to(self.bounds):
            raise FileFault(f"{word} is left alone: it is outside of {self.bounds}, the folder of the file that names it")
        return path

    def to_write(self, word):
        """Where a file stands that is to be written, and whether it is there. Hidden files settle how a machine works: a file
        that is loaded makes none."""
        path = self.path_of(word)
        if self.loading and any(part.startswith(".") for part in path.relative_to(self.bounds).parts):
            raise FileFault(f"{word} is left alone: a loaded file writes nothing that is hidden")
        try:
            is_plain = stat.S_ISREG(path.stat().st_mode)
        except FileNotFoundError:
            return path, False
        except OSError as fault:
            raise fault_of("write", word, fault) from fault
        if not is_plain:
            raise FileFault(f"cannot write {word}: it is no plain file")
        return path, True

    def text_of(self, word):
        """What a file has, in which bytes that are no text stand for themselves."""
        return bytes_in(self.path_of(word), word).decode(errors="surrogateescape")

    def load(self, word):
        """The commands of a file, as bytes, and the reach that they have."""
        path = self.path_of(word)
        if path in self.loading:
            raise FileFault(f"{word} is being loaded already")
        if len(self.loading) == MOST_NESTED:
            raise FileFault(f"{word} is left alone: {MOST_NESTED} files are being loaded, each out of the one before")
        return bytes_in(path, word), Reach(path.parent, path.parent, (*self.loading, path))


ANYWHERE, NOWHERE = Reach(Path("/")), Reach(None)
