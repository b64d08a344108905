"""The lines that were typed, kept for the next time; the talk and the workbench have them in one file.

It is read by whoever typed them alone. A file or a folder of somebody else's is left as it is, also where a symlink leads there.
"""
import contextlib
import os
import stat
from pathlib import Path

MOST_LINES, MOST_BYTES = 2_000, 1 << 20
OWN = stat.S_IRWXU
READ_AND_WRITE = stat.S_IRUSR | stat.S_IWUSR


class NotKept(Exception):
    """Why the lines that are typed are not kept."""


def history_file():
    """Where the lines are kept that were typed."""
    try:
        folder = Path(os.environ.get("XDG_STATE_HOME") or "~/.local/state").expanduser()
    except RuntimeError as fault:
        raise NotKept("there is no home folder") from fault
    return folder / "evats" / "history"


def check(path, found, is_kind):
    """Sees that what was found at a path is of its kind, and of whoever runs this."""
    if not is_kind(found.st_mode) or found.st_uid != os.geteuid():
        raise NotKept(f"{path} is somebody else's, or of another kind")


def is_own_link(path):
    return path.is_symlink() and path.lstat().st_uid == os.geteuid()


def make_folder(path):
    """Makes the folder, or closes one that is there to others."""
    path.mkdir(mode=OWN, parents=True, exist_ok=True)
    check(path, path.stat() if is_own_link(path) else path.lstat(), stat.S_ISDIR)
    path.chmod(OWN)


@contextlib.contextmanager
def opened():
    """The file of the lines, which is made where it is not there; it, and its folder, are closed to others."""
    path = history_file()
    try:
        make_folder(path.parent)
        flags = os.O_RDWR | os.O_APPEND | os.O_CREAT | os.O_NONBLOCK | os.O_CLOEXEC
        flags |= 0 if is_own_link(path) else os.O_NOFOLLOW
        with open(os.open(path, flags, READ_AND_WRITE), "rb+", buffering=0) as file:
            check(path, os.fstat(file.fileno()), stat.S_ISREG)
            os.fchmod(file.fileno(), READ_AND_WRITE)
            yield file
    except (OSError, ValueError) as fault:
        raise NotKept(f"{path}: {getattr(fault, 'strerror', None) or fault}") from fault


def last_lines(file):
    """The lines that a file ends with, the oldest first."""
    begin = max(0, os.fstat(file.fileno()).st_size - MOST_BYTES)
    text = os.pread(file.fileno(), MOST_BYTES, begin).decode(errors="replace")
    lines = text.split("\n")[bool(begin):]
    return [line for line in lines if line.strip()][-MOST_LINES:]


def kept_lines():
    """The lines that were kept, the oldest first; a file that became too long is cut to them."""
    with opened() as file:
        lines = last_lines(file)
        if os.fstat(file.fileno()).st_size > MOST_BYTES:
            file.truncate(0)
            file.write("".join(f"{line}\n" for line in lines).encode(errors="replace"))
        return lines


def keep(text):
    """Keeps the lines of what was typed."""
    lines = [line for line in text.split("\n") if line.strip()]
    with opened() as file:
        file.write("".join(f"{line}\n" for line in lines).encode(errors="replace"))
