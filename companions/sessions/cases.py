"""Cases: runs of the program with what is wanted of them, and the sessions that stand in files."""
import re
from dataclasses import dataclass
from pathlib import Path

REFUSAL = re.compile(rb"^no ", re.MULTILINE)


@dataclass(frozen=True)
class Case:
    """Commands that are given to the program, and what is wanted of it."""

    name: str
    commands: bytes
    replies: bytes
    arguments: tuple = ()
    status: int = 0
    errors: bytes = b""


@dataclass(frozen=True)
class Broken:
    """What cannot be run as a case, and why."""

    name: str
    why: str


def status_of(replies):
    """The status with which the program ends where it is stopped by nothing: 1 where a reply is a refusal."""
    return 1 if REFUSAL.search(replies) else 0


def case_of(name, commands, replies, arguments=()):
    """A case whose texts are given as lines."""
    lines = ["".join(f"{line}\n" for line in text).encode() for text in (commands, replies)]
    return Case(name, *lines, tuple(arguments), status_of(lines[1]))


def arguments_beside(path):
    """The words of NAME.args beside a file, one a line."""
    beside = path.with_suffix(".args")
    return tuple(beside.read_text().splitlines()) if beside.exists() else ()


@dataclass(frozen=True)
class Session:
    """A session in a file NAME.evats, with what stands beside it."""

    path: Path

    def beside(self, ending):
        return self.path.with_suffix(ending)

    def case(self, name):
        """The case that the files say."""
        replies = self.beside(".replies").read_bytes()
        status, errors = self.beside(".status"), self.beside(".errors")
        return Case(
            name,
            self.path.read_bytes(),
            replies,
            arguments_beside(self.path),
            int(status.read_text()) if status.exists() else status_of(replies),
            errors.read_bytes() if errors.exists() else b"",
        )

    def accept(self, run):
        """Writes what the program does as what is wanted, if it ends by itself, and gives the files that were changed."""
        ran = run(arguments_beside(self.path), self.path.read_bytes())
        if not ran.ended:
            return []
        status = b"" if ran.status == status_of(ran.replies) else f"{ran.status}\n".encode()
        wanted = {".replies": ran.replies, ".status": status, ".errors": ran.errors}
        return [self.beside(ending) for ending, text in wanted.items() if put(self.beside(ending), text, ending)]


def put(path, text, ending):
    """Writes a file where it says something else, removes it where nothing is to be said, and tells whether it did."""
    keeps = bool(text) or ending == ".replies"
    if (path.read_bytes() if path.exists() else None) == (text if keeps else None):
        return False
    if keeps:
        path.write_bytes(text)
    else:
        path.unlink()
    return True
