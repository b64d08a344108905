"""Programs to which the library of refusing.c is loaded: which requests for memory it refuses, and copies that go on from one place."""
import mmap
import os
import resource
import socket
import struct
import subprocess
from pathlib import Path

from running import SECONDS, Ended, bytes_of, stop, text

STACK = 1 << 26
SOURCE = Path(__file__).resolve().parent / "refusing.c"


def compiled(folder):
    """The library that refuses, made in a folder."""
    library = Path(folder) / "refusing.so"
    subprocess.run(["gcc", "-O2", "-shared", "-fPIC", "-o", library, SOURCE], check=True)
    return library


class Refuser:
    """The library as it is loaded into a program, and the page that is shared with it."""
    PAGE = struct.Struct("7l")

    def __init__(self, library):
        shared = Path(library).with_name(f"page-{os.getpid()}")
        shared.write_bytes(bytes(self.PAGE.size))
        with open(shared, "r+b") as file:
            self.page = mmap.mmap(file.fileno(), self.PAGE.size)
        self.environment = {**os.environ, "LD_PRELOAD": str(library), "REFUSING": str(shared)}

    def watch(self, start, end, first=0, is_on=False):
        """Of the requests for these bytes of the input the first is refused, and with `is_on` all behind it."""
        self.page[:] = self.PAGE.pack(start, end, first, is_on, 0, 0, 0)

    def told(self):
        """How many requests were made, how many were refused, and how many of these for room for a line."""
        return self.PAGE.unpack(self.page[:])[4:]


class Text:
    """A text in memory alone, which other programs open by its path."""

    def __init__(self, name):
        self.file = os.memfd_create(name)
        self.path = f"/proc/self/fd/{self.file}"

    def put(self, data):
        os.ftruncate(self.file, 0)
        os.pwrite(self.file, data, 0)

    def taken(self):
        return os.pread(self.file, os.fstat(self.file).st_size, 0)


def take_stack():
    """What programs are given for their stacks from now on. The thread of one that waits is its first, since a copy of a program
    has but one."""
    _, most = resource.getrlimit(resource.RLIMIT_STACK)
    resource.setrlimit(resource.RLIMIT_STACK, (STACK if most < 0 else min(STACK, most), most))


class Waiting:
    """A program that waits before a command of its session, and goes on from there in copies of itself, each with an input of its
    own. So what stands before the command is answered once."""
    ASKED, TOLD = struct.Struct("l"), struct.Struct("i")
    COPY = -1

    def __init__(self, words, refuser, commands):
        self.words, self.refuser, self.at, self.process = words, refuser, 0, None
        self.session, self.input, self.output, self.errors = map(Text, ("session", "input", "output", "errors"))
        self.session.put(bytes_of("".join(commands)))

    def __enter__(self):
        return self

    def __exit__(self, *_):
        self.end()
        for it in (self.session, self.input, self.output, self.errors):
            os.close(it.file)

    def begin(self):
        """Starts the program, and waits until it waits before the command."""
        self.asker, its = socket.socketpair(socket.AF_UNIX, socket.SOCK_SEQPACKET)
        self.asker.settimeout(SECONDS)
        paths = {"REFUSING_INPUT": self.input.path, "REFUSING_OUTPUT": self.output.path, "REFUSING_ERRORS": self.errors.path}
        self.refuser.watch(0, 0)
        take_stack()
        with its, open(self.session.path, "rb") as session:
            self.process = subprocess.Popen(
                self.words, stdin=session, stdout=subprocess.DEVNULL, stderr=subprocess.DEVNULL, start_new_session=True,
                env={**self.refuser.environment, **paths, "REFUSING_ASKER": str(its.fileno())},
                pass_fds=[its.fileno(), self.input.file, self.output.file, self.errors.file])
        self.told()
        if self.at:
            self.ask(self.at)

    def end(self):
        if self.process:
            stop(self.process)
            self.asker.close()
            self.process = None

    def told(self):
        """How a copy ended, or 0 where the program waits; None where it did neither in time."""
        try:
            told = self.asker.recv(self.TOLD.size)
        except TimeoutError:
            return None
        return self.TOLD.unpack(told)[0] if told else None

    def ask(self, what):
        """The same behind what was asked. A program that does not tell it is ended, and begins anew when it is needed."""
        self.asker.send(self.ASKED.pack(what))
        told = self.told()
        if told is None:
            self.end()
        return told

    def go_to(self, place):
        """Answers the session up to so many bytes, and waits there."""
        self.at = place
        if self.process:
            self.refuser.watch(0, 0)
            self.ask(place)

    def run(self, given, watched, refused=0, is_on=False):
        """How a copy ends that is given this, for whose first bytes a request is refused."""
        if not self.process:
            self.begin()
        self.input.put(bytes_of(given))
        self.output.put(b"")
        self.errors.put(b"")
        self.refuser.watch(0, watched, refused, is_on)
        told = self.ask(self.COPY) if self.process else None
        status = None if told is None else os.waitstatus_to_exitcode(told)
        return Ended(status, text(self.output.taken()), text(self.errors.taken()))
