"""Speaks with the program: it is given a command, and waited for, before the next."""
import contextlib
import itertools
import os
import re
import select
import signal
import subprocess
import tempfile
import time

# How long the program has to end where it is given nothing more.
SECONDS = 60
GREATEST_EVENT = 4_294_967_295
NUMBER = re.compile("0*([0-9]+)")
# How much of a reply is kept from its beginning, and how much at least from its end.
MOST_KEPT, LAST_KEPT = 128 << 20, 1 << 20
# How much of what the program says on standard error is told.
MOST_TOLD = 10_000


class Stopped(Exception):
    """The wait for a reply ended before it was whole; the program is still at it."""


class TooMuch(Exception):
    """A reply is longer than it can be looked at."""


class Ended(Exception):
    """The program has ended, or was not there: how that was."""


def how_it_ended(status, errors):
    """How a program ended, in words, with what it said of it on standard error."""
    told = f"signal {-status} ended it ({signal.strsignal(-status)})" if status < 0 else f"it ended with {status}"
    return f"{told}: {errors}" if errors else told


def help_of(program, seconds=SECONDS):
    """What the program says for `--help`."""
    try:
        return subprocess.run([program, "--help"], capture_output=True, text=True, timeout=seconds, check=False).stdout
    except (OSError, subprocess.TimeoutExpired):
        return ""


def lines_in(heard):
    return tuple(heard.decode(errors="replace").split("\n")[:-1])


class Program:
    """The program, in a process group of its own.

    Behind each command it is given another one, the mark, which asks for an event that is not there: the refusal of the mark
    tells that the reply to the command is whole, whatever that reply is.
    """

    def __init__(self, words):
        self.words, self.heard, self.mark = list(words), bytearray(), None
        # How many bytes of the reply were left out, which was too long.
        self.left_out = 0
        self.errors = tempfile.TemporaryFile()
        pipes = {"stdin": subprocess.PIPE, "stdout": subprocess.PIPE, "stderr": self.errors}
        try:
            self.process = subprocess.Popen(self.words, bufsize=0, start_new_session=True, **pipes)
        except OSError as fault:
            self.errors.close()
            raise Ended(f"cannot run {words[0]}: {fault.strerror}; ./run builds the program") from fault

    def __enter__(self):
        return self

    def __exit__(self, *_):
        self.stop()

    @property
    def is_busy(self):
        """Whether the program was given a command whose reply has not been heard whole."""
        return self.mark is not None

    def reply(self, lines, stopper=None, seconds=None):
        """Gives a command, with the lines of its script, and hears the lines of its reply."""
        self.give(lines)
        return self.hear(stopper, seconds)

    def give(self, lines):
        """Gives a command, and behind it the mark."""
        data = "".join(f"{line}\n" for line in lines).encode(errors="surrogateescape")
        # A refusal names an event of the command's line at most.
        named = set(NUMBER.findall(lines[0]))
        event = next(each for each in itertools.count(GREATEST_EVENT, -1) if str(each) not in named)
        self.left_out = 0
        self.mark = f"no B12 NoEvent e{event}\n".encode()
        data += f"cone e{event}\n".encode()
        # How a program ended that reads no more is told where its reply is missing.
        with contextlib.suppress(BrokenPipeError):
            while data:
                data = data[os.write(self.process.stdin.fileno(), data):]

    def hear(self, stopper=None, seconds=None):
        """The lines of the reply to the command that was given last.

        The wait ends where the file `stopper` can be read, or behind so many seconds; `hear` goes on with it later.
        """
        limit = None if seconds is None else time.monotonic() + seconds
        files = [self.process.stdout, *([] if stopper is None else [stopper])]
        while not self.is_whole():
            left = None if limit is None else max(0, limit - time.monotonic())
            ready = select.select(files, [], [], left)[0]
            if not ready or stopper in ready:
                raise Stopped(f"there was no reply within {seconds} seconds" if not ready else "the wait was ended")
            piece = os.read(self.process.stdout.fileno(), 1 << 16)
            if not piece:
                self.mark = None
                raise Ended(self.end())
            self.heard += piece
            self.leave_out()
        del self.heard[-len(self.mark):]
        heard, self.heard, self.mark = self.heard, bytearray(), None
        try:
            return lines_in(heard)
        except MemoryError:
            last = heard[heard.rfind(b"\n", 0, -1) + 1:]
            self.left_out += len(heard) - len(last)
            return lines_in(last)

    def leave_out(self):
        """Leaves out the midst of a reply that is too long."""
        surplus = len(self.heard) - MOST_KEPT - LAST_KEPT
        if surplus >= LAST_KEPT:
            del self.heard[MOST_KEPT:-LAST_KEPT]
            self.left_out += surplus

    def is_whole(self):
        return self.heard == self.mark or self.heard.endswith(b"\n" + self.mark)

    def end(self):
        """Gives nothing more, and tells how the program ends; it is stopped where it does not."""
        for stream in (self.process.stdin, self.process.stdout):
            stream.close()
        try:
            self.process.wait(SECONDS)
        except subprocess.TimeoutExpired:
            self.stop()
        if self.errors.closed:
            return how_it_ended(self.process.returncode, "")
        self.errors.seek(0)
        told = how_it_ended(self.process.returncode, self.errors.read(MOST_TOLD).decode(errors="replace").strip())
        self.errors.close()
        return told

    def stop(self):
        """Ends the program at once, with all that it started."""
        if self.process.poll() is None:
            with contextlib.suppress(ProcessLookupError):
                os.killpg(self.process.pid, signal.SIGKILL)
            self.process.wait()
        for stream in (self.process.stdin, self.process.stdout, self.errors):
            stream.close()
