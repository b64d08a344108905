"""Runs of the built program and of the plain interpreter on the same input, which comes in pieces, each read by itself."""
import contextlib
import multiprocessing
import os
import select
import subprocess
import tempfile
import time

from answering import run
from running import SECONDS
from texts import companion

Ran = companion("running").Ran
# What is written into such a pipe at once is read by itself, up to so many bytes.
WIDEST = 4_096
# This process has fewer files open.
MOST_FILES = 1 << 10
# How much longer than the program the interpreter may take.
SLOWER = 5


class Built:
    """The built program."""

    seconds = SECONDS

    def __init__(self, program):
        self.program = program

    def start(self, words, stdin, stdout, stderr):
        self.process = subprocess.Popen([self.program, *words], stdin=stdin, stdout=stdout, stderr=stderr)

    def status(self, seconds):
        """How it ended; nothing where it did not in so many seconds, and so was stopped."""
        try:
            return self.process.wait(seconds)
        except subprocess.TimeoutExpired:
            self.process.kill()
            self.process.wait()
            return None


class Plain:
    """The plain interpreter, in a copy of this process, since Python takes longer to start than most sessions."""

    seconds = SLOWER * SECONDS

    def start(self, words, *streams):
        self.process = multiprocessing.get_context("fork").Process(target=self.become, args=(words, *streams))
        self.process.start()

    @staticmethod
    def become(words, *streams):
        for number, stream in enumerate(streams):
            os.dup2(stream.fileno(), number)
        # The other end of its input is among what it has from this process.
        os.closerange(len(streams), MOST_FILES)
        os._exit(run(words))

    def status(self, seconds):
        """As of the program."""
        self.process.join(seconds)
        if self.process.exitcode is None:
            self.process.kill()
            self.process.join()
            return None
        return self.process.exitcode


def feed(pipe, pieces, end):
    """Gives pieces one after another, as long as they are taken and there is time."""
    with contextlib.suppress(BrokenPipeError):
        for piece in pieces:
            if not select.select([], [pipe], [], max(0, end - time.monotonic()))[1]:
                return
            os.write(pipe, piece)


def ran(one, words, pieces):
    """What one of both does with an input."""
    end = time.monotonic() + one.seconds
    with tempfile.TemporaryFile() as replies, tempfile.TemporaryFile() as errors:
        reading, writing = os.pipe2(os.O_CLOEXEC | os.O_DIRECT)
        with open(reading, "rb", buffering=0) as source:
            one.start(words, source, replies, errors)
        try:
            feed(writing, pieces, end)
        finally:
            os.close(writing)
        status = one.status(max(0, end - time.monotonic()))
        replies.seek(0)
        errors.seek(0)
        return Ran(replies.read(), errors.read(), status)
