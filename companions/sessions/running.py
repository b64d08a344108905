"""Runs of the program: its input given whole or one byte at a time, its outputs, and how it ended."""
import contextlib
import os
import subprocess
import threading
from dataclasses import dataclass


@dataclass(frozen=True)
class Ran:
    """What the program wrote, and its status: below 0 for the signal that it died by, and None where it did not end."""

    replies: bytes
    errors: bytes
    status: int

    @property
    def ended(self):
        """Whether the program ended by itself."""
        return self.status is not None and self.status >= 0


def feed(pipe, commands, piece):
    """Writes commands into a pipe, so many bytes at a time, as long as they are read, and closes it."""
    with contextlib.suppress(BrokenPipeError), open(pipe, "wb", buffering=0) as stream:
        for place in range(0, len(commands), piece):
            stream.write(commands[place : place + piece])


def run(program, arguments, commands, seconds, is_bytewise=False):
    """Runs the program on commands, which come at once or so that each read gives one byte."""
    # In a pipe with O_DIRECT what was written at once is read by itself.
    reading, writing = os.pipe2(os.O_CLOEXEC | (os.O_DIRECT if is_bytewise else 0))
    with open(reading, "rb", buffering=0) as stream:
        output = {"stdout": subprocess.PIPE, "stderr": subprocess.PIPE}
        started = subprocess.Popen([program, *arguments], stdin=stream, **output)
    feeder = threading.Thread(target=feed, args=(writing, commands, 1 if is_bytewise else max(1, len(commands))))
    feeder.start()
    try:
        replies, errors = started.communicate(timeout=seconds)
        status = started.returncode
    except subprocess.TimeoutExpired:
        started.kill()
        replies, errors = started.communicate()
        status = None
    feeder.join()
    return Ran(replies, errors, status)
