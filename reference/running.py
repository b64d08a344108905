"""Programs that are run on commands: what they say in time, how they end, and what is otherwise than it should be."""
import contextlib
import itertools
import multiprocessing.connection
import os
import re
import select
import signal
import subprocess
import sys
import tempfile
import threading
import time
from collections import deque
from concurrent.futures import ThreadPoolExecutor
from functools import partial
from subprocess import PIPE
from typing import NamedTuple

from deepening import deep

# How long a program may take for a reply, and for its end, and how many bytes it may say there. One that goes on is stopped.
SECONDS, MOST = 60, 1 << 24
# How long a session that differs is made shorter.
SHORTENING = 120
# For how many items work is under way at once.
AHEAD = 4
# How often it is told what is under way.
MINUTE = 60


def bytes_of(given):
    """What is given, as bytes: those that are no text stand in it as `text_of` has them."""
    return given.encode(errors="surrogateescape")


def text_of(data):
    """Any bytes as what may be given."""
    return data.decode(errors="surrogateescape")


def text(data):
    """What was said, which differs from all replies where it is no text."""
    try:
        return data.decode()
    except UnicodeDecodeError:
        return f"(no text) {bytes(data)!r}"


def brief(said):
    return said if len(said) < 10_000 else f"{said[:5_000]} .. {said[-5_000:]}"


def shown(line):
    """A line of replies, or none, as it is told."""
    if line is None:
        return "(nothing)"
    return brief(line[:-1] if line.endswith("\n") else f"{line} (and no line feed)")


class Ended(NamedTuple):
    """How a program ended, what it had said, and its errors. The status is negative where a signal ended it, and None where
    it was stopped."""
    status: int | None
    out: str
    err: str

    @property
    def is_stopped(self):
        return self.status is None

    @property
    def ending(self):
        if self.is_stopped:
            return f"it was stopped after {SECONDS} seconds or {MOST} bytes"
        if self.status < 0:
            return f"signal {-self.status} ended it: {signal.strsignal(-self.status)}"
        return f"it ended with {self.status}"

    def otherwise(self, replies, status):
        """What is otherwise than these replies, no errors and this status; nothing where all is so."""
        told, lines = [], (it[0] for it in re.finditer("[^\n]*\n|[^\n]+", self.out))
        for wanted, got in itertools.zip_longest((f"{it}\n" for it in replies), lines):
            if wanted != got:
                told.append(f"wanted: {shown(wanted)}\ngot:    {shown(got)}")
                break
        if self.err:
            told.append(f"standard error: {brief(self.err)}")
        if self.status != status:
            told.append(f"{self.ending}; its status should be {status}")
        return "\n".join(told)


def stop(process):
    """Ends a program with all that it started, by a signal that no program ignores."""
    with contextlib.suppress(ProcessLookupError):
        os.killpg(process.pid, signal.SIGKILL)
    with contextlib.suppress(subprocess.TimeoutExpired):
        process.wait(SECONDS)


class Conversation:
    """A program that is given a command, and waited for, before it is given the next."""

    def __init__(self, words, stdin=PIPE, stdout=PIPE, environment=None):
        self.said, self.is_stopped, self.errors = "", False, tempfile.TemporaryFile()
        streams = {"stdin": stdin, "stdout": stdout, "stderr": self.errors}
        self.process = subprocess.Popen(words, bufsize=0, start_new_session=True, env=environment, **streams)
        if self.process.stdin:
            os.set_blocking(self.process.stdin.fileno(), False)

    def __enter__(self):
        return self

    def __exit__(self, *_):
        if self.process.poll() is None:
            stop(self.process)
        for stream in filter(None, (self.process.stdin, self.process.stdout, self.errors)):
            stream.close()

    def give(self, command):
        """Gives a command, as long as the program takes some of it in time."""
        data, pipe = bytes_of(command), self.process.stdin
        with contextlib.suppress(BrokenPipeError):
            while data:
                if not select.select([], [pipe], [], SECONDS)[1]:
                    self.stop()
                    break
                data = data[os.write(pipe.fileno(), data):]

    def hear(self, is_whole):
        """What is said until that is whole, or nothing more comes."""
        found, end = bytearray(), time.monotonic() + SECONDS
        while not is_whole(found):
            left = end - time.monotonic()
            if len(found) > MOST or left < 0 or not select.select([self.process.stdout], [], [], left)[0]:
                self.stop()
                break
            piece = os.read(self.process.stdout.fileno(), 1 << 16)
            if not piece:
                break
            found += piece
        self.said += text(found)
        return text(found)

    def wait(self):
        """Waits for the program's end."""
        try:
            self.process.wait(SECONDS)
        except subprocess.TimeoutExpired:
            self.stop()

    def stop(self):
        self.is_stopped = True
        stop(self.process)

    def end(self):
        """How it ends where it is given nothing more, and what it says until then."""
        if self.process.stdin:
            self.process.stdin.close()
        is_heard = self.process.stdout and not self.process.stdout.closed and not self.is_stopped
        rest = self.hear(lambda _: False) if is_heard else ""
        self.wait()
        self.errors.seek(0)
        return Ended(None if self.is_stopped else self.process.returncode, rest, text(self.errors.read()))


def run(words, given="", stdin=None, stdout=PIPE, environment=None):
    """How a program ends whose input, if no other is named, is a file of what it is given."""
    with tempfile.TemporaryFile() as source:
        source.write(bytes_of(given))
        source.seek(0)
        with Conversation(words, stdin or source, stdout, environment) as conversation:
            return conversation.end()


def shortened(session, found, again):
    """A session that differs, without the commands that it can do without, as long as there is time, and what differs in it.
    `again` answers a session of the commands that it is given, and what differs there."""
    end = time.monotonic() + SHORTENING
    for place in reversed(range(len(session.commands))):
        if time.monotonic() < end:
            shorter, otherwise = again(session.commands[:place] + session.commands[place + 1:])
            if otherwise:
                session, found = shorter, otherwise
    return session, found


def shorter(items, differs, end):
    """A list or a text that differs, without the pieces that it can do without, halves first, single items last; until a time."""
    size = len(items) // 2 or 1
    while size and items:
        place = 0
        while place < len(items):
            found = items[:place] + items[place + size:]
            if time.monotonic() < end and differs(found):
                items = found
            else:
                place += size
        size //= 2
    return items


def smallest(commands, differs):
    """Commands that differ, without those and without the pieces of each that they can do without, as long as there is time."""
    end = time.monotonic() + SHORTENING
    commands = shorter(commands, differs, end)
    for place in range(len(commands)):
        before, behind = commands[:place], commands[place + 1:]
        commands = [*before, shorter(commands[place], lambda text: differs([*before, text, *behind]), end), *behind]
    return commands


def ahead(items, work):
    """Each item, in order, with what the work on it answers, which is under way for some while the next item is made. A program
    may have to wait for long where others are at work."""
    with ThreadPoolExecutor(AHEAD) as pool:
        waiting = deque()
        for item in items:
            waiting.append((item, pool.submit(work, item)))
            if len(waiting) > AHEAD:
                item, answer = waiting.popleft()
                yield item, answer.result()
        yield from ((item, answer.result()) for item, answer in waiting)


def say(text):
    """Tells what is under way."""
    print(text, file=sys.stderr, flush=True)


class Jobs:
    """Processes that do the work under a number of their own each, and what they answer."""

    def __init__(self, count, work):
        sys.stdout.flush()
        fork, self.count, self.processes, self.answers = multiprocessing.get_context("fork"), count, {}, {}
        for number in range(count):
            pipe, its = fork.Pipe(duplex=False)
            process = fork.Process(target=lambda: its.send(deep(partial(work, number))))
            process.start()
            its.close()
            self.processes[pipe] = number, process

    def hear(self, seconds):
        """Hears those that answer first. One that ends without an answer is told."""
        for pipe in multiprocessing.connection.wait(self.processes, seconds):
            number, process = self.processes.pop(pipe)
            try:
                self.answers[number] = pipe.recv()
            except EOFError:
                process.join(SECONDS)
                say(f"process {number + 1} of {self.count} ended without an answer, with {process.exitcode}")

    def hear_all(self, end):
        """Hears all, up to a time. What is under way is told each minute."""
        while self.processes and (left := end - time.monotonic()) > 0:
            before = len(self.processes)
            self.hear(min(left, MINUTE))
            if len(self.processes) == before:
                say(f"{before} of {self.count} processes are at work, for {left:.0f} seconds at most")

    def stop(self):
        """Stops those that have not answered."""
        for number, process in self.processes.values():
            say(f"process {number + 1} of {self.count} had not ended, and was stopped")
            process.kill()
            process.join(SECONDS)


def side_by_side(count, work, seconds):
    """What so many processes answer, each of which does the work under a number of its own; one alone is this one. Whichever
    has not answered after so many seconds is stopped. Without an answer there is none in its place."""
    if count == 1:
        return [deep(partial(work, 0))]
    jobs = Jobs(count, work)
    jobs.hear_all(time.monotonic() + seconds)
    jobs.stop()
    return [jobs.answers.get(number) for number in range(count)]
