"""Compiles the program well, which takes minutes: in a process of its own while one that was compiled quickly is there to run, or
here, for who wants to wait.

usage: python3 -I -S companions/start.py building.well ROOT LOCK

Whoever does it holds the lock of a file, which has the number of the process, so that only one does. LOCK is the number of that
file, which the process was started with.
"""
import contextlib
import os
import shutil
import subprocess
import sys
import tempfile
import time
from dataclasses import dataclass, field
from pathlib import Path

from .builds import Build, hold, take_at_once, text_of, unproved_build, write_whole
from .crates import PROGRAM, Fault
from .kit import KIT
from .modules import write_as_one
from .processes import Interrupted, interruptions
from .unproved import Workshop, compile_well, read_module

START = Path(__file__).resolve().parents[1] / "start.py"
# What a process that is not waited for yields to all others.
NICE = 10
# How often it looks whether the sources are still the same.
SECONDS = 2
TEXT, SOURCES = "whole.ll", "sources"


class Changed(Exception):
    """The sources are no longer those that are compiled."""


def is_made_of(build, sources):
    """Whether these are the sources as they are now; where they cannot be read they are not."""
    try:
        return build.sources() == sources
    except (Fault, OSError):
        return False


@dataclass
class Watch:
    """Ends the work on sources that have changed."""

    build: Build
    sources: str
    next: float = field(default=0.0)

    def __call__(self):
        if time.monotonic() >= self.next:
            self.next = time.monotonic() + SECONDS
            if not is_made_of(self.build, self.sources):
                raise Changed


def folder_of(root):
    """Where the work is done, and stays when it is cut off, for the next one to remove."""
    return unproved_build(root).program.parent / "making"


def failure(root):
    """Where it stands why it failed last, behind the sum of the sources."""
    return unproved_build(root).program.parent / "failed"


def has_failed(root, sources):
    """Whether these sources could not be compiled well."""
    return (text_of(failure(root)) or "").startswith(f"{sources}\n")


def open_lock(root):
    path = unproved_build(root).program.parent / "at_work"
    path.parent.mkdir(parents=True, exist_ok=True)
    return open(path, "a+", encoding="utf-8")


def sign(lock, number):
    """Writes down which process is at work."""
    lock.truncate(0)
    print(number, file=lock, flush=True)


def number_in(lock):
    """The process that is at work, as it was written down; 0 where it was not yet."""
    lock.seek(0)
    return int(lock.read() or 0)


def hand_over(module, sources, folder):
    """Leaves what was read already to the one who does the work."""
    write_as_one(module, folder / TEXT)
    (folder / SOURCES).write_text(sources, encoding="utf-8")


def begin(root, prepare=lambda folder: None):
    """Starts a process that does the work, where none does it yet, has done it, or failed: the number of the one that does it, or
    None. `prepare` may put into its folder what is handed over."""
    build = unproved_build(root)
    with open_lock(root) as lock:
        if not take_at_once(lock.fileno()):
            return number_in(lock)
        if build.is_current() or has_failed(root, build.sources()):
            return None
        shutil.rmtree(folder_of(root), ignore_errors=True)
        folder_of(root).mkdir()
        prepare(folder_of(root))
        words = [sys.executable, "-I", "-S", START, __name__, root, str(lock.fileno())]
        nothing = dict.fromkeys(("stdin", "stdout", "stderr"), subprocess.DEVNULL)
        # It works elsewhere, and where the kit is may have been told from here.
        how = {"cwd": "/", "env": {**os.environ, "EVATS_KIT": str(KIT)}, "pass_fds": [lock.fileno()], "start_new_session": True}
        process = subprocess.Popen(words, **how, **nothing)
        sign(lock, process.pid)
        return process.pid


@contextlib.contextmanager
def alone(root, waiting):
    """Nobody else does the work meanwhile; where somebody does, `waiting` is called and it is waited for."""
    with open_lock(root) as lock:
        hold(lock.fileno(), lock.name, waiting)
        sign(lock, os.getpid())
        yield


def make(build, folder, heed=lambda: None):
    """Compiles the sources as they are, or what was handed over in this folder, and puts the program in its place."""
    text, sources = folder / TEXT, text_of(folder / SOURCES) or build.sources()
    workshop = Workshop(build.root, build.crates(), folder, heed)
    if not text.exists():
        write_as_one(read_module(workshop), text)
    program = compile_well(workshop, text)
    if not is_made_of(build, sources):
        raise Changed
    build.put(program, sources)
    failure(build.root).unlink(missing_ok=True)


def make_here(build):
    """Compiles the program, for who waits for it."""
    with tempfile.TemporaryDirectory(prefix=f"{PROGRAM}-unproved-") as folder:
        try:
            make(build, Path(folder))
        except Changed as changed:
            raise Fault("the sources changed while they were compiled: start this again") from changed


def main(words):
    root = Path(words[0])
    build, folder = unproved_build(root), folder_of(root)
    sources = text_of(folder / SOURCES) or build.sources()
    os.nice(NICE)
    try:
        with interruptions():
            make(build, folder, Watch(build, sources))
    except (Fault, OSError) as fault:
        write_whole(failure(root), f"{sources}\n{fault}\n")
        return 2
    except (Changed, Interrupted):
        return 1
    finally:
        shutil.rmtree(folder, ignore_errors=True)
    return 0


if __name__ == "__main__":
    sys.exit(main(sys.argv[1:]))
