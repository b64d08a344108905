"""Processes that leave nothing behind: each has a session of its own, and all of it ends with the process."""
import contextlib
import os
import signal
import subprocess
import time
from pathlib import Path

SECONDS = 10
# The signals that ask to end.
ASKING = (signal.SIGINT, signal.SIGTERM, signal.SIGHUP)


class Interrupted(Exception):
    """A signal that asks to end."""

    def __init__(self, number):
        super().__init__(signal.Signals(number).name)
        self.status = 128 + number


@contextlib.contextmanager
def interruptions():
    """Has the signals that ask to end raise an exception meanwhile."""

    def interrupt(number, _):
        # A second one would cut off what the first one ends.
        for other in before:
            signal.signal(other, signal.SIG_IGN)
        raise Interrupted(number)

    before = {number: signal.getsignal(number) for number in ASKING if signal.getsignal(number) != signal.SIG_IGN}
    for number in before:
        signal.signal(number, interrupt)
    try:
        yield
    finally:
        for number, handler in before.items():
            signal.signal(number, handler)


def start(processes, words, folder, log, **variables):
    """Starts a command in a session of its own, with nothing to read, and adds it to the processes; what it says goes to the
    log. A signal that asks to end waits meanwhile, so that no process is missed."""
    before = signal.pthread_sigmask(signal.SIG_BLOCK, ASKING)
    how = {"cwd": folder, "env": {**os.environ, **variables}, "stdin": subprocess.DEVNULL, "stdout": log, "stderr": log}
    try:
        unblock = lambda: signal.pthread_sigmask(signal.SIG_SETMASK, before)
        processes.append(subprocess.Popen(words, start_new_session=True, preexec_fn=unblock, **how))
    finally:
        signal.pthread_sigmask(signal.SIG_SETMASK, before)


def members(session):
    """The processes of a session that have not ended."""
    found = []
    for entry in Path("/proc").iterdir():
        if entry.name.isdigit():
            with contextlib.suppress(OSError):
                # Behind the name, which may have spaces: the state, the parent, the group, the session.
                fields = (entry / "stat").read_text(errors="replace").rpartition(")")[2].split()
                if int(fields[3]) == session and fields[0] != "Z":
                    found.append(int(entry.name))
    return found


def end(process):
    """Ends a process and all of its session, if it has not ended: another process may have its number then."""
    if process.poll() is not None:
        return
    limit = time.monotonic() + SECONDS
    while (left := members(process.pid)) and time.monotonic() < limit:
        for member in left:
            with contextlib.suppress(ProcessLookupError):
                os.kill(member, signal.SIGKILL)
        process.poll()
        time.sleep(0.02)
    process.wait()


@contextlib.contextmanager
def ending():
    """A list of processes, to which more are added meanwhile. All of them end at last, however that comes."""
    processes = []
    try:
        yield processes
    finally:
        for process in processes:
            end(process)
