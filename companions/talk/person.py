"""A person at a terminal, for tests: types into a talk that has a terminal of its own, and sees what is shown there."""
import contextlib
import os
import pty
import re
import select
import subprocess
import sys
import time
from pathlib import Path

COMPANIONS = Path(__file__).resolve().parents[1]
START = [sys.executable, "-I", "-S", str(COMPANIONS / "start.py")]
# What a terminal is told that is no text: colours, moves of the cursor, modes.
CONTROL = re.compile(r"\x1b(?:\[[?0-9;]*[A-Za-z]|[=>])|\x07|\r")
# A wide terminal, and none of the person's own settings.
PLAIN = {"TERM": "xterm", "INPUTRC": "/dev/null", "COLUMNS": "200"}
PROMPT = re.compile(r"(?:^|\n)(?:> |\. |# .*\[y/N\] )$")
SECONDS, PATIENCE = 60, 5
CONTROL_C = "\x03"


class NotSeen(Exception):
    """What was expected was not shown in time."""


class Person:
    """Starts `./talk` with these words; what it keeps goes below a folder, if no variable says otherwise."""

    def __init__(self, folder, *words, **variables):
        self.seen = ""
        variables = {"XDG_STATE_HOME": str(folder), **PLAIN, **variables}
        self.terminal, inner = pty.openpty()
        self.process = subprocess.Popen(
            [*START, "talk", *words], stdin=inner, stdout=inner, stderr=inner, cwd=folder,
            env={**os.environ, **variables}, preexec_fn=lambda: self.lead(inner),
        )
        os.close(inner)

    @staticmethod
    def lead(inner):
        """Makes the terminal that of a session of its own, so that control-C reaches it."""
        os.setsid()
        os.close(os.open(os.ttyname(inner), os.O_RDWR))

    def __enter__(self):
        return self

    def __exit__(self, *_):
        """Closes the terminal, which ends the talk."""
        os.close(self.terminal)
        try:
            self.process.wait(SECONDS)
        except subprocess.TimeoutExpired:
            self.process.kill()
            self.process.wait()

    def types(self, keys):
        os.write(self.terminal, keys.encode())

    def read(self, seconds):
        """What is shown next; nothing where there is nothing more."""
        if not select.select([self.terminal], [], [], max(0, seconds))[0]:
            return None
        with contextlib.suppress(OSError):
            return os.read(self.terminal, 1 << 16).decode(errors="replace") or None

    def sees(self, text, seconds=SECONDS):
        """Waits for a text, and gives what was shown up to its end."""
        limit = time.monotonic() + seconds
        while text not in self.seen:
            piece = self.read(limit - time.monotonic())
            if piece is None:
                raise NotSeen(f"{text!r} was not shown, but {self.seen!r}")
            self.seen = CONTROL.sub("", self.seen + piece)
        shown, _, self.seen = self.seen.partition(text)
        return shown + text

    def prompted(self, seconds=SECONDS):
        """Waits until a line is wanted, and gives all that was shown."""
        limit = time.monotonic() + seconds
        while not PROMPT.search(self.seen):
            piece = self.read(limit - time.monotonic())
            if piece is None:
                raise NotSeen(f"no line was wanted, but {self.seen!r} was shown")
            self.seen = CONTROL.sub("", self.seen + piece)
        shown, self.seen = self.seen, ""
        return shown

    def says(self, line, reply):
        """Types a line, and waits for a reply behind it."""
        self.types(line + "\n")
        return self.sees(line) and self.sees(reply)

    def interrupts(self, text):
        """Presses control-C until a text is shown: one that comes while a key is being read waits for the next key, and one that
        comes just behind a line drops that line."""
        time.sleep(0.5)
        for _ in range(SECONDS // PATIENCE):
            self.types(CONTROL_C)
            with contextlib.suppress(NotSeen):
                return self.sees(text, PATIENCE)
        return self.sees(text, 0)

    def ends(self, seconds=SECONDS):
        """What is shown until the talk ends, and its status."""
        limit, shown = time.monotonic() + seconds, self.seen
        while (piece := self.read(limit - time.monotonic())) is not None:
            shown += piece
        return CONTROL.sub("", shown), self.process.wait(max(0.1, limit - time.monotonic()))
