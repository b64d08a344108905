"""Where commands come from and replies go: a file or a pipe, without a person."""
import contextlib
import io
import sys

from building.place import command
from conversation.commands import MOST_LINE
from conversation.visible import for_stream

PROMPT, MORE = "> ", ". "
MARK = "# "


def decoded(line):
    """A line of an input as a text, in which bytes that are no text stand for themselves; nothing at its end."""
    return line.decode(errors="surrogateescape").removesuffix("\n").removesuffix("\r") if line else None


def line_of(stream):
    """The next line of a stream, or nothing at its end; of a line that is longer than the program reads, the rest is left out."""
    line = rest = stream.readline(MOST_LINE + 2)
    while rest and not rest.endswith(b"\n"):
        rest = stream.readline(MOST_LINE)
    return decoded(line)


def put(lines, stream=None):
    """Writes lines, to a terminal so that each control in them can be seen."""
    stream = stream or sys.stdout
    stream.flush()
    stream.buffer.write("".join(f"{for_stream(line, stream)}\n" for line in lines).encode(errors="surrogateescape"))
    stream.buffer.flush()


class File:
    """The lines of a file, one after another, which are shown as they are taken."""

    def __init__(self, data, show):
        self.data, self.show = io.BytesIO(data), show

    def taken(self, prompt):
        line = line_of(self.data)
        if line is not None:
            self.show(prompt, line)
        return line

    def first(self):
        return self.taken(PROMPT)

    def more(self, what):
        return self.taken(MORE)


class Pipe:
    """Standard input where no person types: only replies are written to standard output."""

    is_terminal = False

    def first(self):
        return line_of(sys.stdin.buffer)

    def more(self, what):
        return self.first()

    def say(self, lines):
        put(lines)

    def tell(self, lines):
        put((MARK + line for line in lines), sys.stderr)

    def show(self, prompt, line):
        """No commands are shown."""

    def fault(self, text):
        put([f"{command('talk')}: {text}"], sys.stderr)

    def agrees(self, question):
        """Nobody is there who could agree."""
        return False

    def forget(self):
        """Nothing was pasted."""
        return 0

    def waiting(self):
        return contextlib.nullcontext()
